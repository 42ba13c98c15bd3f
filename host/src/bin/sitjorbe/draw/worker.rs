//! What may take long, in a process of its own, which is ended where nobody waits for it any more: a run of the library can't be broken off from within.

use std::io::{self, Read, Write};
use std::os::unix::process::parent_id;
use std::process::{self, Child, Command, Stdio};
use std::sync::mpsc::{self, RecvTimeoutError};
use std::thread;
use std::time::Duration;

use super::patience::Patience;
use super::wrong::Wrong;

/// This program, also where its file has been written anew since.
const OURSELVES: &str = "/proc/self/exe";
/// How often it is looked whether somebody still waits.
const LOOKING: Duration = Duration::from_millis(15);

/// A process, which ends with this value at the latest.
struct Worker(Child);

impl Drop for Worker {
    fn drop(&mut self) {
        // One that has ended by itself can't be ended, and needn't.
        let _ = self.0.kill();
        let _ = self.0.wait();
    }
}

/// The status and text that a worker answers to a body at a path.
pub fn answer(path: &str, body: Vec<u8>, patience: &Patience<'_>) -> Result<String, Wrong> {
    let mut command = Command::new(OURSELVES);
    command.args(["draw", "--answer", path]).stdin(Stdio::piped()).stdout(Stdio::piped());
    let mut worker = Worker(command.spawn().map_err(|_| Wrong::busy())?);
    let (input, output) = (worker.0.stdin.take(), worker.0.stdout.take());
    let (done, said) = mpsc::channel();
    thread::spawn(move || {
        // A worker that was ended reads nothing and says nothing.
        let _ = input.map(|mut input| input.write_all(&body));
        let mut text = String::new();
        let _ = output.map(|mut output| output.read_to_string(&mut text));
        let _ = done.send(text);
    });
    loop {
        match said.recv_timeout(LOOKING) {
            Ok(text) => return read(&text),
            Err(RecvTimeoutError::Timeout) if patience.is_over() => return Err(Wrong::given_up()),
            Err(RecvTimeoutError::Timeout) => {}
            Err(RecvTimeoutError::Disconnected) => return Err(Wrong::bug()),
        }
    }
}

/// What a worker says: a status on a line, then the answer, or the words of what is wrong.
pub fn write(answer: &Result<String, Wrong>) -> String {
    match answer {
        Ok(text) => format!("200\n{text}"),
        Err(wrong) => format!("{}\n{}", wrong.status, wrong.words),
    }
}

fn read(said: &str) -> Result<String, Wrong> {
    let (status, text) = said.split_once('\n').ok_or_else(Wrong::bug)?;
    match status.parse() {
        Ok(200) => Ok(text.to_string()),
        Ok(status) => Err(Wrong::new(status, text)),
        Err(_) => Err(Wrong::bug()),
    }
}

/// Ends this worker where its server has ended.
pub fn ends_with_its_server() {
    let server = parent_id();
    thread::spawn(move || loop {
        thread::sleep(10 * LOOKING);
        if parent_id() != server {
            process::exit(1);
        }
    });
}

/// The body that a worker is asked, from standard input.
pub fn asked(most: usize) -> io::Result<Vec<u8>> {
    let mut body = vec![];
    io::stdin().lock().take(most as u64).read_to_end(&mut body).map(|_| body)
}
