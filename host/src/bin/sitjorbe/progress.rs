//! On a terminal, the stage and the time so far of what takes longer than a second.

use std::io::{self, IsTerminal, Write};
use std::sync::mpsc::{self, RecvTimeoutError, Sender};
use std::thread::{self, JoinHandle};
use std::time::{Duration, Instant};

const PATIENCE: Duration = Duration::from_secs(1);
const TICK: Duration = Duration::from_millis(200);

/// Shows the stage that was named last, until it is dropped. Away from a terminal it shows nothing.
pub struct Progress {
    showing: Option<(Sender<String>, JoinHandle<()>)>,
}

impl Progress {
    pub fn begin(stage: &str) -> Progress {
        let mut progress = Progress { showing: None };
        if io::stderr().is_terminal() {
            let (stages, named) = mpsc::channel();
            progress.showing = Some((stages, thread::spawn(move || show(&named))));
            progress.stage(stage);
        }
        progress
    }

    pub fn stage(&self, stage: &str) {
        if let Some((stages, _)) = &self.showing {
            // Where the thread is gone nothing is shown any more.
            let _ = stages.send(stage.to_string());
        }
    }
}

impl Drop for Progress {
    fn drop(&mut self) {
        if let Some((stages, thread)) = self.showing.take() {
            drop(stages);
            let _ = thread.join();
        }
    }
}

/// Shows stages until there are no more to come, then clears the line.
fn show(named: &mpsc::Receiver<String>) {
    let (began, mut stage, mut shown) = (Instant::now(), String::new(), false);
    loop {
        match named.recv_timeout(TICK) {
            Ok(next) => stage = next,
            Err(RecvTimeoutError::Timeout) => {}
            Err(RecvTimeoutError::Disconnected) => break,
        }
        if began.elapsed() >= PATIENCE {
            shown = true;
            let _ = write!(io::stderr(), "\r\x1b[K{stage}, {} s", began.elapsed().as_secs());
        }
    }
    if shown {
        let _ = write!(io::stderr(), "\r\x1b[K");
    }
}
