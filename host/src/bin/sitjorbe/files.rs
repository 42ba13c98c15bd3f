//! Reading, writing, and what is said where something is wrong.

use std::fs::{self, File};
use std::io::{self, Read, Write};

use crate::{Status, CANT, REFUSED};

/// Why a command can't go on, in words.
#[derive(Debug)]
pub enum Failure {
    Refused(String),
    Cant(String),
    /// As `Cant`, where the words name the file already.
    Named(String),
}

impl Failure {
    /// The same, each line with the name of the file that it is about.
    pub fn of(self, name: &str) -> Failure {
        let named = |words: String| {
            let lines: Vec<String> = words.lines().map(|line| format!("{name}: {line}")).collect();
            lines.join("\n")
        };
        match self {
            Failure::Refused(words) => Failure::Refused(named(words)),
            Failure::Cant(words) => Failure::Cant(named(words)),
            Failure::Named(words) => Failure::Named(words),
        }
    }

    /// What is wrong, a line or more.
    pub fn words(&self) -> &str {
        match self {
            Failure::Refused(words) | Failure::Cant(words) | Failure::Named(words) => words,
        }
    }

    /// Says it; the exit status that it gives.
    pub fn said(&self) -> Status {
        let (words, status) = match self {
            Failure::Refused(words) => (words, REFUSED),
            Failure::Cant(words) | Failure::Named(words) => (words, CANT),
        };
        say(words);
        status
    }
}

/// Says lines to the operator, on standard error.
pub fn say(words: &str) {
    for line in words.lines() {
        // Where standard error is closed there is nobody to tell.
        let _ = writeln!(io::stderr(), "sitjorbe: {line}");
    }
}

/// Prints to standard output. Where what reads it has closed it, as `head` does, nobody wants the rest.
pub fn print(text: &str) -> Result<(), Failure> {
    let mut out = io::stdout().lock();
    match out.write_all(text.as_bytes()).and_then(|()| out.flush()) {
        Err(error) if error.kind() != io::ErrorKind::BrokenPipe => Err(cant("standard output", &error)),
        _ => Ok(()),
    }
}

/// The name of a file, or of standard input.
pub fn named(path: &str) -> &str {
    if path == "-" {
        "standard input"
    } else {
        path
    }
}

fn cant(name: &str, error: &io::Error) -> Failure {
    let told = error.to_string();
    Failure::Named(format!("{name}: {}", told.split(" (os error").next().unwrap_or("")))
}

/// More bytes than this aren't read.
const MOST_BYTES: u64 = 1 << 28;

/// The text of a file, or of standard input for `-`: with a line feed after each line whatever wrote it, and without a byte order mark.
pub fn read_text(path: &str) -> Result<String, Failure> {
    let mut bytes = vec![];
    let read = match path {
        "-" => io::stdin().lock().take(MOST_BYTES + 1).read_to_end(&mut bytes),
        _ => File::open(path).and_then(|file| file.take(MOST_BYTES + 1).read_to_end(&mut bytes)),
    };
    read.map_err(|error| cant(named(path), &error))?;
    if bytes.len() as u64 > MOST_BYTES {
        return Err(Failure::Named(format!("{}: it is larger than 256 MiB, which no field is", named(path))));
    }
    let text = String::from_utf8(bytes);
    let text = text.map_err(|_| Failure::Named(format!("{}: this isn't text: save it as CSV UTF-8", named(path))))?;
    Ok(lines_fed(&text))
}

/// A text with a line feed for every end of a line, and without a byte order mark.
pub fn lines_fed(text: &str) -> String {
    text.strip_prefix('\u{feff}').unwrap_or(text).replace("\r\n", "\n").replace('\r', "\n")
}

/// Writes a file, or standard output for `-`.
pub fn write(path: &str, text: &str) -> Result<(), Failure> {
    match path {
        "-" => print(text),
        _ => fs::write(path, text).map_err(|error| cant(path, &error)),
    }
}
