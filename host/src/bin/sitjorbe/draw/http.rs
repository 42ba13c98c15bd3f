//! A request read and an answer written: as much of HTTP/1.1 as one page needs. What isn't plain is refused, and a connection carries one request.

use std::io::{self, ErrorKind, Read, Write};
use std::net::{Shutdown, TcpStream};
use std::time::{Duration, Instant};

use super::wrong::Wrong;

/// More bytes of request line and headers aren't read.
const MOST_HEAD: usize = 16 << 10;
/// A request has come within this time, or its client is cut off.
const READING: Duration = Duration::from_secs(10);
/// An answer is taken within this time, or its client is cut off.
const WRITING: Duration = Duration::from_secs(30);
/// What a client goes on sending after its answer is thrown away for so long, so that the answer reaches it.
const LINGERING: Duration = Duration::from_secs(1);
const END_OF_HEAD: &[u8] = b"\r\n\r\n";

/// A connection, until a time.
struct Timed<'a> {
    stream: &'a TcpStream,
    until: Instant,
}

impl Timed<'_> {
    fn new(stream: &TcpStream, time: Duration) -> Timed<'_> {
        Timed { stream, until: Instant::now() + time }
    }

    fn left(&self) -> io::Result<Duration> {
        let left = self.until.saturating_duration_since(Instant::now());
        if left.is_zero() {
            return Err(ErrorKind::TimedOut.into());
        }
        Ok(left)
    }
}

impl Read for Timed<'_> {
    fn read(&mut self, bytes: &mut [u8]) -> io::Result<usize> {
        self.stream.set_read_timeout(Some(self.left()?))?;
        self.stream.read(bytes)
    }
}

impl Write for Timed<'_> {
    fn write(&mut self, bytes: &[u8]) -> io::Result<usize> {
        self.stream.set_write_timeout(Some(self.left()?))?;
        self.stream.write(bytes)
    }

    fn flush(&mut self) -> io::Result<()> {
        self.stream.flush()
    }
}

/// Why there is no request.
pub enum Unread {
    /// The client has gone, or never said anything.
    Gone,
    Wrong(Wrong),
}

impl From<Wrong> for Unread {
    fn from(wrong: Wrong) -> Unread {
        Unread::Wrong(wrong)
    }
}

fn wrong_read(error: &io::Error) -> Wrong {
    match error.kind() {
        ErrorKind::TimedOut | ErrorKind::WouldBlock => Wrong::new(408, "the request didn't come in time"),
        _ => Wrong::new(400, "the request can't be read"),
    }
}

/// A request's line and headers.
#[derive(Debug, Default)]
pub struct Head {
    pub method: String,
    pub target: String,
    headers: Vec<(String, String)>,
}

impl Head {
    fn parse(bytes: &[u8]) -> Result<Head, Wrong> {
        let wrong = |words: &str| Wrong::new(400, words);
        let plain = |byte: &u8| (0x20..0x7f).contains(byte) || b"\t\r\n".contains(byte);
        if !bytes.iter().all(plain) {
            return Err(wrong("the request has bytes that aren't plain text"));
        }
        let text = String::from_utf8_lossy(bytes);
        let mut lines = text.split("\r\n");
        let line: Vec<&str> = lines.next().unwrap_or("").split(' ').collect();
        let [method, target, "HTTP/1.1" | "HTTP/1.0"] = line[..] else {
            return Err(wrong("the first line isn't a request of HTTP/1.1"));
        };
        let mut head = Head { method: method.to_string(), target: target.to_string(), headers: vec![] };
        for line in lines {
            let (name, value) = line.split_once(':').ok_or(wrong("a header has no colon"))?;
            if name.is_empty() || !name.bytes().all(|byte| byte.is_ascii_alphanumeric() || b"-_".contains(&byte)) {
                return Err(wrong("a header's name isn't one"));
            }
            if value.contains(['\r', '\n']) {
                return Err(wrong("a line ends in half"));
            }
            head.headers.push((name.to_ascii_lowercase(), value.trim_matches([' ', '\t']).to_string()));
        }
        Ok(head)
    }

    /// A header, by its name in small letters; one that stands twice is refused.
    pub fn header(&self, name: &str) -> Result<Option<&str>, Wrong> {
        let mut found = self.headers.iter().filter(|(other, _)| other == name).map(|(_, value)| value.as_str());
        match (found.next(), found.next()) {
            (value, None) => Ok(value),
            _ => Err(Wrong::new(400, &format!("the header {name} stands twice"))),
        }
    }
}

/// A connection whose head has been read.
pub struct Asking<'a> {
    timed: Timed<'a>,
    pub head: Head,
    /// What came after the head so far.
    rest: Vec<u8>,
}

/// Reads a request up to its body.
pub fn read_head(stream: &TcpStream) -> Result<Asking<'_>, Unread> {
    let mut timed = Timed::new(stream, READING);
    let (mut bytes, mut chunk) = (vec![], [0; 4096]);
    loop {
        let count = match timed.read(&mut chunk) {
            Ok(0) if bytes.is_empty() => return Err(Unread::Gone),
            Ok(0) => return Err(Wrong::new(400, "the request ends in its headers").into()),
            Ok(count) => count,
            Err(_) if bytes.is_empty() => return Err(Unread::Gone),
            Err(error) => return Err(wrong_read(&error).into()),
        };
        let from = bytes.len().saturating_sub(END_OF_HEAD.len() - 1);
        bytes.extend(&chunk[..count]);
        let found = bytes[from..].windows(END_OF_HEAD.len()).position(|window| window == END_OF_HEAD);
        let end = found.map_or(bytes.len(), |place| from + place);
        if end > MOST_HEAD {
            return Err(Wrong::new(431, "the headers are longer than 16 KiB").into());
        }
        if found.is_some() {
            let rest = bytes.split_off(end + END_OF_HEAD.len());
            return Ok(Asking { timed, head: Head::parse(&bytes[..end])?, rest });
        }
    }
}

impl Asking<'_> {
    /// Reads the body, so many bytes.
    pub fn body(self, length: usize) -> Result<Vec<u8>, Wrong> {
        let mut body = self.rest;
        body.truncate(length);
        let left = (length - body.len()) as u64;
        self.timed.take(left).read_to_end(&mut body).map_err(|error| wrong_read(&error))?;
        if body.len() < length {
            return Err(Wrong::new(400, "the body is shorter than its Content-Length"));
        }
        Ok(body)
    }
}

/// An answer.
#[derive(Debug)]
pub struct Answer {
    pub status: u16,
    /// Its headers, but for those that every answer has.
    pub headers: Vec<String>,
    pub body: Vec<u8>,
    /// Whether the headers alone are written, which tell the body's length.
    pub is_head: bool,
}

/// Every answer has these.
const HEADERS: [&str; 4] =
    ["Connection: close", "Cache-Control: no-store", "X-Content-Type-Options: nosniff", "Referrer-Policy: no-referrer"];

fn reason(status: u16) -> &'static str {
    match status {
        200 => "OK",
        400 => "Bad Request",
        403 => "Forbidden",
        404 => "Not Found",
        405 => "Method Not Allowed",
        408 => "Request Timeout",
        409 => "Conflict",
        411 => "Length Required",
        413 => "Content Too Large",
        415 => "Unsupported Media Type",
        422 => "Unprocessable Content",
        431 => "Request Header Fields Too Large",
        503 => "Service Unavailable",
        _ => "Internal Server Error",
    }
}

/// Writes an answer and ends the connection. Where the client has gone there is nobody to tell.
pub fn write(stream: &TcpStream, answer: &Answer) {
    let mut head = format!("HTTP/1.1 {} {}\r\n", answer.status, reason(answer.status));
    let length = format!("Content-Length: {}", answer.body.len());
    for header in answer.headers.iter().map(String::as_str).chain(HEADERS).chain([length.as_str()]) {
        head += &format!("{header}\r\n");
    }
    let mut timed = Timed::new(stream, WRITING);
    let body = if answer.is_head { &[][..] } else { &answer.body };
    let written = timed.write_all(format!("{head}\r\n").as_bytes()).and_then(|()| timed.write_all(body));
    if written.is_ok() && stream.shutdown(Shutdown::Write).is_ok() {
        let mut lingering = Timed::new(stream, LINGERING);
        let _ = io::copy(&mut lingering, &mut io::sink());
    }
}
