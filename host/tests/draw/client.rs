//! A server of its own for each test, and a client that says just the bytes it is told to.

use std::io::{BufRead, BufReader, Read, Write};
use std::net::{Shutdown, TcpStream};
use std::process::{Child, Command, Stdio};
use std::time::Duration;

use crate::json::{self, Value};

/// No answer takes longer in a test.
const PATIENCE: Duration = Duration::from_secs(120);

fn request(line: &str, headers: &[(&str, &str)], body: &[u8]) -> Vec<u8> {
    let headers: String = headers.iter().map(|(name, value)| format!("{name}: {value}\r\n")).collect();
    [format!("{line} HTTP/1.1\r\n{headers}\r\n").as_bytes(), body].concat()
}

/// A server, until it is dropped.
pub struct Server {
    child: Child,
    pub port: u16,
}

impl Server {
    pub fn start() -> Server {
        Server::with(&[])
    }

    /// One that is called with more words.
    pub fn with(words: &[&str]) -> Server {
        let mut child = Command::new(env!("CARGO_BIN_EXE_sitjorbe"))
            .arg("draw")
            .args(words)
            .stdin(Stdio::null())
            .stdout(Stdio::piped())
            .spawn()
            .expect("the command is built");
        let mut line = String::new();
        let out = child.stdout.take().expect("it is piped");
        let read = BufReader::new(out).read_line(&mut line);
        let port = line.strip_prefix("http://127.0.0.1:").and_then(|rest| rest.strip_suffix("/\n"));
        let server = Server { child, port: port.and_then(|port| port.parse().ok()).unwrap_or(0) };
        assert!(read.is_ok() && server.port > 0, "an address: {line}");
        server
    }

    pub fn is_running(&mut self) -> bool {
        self.child.try_wait().expect("it is a child").is_none()
    }

    pub fn host(&self) -> String {
        format!("127.0.0.1:{}", self.port)
    }

    pub fn connect(&self) -> TcpStream {
        let stream = TcpStream::connect(self.host()).expect("it listens");
        stream.set_read_timeout(Some(PATIENCE)).expect("a time");
        stream
    }

    /// What is answered to these bytes, after which nothing more comes.
    pub fn send(&self, bytes: &[u8]) -> Said {
        let mut stream = self.connect();
        // It may be answered, and the connection ended, before all is written.
        let _ = stream.write_all(bytes);
        let _ = stream.shutdown(Shutdown::Write);
        Said::read(stream).whole_or_none()
    }

    /// What is answered where only headers are asked for.
    pub fn head(&self, path: &str) -> Said {
        let mut stream = self.connect();
        stream.write_all(&request(&format!("HEAD {path}"), &[("Host", &self.host())], b"")).expect("it listens");
        Said::read(stream)
    }

    /// What is answered to a request whose headers are told: `Host` and the others.
    pub fn ask(&self, line: &str, headers: &[(&str, &str)], body: &[u8]) -> Said {
        self.send(&request(line, headers, body))
    }

    pub fn get(&self, path: &str) -> Said {
        self.ask(&format!("GET {path}"), &[("Host", &self.host())], b"")
    }

    /// What is answered to a body as the page sends it.
    pub fn post(&self, path: &str, body: &[u8]) -> Said {
        let (host, length) = (self.host(), body.len().to_string());
        let origin = format!("http://{host}");
        let headers = [
            ("Host", host.as_str()),
            ("Origin", &origin),
            ("Content-Type", "application/json"),
            ("Content-Length", &length),
        ];
        self.say(&request(&format!("POST {path}"), &headers, body))
    }

    /// What is answered to these bytes, after which the connection stays open, as a browser's does.
    pub fn say(&self, bytes: &[u8]) -> Said {
        let mut stream = self.connect();
        let _ = stream.write_all(bytes);
        Said::read(stream).whole_or_none()
    }

    /// A connection on which a body was sent by a page with a name, and whose answer hasn't been read.
    pub fn posted(&self, path: &str, page: &str, body: &Value) -> TcpStream {
        let (host, body) = (self.host(), body.to_string());
        let length = body.len().to_string();
        let headers = [
            ("Host", host.as_str()),
            ("Content-Type", "application/json"),
            ("Content-Length", &length),
            ("Sitjorbe-Page", page),
        ];
        let mut stream = self.connect();
        stream.write_all(&request(&format!("POST {path}"), &headers, body.as_bytes())).expect("it listens");
        stream
    }

    /// The processes that the server began and that haven't ended.
    pub fn workers(&self) -> usize {
        let id = self.child.id();
        let tasks = std::fs::read_dir(format!("/proc/{id}/task")).expect("it runs").flatten();
        let children = tasks.filter_map(|task| std::fs::read_to_string(task.path().join("children")).ok());
        children.map(|text| text.split_whitespace().count()).sum()
    }

    /// The value that is answered to a body.
    pub fn value(&self, path: &str, body: &Value) -> Value {
        let said = self.post(path, body.to_string().as_bytes());
        assert_eq!(said.status, 200, "{path}: {}", said.text());
        said.value()
    }
}

impl Drop for Server {
    fn drop(&mut self) {
        let _ = self.child.kill();
        let _ = self.child.wait();
    }
}

/// What was answered.
#[derive(Debug)]
pub struct Said {
    pub status: u16,
    pub headers: Vec<(String, String)>,
    pub body: Vec<u8>,
}

impl Said {
    /// The answer that comes on a connection; its status is 0 where none does.
    pub fn read(mut stream: TcpStream) -> Said {
        let mut bytes = vec![];
        let _ = stream.read_to_end(&mut bytes);
        let Some(end) = bytes.windows(4).position(|window| window == b"\r\n\r\n") else {
            return Said { status: 0, headers: vec![], body: bytes };
        };
        let head = String::from_utf8(bytes[..end].to_vec()).expect("headers are text");
        let (line, rest) = head.split_once("\r\n").expect("there are headers");
        let status = line.strip_prefix("HTTP/1.1 ").and_then(|rest| rest.get(..3)).and_then(|word| word.parse().ok());
        let pair = |line: &str| {
            let (name, value) = line.split_once(": ").expect("a header");
            (name.to_string(), value.to_string())
        };
        let said = Said {
            status: status.unwrap_or_else(|| panic!("a status: {line}")),
            headers: rest.split("\r\n").map(pair).collect(),
            body: bytes[end + 4..].to_vec(),
        };
        said
    }

    /// The same; none may have come.
    fn whole_or_none(self) -> Said {
        if self.status == 0 {
            self
        } else {
            self.whole()
        }
    }

    /// The same, of which the headers tell its length.
    pub fn whole(self) -> Said {
        assert_eq!(self.header("Content-Length"), Some(self.body.len().to_string().as_str()));
        self
    }

    pub fn header(&self, name: &str) -> Option<&str> {
        let mut found = self.headers.iter().filter(|(other, _)| other == name);
        let first = found.next().map(|(_, value)| value.as_str());
        assert_eq!(found.next(), None, "{name} stands twice");
        first
    }

    pub fn text(&self) -> String {
        String::from_utf8(self.body.clone()).expect("text")
    }

    pub fn value(&self) -> Value {
        json::parse(&self.text()).unwrap_or_else(|what| panic!("{what}: {}", self.text()))
    }

    /// The words of what isn't answered.
    pub fn error(&self) -> String {
        let value = self.value();
        value.get("error").and_then(Value::as_text).unwrap_or_else(|| panic!("no error: {value}")).to_string()
    }
}
