//! The server: which connection is served, and who answers what it asks.

use std::net::TcpStream;
use std::panic::{self, AssertUnwindSafe};
use std::sync::Arc;
use std::thread;

use crate::json::{self, Value};

use super::answers;
use super::exam::{self, Exams};
use super::http::{self, Answer, Asking, Unread};
use super::masked;
use super::page;
use super::patience::{Newest, Patience};
use super::rules::{self, Paths, Post, Route};
use super::stepping::Stepping;
use super::turns::{Quiet, Turns};
use super::worker;
use super::wrong::Wrong;

const STEP: &str = "/step";
/// No more connections than these stand at once.
const MOST_OPEN: usize = 160;
/// So many requests are worked on at once: those that are answered at once, and those that pave.
const MOST_SERVED: usize = 8;
const MOST_PAVED: usize = 3;

/// What the connections share.
pub struct Server {
    hosts: Vec<String>,
    quiet: Quiet,
    turns: Turns,
    pavings: Turns,
    newest: Newest,
    stepping: Stepping,
    exams: Exams,
    /// The field that the page begins with, null for none.
    first: Value,
}

impl Server {
    pub fn new(port: u16, first: Value) -> Server {
        Server {
            hosts: rules::hosts(port),
            quiet: Quiet::default(),
            turns: Turns::new(MOST_SERVED),
            pavings: Turns::new(MOST_PAVED),
            newest: Newest::default(),
            stepping: Stepping::begin(),
            exams: Exams::default(),
            first,
        }
    }

    /// Serves a connection in a thread of its own. One too many is cut off.
    pub fn admit(server: &Arc<Server>, stream: TcpStream) {
        // Each thread has a share in the server.
        if Arc::strong_count(server) > MOST_OPEN {
            return;
        }
        let Ok(number) = server.quiet.enter(&stream) else { return };
        let own = Arc::clone(server);
        if thread::Builder::new().spawn(move || own.serve(&stream, number)).is_err() {
            server.quiet.leave(number);
        }
    }

    fn serve(&self, stream: &TcpStream, number: u64) {
        let asking = http::read_head(stream);
        let is_head = matches!(&asking, Ok(asking) if asking.head.method == "HEAD");
        let request = asking.and_then(|asking| self.request(asking));
        self.quiet.leave(number);
        let answer = match request {
            Ok((Route::Page(path, _), _)) => page::answer(&path),
            Ok((Route::Post(post), body)) => answered(|| self.text(&post, body, stream)),
            Err(Unread::Wrong(wrong)) => wrong_answer(&wrong),
            Err(Unread::Gone) => return,
        };
        http::write(stream, &Answer { is_head, ..answer });
    }

    /// What a connection asks for, and its body.
    fn request(&self, asking: Asking<'_>) -> Result<(Route, Vec<u8>), Unread> {
        let paths = Paths { pages: &page::PATHS, posts: &is_post };
        let route = rules::check(&asking.head, &self.hosts, &paths)?;
        let body = match &route {
            Route::Page(..) => vec![],
            Route::Post(post) => asking.body(post.length)?,
        };
        Ok((route, body))
    }

    /// The answer to a body, as text. All that takes memory is done in its turn; who waits for the thread that steps needs none.
    fn text(&self, post: &Post, body: Vec<u8>, stream: &TcpStream) -> Result<String, Wrong> {
        let path = post.path.as_str();
        let patience = Patience::new(stream, self.newest.ticket(post.page.as_deref(), path));
        if answers::takes_long(path) {
            let _turn = self.pavings.take(&patience)?;
            return worker::answer(path, body, &patience);
        }
        let turns = if exam::paves(path) { &self.pavings } else { &self.turns };
        let turn = turns.take(&patience)?;
        let asked = body_value(&body)?;
        if path == STEP {
            let waiting = self.stepping.ask(&asked, patience.ticket())?;
            drop((turn, body, asked));
            return waiting.answer(&patience).map(|value| value.to_string());
        }
        let answer = match path {
            FIRST => Ok(Value::map([("field", self.first.clone())])),
            masked::PATH => Ok(masked::value(&self.exams)),
            _ if exam::is_path(path) => self.exams.answer(path, &asked),
            _ => answer_of(path, &asked),
        };
        answer.map(|value| value.to_string())
    }
}

/// The path at which the field is asked that the page begins with.
const FIRST: &str = "/first";

fn is_post(path: &str) -> bool {
    [STEP, FIRST, masked::PATH].contains(&path) || exam::is_path(path) || answers::at(path).is_some()
}

/// The answer to a body that needs nothing of the server's.
pub fn text_of(path: &str, body: &[u8]) -> Result<String, Wrong> {
    answer_of(path, &body_value(body)?).map(|value| value.to_string())
}

fn answer_of(path: &str, asked: &Value) -> Result<Value, Wrong> {
    let answer = answers::at(path).ok_or(Wrong::new(404, "there is no such path"))?;
    answer(asked)
}

/// The map that a body is.
fn body_value(body: &[u8]) -> Result<Value, Wrong> {
    let text = std::str::from_utf8(body).map_err(|_| Wrong::shape("the body isn't UTF-8 text"))?;
    match json::parse(text) {
        Ok(value @ Value::Map(_)) => Ok(value),
        Ok(_) => Err(Wrong::shape("the body isn't a map of JSON")),
        Err(words) => Err(Wrong::shape(&words)),
    }
}

/// What comes of work, also where it panics.
pub fn caught(work: impl FnOnce() -> Result<String, Wrong>) -> Result<String, Wrong> {
    panic::catch_unwind(AssertUnwindSafe(work)).unwrap_or_else(|_| Err(Wrong::bug()))
}

fn answered(work: impl FnOnce() -> Result<String, Wrong>) -> Answer {
    match caught(work) {
        Ok(text) => json_answer(200, text),
        Err(wrong) => wrong_answer(&wrong),
    }
}

fn json_answer(status: u16, text: String) -> Answer {
    let headers = [
        "Content-Type: application/json; charset=utf-8".to_string(),
        format!("Content-Security-Policy: {}", page::POLICY),
    ];
    Answer { status, headers: headers.to_vec(), body: text.into_bytes(), is_head: false }
}

fn wrong_answer(wrong: &Wrong) -> Answer {
    let text = Value::map([("error", Value::text(&wrong.words))]).to_string();
    let mut answer = json_answer(wrong.status, text);
    answer.headers.extend(wrong.allow.map(|methods| format!("Allow: {methods}")));
    answer
}

#[cfg(test)]
mod tests {
    use super::answered;

    #[test]
    fn a_panic_is_answered() {
        assert_eq!(answered(|| Ok("null".to_string())).status, 200);
        let answer = answered(|| panic!("a test's panic, which is caught"));
        assert_eq!(answer.status, 500);
        assert!(String::from_utf8(answer.body).unwrap().starts_with("{\"error\":\"a bug: "));
    }
}
