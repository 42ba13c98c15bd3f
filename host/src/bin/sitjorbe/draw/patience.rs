//! How long a request is worked on: until its client goes, or asks the same anew.

use std::collections::VecDeque;
use std::io::ErrorKind;
use std::net::TcpStream;
use std::sync::atomic::{AtomicBool, Ordering};
use std::sync::{Arc, Mutex, PoisonError};

/// The newest requests of so many pages and paths are known.
const MOST_KNOWN: usize = 256;

/// Whether a request was given up.
#[derive(Debug, Default)]
pub struct Ticket(AtomicBool);

impl Ticket {
    pub fn give_up(&self) {
        self.0.store(true, Ordering::Relaxed);
    }

    pub fn is_given_up(&self) -> bool {
        self.0.load(Ordering::Relaxed)
    }
}

/// The newest request of each page at each path, the latest last.
#[derive(Default)]
pub struct Newest(Mutex<VecDeque<([String; 2], Arc<Ticket>)>>);

impl Newest {
    /// A ticket for a request. What the same page asked before at the same path is given up; a request that names no page takes nobody's place.
    pub fn ticket(&self, page: Option<&str>, path: &str) -> Arc<Ticket> {
        let ticket = Arc::new(Ticket::default());
        let Some(page) = page else { return ticket };
        let key = [page, path].map(str::to_string);
        let mut known = self.0.lock().unwrap_or_else(PoisonError::into_inner);
        if let Some(place) = known.iter().position(|(other, _)| *other == key) {
            known.remove(place).into_iter().for_each(|(_, older)| older.give_up());
        }
        known.push_back((key, Arc::clone(&ticket)));
        if known.len() > MOST_KNOWN {
            known.pop_front();
        }
        ticket
    }
}

/// A client who waits for an answer.
pub struct Patience<'a> {
    stream: &'a TcpStream,
    ticket: Arc<Ticket>,
}

impl Patience<'_> {
    pub fn new(stream: &TcpStream, ticket: Arc<Ticket>) -> Patience<'_> {
        Patience { stream, ticket }
    }

    pub fn ticket(&self) -> Arc<Ticket> {
        Arc::clone(&self.ticket)
    }

    /// Whether nobody wants the answer any more; then the ticket is given up.
    pub fn is_over(&self) -> bool {
        if !self.ticket.is_given_up() && is_gone(self.stream) {
            self.ticket.give_up();
        }
        self.ticket.is_given_up()
    }
}

/// Whether a client has ended its side. No browser does that before its answer has come.
fn is_gone(stream: &TcpStream) -> bool {
    if stream.set_nonblocking(true).is_err() {
        return true;
    }
    let seen = stream.peek(&mut [0]);
    let blocks = stream.set_nonblocking(false);
    match seen {
        Ok(count) => count == 0 || blocks.is_err(),
        Err(error) => error.kind() != ErrorKind::WouldBlock || blocks.is_err(),
    }
}

#[cfg(test)]
mod tests {
    use super::Newest;

    #[test]
    fn the_newest_of_a_page_takes_the_place_of_older_ones() {
        let newest = Newest::default();
        let first = newest.ticket(Some("a"), "/pave");
        let others =
            [newest.ticket(Some("b"), "/pave"), newest.ticket(Some("a"), "/step"), newest.ticket(None, "/pave")];
        assert!(!first.is_given_up());
        let second = newest.ticket(Some("a"), "/pave");
        assert!(first.is_given_up() && !second.is_given_up());
        assert!(others.iter().all(|other| !other.is_given_up()));
    }
}
