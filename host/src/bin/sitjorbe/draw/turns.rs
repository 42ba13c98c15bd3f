//! Who is served and who waits, so that no number of clients takes all threads and all memory.

use std::collections::VecDeque;
use std::io;
use std::net::{Shutdown, TcpStream};
use std::sync::{Condvar, Mutex, MutexGuard, PoisonError};
use std::time::Duration;

use super::patience::Patience;
use super::wrong::Wrong;

/// How often who waits looks whether its client still does.
const LOOKING: Duration = Duration::from_millis(50);
/// So many more wait for their turn.
const MOST_WAITING: usize = 56;
/// So many connections may stand whose request hasn't come yet.
const MOST_QUIET: usize = 64;

fn locked<T>(mutex: &Mutex<T>) -> MutexGuard<'_, T> {
    mutex.lock().unwrap_or_else(PoisonError::into_inner)
}

/// Requests that are worked on, and that wait for it.
pub struct Turns {
    /// So many are worked on at once.
    most_served: usize,
    counts: Mutex<Counts>,
    freed: Condvar,
}

#[derive(Default)]
struct Counts {
    served: usize,
    waiting: usize,
}

/// A turn, until it is dropped.
pub struct Turn<'a>(&'a Turns);

impl Turns {
    pub fn new(most_served: usize) -> Turns {
        Turns { most_served, counts: Mutex::default(), freed: Condvar::new() }
    }

    /// Waits for a turn, as long as its client does; none where too many wait already.
    pub fn take(&self, patience: &Patience<'_>) -> Result<Turn<'_>, Wrong> {
        let mut counts = locked(&self.counts);
        if counts.waiting >= MOST_WAITING {
            return Err(Wrong::busy());
        }
        counts.waiting += 1;
        let mut is_over = false;
        while counts.served >= self.most_served && !is_over {
            let waited = self.freed.wait_timeout(counts, LOOKING);
            counts = waited.unwrap_or_else(PoisonError::into_inner).0;
            is_over = patience.is_over();
        }
        counts.waiting -= 1;
        if is_over {
            // Whoever freed a turn may have told this one alone.
            self.freed.notify_one();
            return Err(Wrong::given_up());
        }
        counts.served += 1;
        Ok(Turn(self))
    }
}

impl Drop for Turn<'_> {
    fn drop(&mut self) {
        locked(&self.0.counts).served -= 1;
        self.0.freed.notify_one();
    }
}

/// The connections whose request hasn't come yet. Of too many the one that has been quiet longest is cut off, so that none of them keeps others out.
#[derive(Default)]
pub struct Quiet(Mutex<Open>);

#[derive(Default)]
struct Open {
    entered: u64,
    streams: VecDeque<(u64, TcpStream)>,
}

impl Quiet {
    /// Enters a connection: its number.
    pub fn enter(&self, stream: &TcpStream) -> io::Result<u64> {
        let mut open = locked(&self.0);
        open.entered += 1;
        let number = open.entered;
        open.streams.push_back((number, stream.try_clone()?));
        if open.streams.len() > MOST_QUIET {
            if let Some((_, longest)) = open.streams.pop_front() {
                // One that has ended by itself can't be cut off, and needn't.
                let _ = longest.shutdown(Shutdown::Both);
            }
        }
        Ok(number)
    }

    /// Strikes a connection out: its request has come, or it has ended.
    pub fn leave(&self, number: u64) {
        locked(&self.0).streams.retain(|(other, _)| *other != number);
    }
}
