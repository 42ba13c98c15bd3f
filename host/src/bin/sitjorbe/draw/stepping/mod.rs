//! The front stepped by hand. A thread keeps the last sequence of moves, and goes on from it where the moves asked for begin with those made.

mod moves;
mod sequence;
#[cfg(test)]
mod sequence_tests;

use std::panic::{self, AssertUnwindSafe};
use std::sync::mpsc::{self, Receiver, RecvTimeoutError, SyncSender};
use std::sync::Arc;
use std::thread;
use std::time::{Duration, Instant};

use crate::json::Value;
use crate::run::Drawing;

use super::answers::refused;
use super::patience::{Patience, Ticket};
use super::wrong::Wrong;
use moves::Asked;
use sequence::{lent, Ground, Limit, Sequence, Stopped, PATIENCE};

/// So many requests wait for the thread.
const MOST_WAITING: usize = 16;
/// How often it is looked whether somebody still waits.
const LOOKING: Duration = Duration::from_millis(25);

type Reply = Result<Value, Wrong>;

struct Job {
    asked: Asked,
    reply: SyncSender<Reply>,
    /// When it is given up, once it has been begun.
    until: Option<Instant>,
    ticket: Arc<Ticket>,
}

impl Job {
    fn begin(&mut self) -> Limit {
        let until = *self.until.get_or_insert_with(|| Instant::now() + PATIENCE);
        Limit { until, ticket: Arc::clone(&self.ticket) }
    }

    fn answer(self, reply: Reply) {
        // Where the client has gone there is nobody to tell.
        let _ = self.reply.send(reply);
    }
}

/// The thread that steps.
pub struct Stepping {
    jobs: SyncSender<Job>,
}

impl Stepping {
    pub fn begin() -> Stepping {
        let (jobs, asked) = mpsc::sync_channel(MOST_WAITING);
        thread::spawn(move || serve(&asked));
        Stepping { jobs }
    }

    pub fn ask(&self, body: &Value, ticket: Arc<Ticket>) -> Result<Waiting, Wrong> {
        let (reply, answer) = mpsc::sync_channel(1);
        let job = Job { asked: Asked::of(body)?, reply, until: None, ticket };
        self.jobs.try_send(job).map_err(|_| Wrong::busy())?;
        Ok(Waiting(answer))
    }
}

/// Waits for what was asked.
pub struct Waiting(Receiver<Reply>);

impl Waiting {
    /// The answer, unless nobody waits for it any more.
    pub fn answer(self, patience: &Patience<'_>) -> Reply {
        loop {
            match self.0.recv_timeout(LOOKING) {
                Ok(reply) => return reply,
                Err(RecvTimeoutError::Timeout) if patience.is_over() => return Err(Wrong::given_up()),
                Err(RecvTimeoutError::Timeout) => {}
                // The thread drops a job in which it panics.
                Err(RecvTimeoutError::Disconnected) => return Err(Wrong::bug()),
            }
        }
    }
}

fn serve(jobs: &Receiver<Job>) {
    let (mut next, mut ground) = (None, Ground::default());
    while let Some(job) = next.take().or_else(|| jobs.recv().ok()) {
        let served = panic::catch_unwind(AssertUnwindSafe(|| sequence(job, jobs, &mut ground)));
        next = served.unwrap_or_else(|_| {
            ground = Ground::default();
            None
        });
    }
}

/// Answers jobs as long as each goes on from the one before; what is next then, if that is known.
fn sequence(mut first: Job, jobs: &Receiver<Job>, ground: &mut Ground) -> Option<Job> {
    let (key, mut limit) = (first.asked.key(), first.begin());
    if ground.key != key {
        *ground = Ground::of(key);
    }
    let drawing = Drawing::of(&first.asked.field);
    let mut lent = match lent(&drawing.outline(), first.asked.size, ground.growth) {
        Ok(lent) => lent,
        Err(why) => return stopped(first, why, ground),
    };
    let mut made = match Sequence::begin(&first.asked, &drawing, &mut lent, ground, &limit) {
        Ok(made) => made,
        Err(why) => return stopped(first, why, ground),
    };
    let mut job = first;
    loop {
        match made.advance(&job.asked, &limit) {
            Ok(answer) => job.answer(Ok(answer)),
            Err(why) => return stopped(job, why, ground),
        }
        job = jobs.recv().ok()?;
        limit = job.begin();
        if job.asked.key() != ground.key || !made.goes_on(&job.asked) {
            return Some(job);
        }
    }
}

/// Ends a sequence: says why, or has the job done again in longer lists.
fn stopped(job: Job, why: Stopped, ground: &mut Ground) -> Option<Job> {
    let answer = match why {
        Stopped::Full => {
            ground.growth *= 2;
            return Some(job);
        }
        Stopped::Refused(refusal) => Ok(refused(&job.asked.field, refusal)),
        Stopped::TooMuch(words) => Err(Wrong::too_much(words)),
        Stopped::GivenUp => Err(Wrong::given_up()),
    };
    job.answer(answer);
    None
}

#[cfg(test)]
mod tests {
    use std::net::{TcpListener, TcpStream};
    use std::sync::mpsc;
    use std::thread;

    use super::sequence::{Ground, Stopped};
    use super::{stopped, Job, Patience, Stepping};
    use crate::draw::stepping::moves::Asked;
    use crate::json;

    const NOTHING: &str = r#"{"loops":[],"size":1,"moves":[]}"#;

    /// Where the thread drops a job, since it panicked, that is said.
    #[test]
    fn a_job_that_is_dropped_is_a_bug() {
        let (jobs, asked) = mpsc::sync_channel(1);
        let thread = thread::spawn(move || drop(asked.recv()));
        let body = json::parse(NOTHING).unwrap();
        let listener = TcpListener::bind("127.0.0.1:0").unwrap();
        let _client = TcpStream::connect(listener.local_addr().unwrap()).unwrap();
        let (stream, _) = listener.accept().unwrap();
        let patience = Patience::new(&stream, Default::default());
        let waiting = Stepping { jobs }.ask(&body, patience.ticket()).unwrap();
        assert_eq!(waiting.answer(&patience).unwrap_err().status, 500);
        thread.join().unwrap();
    }

    #[test]
    fn a_job_that_fills_its_lists_is_done_again_in_longer_ones() {
        let (reply, answer) = mpsc::sync_channel(1);
        let mut ground = Ground::of(vec![]);
        ground.growth = 3;
        let asked = Asked::of(&json::parse(NOTHING).unwrap()).unwrap();
        let job = Job { asked, reply, until: None, ticket: Default::default() };
        let again = stopped(job, Stopped::Full, &mut ground).expect("it isn't answered");
        assert_eq!((ground.growth, again.asked.moves.len()), (6, 0));
        drop(again);
        assert!(answer.recv().is_err(), "nothing was answered");
    }
}
