//! The examination: one exam in the server, kept until another is begun or the server ends.
//!
//! | path | asked | answered |
//! |---|---|---|
//! | `/exam/begin` | field, `size`, `eye`, `title`, `replaces` (the id of the exam that it takes the place of, or null) | the state; or `refusal`; or `standing`, the id of an exam with thresholds |
//! | `/exam/open` | `text` of a saved exam, `replaces` | the same; or `wrong` |
//! | `/exam/state` | | the state, or `begun`: false |
//! | `/exam/enter` | `exam` (its id), `node`, `threshold` (tenths of a decibel; null withdraws), `time` | what changed; or `refusal` |
//! | `/exam/undo` | `exam`, `time` | what changed |
//! | `/exam/simulate` | `exam`, `patient` (`seed`, `loss`, `noise`), `count` (null for all) | the state |
//! | `/exam/order` | `exam`, `kind` (`placed`, `near`, `text`), `at` or `text` | the state; or `wrong` |
//! | `/exam/load` | `exam`, `text` of a file of thresholds | the state; or `wrong` |
//! | `/exam/estimate` | `exam`, `at` | `found`, null where no quad is |
//! | `/exam/bowl` | `exam` | `degrees` of each node in steps and `text` of the table; or `wrong`, with the `quad` that can't be shown |
//! | `/exam/books` | `exam` | the books |
//! | `/exam/save` | `exam` | `json`, `csv` and `svg`, as text |
//! | `/exam/end` | `exam` | `begun`: false |

mod file;
mod ordering;
mod patient;
mod place;
mod record;
mod values;
mod works;
mod written;

use std::sync::{Mutex, MutexGuard, PoisonError};

use sitjorbe::closing::Way;
use sitjorbe::raw::Settings;
use sitjorbe::Places;

use crate::closed;
use crate::csv::Field;
use crate::json::Value;
use crate::run::{self, Drawing, NotPaved, MOST_PASSES, SWEEPS};

use super::answers::refused;
use super::asked;
use super::wrong::Wrong;
use file::Told;
pub use record::Record;

/// Larger meshes aren't examined here: nobody answers so many questions.
const MOST_NODES: usize = 20_000;

/// The exam of a server.
#[derive(Default)]
pub struct Exams(Mutex<Kept>);

#[derive(Default)]
struct Kept {
    begun: usize,
    record: Option<Record>,
}

const OTHERS: [&str; 4] = ["/exam/begin", "/exam/open", "/exam/state", "/exam/end"];

pub fn is_path(path: &str) -> bool {
    OTHERS.contains(&path) || works::WORKS.iter().any(|(other, _)| *other == path)
}

/// Whether a mesh is paved for the answer.
pub fn paves(path: &str) -> bool {
    ["/exam/begin", "/exam/open"].contains(&path)
}

fn not_begun() -> Value {
    Value::map([("begun", Value::Bool(false))])
}

fn wrong(words: &str) -> Value {
    Value::map([("wrong", Value::text(words))])
}

impl Exams {
    fn kept(&self) -> MutexGuard<'_, Kept> {
        self.0.lock().unwrap_or_else(PoisonError::into_inner)
    }

    /// What a reader makes of the exam, none where none was begun.
    pub fn read<T>(&self, reads: impl FnOnce(&Record) -> T) -> Option<T> {
        self.kept().record.as_ref().map(reads)
    }

    pub fn answer(&self, path: &str, body: &Value) -> Result<Value, Wrong> {
        match path {
            "/exam/state" => Ok(self.read(values::state).unwrap_or_else(not_begun)),
            "/exam/begin" => self.begin(body),
            "/exam/open" => self.open(body),
            "/exam/end" => {
                self.with(body, |_, _| Ok(Value::Null))?;
                self.kept().record = None;
                Ok(not_begun())
            }
            _ => {
                let work = works::WORKS.iter().find(|(other, _)| *other == path);
                let (_, work) = work.ok_or(Wrong::new(404, "there is no such path"))?;
                self.with(body, work)
            }
        }
    }

    /// Works on the exam that a body names.
    fn with(
        &self,
        body: &Value,
        work: impl FnOnce(&mut Record, &Value) -> Result<Value, Wrong>,
    ) -> Result<Value, Wrong> {
        let id = asked::count(body, "exam", usize::MAX)?;
        match &mut self.kept().record {
            Some(record) if record.id == id => work(record, body),
            _ => Err(Wrong::new(409, "this exam isn't there any more: another was begun, or the server")),
        }
    }

    fn begin(&self, body: &Value) -> Result<Value, Wrong> {
        let (field, size) = (asked::field(body)?, asked::size(body)?);
        match mesh(&field, size, asked::is_asked(body, "close"))? {
            Ok(made) => Ok(self.keep(made.record(field, asked::title(body)?, asked::eye(body)?), body)),
            Err(refusal) => Ok(refused(&field, refusal)),
        }
    }

    /// Keeps an exam, unless another stands with thresholds that it isn't to take the place of.
    fn keep(&self, mut record: Record, body: &Value) -> Value {
        let mut kept = self.kept();
        let replaces = body.get("replaces").and_then(|id| id.as_count(usize::MAX));
        if let Some(standing) = kept.record.as_ref().filter(|old| !old.events.is_empty() && Some(old.id) != replaces) {
            return Value::map([("standing", Value::count(standing.id))]);
        }
        kept.begun += 1;
        record.id = kept.begun;
        let state = values::state(&record);
        kept.record = Some(record);
        state
    }

    fn open(&self, body: &Value) -> Result<Value, Wrong> {
        let told = match Told::read(asked::text(body)?) {
            Ok(told) => told,
            Err(words) => return Ok(wrong(&words)),
        };
        let (field, size) = (asked::field(told.asked())?, asked::size(told.asked())?);
        let made = match mesh(&field, size, told.is_whole())? {
            Ok(made) if told.is_mesh(&made.paved) => made,
            Ok(_) => return Ok(wrong("the mesh in the file isn't the one that this version paves of its field")),
            Err(refusal) => return Ok(wrong(&refusal.to_string())),
        };
        let mut record = made.record(field, told.title(), told.eye()?);
        match told.restore(&mut record) {
            Ok(()) => Ok(self.keep(record, body)),
            Err(words) => Ok(wrong(&words)),
        }
    }
}

/// A mesh to be examined, and the outline as it was sampled for it.
struct Made {
    paved: run::Paved,
    sampled: Vec<Vec<u32>>,
}

impl Made {
    fn record(self, field: Field, title: String, eye: Option<crate::svg::Eye>) -> Record {
        Record::begin(field, self.paved, self.sampled, title, eye)
    }
}

/// The mesh of a field, closed where that is asked for and can be done.
fn mesh(field: &Field, size: f64, close: bool) -> Result<Result<Made, sitjorbe::Refusal>, Wrong> {
    const TOO_MANY: &str = "the mesh has too many nodes for an exam here: set a larger size";
    let places = match Places::for_outline(&Drawing::of(field).outline(), size, 1) {
        Ok(places) if places.nodes > 20 * MOST_NODES => return Err(Wrong::too_much(TOO_MANY)),
        Ok(places) => places,
        Err(refusal) => return Ok(Err(refusal)),
    };
    debug_assert!(places.nodes > 0);
    let settings = Settings { size, sweeps: SWEEPS, passes: MOST_PASSES };
    let pave = |settings: &Settings| match run::pave(field, settings) {
        Ok(paved) => Ok(Ok(paved)),
        Err(NotPaved::Refused(refusal)) => Ok(Err(refusal)),
        Err(NotPaved::NoMemory) => Err(Wrong::too_much(crate::refused::NO_MEMORY)),
    };
    let paved = match pave(&settings)? {
        Ok(paved) if paved.nodes.len() > MOST_NODES => return Err(Wrong::too_much(TOO_MANY)),
        Ok(paved) => paved,
        Err(refusal) => return Ok(Err(refusal)),
    };
    let paved = if close { closed::close(field, paved, Way::Bend, &|_| ()) } else { paved };
    Ok(pave(&Settings { passes: 0, sweeps: 0, ..settings })?.map(|bare| Made { paved, sampled: bare.left }))
}
