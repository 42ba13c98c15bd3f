//! What is asked of an exam that was begun.

use crate::files::lines_fed;
use crate::json::Value;
use crate::order;

use super::super::answers::refused;
use super::super::asked;
use super::super::wrong::Wrong;
use super::patient::Patient;
use super::record::{Kind, Record, MOST_EVENTS};
use super::{ordering, values, written, wrong};

pub type Work = fn(&mut Record, &Value) -> Result<Value, Wrong>;

pub const WORKS: [(&str, Work); 9] = [
    ("/exam/enter", enter),
    ("/exam/undo", undo),
    ("/exam/simulate", simulate),
    ("/exam/order", order),
    ("/exam/load", load),
    ("/exam/estimate", |record, body| Ok(Value::map([("found", values::estimate(record, asked::point(body, "at")?))]))),
    ("/exam/bowl", |record, _| Ok(written::bowl(record))),
    ("/exam/books", |record, _| Ok(written::books(record))),
    ("/exam/save", |record, _| Ok(written::files(record))),
];

fn refused_or(record: &Record, done: Result<(), sitjorbe::Refusal>, value: impl FnOnce(&Record) -> Value) -> Value {
    match done {
        Ok(()) => value(record),
        Err(refusal) => refused(&record.field, refusal),
    }
}

fn room(record: &Record, more: usize) -> Result<(), Wrong> {
    if record.events.len() + more > MOST_EVENTS {
        return Err(Wrong::too_much("more was entered than an exam keeps: save it, and begin another"));
    }
    Ok(())
}

fn enter(record: &mut Record, body: &Value) -> Result<Value, Wrong> {
    room(record, 1)?;
    let node = asked::count(body, "node", u32::MAX as usize)? as u32;
    let threshold = asked::maybe_count(body, "threshold", u32::MAX as usize)?.map(|tenths| tenths as u32);
    let kind = if threshold.is_some() { Kind::Entered } else { Kind::Withdrawn };
    let done = record.change(kind, node, threshold, asked::time(body)?);
    Ok(refused_or(record, done, |record| values::news(record, node)))
}

fn undo(record: &mut Record, body: &Value) -> Result<Value, Wrong> {
    room(record, 1)?;
    let done = record.undo(asked::time(body)?);
    Ok(match done {
        Ok(Some(node)) => values::news(record, node),
        Ok(None) => wrong("there is nothing to take back"),
        Err(refusal) => refused(&record.field, refusal),
    })
}

/// The patient answers at the nodes that come next.
fn simulate(record: &mut Record, body: &Value) -> Result<Value, Wrong> {
    let patient = body.get("patient").and_then(Patient::of_value).ok_or(Wrong::shape("patient isn't one"))?;
    let count = asked::maybe_count(body, "count", usize::MAX)?.unwrap_or(record.paved.nodes.len());
    room(record, count.min(record.paved.nodes.len()))?;
    let time = asked::time(body)?;
    record.simulated = Some(patient.clone());
    for node in record.coming(count) {
        let tenths = patient.threshold(node, record.paved.nodes[node as usize]);
        if let Err(refusal) = record.change(Kind::Simulated, node, Some(tenths), time) {
            return Ok(refused(&record.field, refusal));
        }
    }
    Ok(values::state(record))
}

fn order(record: &mut Record, body: &Value) -> Result<Value, Wrong> {
    let paved = &record.paved;
    let (made, words) = match asked::name(body, "kind")? {
        "placed" => (Ok((0..paved.quads.len() as u32).collect()), "as placed".to_string()),
        "near" => {
            let at = asked::point(body, "at")?;
            (Ok(ordering::near(paved, at)), outwards(at))
        }
        "text" => (order::read(&lines_fed(asked::text(body)?)), "from a file".to_string()),
        _ => return Err(Wrong::shape("kind is none of placed, near and text")),
    };
    let checked = made.and_then(|listed| match order::check(paved, &listed) {
        Ok(()) => Ok(listed),
        Err(failure) => Err(failure.words().to_string()),
    });
    Ok(match checked {
        Ok(order) => {
            (record.order, record.order_words) = (order, words);
            values::state(record)
        }
        Err(words) => wrong(&words),
    })
}

fn outwards([x, y]: [f64; 2]) -> String {
    match [x, y] {
        [0.0, 0.0] => "from the centre outwards".to_string(),
        _ => format!("from {x:.1}°, {y:.1}° outwards"),
    }
}

/// Thresholds from a file of this mesh's.
fn load(record: &mut Record, body: &Value) -> Result<Value, Wrong> {
    room(record, record.paved.nodes.len())?;
    let text = lines_fed(asked::text(body)?);
    let entered = match written::thresholds(record, &text) {
        Ok(entered) => entered,
        Err(words) => return Ok(wrong(&words)),
    };
    let time = asked::time(body)?;
    if let Some(patient) = Patient::of_words(&text) {
        record.simulated = Some(patient);
    }
    for (node, tenths) in entered {
        if let Err(refusal) = record.change(Kind::Loaded, node, Some(tenths), time) {
            return Ok(refused(&record.field, refusal));
        }
    }
    Ok(values::state(record))
}
