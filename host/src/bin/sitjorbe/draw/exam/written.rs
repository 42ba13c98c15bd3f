//! What is written of an exam, and thresholds that are read: files, the bowl's steps, the books.

use sitjorbe::Exam;

use crate::bowl;
use crate::figures;
use crate::files::Failure;
use crate::formats;
use crate::json::Value;
use crate::order;
use crate::svg::{self, Look};
use crate::thresholds;

use super::super::answers::refused;
use super::super::books::Opening;
use super::file;
use super::record::Record;

/// The nodes in steps of the bowl, as the degrees that these are, and the table; or why it can't show them.
pub fn bowl(record: &Record) -> Value {
    let paved = &record.paved;
    let wrong = |failure: Failure| Value::map([("wrong", Value::text(failure.words()))]);
    match (bowl::steps(paved), bowl::table(paved)) {
        (Ok(steps), Ok(text)) => {
            Value::map([("degrees", Value::list(steps.degrees().map(Value::point))), ("text", Value::text(&text))])
        }
        (Err(why), _) => {
            let mut value = wrong(bowl::refused(paved, why));
            if let (Value::Map(pairs), sitjorbe::NotShown::Quad { quad }) = (&mut value, why) {
                pairs.push(("quad".to_string(), Value::count(quad)));
            }
            value
        }
        (_, Err(failure)) => wrong(failure),
    }
}

/// The books of the whole mesh.
pub fn books(record: &Record) -> Value {
    let paved = &record.paved;
    let opening = Opening::of_rings(&paved.nodes, &record.sampled);
    opening.books_of(paved, record.field.loops.len())
}

/// The thresholds of a file, each entered into an exam of its own first: a node and tenths of a decibel.
pub fn thresholds(record: &Record, text: &str) -> Result<Vec<(u32, u32)>, String> {
    let mut exam = Exam::begin(record.mesh());
    thresholds::enter(text, &record.paved, &mut exam).map_err(|failure| failure.words().to_string())?;
    let reader = exam.reader();
    let nodes = 0..record.paved.nodes.len() as u32;
    Ok(nodes.filter_map(|node| reader.threshold(node).ok().map(|tenths| (node, tenths))).collect())
}

/// The table of thresholds as `pave -o FILE.csv` has it; simulated ones are marked.
fn table(record: &Record, look: &Look) -> String {
    let table = formats::node_table(&record.field, &record.paved, look.hill.as_ref());
    let marks: String = record.simulated.iter().map(|patient| format!("# {}\n", patient.in_words())).collect();
    match table.split_once('\n') {
        Some((digest, rows)) => format!("{digest}\n{marks}{rows}"),
        None => table,
    }
}

/// The exam as JSON, its thresholds as CSV, its order, and the hill as a picture.
pub fn files(record: &Record) -> Value {
    let look = match file::look(record) {
        Ok(look) => look,
        Err(refusal) => return refused(&record.field, refusal),
    };
    let figures = figures::of(&record.field, &record.paved);
    Value::map([
        ("json", Value::text(&file::write(record, &look))),
        ("csv", Value::text(&table(record, &look))),
        ("order", Value::text(&order::written(&record.paved, &record.order))),
        ("svg", Value::text(&svg::draw(&record.field, &record.paved, &figures, &look))),
    ])
}
