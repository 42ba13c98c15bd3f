//! An exam as it is answered to the desk's page.

use std::cmp::Ordering;

use sitjorbe::{Reader, MOST_WEIGHT};

use crate::exact::Exact;
use crate::figures;
use crate::identity;
use crate::json::Value;
use crate::mesh_json::{left_value, loops_value, mesh_values};

use super::place;
use super::record::Record;

/// Estimates along a side of a quad: from corner to corner, and in the middle of each patch between.
const LATTICE: u32 = 5;
const PATCHES: u32 = 4;

/// A whole number of decibels' tenths, or null.
fn tenths(threshold: Option<u32>) -> Value {
    threshold.map_or(Value::Null, |tenths| Value::count(tenths as usize))
}

/// A quad's estimates, all asked of the library: 25 from corner to corner, row by row, then 16 in the middle of each patch; null where it lacks a threshold.
fn estimates(reader: &Reader<'_>, quad: u32) -> Value {
    let (step, half) = (MOST_WEIGHT / (LATTICE - 1), MOST_WEIGHT / PATCHES / 2);
    let corners = (0..LATTICE).flat_map(|row| (0..LATTICE).map(move |column| [column * step, row * step]));
    let middles = (0..PATCHES)
        .flat_map(|row| (0..PATCHES).map(move |column| [2 * column + 1, 2 * row + 1].map(|count| count * half)));
    let asked = corners.chain(middles).map(|[u, v]| reader.estimate(quad, u, v));
    let found: Result<Vec<u32>, _> = asked.collect();
    found.map_or(Value::Null, |found| Value::list(found.into_iter().map(|one| Value::count(one as usize))))
}

/// The share of the field that lies in quads with all four thresholds; none where the outline isn't sound.
fn share_tested(record: &Record) -> Option<f64> {
    let (paved, reader) = (&record.paved, record.reader());
    let total = figures::field_area(&record.field);
    let tested = (0..).zip(&paved.quads).filter(|(quad, _)| reader.estimate(*quad, 0, 0).is_ok());
    let area = |quad: &[u32; 4]| Exact::doubled_area(&quad.map(|id| paved.nodes[id as usize]));
    let sum = tested.fold(Exact::ZERO, |sum, (_, quad)| sum.plus(&area(quad)));
    (paved.sound && total.sign() == Ordering::Greater).then(|| sum.over(&total))
}

/// The figures, what comes next, and whether there is something to take back.
fn tally(record: &Record) -> [(&'static str, Value); 10] {
    let (count, sum) = record.reader().figures();
    let tested = record.thresholds().iter().flatten().count();
    [
        ("id", Value::count(record.id)),
        ("count", Value::count(count as usize)),
        ("sum", Value::count(sum as usize)),
        ("tested", Value::count(tested)),
        ("share_tested", Value::maybe(share_tested(record))),
        ("next", tenths(record.next())),
        ("can_undo", Value::Bool(record.can_undo())),
        ("event_count", Value::count(record.events.len())),
        ("simulated", record.simulated.as_ref().map_or(Value::Null, |patient| patient.value())),
        ("order_words", Value::text(&record.order_words)),
    ]
}

fn map(pairs: impl IntoIterator<Item = (&'static str, Value)>) -> Value {
    Value::Map(pairs.into_iter().map(|(name, value)| (name.to_string(), value)).collect())
}

/// All that there is.
pub fn state(record: &Record) -> Value {
    let (paved, reader) = (&record.paved, record.reader());
    let quads = 0..paved.quads.len() as u32;
    let more = [
        ("title", Value::text(&record.title)),
        ("eye", record.eye.map_or(Value::Null, |eye| Value::text(eye.name()))),
        ("size", Value::Number(paved.settings.size)),
        ("digest", Value::text(&identity::digest(paved))),
        ("loops", loops_value(&record.field)),
        ("left", left_value(paved)),
        ("order", Value::list(record.order.iter().map(|quad| Value::count(*quad as usize)))),
        ("thresholds", Value::list(record.thresholds().into_iter().map(tenths))),
        ("estimates", Value::list(quads.map(|quad| estimates(&reader, quad)))),
    ];
    map(tally(record).into_iter().chain(mesh_values(&paved.nodes, &paved.origins, &paved.quads)).chain(more))
}

/// What a change at a node brought: its threshold, and the estimates of the quads at it.
pub fn news(record: &Record, node: u32) -> Value {
    let reader = record.reader();
    let quads =
        record.quads_at(node).map(|quad| Value::List(vec![Value::count(quad as usize), estimates(&reader, quad)]));
    let more = [
        ("node", Value::count(node as usize)),
        ("threshold", tenths(record.threshold(node))),
        ("changed", Value::list(quads)),
    ];
    map(tally(record).into_iter().chain(more))
}

/// The estimate at a place: the quad there, its corners, their thresholds and weights; null where no quad is there.
pub fn estimate(record: &Record, at: [f64; 2]) -> Value {
    let paved = &record.paved;
    let Some(found) = place::find(&paved.nodes, &paved.quads, at) else { return Value::Null };
    let corners = paved.quads[found.quad as usize];
    let (u, v, all) = (found.u, found.v, MOST_WEIGHT);
    let weights = [(all - u) * (all - v), u * (all - v), u * v, (all - u) * v];
    let whole = f64::from(all * all);
    Value::map([
        ("quad", Value::count(found.quad as usize)),
        ("u", Value::count(u as usize)),
        ("v", Value::count(v as usize)),
        ("estimate", tenths(record.reader().estimate(found.quad, u, v).ok())),
        ("corners", Value::list(corners.iter().map(|id| Value::count(*id as usize)))),
        ("thresholds", Value::list(corners.iter().map(|id| tenths(record.threshold(*id))))),
        ("weights", Value::list(weights.iter().map(|weight| Value::Number(f64::from(*weight) / whole)))),
    ])
}
