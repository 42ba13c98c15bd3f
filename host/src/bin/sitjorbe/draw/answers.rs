//! The answers to what a page asks. Every mesh, judgement, nearest edge and direction in them is the proved library's.

use sitjorbe::raw::{contains, directions, is_sound, least_places, nearest_segment, LeastPlaces, Outline};
use sitjorbe::Refusal;

use crate::csv::{self, Field};
use crate::files::lines_fed;
use crate::json::Value;
use crate::naming::Naming;
use crate::place::where_in_words;
use crate::refused::{self, Place};
use crate::run::{Drawing, SWEEPS};
use crate::sound::{self, Fault};

use super::asked;
use super::examples;
use super::meshes;
use super::saved;
use super::wrong::Wrong;

pub type Answer = fn(&Value) -> Result<Value, Wrong>;

/// The paths that are answered here.
const PATHS: [(&str, Answer); 10] = [
    ("/examples", |_| Ok(examples::value())),
    ("/read", read),
    ("/write", write),
    ("/save", meshes::save),
    ("/thin", meshes::thin),
    ("/check", check),
    ("/pave", meshes::pave),
    ("/picture", meshes::picture),
    ("/nearest", nearest),
    ("/crosses", crosses),
];

/// Those that may take long: they pave, or make a field.
const LONG: [&str; 4] = ["/pave", "/picture", "/crosses", "/save"];

/// The answer at a path, if there is one.
pub fn at(path: &str) -> Option<Answer> {
    PATHS.iter().find(|(other, _)| *other == path).map(|(_, answer)| *answer)
}

/// Whether an answer is made in a process of its own.
pub fn takes_long(path: &str) -> bool {
    LONG.contains(&path)
}

/// So many crosses are asked for at once.
const MOST_CROSSES: usize = 4_096;

/// A refusal with the place that it concerns.
pub fn refusal_value(field: &Field, refusal: Refusal) -> Value {
    let (of_loop, of_point) = match Place::of(field, refusal) {
        Some(Place::Loop(k)) => (Value::count(k), Value::Null),
        Some(Place::Point([k, place])) => (Value::count(k), Value::count(place)),
        _ => (Value::Null, Value::Null),
    };
    Value::map([
        ("number", Value::count(refusal.number() as usize)),
        ("words", Value::text(&refused::in_words(field, refusal, Naming::Point))),
        ("loop", of_loop),
        ("point", of_point),
    ])
}

/// An answer that is a refusal and nothing more.
pub fn refused(field: &Field, refusal: Refusal) -> Value {
    Value::map([("refusal", refusal_value(field, refusal))])
}

fn read(body: &Value) -> Result<Value, Wrong> {
    let name = asked::title(body)?;
    Ok(match saved::read(&lines_fed(asked::text(body)?)) {
        Ok(opened) => opened.value(&name),
        Err(lines) => Value::map([("wrong", Value::list(lines.iter().map(|line| Value::text(line))))]),
    })
}

fn write(body: &Value) -> Result<Value, Wrong> {
    Ok(Value::map([("text", Value::text(&csv::write(&asked::field(body)?)))]))
}

/// What is refused of a field, whether it is sound, and what isn't.
pub fn judgement(field: &Field, sound: Result<bool, Refusal>) -> Vec<(String, Value)> {
    let faults = if sound == Ok(false) { sound::faults(field) } else { vec![] };
    let fault = |fault: &Fault| {
        let segments = fault.segments(field).into_iter();
        Value::map([
            ("words", Value::text(&fault.in_words(field, Naming::Point))),
            ("segments", Value::list(segments.map(|spot| Value::list(spot.map(Value::count).into_iter())))),
        ])
    };
    let pairs = [
        ("refusal", sound.map_or_else(|refusal| refusal_value(field, refusal), |_| Value::Null)),
        ("sound", sound.map_or(Value::Null, Value::Bool)),
        ("faults", Value::list(faults.iter().map(fault))),
    ];
    pairs.into_iter().map(|(name, value)| (name.to_string(), value)).collect()
}

fn check(body: &Value) -> Result<Value, Wrong> {
    let (field, size) = (asked::field(body)?, asked::maybe_size(body)?);
    let sound = refused::found(&field, size).and_then(|()| is_sound(&Drawing::of(&field).outline()));
    Ok(Value::Map(judgement(&field, sound)))
}

fn nearest(body: &Value) -> Result<Value, Wrong> {
    let (field, at) = (asked::field(body)?, asked::point(body, "at")?);
    let drawing = Drawing::of(&field);
    let outline = drawing.outline();
    let found = nearest_segment(&outline, at)
        .and_then(|segment| Ok((segment, contains(&outline, at)?, where_in_words(&field, &drawing, at)?)));
    Ok(match found {
        Ok((segment, inside, words)) => Value::map([
            ("loop", Value::count(segment.loop_index)),
            ("place", Value::count(segment.segment_index)),
            ("ends", Value::list([segment.a, segment.b].into_iter().map(Value::point))),
            ("distance", Value::Number(segment.distance)),
            ("inside", Value::Bool(inside)),
            ("where", Value::text(&words)),
        ]),
        Err(refusal) => refused(&field, refusal),
    })
}

fn crosses(body: &Value) -> Result<Value, Wrong> {
    let (field, size) = (asked::field(body)?, asked::size(body)?);
    let points = asked::list(body, "points", MOST_CROSSES, Value::as_point)?;
    let drawing = Drawing::of(&field);
    Ok(match directions_at(&drawing.outline(), size, &points) {
        Ok(found) => {
            let value = |direction: Option<[f64; 2]>| direction.map_or(Value::Null, Value::point);
            Value::map([("directions", Value::list(found.into_iter().map(value)))])
        }
        Err(refusal) => refused(&field, refusal),
    })
}

/// Of the cross field that a run makes, the direction nearest to the right at each point that is inside the outline.
fn directions_at(outline: &Outline<'_>, size: f64, points: &[[f64; 2]]) -> Result<Vec<Option<[f64; 2]>>, Refusal> {
    const RIGHT: [f64; 2] = [1.0, 0.0];
    let LeastPlaces { field_nodes, .. } = least_places(outline, size)?;
    let (mut values, mut marks) = (vec![0.0; 2 * field_nodes], vec![0; field_nodes]);
    let mut blocks = vec![0; outline.outer.len() + outline.holes.len()];
    let record = sitjorbe::raw::field(outline, size, SWEEPS, &mut values, &mut marks, &mut blocks)?;
    let found = directions(&record, &values, &marks, points, &vec![RIGHT; points.len()])?;
    let inside = |point: &[f64; 2]| contains(outline, *point) == Ok(true);
    Ok(points.iter().zip(found).map(|(point, direction)| direction.ok().filter(|_| inside(point))).collect())
}
