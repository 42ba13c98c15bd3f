//! `sitjorbe draw` as a browser and as others ask it: each answer beside the library called directly, bit by bit; fronts stepped by hand beside a stepper; hostile requests,
//! after all of which it still answers.

#[path = "../common/mod.rs"]
mod common;
#[path = "../../src/bin/sitjorbe/json.rs"]
#[allow(dead_code)]
mod json;

mod answers;
mod client;
mod crowds;
mod exam;
mod fields;
mod hostile;
mod masked;
mod stepping;

use common::Drawing;
use json::Value;

/// Loops, the outer one first.
type Loops = Vec<Vec<[f64; 2]>>;

/// A map of a field's loops, with plain names, and of more.
fn body(loops: &Loops, more: &[(&str, Value)]) -> Value {
    let points = |points: &Vec<[f64; 2]>| Value::list(points.iter().map(|point| Value::point(*point)));
    let named = |(k, loop_): (usize, &Vec<[f64; 2]>)| {
        Value::map([("name", Value::Text(format!("loop {k}"))), ("points", points(loop_))])
    };
    let loops = ("loops".to_string(), Value::list(loops.iter().enumerate().map(named)));
    Value::Map([loops].into_iter().chain(more.iter().map(|(name, value)| (name.to_string(), value.clone()))).collect())
}

fn part<'a>(value: &'a Value, name: &str) -> &'a Value {
    value.get(name).unwrap_or_else(|| panic!("no {name}: {value}"))
}

fn list<'a>(value: &'a Value, name: &str) -> &'a [Value] {
    part(value, name).as_list().unwrap_or_else(|| panic!("{name} is no list: {value}"))
}

fn text<'a>(value: &'a Value, name: &str) -> &'a str {
    part(value, name).as_text().unwrap_or_else(|| panic!("{name} is no text: {value}"))
}

/// A point by its bits.
fn bits(point: &Value) -> [u64; 2] {
    point.as_point().unwrap_or_else(|| panic!("no point: {point}")).map(f64::to_bits)
}

/// Lists of ids.
fn ids(value: &Value, name: &str) -> Vec<Vec<u32>> {
    let id = |id: &Value| id.as_count(u32::MAX as usize).expect("an id") as u32;
    list(value, name).iter().map(|ids| ids.as_list().expect("ids").iter().map(id).collect()).collect()
}

fn square(side: f64) -> Vec<[f64; 2]> {
    vec![[0.0, 0.0], [side, 0.0], [side, side], [0.0, side]]
}

/// A field with a blind spot.
fn with_hole() -> Loops {
    vec![square(8.0), vec![[3.0, 3.0], [3.0, 5.0], [5.0, 5.0], [5.0, 3.0]]]
}

fn drawing(loops: &Loops) -> Drawing {
    Drawing::of_loops(loops)
}
