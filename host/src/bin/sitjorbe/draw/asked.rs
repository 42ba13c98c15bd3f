//! What a body asks: its parts, read out of JSON.

use crate::csv::{self, Field};
use crate::json::Value;
use crate::mesh_json;
use crate::svg::Eye;

use super::wrong::Wrong;

fn part<'a>(body: &'a Value, name: &str) -> Result<&'a Value, Wrong> {
    body.get(name).ok_or_else(|| Wrong::shape(&format!("it has no {name}")))
}

/// A part that may be null or absent.
fn maybe<'a>(body: &'a Value, name: &str) -> Option<&'a Value> {
    body.get(name).filter(|value| **value != Value::Null)
}

/// What a part is, or that it isn't what it should be.
fn read<T>(value: &Value, name: &str, what: &str, as_it: impl Fn(&Value) -> Option<T>) -> Result<T, Wrong> {
    as_it(value).ok_or_else(|| Wrong::shape(&format!("{name} isn't {what}")))
}

/// Longer names and titles aren't taken.
pub const LONGEST_TEXT: usize = 200;

fn short(words: &str, name: &str) -> Result<(), Wrong> {
    if words.chars().count() > LONGEST_TEXT {
        return Err(Wrong::shape(&format!("a {name} has more than {LONGEST_TEXT} characters")));
    }
    Ok(())
}

/// The field, with a name of its own for each loop.
pub fn field(body: &Value) -> Result<Field, Wrong> {
    let mut field = mesh_json::field_of(part(body, "loops")?).map_err(|words| Wrong::shape(&words))?;
    field.names.iter().try_for_each(|name| short(name, "name"))?;
    let named = |name: String| Some(name).filter(|name| !name.trim().is_empty());
    field.names = csv::names(field.names.into_iter().map(named).collect());
    Ok(field)
}

pub fn size(body: &Value) -> Result<f64, Wrong> {
    read(part(body, "size")?, "size", "a number", Value::as_number)
}

pub fn maybe_size(body: &Value) -> Result<Option<f64>, Wrong> {
    maybe(body, "size").map(|value| read(value, "size", "a number", Value::as_number)).transpose()
}

pub fn eye(body: &Value) -> Result<Option<Eye>, Wrong> {
    let named = |value: &Value| value.as_text().and_then(Eye::of_name);
    maybe(body, "eye").map(|value| read(value, "eye", "right or left", named)).transpose()
}

/// The words above a picture, none where they are absent.
pub fn title(body: &Value) -> Result<String, Wrong> {
    let text = |value: &Value| value.as_text().map(str::to_string);
    let title = maybe(body, "title").map_or(Ok(String::new()), |value| read(value, "title", "text", text))?;
    short(&title, "title").map(|()| title)
}

pub fn text(body: &Value) -> Result<&str, Wrong> {
    part(body, "text")?.as_text().ok_or_else(|| Wrong::shape("text isn't text"))
}

/// A whole number up to a bound.
pub fn count(body: &Value, name: &str, most: usize) -> Result<usize, Wrong> {
    read(part(body, name)?, name, "a whole number", |value| value.as_count(most))
}

/// The same, or none where it is null or absent.
pub fn maybe_count(body: &Value, name: &str, most: usize) -> Result<Option<usize>, Wrong> {
    maybe(body, name).map(|value| read(value, name, "a whole number", |value| value.as_count(most))).transpose()
}

/// When something was done, in milliseconds since 1970, if that is told.
pub fn time(body: &Value) -> Result<Option<f64>, Wrong> {
    maybe(body, "time").map(|value| read(value, "time", "a number", Value::as_number)).transpose()
}

/// Whether something is asked for; not where it is absent.
pub fn is_asked(body: &Value, name: &str) -> bool {
    body.get(name) == Some(&Value::Bool(true))
}

/// One word of several.
pub fn name<'a>(body: &'a Value, name: &str) -> Result<&'a str, Wrong> {
    part(body, name)?.as_text().ok_or_else(|| Wrong::shape(&format!("{name} isn't text")))
}

pub fn point(body: &Value, name: &str) -> Result<[f64; 2], Wrong> {
    read(part(body, name)?, name, "a point", Value::as_point)
}

/// A list, no longer than so many values.
pub fn list<T>(body: &Value, name: &str, most: usize, as_it: impl Fn(&Value) -> Option<T>) -> Result<Vec<T>, Wrong> {
    let values = part(body, name)?.as_list().ok_or_else(|| Wrong::shape(&format!("{name} isn't a list")))?;
    if values.len() > most {
        return Err(Wrong::shape(&format!("{name} has more than {most} values")));
    }
    mesh_json::all(values, name, as_it).map_err(|words| Wrong::shape(&words))
}

/// Two nodes.
pub fn edge(value: &Value) -> Option<[u32; 2]> {
    let id = |value: &Value| value.as_count(u32::MAX as usize).map(|id| id as u32);
    match value.as_list()? {
        [a, b] => Some([id(a)?, id(b)?]),
        _ => None,
    }
}

/// Two nodes, or none.
pub fn maybe_edge(body: &Value, name: &str) -> Result<Option<[u32; 2]>, Wrong> {
    maybe(body, name).map(|value| read(value, name, "two nodes", edge)).transpose()
}
