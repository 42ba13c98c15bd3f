//! The fields that a page can begin with: the repository's examples.

use crate::csv;
use crate::json::Value;
use crate::mesh_json::loops_value;

/// A field's name, its size and eye, and its points.
type Example = (&'static str, f64, Option<&'static str>, &'static str);

macro_rules! points {
    ($name:literal) => {
        include_str!(concat!("../../../../../examples/", $name, ".csv"))
    };
}

const EXAMPLES: [Example; 8] = [
    ("right-eye", 3.6, Some("right"), points!("right-eye")),
    ("left-eye", 8.0, Some("left"), points!("left-eye")),
    ("24-2", 3.0, Some("right"), points!("24-2")),
    ("30-2", 6.0, None, points!("30-2")),
    ("hemianopia", 2.65, Some("right"), points!("hemianopia")),
    ("hand-drawn", 3.5, Some("right"), points!("hand-drawn")),
    ("halves/upper", 3.0, Some("right"), points!("halves/upper")),
    ("halves/lower", 3.0, Some("right"), points!("halves/lower")),
];

pub fn value() -> Value {
    let one = |(name, size, eye, text): Example| {
        let field = csv::parse(text).unwrap_or_else(|wrong| panic!("a bug: {name}: {}", wrong.join("; ")));
        Value::map([
            ("name", Value::text(name)),
            ("size", Value::Number(size)),
            ("eye", eye.map_or(Value::Null, Value::text)),
            ("loops", loops_value(&field)),
        ])
    };
    Value::map([("examples", Value::list(EXAMPLES.into_iter().map(one)))])
}
