//! A mesh as JSON, with the field that it paves and its figures. `mesh_reading.rs` reads it back.

use crate::closed::{kind_word, Seam, NO_LOOP};
use crate::csv::{Field, Point};
use crate::figures::{Figures, Quality};
use crate::identity;
use crate::json::Value;
pub use crate::mesh_reading::{all, field_of};
use crate::run::Paved;
use crate::svg::Look;

pub const FORMAT: &str = "sitjorbe-mesh-1";

/// A mesh as JSON, a line for each of its parts.
pub fn write(field: &Field, paved: &Paved, figures: &Figures, look: &Look) -> String {
    let eye = look.eye.map_or(Value::Null, |eye| Value::text(eye.name()));
    let parts = [
        ("format", Value::text(FORMAT)),
        ("version", Value::text(identity::VERSION)),
        ("digest", Value::text(&identity::digest(paved))),
        ("date", look.date.as_ref().map_or(Value::Null, |date| Value::text(date))),
        ("title", Value::text(&look.title)),
        ("eye", eye),
        ("size", Value::Number(paved.settings.size)),
        ("sweeps", Value::count(paved.settings.sweeps)),
        ("passes", Value::count(paved.settings.passes)),
        ("end", Value::text(&paved.end.to_string())),
        ("whole", Value::Bool(paved.whole)),
        ("sound", Value::Bool(paved.sound)),
        ("figures", figures_value(figures)),
        ("loops", loops_value(field)),
    ];
    let mesh = mesh_values(&paved.nodes, &paved.origins, &paved.quads);
    let drawn = look.drawn.iter().map(|drawn| ("drawn", loops_value(drawn)));
    let order =
        look.order.iter().map(|order| ("order", Value::list(order.iter().map(|quad| Value::count(*quad as usize)))));
    let exam = look.hill.iter().map(|hill| ("exam", exam_value(hill.figures)));
    let thresholds = look.hill.iter().map(|hill| ("thresholds", thresholds_value(&hill.thresholds)));
    let parts = parts
        .into_iter()
        .chain(drawn)
        .chain(mesh)
        .chain([("left", left_value(paved))])
        .chain(seam_values(&paved.seam))
        .chain(thresholds)
        .chain(exam)
        .chain(order);
    let lines: Vec<String> = parts.map(|(name, value)| format!("\"{name}\":{value}")).collect();
    format!("{{{}}}\n", lines.join(",\n"))
}

/// How many quads have all four thresholds, and the sum of those, in tenths of a decibel.
pub fn exam_value((quads, sum): (u32, u32)) -> Value {
    Value::map([("quads", Value::count(quads as usize)), ("sum", Value::count(sum as usize))])
}

/// A threshold a node, in tenths of a decibel; null where none stands.
pub fn thresholds_value(thresholds: &[Option<u32>]) -> Value {
    Value::list(thresholds.iter().map(|tenths| tenths.map_or(Value::Null, |tenths| Value::count(tenths as usize))))
}

/// The loops with their names and points.
pub fn loops_value(field: &Field) -> Value {
    let points = |points: &[Point]| Value::list(points.iter().map(|point| Value::point([point.x, point.y])));
    let loops = field.names.iter().zip(&field.loops);
    Value::list(loops.map(|(name, loop_)| Value::map([("name", Value::text(name)), ("points", points(loop_))])))
}

/// A list of ids for each ring, quad or edge.
pub fn id_lists<'a>(lists: impl Iterator<Item = &'a [u32]>) -> Value {
    Value::list(lists.map(|ids| Value::list(ids.iter().map(|id| Value::count(*id as usize)))))
}

/// A node's loop; null where it came with the closing.
fn origin(origin: &u16) -> Value {
    if *origin == NO_LOOP {
        Value::Null
    } else {
        Value::count((*origin).into())
    }
}

/// What became of what the paving left open, and each quad's kind where it is closed.
fn seam_values(seam: &Seam) -> Vec<(&'static str, Value)> {
    let place =
        |([x, y], why): &([f64; 2], String)| Value::map([("at", Value::point([*x, *y])), ("why", Value::text(why))]);
    match seam {
        Seam::AsPaved => vec![],
        Seam::Closed { kinds, given_back } => vec![
            ("given_back", Value::count(*given_back)),
            ("kinds", Value::list(kinds.iter().map(|kind| Value::text(kind_word(*kind))))),
        ],
        Seam::Open(places) => vec![("stays_open", Value::list(places.iter().map(place)))],
    }
}

/// The nodes, the loop of each, and the quads.
pub fn mesh_values(nodes: &[[f64; 2]], origins: &[u16], quads: &[[u32; 4]]) -> [(&'static str, Value); 3] {
    [
        ("nodes", Value::list(nodes.iter().map(|node| Value::point(*node)))),
        ("origins", Value::list(origins.iter().map(origin))),
        ("quads", id_lists(quads.iter().map(<[u32; 4]>::as_slice))),
    ]
}

/// The rings round what is left open.
pub fn left_value(paved: &Paved) -> Value {
    id_lists(paved.left.iter().map(Vec::as_slice))
}

fn quality_value(quality: Option<Quality>) -> Value {
    quality.map_or(Value::Null, |quality| {
        Value::map([
            ("least_angle", Value::Number(quality.least_angle)),
            ("median_angle", Value::Number(quality.median_angle)),
            ("median_aspect", Value::Number(quality.median_aspect)),
            ("greatest_aspect", Value::Number(quality.greatest_aspect)),
            ("median_side", Value::Number(quality.median_side)),
        ])
    })
}

/// The figures as JSON.
pub fn figures_value(figures: &Figures) -> Value {
    let patch = |patch: &crate::figures::Patch| {
        Value::map([
            ("name", Value::text(&patch.name)),
            ("nodes", Value::count(patch.nodes)),
            ("quads", Value::count(patch.quads)),
            ("share", Value::maybe(patch.share)),
            ("quality", quality_value(patch.quality)),
        ])
    };
    Value::map([
        ("nodes", Value::count(figures.nodes)),
        ("quads", Value::count(figures.quads)),
        ("share", Value::maybe(figures.share)),
        ("closing", Value::maybe(figures.closing)),
        ("whole", Value::Bool(figures.whole)),
        ("closed", Value::Bool(figures.closed)),
        ("sound", Value::Bool(figures.sound)),
        ("overlaps", figures.overlaps.map_or(Value::Null, Value::Bool)),
        ("quality", quality_value(figures.quality)),
        ("patches", Value::list(figures.patches.iter().map(patch))),
    ])
}

/// What is said of a mesh as JSON: its file, its size, and the figures.
pub fn report(file: &str, paved: &Paved, figures: &Figures) -> Value {
    let head = [
        ("file", Value::text(file)),
        ("size", Value::Number(paved.settings.size)),
        ("end", Value::text(&paved.end.to_string())),
    ];
    let mut pairs: Vec<(String, Value)> = head.into_iter().map(|(name, value)| (name.to_string(), value)).collect();
    if let Value::Map(more) = figures_value(figures) {
        pairs.extend(more);
    }
    Value::Map(pairs)
}
