//! A mesh that pave wrote as JSON, read back.

use sitjorbe::closing::Kind;
use sitjorbe::raw::{is_sound, Settings};
use sitjorbe::{End, MOST_THRESHOLD};

use crate::closed::{kind_word, Seam, KINDS, NO_LOOP};
use crate::csv::{Field, Point};
use crate::exact::Exact;
use crate::json::{self, Value};
use crate::mesh_json::FORMAT;
use crate::outputs::Brought;
use crate::run::{Drawing, Paved};
use crate::svg::Eye;

/// No paving has more quads.
const MOST_QUADS: usize = 250_000;
/// No node of a run is beyond this either way.
const FARTHEST: f64 = 1_001.0;

/// A mesh that was read, and its field.
pub struct Read {
    pub field: Field,
    pub paved: Paved,
    pub brought: Brought,
    /// The digest that it says it has.
    pub digest: Option<String>,
}

/// The mesh that a text is, or what is wrong with it. Whether it is whole and its outline sound is judged anew.
pub fn read(text: &str) -> Result<Read, String> {
    let value = json::parse(text)?;
    let part = |name: &str| value.get(name).ok_or(format!("it has no {name}"));
    let list = |name: &str| part(name)?.as_list().ok_or(format!("{name} isn't a list"));
    if part("format")?.as_text() != Some(FORMAT) {
        return Err(format!("it isn't a mesh that pave wrote: its format isn't {FORMAT}"));
    }
    let field = field_of(part("loops")?)?;
    let nodes =
        all(list("nodes")?, "nodes", |node| node.as_point().filter(|at| at.iter().all(|x| x.abs() <= FARTHEST)))?;
    let loops = field.loops.len();
    let origins = all(list("origins")?, "origins", |origin| match origin {
        Value::Null => Some(NO_LOOP),
        origin => origin.as_count(loops.saturating_sub(1)).map(|k| k as u16),
    })?;
    if origins.len() != nodes.len() {
        return Err(format!("it has {} nodes and {} origins", nodes.len(), origins.len()));
    }
    let ids = |ring: &Value| {
        let most = nodes.len().checked_sub(1)?;
        ring.as_list()?.iter().map(|id| id.as_count(most).map(|id| id as u32)).collect::<Option<Vec<u32>>>()
    };
    let four = |quad: &Value| ids(quad).and_then(|ids| ids.try_into().ok()).filter(is_quad(&nodes));
    let quads = all(list("quads")?, "quads", four)?;
    let left = all(list("left")?, "left", |ring| ids(ring).filter(|ids| ids.len() > 2))?;
    let sound = is_sound(&Drawing::of(&field).outline()).map_err(|refusal| format!("its outline is {refusal}"))?;
    let seam = seam_of(&value, &quads, &origins)?;
    let paved = Paved {
        settings: settings_of(&value)?,
        end: end_of(part("end")?)?,
        whole: sound && left.is_empty() && !matches!(seam, Seam::Closed { .. }),
        sound,
        nodes,
        origins,
        quads,
        left,
        seam,
    };
    let brought = brought(&value, paved.nodes.len())?;
    let digest = value.get("digest").and_then(Value::as_text).map(str::to_string);
    Ok(Read { field, paved, brought, digest })
}

/// What became of what the paving left open. A quad that was paved has nodes of the paving alone.
fn seam_of(value: &Value, quads: &[[u32; 4]], origins: &[u16]) -> Result<Seam, String> {
    let Some(kinds) = value.get("kinds") else {
        return match origins.contains(&NO_LOOP) {
            true => Err("a node has no loop, and the mesh isn't closed".to_string()),
            false => Ok(Seam::AsPaved),
        };
    };
    let kind = |value: &Value| KINDS.into_iter().find(|kind| value.as_text() == Some(kind_word(*kind)));
    let kinds = all(kinds.as_list().ok_or("kinds isn't a list")?, "kinds", kind)?;
    if kinds.len() != quads.len() {
        return Err(format!("it has {} quads and {} kinds", quads.len(), kinds.len()));
    }
    let paved = |quad: &[u32; 4]| quad.iter().all(|node| origins[*node as usize] != NO_LOOP);
    if let Some(place) = (0..quads.len()).find(|k| kinds[*k] != Kind::New && !paved(&quads[*k])) {
        return Err(format!("quad {place} was paved, and a node of it wasn't"));
    }
    let given_back = value.get("given_back").and_then(|count| count.as_count(MOST_QUADS));
    Ok(Seam::Closed { kinds, given_back: given_back.ok_or("it has no given_back")? })
}

/// What a mesh brings along: title, eye, thresholds, order.
fn brought(value: &Value, nodes: usize) -> Result<Brought, String> {
    let text = |name: &str| value.get(name).and_then(Value::as_text);
    Ok(Brought {
        title: text("title").map(str::to_string),
        eye: text("eye").and_then(Eye::of_name),
        thresholds: thresholds_of(value, nodes)?,
        order: order_of(value)?,
    })
}

/// Whether four nodes are a quad's: it turns left at each corner, as every quad of a run does. Judged exactly.
fn is_quad(nodes: &[[f64; 2]]) -> impl Fn(&[u32; 4]) -> bool + '_ {
    |quad| {
        let at = |k: usize| nodes[quad[k % 4] as usize];
        (0..4).all(|k| Exact::turn(at(k), at(k + 1), at(k + 2)).is_gt())
    }
}

/// The order of its quads, if it has one. Whether it is accepted isn't judged here.
fn order_of(value: &Value) -> Result<Option<Vec<u32>>, String> {
    let Some(order) = value.get("order") else { return Ok(None) };
    let listed = order.as_list().ok_or("order isn't a list")?;
    all(listed, "order", |quad| quad.as_count(u32::MAX as usize).map(|quad| quad as u32)).map(Some)
}

/// The thresholds in tenths of a decibel, if it has any.
fn thresholds_of(value: &Value, nodes: usize) -> Result<Option<Vec<Option<u32>>>, String> {
    let Some(listed) = value.get("thresholds") else { return Ok(None) };
    let listed = listed.as_list().ok_or("thresholds isn't a list")?;
    if listed.len() != nodes {
        return Err(format!("it has {nodes} nodes and {} thresholds", listed.len()));
    }
    let one = |value: &Value| match value {
        Value::Null => Some(None),
        value => value.as_count(MOST_THRESHOLD.into()).map(|tenths| Some(tenths as u32)),
    };
    all(listed, "thresholds", one).map(Some)
}

/// Every value of a list, or which isn't one.
pub fn all<T>(values: &[Value], name: &str, read: impl Fn(&Value) -> Option<T>) -> Result<Vec<T>, String> {
    let one = |(place, value): (usize, &Value)| {
        read(value).ok_or(format!("{name}: number {place}, counted from 0, isn't one: {}", short(value)))
    };
    values.iter().enumerate().map(one).collect()
}

fn short(value: &Value) -> String {
    let text = value.to_string();
    if text.chars().count() > 60 {
        text.chars().take(60).collect::<String>() + ".."
    } else {
        text
    }
}

/// The field whose loops are a value.
pub fn field_of(loops: &Value) -> Result<Field, String> {
    let mut field = Field::default();
    for loop_ in loops.as_list().ok_or("loops isn't a list")? {
        let points = loop_.get("points").and_then(Value::as_list).ok_or("a loop has no list of points")?;
        let points = all(points, "points", |point| point.as_point().map(|[x, y]| Point { x, y, line: 0 }))?;
        field.names.push(loop_.get("name").and_then(Value::as_text).ok_or("a loop has no name")?.to_string());
        field.loops.push(points);
    }
    if field.loops.len() > usize::from(u16::MAX) {
        return Err("it has more loops than any field".to_string());
    }
    Ok(field)
}

fn settings_of(value: &Value) -> Result<Settings, String> {
    let count = |name: &str| {
        value.get(name).and_then(|value| value.as_count(u32::MAX as usize)).ok_or(format!("it has no {name}"))
    };
    let size = match value.get("size").ok_or("it has no size")? {
        // A listing doesn't have its size.
        Value::Null => f64::NAN,
        size => size.as_number().ok_or("size isn't a number")?,
    };
    Ok(Settings { size, sweeps: count("sweeps")?, passes: count("passes")? })
}

fn end_of(value: &Value) -> Result<End, String> {
    let found = End::ALL.into_iter().find(|end| value.as_text() == Some(&end.to_string()));
    found.ok_or(format!("end isn't one of still, passes, cap and full: {}", short(value)))
}
