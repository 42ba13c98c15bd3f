//! An exam as a file: its mesh as `pave` writes one, with thresholds, order and events.

use sitjorbe::Refusal;

use crate::figures;
use crate::hill;
use crate::json::{self, Value};
use crate::mesh_json;
use crate::order;
use crate::run::Paved;
use crate::svg::{Eye, Look};

use super::super::asked;
use super::super::wrong::Wrong;
use super::patient::Patient;
use super::record::{Event, Kind, Record, MOST_EVENTS};

fn maybe(tenths: Option<u32>) -> Value {
    tenths.map_or(Value::Null, |tenths| Value::count(tenths as usize))
}

fn event_value(event: &Event) -> Value {
    Value::map([
        ("kind", Value::text(event.kind.name())),
        ("node", Value::count(event.node as usize)),
        ("before", maybe(event.before)),
        ("after", maybe(event.after)),
        ("time", Value::maybe(event.time)),
    ])
}

/// The title of a picture or file, which says where thresholds are simulated.
pub fn title(record: &Record) -> String {
    let mark = if record.simulated.is_some() { " (SIMULATED)" } else { "" };
    format!("{}{mark}", record.title)
}

/// How the exam looks in files and pictures.
pub fn look(record: &Record) -> Result<Look, Refusal> {
    let notes = record.simulated.iter().map(|patient| format!("{}.", patient.in_words())).collect();
    Ok(Look {
        title: title(record),
        eye: record.eye,
        hill: Some(hill::from(&record.paved, &record.thresholds())?),
        notes,
        ..Look::default()
    })
}

/// The exam as JSON: a mesh's file with thresholds and order, as the command `exam` writes it, and in it `desk`.
pub fn write(record: &Record, look: &Look) -> String {
    let look = Look { order: Some(record.order.clone()), ..look.clone() };
    let figures = figures::of(&record.field, &record.paved);
    let mesh = mesh_json::write(&record.field, &record.paved, &figures, &look);
    let desk = Value::map([
        ("title", Value::text(&record.title)),
        ("simulated", record.simulated.as_ref().map_or(Value::Null, Patient::value)),
        ("order_words", Value::text(&record.order_words)),
        ("events", Value::list(record.events.iter().map(event_value))),
    ]);
    let body = mesh.trim_end().trim_end_matches('}');
    format!("{body},\n\"desk\":{desk}}}\n")
}

/// What a file says of an exam, before its mesh is paved anew.
pub struct Told {
    value: Value,
}

impl Told {
    pub fn read(text: &str) -> Result<Told, String> {
        let value = json::parse(text)?;
        match value.get("thresholds") {
            Some(Value::List(_)) => Ok(Told { value }),
            _ => Err("it isn't an exam that was saved: it has no thresholds".to_string()),
        }
    }

    /// The field and settings, as a page would ask.
    pub fn asked(&self) -> &Value {
        &self.value
    }

    pub fn title(&self) -> String {
        self.desk("title").or(self.value.get("title")).and_then(Value::as_text).unwrap_or("field").to_string()
    }

    pub fn eye(&self) -> Result<Option<Eye>, Wrong> {
        asked::eye(&self.value)
    }

    /// What the desk's page noted of it; the command `exam` writes none.
    fn desk(&self, name: &str) -> Option<&Value> {
        self.value.get("desk").and_then(|desk| desk.get(name))
    }

    /// Whether nothing is open in the file's mesh.
    pub fn is_whole(&self) -> bool {
        self.value.get("left").and_then(Value::as_list).is_some_and(<[Value]>::is_empty)
    }

    /// Whether the file's mesh is the one that is paved of its field here, bit by bit.
    pub fn is_mesh(&self, paved: &Paved) -> bool {
        let [nodes, _, quads] = mesh_json::mesh_values(&paved.nodes, &paved.origins, &paved.quads);
        [nodes, quads].iter().all(|(name, value)| self.value.get(name) == Some(value))
    }

    /// Enters all that the file tells.
    pub fn restore(&self, record: &mut Record) -> Result<(), String> {
        let thresholds = self.value.get("thresholds").and_then(Value::as_list).ok_or("it has no thresholds")?;
        for (node, value) in (0..).zip(thresholds) {
            let tenths = as_tenths(value).ok_or(format!("node {node} has a threshold that isn't one"))?;
            if let Some(tenths) = tenths {
                let entered = record.change(Kind::Loaded, node, Some(tenths), None);
                entered.map_err(|refusal| format!("node {node}: {refusal}"))?;
            }
        }
        let events = self.desk("events").and_then(Value::as_list).unwrap_or(&[]);
        let events = mesh_json::all(&events[..events.len().min(MOST_EVENTS)], "events", event)?;
        if let Some(listed) = self.value.get("order").and_then(Value::as_list) {
            let quad = |quad: &Value| quad.as_count(u32::MAX as usize).map(|quad| quad as u32);
            let listed = mesh_json::all(listed, "order", quad)?;
            order::check(&record.paved, &listed).map_err(|failure| failure.words().to_string())?;
            record.order = listed;
            record.order_words = self.desk("order_words").and_then(Value::as_text).unwrap_or("from a file").to_string();
        }
        record.simulated = self.desk("simulated").filter(|value| **value != Value::Null).and_then(Patient::of_value);
        record.reopened(events);
        Ok(())
    }
}

fn as_tenths(value: &Value) -> Option<Option<u32>> {
    match value {
        Value::Null => Some(None),
        _ => value.as_count(u32::MAX as usize).map(|tenths| Some(tenths as u32)),
    }
}

fn event(value: &Value) -> Option<Event> {
    let part = |name: &str| value.get(name).unwrap_or(&Value::Null);
    Some(Event {
        kind: Kind::of_name(part("kind").as_text()?)?,
        node: part("node").as_count(u32::MAX as usize)? as u32,
        before: as_tenths(part("before"))?,
        after: as_tenths(part("after"))?,
        time: part("time").as_number(),
    })
}
