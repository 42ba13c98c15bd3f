//! What a masked reader is answered: nodes, quads and loops of the exam's mesh, each read as role 3, and nothing of its results.

use sitjorbe::MaskedReader;

use crate::json::Value;
use crate::mesh_json::{id_lists, mesh_values};

use super::exam::Exams;

pub const PATH: &str = "/masked/mesh";

/// The mesh of the exam, if one was begun.
pub fn value(exams: &Exams) -> Value {
    let read = exams.read(|record| {
        let eye = record.eye.map_or(Value::Null, |eye| Value::text(eye.name()));
        mesh(&record.masked_reader(), eye)
    });
    read.unwrap_or_else(|| Value::map([("begun", Value::Bool(false))]))
}

/// All that role 3 reads: nodes and quads from 0 until one is refused, and loops until one is empty.
fn mesh(reader: &MaskedReader<'_>, eye: Value) -> Value {
    let nodes: Vec<_> = (0..).map_while(|node| reader.node(node).ok()).collect();
    let quads: Vec<[u32; 4]> = (0..).map_while(|quad| reader.quad(quad).ok()).collect();
    let mut reply = vec![0; nodes.len()];
    let mut loops: Vec<Vec<u32>> = vec![];
    for number in 0.. {
        match reader.loop_in(number, &mut reply) {
            Ok(ids) if !ids.is_empty() => loops.push(ids.to_vec()),
            _ => break,
        }
    }
    let places: Vec<[f64; 2]> = nodes.iter().map(|node| [node.x, node.y]).collect();
    let origins: Vec<u16> = nodes.iter().map(|node| node.origin as u16).collect();
    let [nodes, origins, quads] = mesh_values(&places, &origins, &quads);
    let loops = id_lists(loops.iter().map(Vec::as_slice));
    let parts = [("begun", Value::Bool(true)), ("eye", eye), nodes, origins, quads, ("loops", loops)];
    Value::Map(parts.into_iter().map(|(name, value)| (name.to_string(), value)).collect())
}
