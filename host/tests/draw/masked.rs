//! The masked reader: whatever the exam's results are, every byte that it is sent is the same.

use crate::client::{Said, Server};
use crate::exam::of_exam;
use crate::json::Value;
use crate::{body, ids, part, with_hole};

/// All that a client is sent, but for the word that is new for every page.
fn bytes(said: &Said) -> (u16, Vec<(String, String)>, String) {
    let page = said.text();
    let nonce = page.split("nonce=\"").nth(1).and_then(|rest| rest.split('"').next()).unwrap_or("-").to_string();
    let headers = said.headers.iter().map(|(name, value)| (name.clone(), value.replace(&nonce, "N"))).collect();
    (said.status, headers, page.replace(&nonce, "N"))
}

/// What a masked reader may ask, and what it is sent.
fn seen(server: &Server) -> Vec<(u16, Vec<(String, String)>, String)> {
    let asked = ["{}", "{\"exam\":1}", "{\"node\":0,\"threshold\":1,\"quad\":0,\"at\":[1,1]}", "[]", "x"];
    let mut all = vec![bytes(&server.get("/masked"))];
    all.extend(asked.map(|body| bytes(&server.post("/masked/mesh", body.as_bytes()))));
    all.push(bytes(&server.get("/masked/mesh")));
    all
}

#[test]
fn no_result_goes_over_the_wire() {
    let begin =
        body(&with_hole(), &[("size", Value::Number(1.5)), ("eye", Value::text("left")), ("title", Value::text("T"))]);
    let servers = [(); 3].map(|()| {
        let server = Server::start();
        let state = server.value("/exam/begin", &begin);
        (server, state)
    });
    let alone = seen(&servers[0].0);
    // Another exam with all thresholds, and one in which some came and went and the order is another.
    let patient = Value::map([("seed", Value::count(3)), ("noise", Value::Number(2.0))]);
    servers[1].0.value("/exam/simulate", &of_exam(&servers[1].1, &[("patient", patient)]));
    for (node, threshold) in [(0, Value::count(487)), (1, Value::count(3)), (0, Value::Null)] {
        let more = [("node", Value::count(node)), ("threshold", threshold), ("time", Value::count(1_234_567_890))];
        servers[2].0.value("/exam/enter", &of_exam(&servers[2].1, &more));
    }
    let near = [("kind", Value::text("near")), ("at", Value::point([8.0, 8.0]))];
    servers[2].0.value("/exam/order", &of_exam(&servers[2].1, &near));
    for (server, _) in &servers[1..] {
        assert_eq!(seen(server), alone);
    }
}

/// What it is sent is the exam's mesh.
#[test]
fn the_mesh_is_the_exams() {
    let server = Server::start();
    assert_eq!(server.value("/masked/mesh", &Value::map([])), Value::map([("begun", Value::Bool(false))]));
    let state = server.value("/exam/begin", &body(&with_hole(), &[("size", Value::Number(1.5))]));
    let mesh = server.value("/masked/mesh", &Value::map([]));
    for name in ["nodes", "origins", "quads"] {
        assert_eq!(part(&mesh, name), part(&state, name), "{name}");
    }
    let sorted = |rings: Vec<Vec<u32>>| {
        let mut rings: Vec<Vec<u32>> = rings.into_iter().map(turned).collect();
        rings.sort();
        rings
    };
    assert_eq!(sorted(ids(&mesh, "loops")), sorted(ids(&state, "left")));
    let Value::Map(parts) = mesh else { panic!("a map") };
    let names: Vec<String> = parts.into_iter().map(|(name, _)| name).collect();
    assert_eq!(names, ["begun", "eye", "nodes", "origins", "quads", "loops"]);
}

/// A ring from its smallest id.
fn turned(mut ring: Vec<u32>) -> Vec<u32> {
    let least = (0..ring.len()).min_by_key(|place| ring[*place]).unwrap_or(0);
    ring.rotate_left(least);
    ring
}
