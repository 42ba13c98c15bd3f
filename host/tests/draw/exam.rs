//! The examination in the server beside an exam of the library: thresholds, figures, estimates, order, bowl and books, and the files that are written of it.

use std::collections::BTreeSet;

use sitjorbe::raw::{check_order, LentMesh, Settings};
use sitjorbe::{Exam, Memory, Places};

use crate::client::Server;
use crate::json::Value;
use crate::{body, drawing, ids, list, part, square, text, with_hole, Loops};

/// A server with an exam on a field, and its state.
fn begun(loops: &Loops, size: f64) -> (Server, Value) {
    let server = Server::start();
    let more = [("size", Value::Number(size)), ("eye", Value::text("right")), ("title", Value::text("Field"))];
    let state = server.value("/exam/begin", &body(loops, &more));
    (server, state)
}

pub fn of_exam(state: &Value, more: &[(&str, Value)]) -> Value {
    let id = ("exam".to_string(), part(state, "id").clone());
    Value::Map([id].into_iter().chain(more.iter().map(|(name, value)| (name.to_string(), value.clone()))).collect())
}

fn number(value: &Value, name: &str) -> usize {
    part(value, name).as_count(usize::MAX).unwrap_or_else(|| panic!("no {name}: {value}"))
}

fn enter(server: &Server, state: &Value, node: usize, threshold: Option<usize>) -> Value {
    let threshold = threshold.map_or(Value::Null, Value::count);
    let more = [("node", Value::count(node)), ("threshold", threshold), ("time", Value::count(1_000 + node))];
    server.value("/exam/enter", &of_exam(state, &more))
}

/// A threshold for a node.
fn level(node: usize) -> usize {
    (node * 37) % 501
}

/// After each threshold that comes, is replaced or goes, figures, estimates and the next node are those of the library's exam.
#[test]
fn thresholds_beside_an_exam() {
    let (server, state) = begun(&with_hole(), 1.5);
    let field = drawing(&with_hole());
    let mut memory = Memory::new(Places::for_outline(&field.outline(), 1.5, 1).unwrap()).unwrap();
    let mesh = memory.pave(&field.outline(), &Settings { size: 1.5, sweeps: 400, passes: 600 }).unwrap();
    let mut exam = Exam::begin(LentMesh::of(&mesh));
    let quads = ids(&state, "quads");
    assert_eq!(quads, mesh.quads().map(|quad| quad.to_vec()).collect::<Vec<_>>());
    let corners: BTreeSet<usize> = quads.iter().flatten().map(|id| *id as usize).collect();
    for (round, &node) in corners.iter().chain(corners.iter().step_by(3)).enumerate() {
        let threshold = if round % 7 == 6 && round >= corners.len() { None } else { Some(level(node + round)) };
        let news = enter(&server, &state, node, threshold);
        match threshold {
            Some(tenths) => exam.desk().enter(node as u32, tenths as u32).unwrap(),
            None => exam.desk().withdraw(node as u32).unwrap(),
        }
        let figures = [number(&news, "count"), number(&news, "sum")];
        let (count, sum) = exam.reader().figures();
        assert_eq!(figures, [count as usize, sum as usize]);
        for changed in list(&news, "changed") {
            let [quad, found] = changed.as_list().expect("a pair") else { panic!("a pair: {changed}") };
            let quad = quad.as_count(10_000).expect("a quad") as u32;
            assert!(quads[quad as usize].contains(&(node as u32)));
            agrees(found, &exam, quad);
        }
    }
    let whole = server.value("/exam/state", &Value::map([]));
    for (quad, found) in (0..).zip(list(&whole, "estimates")) {
        agrees(found, &exam, quad);
    }
}

/// A quad's 41 estimates are the library's.
fn agrees(found: &Value, exam: &Exam<'_>, quad: u32) {
    let corners = (0..5).flat_map(|v| (0..5).map(move |u| [64 * u, 64 * v]));
    let middles = (0..4).flat_map(|v| (0..4).map(move |u| [64 * u + 32, 64 * v + 32]));
    let wanted: Result<Vec<u32>, _> = corners.chain(middles).map(|[u, v]| exam.reader().estimate(quad, u, v)).collect();
    match wanted {
        Ok(wanted) => assert_eq!(found, &Value::list(wanted.iter().map(|one| Value::count(*one as usize)))),
        Err(refusal) => assert_eq!((refusal.number(), found), (18, &Value::Null)),
    }
}

#[test]
fn the_next_node_follows_the_order() {
    let (server, state) = begun(&with_hole(), 1.0);
    let quads = ids(&state, "quads");
    assert_eq!(number(&state, "next"), quads[0][0] as usize);
    let mut next = number(&state, "next");
    for _ in 0..6 {
        next = number(&enter(&server, &state, next, Some(300)), "next");
    }
    let first: Vec<u32> = quads.iter().flatten().copied().collect();
    let mut met = BTreeSet::new();
    let in_turn: Vec<u32> = first.into_iter().filter(|node| met.insert(*node)).collect();
    assert_eq!(next, in_turn[6] as usize);
    // Near the far corner it begins elsewhere, and the library accepts that.
    let near = [("kind", Value::text("near")), ("at", Value::point([8.0, 8.0]))];
    let ordered = server.value("/exam/order", &of_exam(&state, &near));
    let order: Vec<u32> = list(&ordered, "order").iter().map(|quad| quad.as_count(9_999).unwrap() as u32).collect();
    let flat: Vec<u32> = quads.concat();
    assert_eq!(check_order(quads.len(), &flat, &order), Ok(()));
    assert_ne!(order, (0..quads.len() as u32).collect::<Vec<_>>());
    assert_eq!(number(&ordered, "next"), first_open(&ordered, &quads, &order));
}

fn first_open(state: &Value, quads: &[Vec<u32>], order: &[u32]) -> usize {
    let thresholds = list(state, "thresholds");
    let mut corners = order.iter().flat_map(|quad| &quads[*quad as usize]);
    *corners.find(|node| thresholds[**node as usize] == Value::Null).expect("one is open") as usize
}

#[test]
fn orders_that_are_refused_name_quads() {
    let (server, state) = begun(&vec![square(6.0)], 1.0);
    let count = list(&state, "quads").len();
    let asked = |order: &[usize]| {
        let rows: String = order.iter().map(|quad| format!("{quad}\n")).collect();
        server.value("/exam/order", &of_exam(&state, &[("kind", Value::text("text")), ("text", Value::Text(rows))]))
    };
    let placed: Vec<usize> = (0..count).collect();
    assert_eq!(text(&asked(&placed), "order_words"), "from a file");
    assert!(text(&asked(&placed[1..]), "wrong").contains("quad 0 is missing"));
    let turned: Vec<usize> = placed.iter().rev().copied().collect();
    let wrong = asked(&turned);
    assert!(
        text(&wrong, "wrong").starts_with("refused (22): ") && text(&wrong, "wrong").contains("which it waits for")
    );
    assert_eq!(part(&server.value("/exam/state", &Value::map([])), "order_words"), &Value::text("from a file"));
}

#[test]
fn what_is_refused_changes_nothing() {
    let (server, state) = begun(&vec![square(2.0)], 1.0);
    let refusal = |answer: &Value| number(part(answer, "refusal"), "number");
    assert_eq!(refusal(&enter(&server, &state, 0, Some(501))), 16);
    assert_eq!(refusal(&enter(&server, &state, 9_999, Some(1))), 15);
    assert_eq!(refusal(&enter(&server, &state, 0, None)), 17);
    let after = server.value("/exam/state", &Value::map([]));
    assert_eq!(after, state);
    // An exam that isn't there is no exam.
    let other = Value::map([("exam", Value::count(77)), ("node", Value::count(0)), ("threshold", Value::count(1))]);
    assert_eq!(server.post("/exam/enter", other.to_string().as_bytes()).status, 409);
    // One with thresholds isn't dropped unasked.
    enter(&server, &state, 0, Some(300));
    let again = body(&vec![square(3.0)], &[("size", Value::Number(1.0))]);
    let standing = server.value("/exam/begin", &again);
    assert_eq!(standing.get("standing"), state.get("id"));
    let replaced = server.value(
        "/exam/begin",
        &body(&vec![square(3.0)], &[("size", Value::Number(1.0)), ("replaces", part(&state, "id").clone())]),
    );
    assert_eq!(list(&replaced, "thresholds").iter().filter(|one| **one != Value::Null).count(), 0);
}

#[test]
fn thresholds_are_taken_back() {
    let (server, state) = begun(&vec![square(2.0)], 1.0);
    enter(&server, &state, 0, Some(300));
    enter(&server, &state, 0, Some(310));
    enter(&server, &state, 0, None);
    let undo = || server.value("/exam/undo", &of_exam(&state, &[]));
    for wanted in [Value::count(310), Value::count(300), Value::Null] {
        assert_eq!(part(&undo(), "threshold"), &wanted);
    }
    assert_eq!(text(&undo(), "wrong"), "there is nothing to take back");
}

/// What is saved is opened again: thresholds, order and events; its thresholds as a table are loaded; those of another mesh aren't.
#[test]
fn exams_are_saved_and_opened() {
    let (server, state) = begun(&with_hole(), 1.5);
    let patient =
        Value::map([("seed", Value::count(7)), ("loss", Value::text("left inferior")), ("noise", Value::Number(1.5))]);
    server.value("/exam/simulate", &of_exam(&state, &[("patient", patient.clone()), ("count", Value::count(5))]));
    enter(&server, &state, number(&state, "next"), Some(123));
    let full = server.value("/exam/simulate", &of_exam(&state, &[("patient", patient)]));
    assert_eq!(number(&full, "count"), list(&full, "quads").len());
    server.value("/exam/order", &of_exam(&state, &[("kind", Value::text("near")), ("at", Value::point([0.0, 0.0]))]));
    let before = server.value("/exam/state", &Value::map([]));
    let files = server.value("/exam/save", &of_exam(&state, &[]));
    for name in ["json", "csv", "svg"] {
        assert!(text(&files, name).contains("SIMULATED"), "{name}");
    }
    let other = Server::start();
    let opened = other.value("/exam/open", &Value::map([("text", part(&files, "json").clone())]));
    let kept = |state: &Value| {
        let Value::Map(pairs) = state.clone() else { panic!("a map") };
        pairs.into_iter().filter(|(name, _)| name != "can_undo").collect::<Vec<_>>()
    };
    assert_eq!(kept(&opened), kept(&before));
    let (third, fresh) = begun(&with_hole(), 1.5);
    let csv = ("text", part(&files, "csv").clone());
    let loaded = third.value("/exam/load", &of_exam(&fresh, &[csv.clone()]));
    assert_eq!(loaded.get("thresholds"), before.get("thresholds"));
    assert_eq!(loaded.get("simulated"), before.get("simulated"), "a file keeps its mark");
    let (fourth, another) = begun(&with_hole(), 1.4);
    assert!(text(&fourth.value("/exam/load", &of_exam(&another, &[csv])), "wrong").contains("of another mesh"));
    let spoilt = text(&files, "json").replacen("\"nodes\":[[", "\"nodes\":[[1", 1);
    let wrong = other.value("/exam/open", &Value::map([("text", Value::Text(spoilt)), ("replaces", Value::count(1))]));
    assert!(text(&wrong, "wrong").contains("isn't the one that this version paves"));
}

#[test]
fn the_estimate_at_a_place() {
    let (server, state) = begun(&vec![square(2.0)], 1.0);
    let at = |x: f64, y: f64| server.value("/exam/estimate", &of_exam(&state, &[("at", Value::point([x, y]))]));
    assert_eq!(part(&at(5.0, 5.0), "found"), &Value::Null);
    let found = at(0.25, 0.5);
    assert_eq!(part(part(&found, "found"), "estimate"), &Value::Null, "no threshold stands");
    let quad = number(part(&found, "found"), "quad");
    for (place, node) in ids(&state, "quads")[quad].iter().enumerate() {
        enter(&server, &state, *node as usize, Some(100 * (place + 1)));
    }
    let found = at(0.25, 0.5);
    let found = part(&found, "found");
    let weights: f64 = list(found, "weights").iter().map(|weight| weight.as_number().unwrap()).sum();
    assert!((weights - 1.0).abs() < 1e-12);
    assert!((100..=400).contains(&number(found, "estimate")));
}

#[test]
fn bowl_and_books() {
    let (server, state) = begun(&with_hole(), 1.5);
    let bowl = server.value("/exam/bowl", &of_exam(&state, &[]));
    let nodes = list(&state, "nodes");
    for (step, node) in list(&bowl, "degrees").iter().zip(nodes) {
        let ([x, y], [at_x, at_y]) = (step.as_point().unwrap(), node.as_point().unwrap());
        assert!((x - at_x).abs() <= 1.0 / 128.0 && (y - at_y).abs() <= 1.0 / 128.0 && (64.0 * x).fract() == 0.0);
    }
    assert!(text(&bowl, "text").contains("node,steps_x,steps_y"));
    let books = server.value("/exam/books", &of_exam(&state, &[]));
    for name in ["counts_balance", "areas_balance", "edges_balance"] {
        assert_eq!(part(&books, name), &Value::Bool(true), "{name}");
    }
    assert_eq!(number(&books, "wrong_edges"), 0);
    // Quads of a hundredth of a degree can't all be shown in steps of 1/64.
    let (server, state) = begun(&vec![square(0.05)], 0.01);
    let bowl = server.value("/exam/bowl", &of_exam(&state, &[]));
    assert!(text(&bowl, "wrong").starts_with("refused (25): "), "{bowl}");
    assert!(number(&bowl, "quad") < list(&state, "quads").len());
}
