//! Fronts stepped by hand over the server, beside a stepper of the test's own that makes every move afresh.

use sitjorbe::raw::{least_places, Settings, Stepper};
use sitjorbe::{End, Memory, Outcome, Places, Refusal};

use crate::client::Server;
use crate::common::rng::Rng;
use crate::json::Value;
use crate::{bits, body, drawing, ids, list, part, square, text, with_hole, Loops};

#[derive(Clone, Copy, Debug)]
enum Move {
    Edge([u32; 2]),
    Passes(usize),
}

fn ids_value(ids: &[u32]) -> Value {
    Value::list(ids.iter().map(|id| Value::count(*id as usize)))
}

fn asked(loops: &Loops, size: f64, moves: &[Move], look: Option<[u32; 2]>) -> Value {
    let value = |next: &Move| match next {
        Move::Edge(edge) => ids_value(edge),
        Move::Passes(count) => Value::count(*count),
    };
    let look = look.map_or(Value::Null, |edge| ids_value(&edge));
    body(loops, &[("size", Value::Number(size)), ("moves", Value::list(moves.iter().map(value))), ("look", look)])
}

/// A pass as SCOPE says it, by steps; the quads that it placed.
fn pass(stepper: &mut Stepper<'_>) -> usize {
    let front = stepper.front();
    front.into_iter().filter(|edge| stepper.step(*edge) == Ok(Outcome::Placed)).count()
}

/// What moves answer, made one by one.
fn outcomes(stepper: &mut Stepper<'_>, moves: &[Move]) -> Vec<Value> {
    let outcome = |next: &Move| match next {
        Move::Edge(edge) => Value::text(&stepper.step(*edge).expect("on the front").to_string()),
        Move::Passes(count) => {
            let mut placed = 0;
            for _ in 0..*count {
                let more = pass(stepper);
                placed += more;
                if more == 0 {
                    break;
                }
            }
            Value::count(placed)
        }
    };
    moves.iter().map(outcome).collect()
}

/// Holds an answer against a stepper that stands where the moves lead.
fn agrees(answer: &Value, stepper: &mut Stepper<'_>, look: Option<[u32; 2]>) {
    let nodes: Vec<[u64; 2]> = stepper.nodes().iter().map(|node| node.map(f64::to_bits)).collect();
    assert_eq!(list(answer, "nodes").iter().map(bits).collect::<Vec<_>>(), nodes);
    assert_eq!(ids(answer, "quads"), stepper.quads().iter().map(|quad| quad.to_vec()).collect::<Vec<_>>());
    assert_eq!(ids(answer, "front"), stepper.front().iter().map(|edge| edge.to_vec()).collect::<Vec<_>>());
    let origins: Vec<Value> = stepper.origins().iter().map(|origin| Value::count((*origin).into())).collect();
    assert_eq!(list(answer, "origins"), origins);
    let Some(edge) = look else {
        assert_eq!(part(answer, "preview"), &Value::Null);
        return;
    };
    let (found, expected) = (part(answer, "preview"), stepper.preview(edge).unwrap());
    assert_eq!(text(found, "outcome"), expected.outcome.to_string());
    assert_eq!(part(found, "quad"), &expected.quad.map_or(Value::Null, |quad| ids_value(&quad)));
    assert_eq!(ids(found, "front"), expected.front().map(|edge| edge.to_vec()).collect::<Vec<_>>());
    for (name, new) in [("new_c", expected.new_c), ("new_d", expected.new_d)] {
        assert_eq!(part(found, name).as_point().map(|at| at.map(f64::to_bits)), new.map(|at| at.map(f64::to_bits)));
    }
}

/// The books of an answer balance, and say what its lists say.
fn balances(answer: &Value, sampled: usize, start: f64) {
    let books = part(answer, "books");
    let count = |name: &str| part(books, name).as_count(1 << 40).expect("a count");
    assert_eq!(count("nodes"), list(answer, "nodes").len());
    assert_eq!(count("quads"), list(answer, "quads").len());
    assert_eq!(count("front"), list(answer, "front").len());
    assert_eq!(count("sampled"), sampled);
    assert_eq!(count("front") + 2 * count("quads") + sampled, 2 * count("nodes"));
    assert_eq!(part(books, "counts_balance"), &Value::Bool(true));
    assert_eq!(part(books, "areas_balance"), &Value::Bool(true));
    let nodes: Vec<[f64; 2]> = list(answer, "nodes").iter().map(|node| node.as_point().unwrap()).collect();
    let sides = |ring: &Vec<u32>| {
        let at = |k: usize| nodes[ring[k % ring.len()] as usize];
        (0..ring.len()).map(|k| at(k)[0] * at(k + 1)[1] - at(k)[1] * at(k + 1)[0]).sum::<f64>() / 2.0
    };
    let of_quads: f64 = ids(answer, "quads").iter().map(sides).sum();
    // An edge alone is a ring of two, there and back: half of it counts.
    let of_front: f64 =
        ids(answer, "front").iter().map(|edge| sides(&vec![edge[0], edge[1]]) + half(&nodes, edge)).sum();
    for (name, expected) in [("area_start", start), ("area_quads", of_quads), ("area_front", of_front)] {
        let found = part(books, name).as_number().expect("an area");
        assert!((found - expected).abs() < 1e-9 * start.abs(), "{name}: {found}, {expected}");
    }
}

fn half(nodes: &[[f64; 2]], edge: &[u32]) -> f64 {
    let [a, b] = [edge[0], edge[1]].map(|id| nodes[id as usize]);
    (a[0] * b[1] - a[1] * b[0]) / 2.0
}

fn fields() -> [(Loops, f64); 4] {
    [
        (vec![square(2.0)], 1.0),
        (vec![vec![[0.0, 0.0], [5.0, 0.5], [6.0, 4.0], [2.0, 5.5], [-1.0, 3.0]]], 0.7),
        (with_hole(), 0.9),
        (
            vec![
                vec![[-30.0, 0.0], [0.0, -25.0], [28.0, 2.0], [1.0, 24.0]],
                vec![[12.0, -2.0], [12.0, 2.0], [16.0, 0.0]],
            ],
            3.6,
        ),
    ]
}

/// Moves at random, with moves taken back, looks, and other fields asked for in between.
#[test]
fn moves_beside_a_stepper() {
    let server = Server::start();
    let mut rng = Rng(11);
    let mut made: [Vec<Move>; 4] = Default::default();
    let mut counts = [0; 3];
    for round in 0..400 {
        let k = if round % 5 == 0 { rng.below(4) } else { round / 100 };
        let ((loops, size), moves) = (&fields()[k], &mut made[k]);
        let drawing = drawing(loops);
        let mut memory = Memory::new(Places::for_outline(&drawing.outline(), *size, 8).unwrap()).unwrap();
        let mut stepper = Stepper::new(drawing.outline(), *size, 400, &mut memory).unwrap();
        let (sampled, area) = (stepper.counts().nodes as usize, start_area(&mut stepper));
        outcomes(&mut stepper, moves);
        let front = stepper.front();
        let more = match rng.below(12) {
            0 => vec![Move::Passes(rng.below(3))],
            1 if moves.len() > 3 => {
                moves.truncate(rng.below(moves.len()));
                vec![]
            }
            _ if front.is_empty() => vec![],
            _ => vec![Move::Edge(rng.pick(&front))],
        };
        moves.extend(more);
        let mut stepper = Stepper::new(drawing.outline(), *size, 400, &mut memory).unwrap();
        let expected = outcomes(&mut stepper, moves);
        let front = stepper.front();
        let look = (!front.is_empty() && rng.once_in(2)).then(|| rng.pick(&front));
        let answer = server.value("/step", &asked(loops, *size, moves, look));
        assert_eq!(list(&answer, "outcomes"), expected);
        agrees(&answer, &mut stepper, look);
        balances(&answer, sampled, area);
        for (count, word) in counts.iter_mut().zip(["placed", "none"]) {
            *count += usize::from(expected.last() == Some(&Value::text(word)));
        }
        counts[2] += usize::from(matches!(moves.last(), Some(Move::Passes(_))));
    }
    assert!(counts.iter().all(|count| *count > 10), "placed, none, passes: {counts:?}");
}

fn start_area(stepper: &mut Stepper<'_>) -> f64 {
    let nodes = stepper.nodes();
    stepper.front().iter().map(|edge| half(&nodes, edge)).sum()
}

/// Passes leave what a run leaves, in one move or in several, first or after others.
#[test]
fn passes_beside_runs() {
    let server = Server::start();
    for (loops, size) in fields() {
        let drawing = drawing(&loops);
        let mut memory = Memory::new(Places::for_outline(&drawing.outline(), size, 4).unwrap()).unwrap();
        let mut quads = vec![];
        for passes in 0..5 {
            let mut after =
                Stepper::after(drawing.outline(), &Settings { size, sweeps: 400, passes }, &mut memory).unwrap();
            quads.push(after.counts().quads);
            for moves in [vec![Move::Passes(passes)], vec![Move::Passes(1); passes]] {
                let answer = server.value("/step", &asked(&loops, size, &moves, None));
                agrees(&answer, &mut after, None);
                let placed: usize =
                    list(&answer, "outcomes").iter().map(|placed| placed.as_count(9_999).unwrap()).sum();
                assert_eq!(placed, quads[passes]);
            }
        }
        let all = server.value("/step", &asked(&loops, size, &[600, 1, 600, 2].map(Move::Passes), None));
        let mesh = memory.pave(&drawing.outline(), &Settings { size, sweeps: 400, passes: 600 }).unwrap();
        assert_eq!((mesh.end(), list(&all, "quads").len()), (End::Still, mesh.quad_count()));
        assert_eq!(list(&all, "outcomes"), [mesh.quad_count(), 0, 0, 0].map(Value::count));
    }
}

#[test]
fn moves_that_are_refused() {
    let server = Server::start();
    let loops = vec![square(2.0)];
    let first = Move::Edge([3, 4]);
    for (moves, place) in [
        (vec![Move::Edge([0, 2])], 0),
        (vec![first, first], 1),
        (vec![first, Move::Edge([5, 6]), Move::Passes(1), Move::Edge([7, u32::MAX])], 3),
        (vec![first, Move::Edge([u32::MAX, u32::MAX])], 1),
    ] {
        let answer = server.value("/step", &asked(&loops, 1.0, &moves, None));
        let refusal = part(&answer, "refusal");
        assert_eq!(part(refusal, "number"), &Value::count(24));
        assert_eq!(text(refusal, "words"), Refusal::NotOnFront.to_string());
        assert_eq!((part(refusal, "move"), part(refusal, "loop")), (&Value::count(place), &Value::Null));
        // The moves before it can be gone on from.
        let answer = server.value("/step", &asked(&loops, 1.0, &moves[..place], None));
        assert_eq!(list(&answer, "outcomes").len(), place);
    }
    let answer = server.value("/step", &asked(&loops, 1.0, &[first], Some([3, 4])));
    assert_eq!(part(part(part(&answer, "preview"), "refusal"), "number"), &Value::count(24));
    assert_eq!(list(&answer, "quads").len(), 1);
}

/// Where the lists that are lent at first are too short, nothing of that is seen: the moves are made again in longer ones.
#[test]
fn no_sequence_is_full() {
    let server = Server::start();
    let (loops, size) = (vec![square(54.0)], 0.2);
    let drawing = drawing(&loops);
    let settings = Settings { size, sweeps: 400, passes: 600 };
    let run = |growth: usize| {
        let mut memory = Memory::new(Places::for_outline(&drawing.outline(), size, growth).unwrap()).unwrap();
        let mesh = memory.pave(&drawing.outline(), &settings).unwrap();
        let edge = mesh.front().next().expect("an open mesh");
        (mesh.end(), mesh.quad_count(), edge)
    };
    assert_eq!(run(1).0, End::Full);
    let (end, quads, edge) = run(2);
    assert_eq!(end, End::Still);
    let answer = server.value("/step", &asked(&loops, size, &[Move::Passes(600), Move::Edge(edge)], Some(edge)));
    assert_eq!(list(&answer, "outcomes"), [Value::count(quads), Value::text("none")]);
    assert_eq!(text(part(&answer, "preview"), "outcome"), "none");
    assert_eq!(list(&answer, "quads").len(), quads);
}

/// An outline of up to 20,000 samples can be stepped.
#[test]
fn too_much_to_be_stepped() {
    let server = Server::start();
    let loops = vec![square(100.0)];
    let sampled = |size: f64| least_places(&drawing(&loops).outline(), size).unwrap().sampled_nodes;
    let (most, over) = (0.019_05, 0.019);
    assert!((19_900..=20_000).contains(&sampled(most)) && (20_001..20_100).contains(&sampled(over)));
    let said = server.post("/step", asked(&loops, over, &[], None).to_string().as_bytes());
    assert_eq!(said.status, 422);
    assert!(said.error().contains("too many samples to be stepped by hand"), "{}", said.error());
    let answer = server.value("/step", &asked(&loops, most, &[], Some([0, 1])));
    assert_eq!(part(part(&answer, "books"), "sampled"), &Value::count(sampled(most)));
    assert_eq!(text(part(&answer, "preview"), "outcome"), "placed");
}
