//! The checker of the exact books: it lets good runs pass, and finds whatever is wrong with a spoilt one.

mod common;

use common::book::{balances, check, nets, Answered, Sampled};
use common::whole::{unit, Whole};

/// The worked square (0,0) (2,0) (2,2) (0,2) at size 1, as sampled.
fn square() -> Sampled {
    let nodes = [[0, 0], [1, 0], [2, 0], [2, 1], [2, 2], [1, 2], [0, 2], [0, 1]];
    Sampled { nodes: nodes.map(|node| node.map(f64::from)).into(), edges: ring(0, 8), loops: 1 }
}

fn ring(first: usize, nodes: usize) -> Vec<(usize, usize)> {
    (0..nodes).map(|k| (first + k, first + (k + 1) % nodes)).collect()
}

fn links(nodes: usize, edges: &[(usize, usize)]) -> Vec<Option<usize>> {
    let mut next = vec![None; nodes];
    edges.iter().for_each(|&(u, v)| next[u] = Some(v));
    next
}

/// The listing of its run, and the front that is left.
fn square_run() -> Answered {
    let mut nodes = square().nodes;
    nodes.push([1.0, 1.0]);
    let quads = vec![[0, 1, 8, 7], [1, 2, 3, 8], [3, 4, 5, 8], [5, 6, 7, 8]];
    Answered { nodes, quads, next: links(9, &[(7, 8), (8, 7)]), front: 2, loops: vec![] }
}

/// The same run, stopped after three quads.
fn stopped_run() -> Answered {
    let mut run = square_run();
    run.quads.pop();
    let front = [(5, 6), (6, 7), (7, 8), (8, 5)];
    Answered { next: links(9, &front), front: 4, loops: vec![vec![5, 6, 7, 8]], ..run }
}

/// Nothing placed yet.
fn unpaved(sampled: &Sampled) -> Answered {
    let (nodes, next) = (sampled.nodes.clone(), links(sampled.nodes.len(), &sampled.edges));
    Answered { nodes, quads: vec![], next, front: sampled.edges.len(), loops: vec![(0..sampled.nodes.len()).collect()] }
}

#[test]
fn good_runs_pass() {
    for run in [square_run(), stopped_run(), unpaved(&square())] {
        assert_eq!(check(&square(), &run), Ok(()));
    }
}

/// Spoils one thing.
type Spoiler = fn(&mut Sampled, &mut Answered);

/// What is spoilt, how, and what the checker says of it.
const SPOILERS: [(&str, Spoiler, &str); 26] = [
    ("a quad dropped", |_, run| run.quads.truncate(3), "the edge from"),
    ("the first quad dropped", |_, run| run.quads = run.quads[1..].to_vec(), "the edge from"),
    ("a quad twice", |_, run| run.quads.push(run.quads[2]), "the edge 3 to 4 isn't there"),
    ("a quad begun at another corner", |_, run| run.quads[0].rotate_left(1), "the edge 1 to 8 isn't there"),
    ("a quad run backwards", |_, run| run.quads[0].reverse(), "the edge 7 to 8 isn't there"),
    ("a node skipped", |_, run| run.quads[0][2] = 9, "9 isn't the number of the next node"),
    ("a node that is no node", |_, run| run.quads[3][3] = usize::MAX, "isn't the number of the next node"),
    ("a corner twice", |_, run| run.quads[2][2] = 8, "isn't the number of the next node"),
    ("a sampled node moved", |_, run| run.nodes[3][1] = 1f64.next_up(), "the nodes differ"),
    ("a sampled node at -0", |_, run| run.nodes[0][0] = -0.0, "the nodes differ"),
    ("a new node moved out of its quads", |_, run| run.nodes[8] = [-0.5, 1.0], "the sine at"),
    ("a new node moved to a flat corner", |_, run| run.nodes[8] = [0.5625, 0.5625], "the sine at 8"),
    ("a new node no number", |_, run| run.nodes[8][0] = f64::NAN, "a coordinate isn't finite"),
    ("a node short", |_, run| run.nodes.truncate(8), "node 8 isn't answered"),
    ("a node too many", |_, run| run.nodes.push([1.0, 1.0]), "the nodes differ"),
    ("a link short", |_, run| run.next.truncate(8), "the nodes' links are more or fewer"),
    ("an edge skipped", |_, run| run.next[8] = None, "the edge from 8"),
    ("an edge left on", |_, run| run.next[0] = Some(1), "the edge from 0"),
    ("an edge elsewhere", |_, run| run.next[7] = Some(6), "the edge from 7"),
    ("a front edge too many", |_, run| run.front += 1, "2 front edges, not 3"),
    ("a loop of two listed", |_, run| run.loops.push(vec![7, 8]), "aren't those listed"),
    ("another outline", |sampled, _| sampled.nodes[4] = [2.5, 2.5], "the nodes differ"),
    ("a loop too few", |sampled, _| sampled.loops = 2, "1 loops, where the outline has 2"),
    ("an edge of the outline missing", |sampled, _| sampled.edges.truncate(7), "the front stops at 7"),
    ("an edge of the outline twice", |sampled, _| sampled.edges.push((0, 1)), "node 0 has two edges out"),
    ("two edges to a node", |sampled, _| sampled.edges[6].1 = 0, "two edges lead to 0"),
];

#[test]
fn spoilt_runs_are_found() {
    for (what, spoil, expected) in SPOILERS {
        let (mut sampled, mut run) = (square(), square_run());
        spoil(&mut sampled, &mut run);
        let found = check(&sampled, &run).expect_err(what);
        assert!(found.contains(expected), "{what}: {found}");
    }
}

/// What spoils the balance of what is answered.
const UNBALANCED: [Spoiler; 7] = [
    |_, run| run.quads.truncate(3),
    |_, run| run.quads.push(run.quads[2]),
    |_, run| run.quads[0].swap(1, 3),
    |_, run| run.nodes[3][0] = 2f64.next_up(),
    |_, run| run.next[8] = None,
    |_, run| run.next[4] = Some(5),
    |sampled, _| sampled.edges.truncate(4),
];

#[test]
fn areas_that_do_not_balance_are_found() {
    assert!(balances(&square(), &square_run()) && balances(&square(), &stopped_run()));
    for (k, spoil) in UNBALANCED.iter().enumerate() {
        let (mut sampled, mut run) = (square(), square_run());
        spoil(&mut sampled, &mut run);
        assert!(!balances(&sampled, &run), "spoiler {k}");
    }
}

/// What is spoilt in figures, and whether the areas still balance: those of a loop along one straight line are 0, its figures aren't.
const UNNETTED: [(Spoiler, bool); 7] = [
    (|_, run| run.quads.truncate(3), false),
    (|_, run| run.quads.push(run.quads[2]), false),
    (|_, run| run.quads[0].swap(2, 3), false),
    (|_, run| run.next[8] = None, false),
    (|sampled, _| sampled.edges.truncate(4), false),
    (|_, run| [(0, 1), (1, 2), (2, 0)].iter().for_each(|&(u, v)| run.next[u] = Some(v)), true),
    (|sampled, _| sampled.edges.extend([(6, 0), (0, 7), (7, 6)]), true),
];

#[test]
fn figures_that_do_not_agree_are_found() {
    assert!(nets(&square(), &square_run()) && nets(&square(), &stopped_run()) && nets(&square(), &unpaved(&square())));
    for (k, (spoil, balanced)) in UNNETTED.iter().enumerate() {
        let (mut sampled, mut run) = (square(), square_run());
        spoil(&mut sampled, &mut run);
        assert!(!nets(&sampled, &run), "spoiler {k}");
        assert_eq!(balances(&sampled, &run), *balanced, "spoiler {k}");
    }
    // A loop of two nets nothing, wherever it is.
    let mut run = square_run();
    (run.next[0], run.next[4]) = (Some(4), Some(0));
    assert!(nets(&square(), &run) && balances(&square(), &run));
}

#[test]
fn every_other_number_in_a_quad_is_found() {
    for (quad, corner, id) in (0..4).flat_map(|quad| (0..36).map(move |k| (quad, k / 9, k % 9))) {
        let mut run = square_run();
        if run.quads[quad][corner] != id {
            run.quads[quad][corner] = id;
            assert!(check(&square(), &run).is_err(), "corner {corner} of quad {quad} is {id}");
        }
    }
}

#[test]
fn spoilt_loops_are_found() {
    let listings: [Vec<Vec<usize>>; 5] =
        [vec![], vec![vec![6, 7, 8, 5]], vec![vec![5, 8, 7, 6]], vec![vec![5, 6, 7]], vec![vec![5, 6, 7, 8]; 2]];
    for loops in listings {
        assert!(check(&square(), &Answered { loops, ..stopped_run() }).is_err());
    }
    let mut odd = square();
    odd.nodes.pop();
    odd.edges = ring(0, 7);
    assert!(check(&odd, &unpaved(&odd)).is_err_and(|found| found.contains("a loop is odd")));
}

/// Four points as sampled, and the run that places them as one quad.
fn one_quad(nodes: [[f64; 2]; 4]) -> Result<(), String> {
    let sampled = Sampled { nodes: nodes.into(), edges: ring(0, 4), loops: 1 };
    let run = Answered {
        nodes: nodes.into(),
        quads: vec![[0, 1, 2, 3]],
        next: links(4, &[(2, 3), (3, 2)]),
        front: 2,
        loops: vec![],
    };
    check(&sampled, &run)
}

/// A parallelogram at the origin.
fn parallelogram([x, y]: [f64; 2], [z, w]: [f64; 2]) -> Result<(), String> {
    one_quad([[0.0, 0.0], [x, y], [x + z, y + w], [z, w]])
}

#[test]
fn sines_and_sides_are_exact() {
    // The sine is 1/3 where the second side is (√8, 1); neither of the floats beside √8 is it.
    let root = 8f64.sqrt();
    assert!(root * root > 8.0, "the float above");
    assert!(parallelogram([4.0, 0.0], [root, 1.0]).is_err_and(|found| found.contains("sine")));
    assert_eq!(parallelogram([4.0, 0.0], [root.next_down(), 1.0]), Ok(()));
    assert!(parallelogram([0.0, 1.0], [1.0, 0.0]).is_err_and(|found| found.contains("sine")), "turns right");
    assert!(parallelogram([1.0, 1.0], [2.0, 2.0]).is_err_and(|found| found.contains("sine")), "is flat");
    let rectangle = |side: f64| parallelogram([side, 0.0], [0.0, 1.0]);
    let found = [1e-151, 1e-150f64.next_down(), f64::from_bits(1)].map(rectangle);
    assert!(found.iter().all(|found| found.as_ref().is_err_and(|what| what.contains("is short"))), "{found:?}");
    assert_eq!([1e-149, 1e-150f64.next_up(), 1.0].map(rectangle), [const { Ok(()) }; 3]);
}

#[test]
fn areas_are_exact() {
    let tiny = f64::from_bits(1);
    let sampled =
        |x: f64| Sampled { nodes: vec![[-1e3, -1e3], [1e3, -1e3], [x, 1e3], [-1e3, 1e3]], edges: ring(0, 4), loops: 1 };
    for x in [1e3, tiny, -tiny] {
        assert_eq!(check(&sampled(x), &unpaved(&sampled(x))), Ok(()));
    }
    assert_eq!(unit(3.0 * tiny), Some(-1074));
    let area = |x: f64| &Whole::of_float(x, -1074) * &Whole::of_float(1e3, -1074);
    assert!((&area(1e3) - &area(1e3f64.next_down())).is_positive());
    assert!((&area(-tiny) + &area(tiny)) == Whole::default());
}

#[test]
fn whole_numbers_agree_with_those_of_128_bits() {
    let whole = |n: i128| {
        let size = n.unsigned_abs();
        let low = &Whole::of(size as u64) + &(&Whole::power(2, 64) * &Whole::of((size >> 64) as u64));
        if n < 0 {
            &Whole::default() - &low
        } else {
            low
        }
    };
    let ends = [0, 1, 2, 3, 1 << 31, 1 << 32, (1 << 62) - 1, 1 << 62, (1 << 63) - 1];
    let all: Vec<i128> = ends.into_iter().flat_map(|n: i128| [n, -n]).collect();
    for (&m, &n) in all.iter().flat_map(|m| all.iter().map(move |n| (m, n))) {
        for (m, n) in [(m, n), (m * n, n), (m * n, -m), (m * m, n * n)] {
            assert_eq!(&whole(m) + &whole(n), whole(m + n), "{m} + {n}");
            assert_eq!(&whole(m) - &whole(n), whole(m - n), "{m} - {n}");
            assert_eq!((whole(m).is_positive(), whole(m).is_negative()), (m > 0, m < 0), "{m}");
        }
        assert_eq!(&whole(m) * &whole(n), whole(m * n), "{m} * {n}");
        // (m² + n)² two ways, of more digits.
        let (square, other) = (whole(m * m), whole(n));
        let sum = &square + &other;
        let apart = &(&(&square * &square) + &(&Whole::of(2) * &(&square * &other))) + &(&other * &other);
        assert_eq!(&sum * &sum, apart, "{m}, {n}");
    }
    for (x, n) in [(0.0, 0), (-0.0, 0), (1.5, 6), (-1_000.0, -4_000), (0.25, 1), (1e18, 4_000_000_000_000_000_000)] {
        assert_eq!(Whole::of_float(x, -2), whole(n), "{x}");
    }
}
