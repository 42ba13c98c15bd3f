//! Closings: what holds of each closed mesh, worked out from the run and the outline by other means than the closing's own; hostile outlines; the same answer each time.

mod common;

use std::collections::{BTreeMap, BTreeSet};
use std::thread;

use common::fields::{field, KINDS};
use common::rng::Rng;
use common::Drawing;
use sitjorbe::closing::{close, Closed, Closing, Effort, Kind, Progress, Reason, Stage, Way};
use sitjorbe::raw::{Outline, Settings};
use sitjorbe::{Memory, Places, OFF};

const SWEEPS: usize = 60;

/// A run's nodes and quads, owned.
struct Paved {
    nodes: Vec<[f64; 2]>,
    quads: Vec<[u32; 4]>,
    /// The sampled outline's edges, the field on the left.
    rim: BTreeSet<(u32, u32)>,
}

fn paved(drawing: &Drawing, size: f64) -> Paved {
    let outline = drawing.outline();
    let mut memory = Memory::new(Places::for_outline(&outline, size, 2).unwrap()).unwrap();
    let start = memory.pave(&outline, &Settings { passes: 0, sweeps: 0, size }).unwrap();
    let rim = start.front().map(|[u, v]| (u, v)).collect();
    let mesh = memory.pave(&outline, &Settings { size, sweeps: SWEEPS, passes: 600 }).unwrap();
    Paved { nodes: mesh.nodes().collect(), quads: mesh.quads().collect(), rim }
}

impl Paved {
    fn close(
        &self,
        outline: &Outline<'_>,
        size: f64,
        effort: Effort,
        progress: &mut dyn FnMut(Progress) -> bool,
    ) -> Closing {
        close(outline, size, &self.nodes, &self.quads, effort, progress)
    }

    fn usual(&self, way: Way) -> Effort {
        Effort::usual(way, self.nodes.len())
    }
}

fn closing(drawing: &Drawing, size: f64, way: Way) -> (Paved, Closing) {
    let paved = paved(drawing, size);
    let answer = paved.close(&drawing.outline(), size, paved.usual(way), &mut |_| true);
    (paved, answer)
}

fn bits(node: [f64; 2]) -> [u64; 2] {
    node.map(f64::to_bits)
}

/// What holds of every closed mesh; an error says what doesn't.
fn check(paved: &Paved, closed: &Closed, way: Way) -> Result<(), String> {
    let (nodes, quads) = (closed.nodes(), closed.quads());
    let require = |holds: bool, what: &str| if holds { Ok(()) } else { Err(what.to_string()) };
    let mut sides = BTreeMap::new();
    for quad in quads {
        (0..4).for_each(|k| *sides.entry((quad[k], quad[(k + 1) % 4])).or_insert(0) += 1);
        let corners = quad.map(|id| nodes[id as usize]);
        for k in 0..4 {
            let [a, b, c] = [3, 0, 1].map(|by| corners[(k + by) % 4]);
            let (u, v) = ([b[0] - a[0], b[1] - a[1]], [c[0] - b[0], c[1] - b[1]]);
            let sine = (u[0] * v[1] - u[1] * v[0]) / (u[0].hypot(u[1]) * v[0].hypot(v[1]));
            require(sine > 0.342, &format!("a sine of {sine}"))?;
        }
    }
    require(sides.values().all(|&times| times == 1), "a side is there twice")?;
    let bare: BTreeSet<(u32, u32)> = sides.keys().copied().filter(|&(u, v)| !sides.contains_key(&(v, u))).collect();
    require(bare == paved.rim, "the sides that aren't matched are the sampled outline's")?;
    let sampled = paved.rim.len();
    let same = nodes.iter().zip(&paved.nodes).take(sampled).all(|(&one, &other)| bits(one) == bits(other));
    require(nodes.len() >= sampled && same, "the first nodes are the sampled outline's")?;
    let area =
        |of: &mut dyn Iterator<Item = ([f64; 2], [f64; 2])>| of.map(|(a, b)| a[0] * b[1] - b[0] * a[1]).sum::<f64>();
    let at = |id: u32| nodes[id as usize];
    let whole = area(&mut paved.rim.iter().map(|&(u, v)| (at(u), at(v))));
    let parts = area(&mut quads.iter().flat_map(|quad| (0..4).map(|k| (at(quad[k]), at(quad[(k + 1) % 4])))));
    require((whole - parts).abs() < 1e-9 * whole.abs(), "the areas are equal")?;
    check_kinds(paved, closed, way)
}

/// That what is said to be kept is, and that nothing moved which may not.
fn check_kinds(paved: &Paved, closed: &Closed, way: Way) -> Result<(), String> {
    let require = |holds: bool, what: &str| if holds { Ok(()) } else { Err(what.to_string()) };
    let all: BTreeSet<[u32; 4]> = paved.quads.iter().copied().collect();
    let source = |id: u32| closed.paved_nodes()[id as usize];
    let stays =
        |id: u32| source(id) != OFF && bits(closed.nodes()[id as usize]) == bits(paved.nodes[source(id) as usize]);
    let far = far_nodes(paved);
    for (quad, kind) in closed.quads().iter().zip(closed.kinds()) {
        let was_paved = all.contains(&quad.map(source));
        require(was_paved == (*kind != Kind::New), "a paved quad has its nodes' numbers")?;
        require(*kind != Kind::Kept || quad.iter().all(|&id| stays(id)), "a kept quad has its place")?;
        require(*kind != Kind::Bent || !quad.iter().all(|&id| stays(id)), "a bent quad has moved")?;
        require(way == Way::Bend || *kind != Kind::Bent, "nothing bends that may not")?;
    }
    for id in 0..closed.nodes().len() as u32 {
        let may_move = source(id) == OFF || way == Way::Bend && !far.contains(&source(id));
        require(may_move || stays(id), "a node is where it was paved")?;
    }
    let counts = [closed.kept(), closed.moved(), closed.new_quads()];
    require(counts.iter().sum::<usize>() == closed.quads().len(), "each quad is of one kind")?;
    require(counts[0] + counts[1] + closed.given_back() == paved.quads.len(), "each paved quad is there or given back")
}

/// The paved nodes that aren't of the quads of three rings round the front, were nothing given back; a quad given back may bring the front nearer, so only those
/// eight rings away are taken.
fn far_nodes(paved: &Paved) -> BTreeSet<u32> {
    let sides: BTreeSet<(u32, u32)> = paved.quads.iter().flat_map(|q| (0..4).map(|k| (q[k], q[(k + 1) % 4]))).collect();
    let bare = |&&(u, v): &&(u32, u32)| !sides.contains(&(v, u)) && !paved.rim.contains(&(u, v));
    let mut near: BTreeSet<u32> = sides.iter().filter(bare).flat_map(|&(u, v)| [u, v]).collect();
    near.extend(paved.rim.iter().filter(|side| !sides.contains(side)).flat_map(|&(u, v)| [u, v]));
    for _ in 0..8 {
        let round: Vec<u32> =
            paved.quads.iter().filter(|q| q.iter().any(|id| near.contains(id))).flatten().copied().collect();
        near.extend(round);
    }
    (0..paved.nodes.len() as u32).filter(|id| !near.contains(id)).collect()
}

/// So many fields of all kinds, small ones.
fn fields(count: u64) -> impl Iterator<Item = (String, Drawing, f64)> {
    (0..count).map(|k| {
        let kind = KINDS[k as usize % KINDS.len()];
        let (drawing, size) = field(kind, k, 0.6);
        (format!("{kind} {k}, size {size}"), drawing, size)
    })
}

#[test]
fn fields_of_all_kinds_are_closed() {
    let mut open = Vec::new();
    for (what, drawing, size) in fields(300) {
        match closing(&drawing, size, Way::Bend) {
            (paved, Closing::Closed(closed)) => {
                check(&paved, &closed, Way::Bend).unwrap_or_else(|wrong| panic!("{what}: {wrong}"))
            }
            (_, Closing::Open(places)) => open.push((what, places)),
        }
    }
    assert!(open.len() <= 2, "{open:?}");
    assert!(open.iter().all(|(_, places)| !places.is_empty()));
}

#[test]
fn fields_are_closed_with_every_paved_node_in_its_place() {
    let mut open = Vec::new();
    for (what, drawing, size) in fields(78) {
        match closing(&drawing, size, Way::Keep) {
            (paved, Closing::Closed(closed)) => {
                check(&paved, &closed, Way::Keep).unwrap_or_else(|wrong| panic!("{what}: {wrong}"))
            }
            (_, Closing::Open(places)) => open.push((what, places)),
        }
    }
    assert!(open.len() <= 3, "{open:?}");
}

#[test]
fn a_whole_mesh_is_closed_as_it_is() {
    let (paved, answer) = closing(&Drawing::square(4.0), 1.0, Way::Bend);
    let Closing::Closed(closed) = answer else { panic!("{answer:?}") };
    check(&paved, &closed, Way::Bend).unwrap();
    assert_eq!([closed.kept(), closed.moved(), closed.given_back(), closed.new_quads()], [16, 0, 0, 0]);
    assert_eq!(closed.nodes(), paved.nodes);
    assert_eq!(closed.quads(), paved.quads);
}

#[test]
fn a_square_with_a_square_hole_is_closed() {
    let square = |low: f64, high: f64| vec![[low, low], [high, low], [high, high], [low, high]];
    let ring = Drawing::of_loops(&[square(0.0, 6.0), square(2.0, 4.0)]);
    let (paved, answer) = closing(&ring, 1.0, Way::Bend);
    let Closing::Closed(closed) = answer else { panic!("{answer:?}") };
    check(&paved, &closed, Way::Bend).unwrap();
    // Twenty quads stand; twelve more fill the row round the hole.
    assert_eq!([closed.kept() + closed.moved(), closed.given_back(), closed.quads().len()], [20, 0, 32]);
}

#[test]
fn it_is_the_same_each_time_and_in_every_thread() {
    let answers = || fields(26).map(|(_, drawing, size)| closing(&drawing, size, Way::Bend).1).collect::<Vec<_>>();
    let (here, there, other) = thread::scope(|scope| {
        let (there, other) = (scope.spawn(answers), scope.spawn(answers));
        (answers(), there.join().unwrap(), other.join().unwrap())
    });
    let exact = |answers: &[Closing]| {
        let bits_of = |answer: &Closing| match answer {
            Closing::Closed(closed) => closed.nodes().iter().map(|&node| bits(node)).collect::<Vec<_>>(),
            Closing::Open(places) => places.iter().map(|place| bits(place.at)).collect(),
        };
        answers.iter().map(bits_of).collect::<Vec<_>>()
    };
    assert!(here == there && there == other, "nodes, quads and kinds");
    assert!(exact(&here) == exact(&there) && exact(&there) == exact(&other), "bit by bit");
}

// ---- what can't be closed

/// The reasons of an open field; a closed one is checked first, and has none.
fn reasons(drawing: &Drawing, size: f64) -> Vec<Reason> {
    match closing(drawing, size, Way::Bend) {
        (paved, Closing::Closed(closed)) => {
            check(&paved, &closed, Way::Bend).unwrap_or_else(|wrong| panic!("{drawing:?}: {wrong}"));
            Vec::new()
        }
        (_, Closing::Open(places)) => {
            assert!(!places.is_empty(), "an open field has a place: {drawing:?}");
            places.iter().map(|place| place.why).collect()
        }
    }
}

fn of(outer: &[[f64; 2]], holes: &[&[[f64; 2]]]) -> Drawing {
    let mut loops = vec![outer.to_vec()];
    loops.extend(holes.iter().map(|hole| hole.to_vec()));
    Drawing::of_loops(&loops)
}

#[test]
fn a_spike_is_named_by_its_point() {
    let spike = of(&[[0.0, 0.0], [10.0, 0.0], [40.0, 1.0], [10.0, 8.0], [0.0, 8.0]], &[]);
    let found = reasons(&spike, 1.5);
    let Some(Reason::Corner { degrees, point }) = found.first() else { panic!("{found:?}") };
    assert!((degrees - 15.0).abs() < 0.5 && *point == Some(3), "{found:?}");
    assert_eq!(found[0].to_string(), format!("a corner of {degrees:.1} degrees at point 3"));
}

#[test]
fn a_blind_spot_too_near_the_rim_is_named_with_its_distance() {
    let hole = [[0.03, 11.2], [4.3, 13.2], [8.1, 10.1], [4.4, 7.1]];
    let rim = [[0.0, 0.0], [20.0, 0.0], [20.0, 20.0], [0.0, 20.0]];
    for shift in [0.0, 0.7, 1.4] {
        let found = reasons(&of(&rim, &[&hole.map(|[x, y]| [x, y + shift])]), 3.0);
        for reason in &found {
            let Reason::Gap { distance, loops, .. } = reason else { panic!("{found:?}") };
            assert!((distance - 0.03).abs() < 0.01 && *loops == [0, 1], "{found:?}");
            assert!(reason.to_string().starts_with("the blind spot lies 0.03 degrees from the rim"), "{reason}");
        }
    }
}

#[test]
fn unsound_outlines_stay_open() {
    let square = [[0.0, 0.0], [10.0, 0.0], [10.0, 10.0], [0.0, 10.0]];
    let eight = of(&[[0.0, 0.0], [10.0, 10.0], [10.0, 0.0], [0.0, 10.0]], &[]);
    let across = of(&square, &[&[[8.0, 4.0], [14.0, 4.0], [14.0, 6.0], [8.0, 6.0]]]);
    let outside = of(&square, &[&[[20.0, 4.0], [24.0, 4.0], [24.0, 6.0], [20.0, 6.0]]]);
    let nested = of(
        &square,
        &[&[[2.0, 2.0], [8.0, 2.0], [8.0, 8.0], [2.0, 8.0]], &[[4.0, 4.0], [6.0, 4.0], [6.0, 6.0], [4.0, 6.0]]],
    );
    let touching = of(&square, &[&[[0.0, 5.0], [4.0, 4.0], [4.0, 6.0]]]);
    let twice = of(&[square, square].concat(), &[]);
    for unsound in
        [eight, across, outside, nested, touching, twice, Drawing::slit(0.0, 0.0), Drawing::slit(0.001, 0.001)]
    {
        for size in [0.7, 1.3, 4.0] {
            let found = reasons(&unsound, size);
            assert!(!found.is_empty(), "{unsound:?} at {size} isn't closed");
        }
    }
}

#[test]
fn hostile_outlines_are_closed_rightly_or_stay_open() {
    let tiny = f64::from_bits(1);
    let comb: Vec<[f64; 2]> = (0..30)
        .flat_map(|k| [[f64::from(2 * k), 0.0], [f64::from(2 * k) + 1.0, 12.0]])
        .chain([[60.0, 20.0], [0.0, 20.0]])
        .rev()
        .collect();
    let many: Vec<[f64; 2]> = (0..4_096)
        .map(|k| f64::from(k) / 4_096.0 * std::f64::consts::TAU)
        .map(|t| [30.0 * t.cos(), 30.0 * t.sin()])
        .collect();
    let spots: Vec<Vec<[f64; 2]>> = (0..7)
        .map(|k| f64::from(k) * 0.9)
        .map(|t| {
            (0..8)
                .map(|j| -f64::from(j) * 0.785)
                .map(|s| [15.0 * t.cos() + 2.0 * s.cos(), 15.0 * t.sin() + 2.0 * s.sin()])
                .collect()
        })
        .collect();
    let mut seven = vec![vec![[-30.0, -30.0], [30.0, -30.0], [30.0, 30.0], [-30.0, 30.0]]];
    seven.extend(spots);
    let square = |side: f64| Drawing::square(side);
    let list = [
        (of(&[[0.0, 0.0], [30.0, 0.0], [30.0, 0.1], [0.0, 0.1]], &[]), 1.0),
        (of(&comb, &[]), 1.0),
        (of(&many, &[]), 2.0),
        (of(&many, &[]), 0.6),
        (Drawing::of_loops(&seven), 2.0),
        (square(2_000.0), 100.0),
        (
            of(
                &[[-1_000.0, -1_000.0], [1_000.0, -1_000.0], [1_000.0, 1_000.0], [-1_000.0, 1_000.0]],
                &[&[[0.0, 0.0], [tiny, 0.0], [0.0, tiny]]],
            ),
            90.0,
        ),
        (of(&[[0.0, 0.0], [tiny, 1.0], [-1.0, 1.0]], &[]), 0.3),
        (of(&[[0.0, 0.0], [1.0, 0.0], [0.4, 0.8]], &[]), 5.0),
        (square(0.01), 0.01),
        (square(0.01), 100.0),
        (Drawing::slit(1e-6, -1e-6), 0.3),
    ];
    for (drawing, size) in list {
        if Places::for_outline(&drawing.outline(), size, 2).is_ok() {
            reasons(&drawing, size);
        }
    }
}

#[test]
fn loops_at_random_are_closed_rightly_or_stay_open() {
    let mut rng = Rng(48);
    for k in 0..400 {
        let lattice = k % 2 == 0;
        let mut point = || [0, 1].map(|_| if lattice { rng.below(6) as f64 } else { 4.0 * rng.unit() });
        let outer: Vec<[f64; 2]> = (0..4 + k % 9).map(|_| point()).collect();
        let hole: Vec<[f64; 2]> = (0..3 + k % 4).map(|_| point()).collect();
        let drawing = if k % 3 == 0 { of(&outer, &[&hole]) } else { of(&outer, &[]) };
        let size = [0.4, 0.9, 2.5][k % 3];
        if Places::for_outline(&drawing.outline(), size, 2).is_ok() {
            reasons(&drawing, size);
        }
    }
}

// ---- what the caller sets

#[test]
fn progress_is_told_and_can_stop_it() {
    let (drawing, size) = field("blob", 3, 1.0);
    let (paved, mut told) = (paved(&drawing, size), Vec::new());
    let full = paved.close(&drawing.outline(), size, paved.usual(Way::Bend), &mut |progress| {
        told.push(progress);
        true
    });
    assert!(matches!(full, Closing::Closed(_)));
    let stages: Vec<Stage> = told.iter().map(|progress| progress.stage).collect();
    assert_eq!((stages[0], stages.last()), (Stage::Filling, Some(&Stage::Repairing)));
    assert!(told.windows(2).all(|pair| pair[0].steps <= pair[1].steps));
    for stop in [0, 1, told.len() / 2, told.len() - 1] {
        let mut calls = 0;
        let answer = paved.close(&drawing.outline(), size, paved.usual(Way::Bend), &mut |_| {
            calls += 1;
            calls <= stop
        });
        let Closing::Open(places) = answer else { panic!("stopped at call {stop}") };
        assert_eq!((places.len(), places[0].why, calls), (1, Reason::Stopped, stop + 1));
    }
}

#[test]
fn no_more_steps_are_taken_than_allowed() {
    let (drawing, size) = field("concave", 4, 1.0);
    let (paved, mut open) = (paved(&drawing, size), 0);
    for steps in [0, 1, 100, 3_000, 6_000, 10_000_000] {
        let mut most = 0;
        let answer = paved.close(&drawing.outline(), size, Effort { way: Way::Bend, steps }, &mut |progress| {
            most = progress.steps;
            true
        });
        assert!(most <= steps);
        let Closing::Open(places) = answer else { continue };
        assert_eq!(places[0].why, Reason::Budget);
        open += 1;
    }
    assert!((3..6).contains(&open), "{open} of these aren't enough");
}

#[test]
fn what_isnt_a_paving_of_the_outline_stays_open() {
    let (drawing, size) = field("oval", 6, 1.0);
    let paved = paved(&drawing, size);
    let (other, _) = field("oval", 5, 1.0);
    let why = |drawing: &Drawing, size: f64, nodes: &[[f64; 2]], quads: &[[u32; 4]]| match close(
        &drawing.outline(),
        size,
        nodes,
        quads,
        paved.usual(Way::Bend),
        &mut |_| true,
    ) {
        Closing::Open(places) => Some(places[0].why),
        Closing::Closed(_) => None,
    };
    let count = paved.nodes.len() as u32;
    let with = |quad: [u32; 4]| [paved.quads.clone(), vec![quad]].concat();
    let mut far = paved.nodes.clone();
    *far.last_mut().unwrap() = [f64::NAN, 0.0];
    assert_eq!(why(&drawing, size, &paved.nodes, &paved.quads), None);
    for wrong in [
        why(&other, size, &paved.nodes, &paved.quads),
        why(&drawing, 2.0 * size, &paved.nodes, &paved.quads),
        why(&drawing, f64::NAN, &paved.nodes, &paved.quads),
        why(&drawing, size, &[], &[]),
        why(&drawing, size, &far, &paved.quads),
        why(&drawing, size, &paved.nodes, &with([0, 1, 2, count])),
        why(&drawing, size, &paved.nodes, &with([0, 1, 2, 0])),
    ] {
        assert_eq!(wrong, Some(Reason::OtherOutline));
    }
    // Quads of the outline's nodes that are no paving: whatever is answered as closed is judged.
    let mut rng = Rng(7);
    for _ in 0..60 {
        let junk: Vec<[u32; 4]> =
            (0..1 + rng.below(30)).map(|_| [0; 4].map(|_| rng.below(count as usize) as u32)).collect();
        let junk: Vec<[u32; 4]> = junk.into_iter().filter(|q| (0..4).all(|k| !q[..k].contains(&q[k]))).collect();
        let answer = close(&drawing.outline(), size, &paved.nodes, &junk, paved.usual(Way::Bend), &mut |_| true);
        if let Closing::Closed(closed) = answer {
            let paved = Paved { nodes: paved.nodes.clone(), quads: junk, rim: paved.rim.clone() };
            let checked = check(&paved, &closed, Way::Bend);
            assert!(checked.is_ok() || checked.as_ref().is_err_and(|wrong| wrong.contains("paved")), "{checked:?}");
        }
    }
}
