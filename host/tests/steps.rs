//! The motor bowl: bowl steps in Rust (common/steps.rs), with fractions, beside the entry; on floats of every kind, on runs, and on lists that
//! are no mesh.

mod common;

use common::book::{check, Answered, Sampled};
use common::rng::Rng;
use common::steps::{answer, is_sound, nearest_step};
use common::{filled, Drawing, Guarded};
use sitjorbe::raw::{steps, steps_numbers, Mesh, MeshCounts, MeshRead, Settings};
use sitjorbe::{BowlSteps, Memory, NotShown, Places, Refusal, OFF, STEPS_PER_DEGREE};

/// A mesh that owns its lists.
#[derive(Clone, Debug)]
struct Lists {
    xs: Vec<f64>,
    ys: Vec<f64>,
    next: Vec<u32>,
    prev: Vec<u32>,
    origins: Vec<u16>,
    quads: Vec<u32>,
    edges: Vec<u32>,
    counts: MeshCounts,
}

impl Lists {
    /// Nodes off the front, and quads.
    fn new(nodes: &[[f64; 2]], quads: &[[u32; 4]]) -> Lists {
        let n = nodes.len();
        Lists {
            xs: nodes.iter().map(|node| node[0]).collect(),
            ys: nodes.iter().map(|node| node[1]).collect(),
            next: vec![OFF; n],
            prev: vec![OFF; n],
            origins: vec![0; n],
            quads: quads.concat(),
            edges: vec![],
            counts: MeshCounts { nodes: n as u32, quads: quads.len(), edges: 0, front: 0 },
        }
    }

    fn of_mesh(mesh: &Mesh<'_>) -> Lists {
        let nodes: Vec<[f64; 2]> = mesh.nodes().collect();
        let (next, prev) = mesh.links();
        let counts = MeshCounts {
            nodes: nodes.len() as u32,
            quads: mesh.quad_count(),
            edges: mesh.edge_count(),
            front: mesh.front_count(),
        };
        let quads: Vec<[u32; 4]> = mesh.quads().collect();
        let edges = mesh.edges().flatten().collect();
        Lists { next: next.to_vec(), prev: prev.to_vec(), edges, counts, ..Lists::new(&nodes, &quads) }
    }

    fn read(&self) -> MeshRead<'_> {
        let Lists { xs, ys, next, prev, origins, quads, edges, .. } = self;
        MeshRead { xs, ys, next, prev, origins, quads, edges }
    }

    /// Asks the entry, with so many places and guards round all lists; the model must agree, and nothing but the buffer is written.
    fn compare(&self, places: usize) -> (u32, usize) {
        let mut buffer = filled::<i32>(places);
        let (refusal, quad, left) = answer(&self.read(), self.counts, buffer.list());
        let floats = [&self.xs, &self.ys].map(|list| Guarded::new(list));
        let numbers = [&self.next, &self.prev, &self.quads, &self.edges].map(|list| Guarded::new(list));
        let origins = Guarded::new(&self.origins);
        let [xs, ys] = floats.each_ref().map(Guarded::list);
        let [next, prev, quads, edges] = numbers.each_ref().map(Guarded::list);
        let mesh = MeshRead { xs, ys, next, prev, origins: origins.list(), quads, edges };
        let found = steps_numbers(&mesh, self.counts, buffer.list_mut());
        assert_eq!((found.refusal, found.quad), (refusal, quad), "{self:?} {places}");
        assert_eq!(buffer.list(), left, "{self:?} {places}");
        assert!(buffer.kept_from(if refusal == 0 { 2 * self.counts.nodes as usize } else { 0 }));
        assert!(floats.iter().all(Guarded::kept) && numbers.iter().all(Guarded::kept) && origins.kept());
        (refusal, quad)
    }
}

// ---- floats

/// A float that a mesh may have, of some kind.
fn coordinate(rng: &mut Rng) -> f64 {
    let half = |k: usize| (2 * k + 1) as f64 / 128.0;
    let size = match rng.below(8) {
        // Anywhere; of any exponent up to the bound's; a whole number of steps.
        0 | 1 => 1_001.0 * rng.unit().abs(),
        2 => f64::from_bits(rng.next() % 1_001f64.to_bits()),
        3 => rng.below(64_065) as f64 / 64.0,
        // A half, and the floats beside one.
        4 => half(rng.below(64_064)),
        5 => half(rng.below(64_064)).next_up(),
        6 => half(rng.below(64_064)).next_down(),
        // Too small for a normal float.
        _ => f64::from_bits(rng.next() >> 12),
    };
    if rng.once_in(2) {
        -size
    } else {
        size
    }
}

#[test]
fn every_coordinate_goes_to_its_nearest_step() {
    let mut rng = Rng(12);
    let edges = [
        0.0,
        -0.0,
        f64::from_bits(1),
        f64::MIN_POSITIVE,
        1.0 / 128.0,
        (1.0f64 / 128.0).next_up(),
        (1.0f64 / 128.0).next_down(),
        1_001.0,
        1_001f64.next_down(),
        1_000.9921875,
        1e3,
    ];
    let mut floats: Vec<f64> = edges.iter().flat_map(|&x| [x, -x]).collect();
    floats.extend((0..500_000).map(|_| coordinate(&mut rng)));
    let nodes: Vec<[f64; 2]> = floats.chunks_exact(2).map(|pair| [pair[0], pair[1]]).collect();
    let lists = Lists::new(&nodes, &[]);
    assert_eq!(lists.compare(2 * nodes.len()), (0, 0));
    let found = BowlSteps::of(&lists.read(), lists.counts).unwrap();
    let mut halves = 0;
    for (node, (count, degrees)) in nodes.iter().zip(found.counts().zip(found.degrees())) {
        for axis in 0..2 {
            // 128 times the way is at most 1: the products are exact, and their difference is small.
            let way = 128.0 * node[axis] - 2.0 * f64::from(count[axis]);
            assert!(way.abs() <= 1.0, "{} {}", node[axis], count[axis]);
            assert_eq!(degrees[axis] * f64::from(STEPS_PER_DEGREE), f64::from(count[axis]));
            halves += usize::from(way.abs() == 1.0);
        }
    }
    assert!(nodes.len() > 200_000 && halves > 50_000, "{halves} halves");
}

#[test]
fn the_models_steps_are_the_papers() {
    let cases = [
        (1.0 / 128.0, 0),
        (3.0 / 128.0, 2),
        (5.0 / 128.0, 2),
        (-1.0 / 128.0, 0),
        (-3.0 / 128.0, -2),
        ((1.0f64 / 128.0).next_down(), 0),
        ((1.0f64 / 128.0).next_up(), 1),
        (1_001.0, 64_064),
        (-1_001.0, -64_064),
        (f64::from_bits(1), 0),
        (-0.0, 0),
        (1.0, 64),
    ];
    for (x, step) in cases {
        assert_eq!(nearest_step(x), step, "{x}");
    }
}

// ---- small meshes

const SQUARE: [[f64; 2]; 4] = [[0.0, 0.0], [1.0, 0.0], [1.0, 1.0], [0.0, 1.0]];

#[test]
fn a_quad_must_turn_left_at_all_four_corners() {
    let quad = |nodes: [[f64; 2]; 4]| Lists::new(&nodes, &[[0, 1, 2, 3]]).compare(8);
    assert_eq!(quad(SQUARE), (0, 0));
    // A straight corner, one that is straight in steps alone, two corners in one step, a right turn at each corner in turn.
    assert_eq!(quad([[0.0, 0.0], [1.0, 0.0], [2.0, 0.0], [0.0, 1.0]]), (25, 0));
    assert_eq!(quad([[0.0, 0.0], [1.0, -0.001], [2.0, 0.0], [0.0, 1.0]]), (25, 0));
    assert_eq!(quad([[0.0, 0.0], [1e-9, 0.0], [1e-9, 1.0], [0.0, 1.0]]), (25, 0));
    for corner in 0..4 {
        // Past the middle of the square, so that only this corner turns right.
        let mut dented = SQUARE;
        dented[corner] = SQUARE[corner].map(|x| 0.75 - 0.5 * x);
        assert_eq!(quad(dented), (25, 0), "{dented:?}");
    }
    let backwards = [SQUARE[3], SQUARE[2], SQUARE[1], SQUARE[0]];
    assert_eq!(quad(backwards), (25, 0));
    // The smallest that can be shown: a step by a step. A little narrower, and a half goes to the even step.
    let small = |width: f64| quad([[0.0, 0.0], [width, 0.0], [width, 1.0], [0.0, 1.0]]);
    assert_eq!(small(1.0 / 64.0), (0, 0));
    assert_eq!(small((1.0f64 / 128.0).next_up()), (0, 0));
    assert_eq!(small(1.0 / 128.0), (25, 0));
}

#[test]
fn the_lowest_quad_is_named_and_23_comes_first() {
    let (good, bad) = ([0, 1, 2, 3], [0, 3, 2, 1]);
    assert_eq!(Lists::new(&SQUARE, &[good, bad, good, bad]).compare(8), (25, 1));
    assert_eq!(Lists::new(&SQUARE, &[bad, good]).compare(8), (25, 0));
    assert_eq!(Lists::new(&SQUARE, &[good, [1, 2, 3, 0], [2, 3, 0, 1]]).compare(9), (0, 0));
    // A quad past the count isn't looked at, nor is a place past the nodes.
    let mut fewer = Lists::new(&SQUARE, &[good, bad]);
    fewer.counts.quads = 1;
    assert_eq!(fewer.compare(8), (0, 0));
    for places in 0..8 {
        assert_eq!(Lists::new(&SQUARE, &[bad]).compare(places), (23, 0));
    }
    let mut far = Lists::new(&SQUARE, &[bad]);
    far.xs[2] = 1_001f64.next_up();
    assert_eq!(far.compare(8), (23, 0));
    far.xs[2] = 1_001.0;
    assert_eq!(far.compare(8).0, 25);
    assert_eq!(Lists::new(&[], &[]).compare(0), (0, 0));
}

#[test]
fn the_wrapper_says_which_quad() {
    let lists = Lists::new(&SQUARE, &[[0, 1, 2, 3], [0, 3, 2, 1]]);
    let mut places = [7; 8];
    let refused = steps(&lists.read(), lists.counts, &mut places).unwrap_err();
    assert_eq!((refused, refused.refusal(), places), (NotShown::Quad { quad: 1 }, Refusal::NotShown, [7; 8]));
    assert!(
        refused.to_string().starts_with("refused (25): ") && refused.to_string().ends_with(" (quad 1)"),
        "{refused}"
    );
    let short = steps(&lists.read(), lists.counts, &mut places[..7]).unwrap_err();
    assert_eq!((short, short.refusal(), short.refusal().number()), (NotShown::UnsoundMesh, Refusal::UnsoundMesh, 23));
    // More nodes than there are coordinates are refused, and no memory is asked for that many.
    let counts = MeshCounts { nodes: u32::MAX, ..lists.counts };
    assert_eq!(BowlSteps::of(&lists.read(), counts), Err(NotShown::UnsoundMesh));
}

// ---- runs

fn ring(points: usize, [x, y]: [f64; 2], [wide, high]: [f64; 2], rng: &mut Rng, rough: f64) -> Vec<[f64; 2]> {
    let angle = |k: usize| std::f64::consts::TAU * k as f64 / points as f64;
    (0..points)
        .map(|k| {
            let reach = 1.0 + rough * rng.unit();
            [x + wide * reach * angle(k).cos(), y + high * reach * angle(k).sin()]
        })
        .collect()
}

/// An outline and a size of some kind: rough rings, some with a blind spot; squares at the rim; narrow ones; whole coordinates; crossing
/// strokes.
fn outline(rng: &mut Rng) -> (Drawing, f64) {
    match rng.below(7) {
        0 => {
            let wide = 1.0 + 4.0 * rng.unit().abs();
            let field = ring(rng.between(5, 14), [0.0, 0.0], [wide, 0.8 * wide], rng, 0.1);
            let blind = ring(6, [0.3 * wide, 0.0], [0.1 * wide, 0.15 * wide], rng, 0.1);
            (Drawing::of_loops(&[field, blind]), wide / 4.0)
        }
        1 => {
            let points = rng.between(3, 20);
            let field = ring(points, [500.0 * rng.unit(), 500.0 * rng.unit()], [6.0, 4.0], rng, 0.4);
            (Drawing::of_loops(&[field]), 0.7 + rng.unit().abs())
        }
        2 => {
            let corner = [rng.pick(&[-1.0, 1.0]), rng.pick(&[-1.0, 1.0])];
            let ends = [995.0 - rng.unit(), 1_000.0];
            let [x, y] = corner.map(|sign| ends.map(|end| sign * end));
            (Drawing::of_loops(&[vec![[x[0], y[0]], [x[1], y[0]], [x[1], y[1]], [x[0], y[1]]]]), 1.0)
        }
        3 => {
            // A triangle, so narrow at its tip that quads there are hidden though others aren't.
            let (long, high) = (1.0 + 1.5 * rng.unit().abs(), 0.1 + 0.3 * rng.unit().abs());
            (
                Drawing::of_loops(&[vec![[0.0, 0.0], [long, 0.02 * rng.unit()], [0.0, high]]]),
                0.03 + 0.03 * rng.unit().abs(),
            )
        }
        4 => {
            // Narrower than a step, or not much wider.
            let width = rng.pick(&[1e-9, 1e-3, 0.007, 0.0078125, 0.008, 0.02, 0.05]) * (1.0 + 0.1 * rng.unit());
            let (high, slope) = (1.0 + rng.unit().abs(), 0.2 * rng.unit());
            let loops = vec![[0.0, 0.0], [width, slope * width], [width, high], [0.0, high]];
            (Drawing::of_loops(&[loops]), rng.pick(&[0.03, 0.3, 1.0]))
        }
        5 => {
            let side = |rng: &mut Rng| 1.0 + rng.below(5) as f64;
            let [w, h] = [side(rng), side(rng)];
            let points = vec![[0.0, 0.0], [w, 0.0], [w, h], [0.0, h]];
            (Drawing::of_loops(&[points]), rng.pick(&[0.5, 1.0, 2.0]))
        }
        _ => {
            let points = (0..rng.between(4, 7)).map(|_| [3.0 * rng.unit(), 3.0 * rng.unit()]).collect();
            (Drawing::of_loops(&[points]), rng.pick(&[0.02, 0.4, 0.9]))
        }
    }
}

fn sampled(mesh: &Mesh<'_>, loops: usize) -> Sampled {
    let (next, _) = mesh.links();
    let edges = next.iter().enumerate().filter(|(_, &v)| v != OFF).map(|(u, &v)| (u, v as usize)).collect();
    Sampled { nodes: mesh.nodes().collect(), edges, loops }
}

fn answered(mesh: &Mesh<'_>) -> Answered {
    let (next, _) = mesh.links();
    Answered {
        nodes: mesh.nodes().collect(),
        quads: mesh.quads().map(|quad| quad.map(|id| id as usize)).collect(),
        next: next.iter().map(|&v| (v != OFF).then_some(v as usize)).collect(),
        front: mesh.front_count(),
        loops: mesh.front_loops().map(|ids| ids.iter().map(|&id| id as usize).collect()).collect(),
    }
}

/// Runs of outlines of all kinds: the entry agrees with the model, the wrapper with the entry, and the books hold at each moment, with the
/// areas in steps among them, whether or not the mesh can be shown.
#[test]
fn runs_in_steps() {
    let mut memory =
        Memory::new(Places { field_nodes: 40_000, nodes: 3_000, quads: 3_000, edges: 8_000, points: 40 }).unwrap();
    let (mut rng, mut runs, mut hidden, mut quads) = (Rng(64), 0, [0, 0], 0);
    while runs < 3_500 {
        let (drawing, size) = outline(&mut rng);
        let settings = |passes| Settings { size, sweeps: 20, passes };
        let Ok(mesh) = memory.pave(&drawing.outline(), &settings(0)) else {
            continue;
        };
        let start = sampled(&mesh, drawing.loop_count());
        let mesh = memory.pave(&drawing.outline(), &settings(600)).unwrap();
        let lists = Lists::of_mesh(&mesh);
        let n = lists.counts.nodes as usize;
        let (refusal, quad) = lists.compare(2 * n + rng.below(3));
        let expected = if refusal == 25 { Err(NotShown::Quad { quad }) } else { Ok(n) };
        assert_eq!(mesh.steps().map(|steps| steps.counts().len()), expected, "{drawing:?} {size}");
        assert_eq!(check(&start, &answered(&mesh)), Ok(()), "{drawing:?} {size}");
        if n > 0 {
            assert_eq!(lists.compare(2 * n - 1), (23, 0));
        }
        hidden[0] += usize::from(refusal == 25);
        hidden[1] += usize::from(refusal == 25 && quad > 0);
        quads += lists.counts.quads;
        runs += 1;
    }
    println!("{runs} runs of {quads} quads; {} can't be shown, {} of them past quad 0", hidden[0], hidden[1]);
    assert!(hidden[0] > 100 && hidden[1] > 10 && quads > 30_000, "{hidden:?} {quads}");
}

#[test]
fn the_papers_sliver_cannot_be_shown() {
    let mut memory = Memory::new(Places { field_nodes: 1_600, nodes: 100, quads: 100, edges: 300, points: 4 }).unwrap();
    let sliver = Drawing::of_loops(&[vec![[0.0, 0.0], [1e-9, 0.0], [1e-9, 1.0], [0.0, 1.0]]]);
    let settings = Settings { size: 1.0, sweeps: 400, passes: 600 };
    let mesh = memory.pave(&sliver.outline(), &settings).unwrap();
    assert_eq!(mesh.steps(), Err(NotShown::Quad { quad: 0 }));
    let square = Drawing::square(2.0);
    let steps = memory.pave(&square.outline(), &settings).unwrap().steps().unwrap();
    assert_eq!(steps.counts().collect::<Vec<_>>()[..4], [[0, 0], [64, 0], [128, 0], [128, 64]]);
    assert_eq!(steps.degrees().last(), Some([1.0, 1.0]));
}

// ---- lists that are no mesh

/// Something is changed that a run wouldn't leave so.
fn damage(rng: &mut Rng, lists: &mut Lists) {
    let id = |rng: &mut Rng, n: usize| rng.pick(&[0, 1, n as u32, u32::MAX, u32::MAX - 1, 7]);
    let n = lists.xs.len();
    let any = |rng: &mut Rng, length: usize| rng.below(length.max(1));
    match rng.below(12) {
        0 => lists.counts.nodes = id(rng, n),
        1 => lists.counts.quads = rng.pick(&[0, 1, lists.quads.len() / 4 + 1, usize::MAX, usize::MAX / 4]),
        2 => lists.counts.edges = rng.pick(&[0, 1, lists.edges.len() / 2 + 1, usize::MAX, usize::MAX / 2]),
        3 => lists.counts.front = rng.pick(&[0, 1, lists.counts.front.wrapping_add(1), usize::MAX]),
        4 | 5 => {
            let list = if rng.once_in(2) { &mut lists.next } else { &mut lists.prev };
            let (at, link) = (any(rng, list.len()), id(rng, n));
            list.iter_mut().skip(at).take(1).for_each(|place| *place = link);
        }
        6 => {
            let (at, other) = (any(rng, lists.quads.len()), id(rng, n));
            lists.quads.iter_mut().skip(at).take(1).for_each(|place| *place = other);
        }
        7 => {
            let (at, other) = (any(rng, lists.edges.len()), id(rng, n));
            lists.edges.iter_mut().skip(at).take(1).for_each(|place| *place = other);
        }
        8 | 9 => {
            let list = if rng.once_in(2) { &mut lists.xs } else { &mut lists.ys };
            let at = any(rng, list.len());
            let rim = 1_001f64;
            let values =
                [f64::NAN, f64::INFINITY, -f64::INFINITY, rim, -rim, rim.next_up(), -rim.next_up(), 1e300, -0.0, 0.5];
            let value = rng.pick(&values);
            list.iter_mut().skip(at).take(1).for_each(|place| *place = value);
        }
        10 => {
            let length = rng.below(n + 1);
            match rng.below(5) {
                0 => lists.xs.truncate(length),
                1 => lists.ys.truncate(length),
                2 => lists.next.truncate(length),
                3 => lists.prev.truncate(length),
                _ => lists.origins.truncate(length),
            }
        }
        _ => lists.origins.iter_mut().for_each(|origin| *origin = rng.next() as u16),
    }
}

#[test]
fn damaged_meshes_are_answered_as_the_model_has_it() {
    let mut memory =
        Memory::new(Places { field_nodes: 1_600, nodes: 200, quads: 200, edges: 600, points: 40 }).unwrap();
    let settings = |passes| Settings { size: 1.0, sweeps: 20, passes };
    let base: Vec<Lists> = [(4.0, 600), (4.0, 1), (3.0, 0)]
        .map(|(side, passes)| {
            Lists::of_mesh(&memory.pave(&Drawing::square(side).outline(), &settings(passes)).unwrap())
        })
        .to_vec();
    let (mut rng, mut found) = (Rng(23), [0; 3]);
    for _ in 0..30_000 {
        let mut mesh = base[rng.below(base.len())].clone();
        for _ in 0..rng.between(1, 3) {
            damage(&mut rng, &mut mesh);
        }
        // From two places too few to three too many.
        let places = (2 * (mesh.counts.nodes as usize).min(300) + rng.below(6)).saturating_sub(2);
        let (refusal, _) = mesh.compare(places);
        assert!(refusal != 0 || is_sound(&mesh.read(), mesh.counts));
        found[match refusal {
            0 => 0,
            23 => 1,
            _ => 2,
        }] += 1;
    }
    assert!(found.iter().all(|&count| count > 200), "{found:?}");
}
