//! Outlines, points, settings and field records to ask about, random and hostile; the same for a seed on every machine.

use sitjorbe::{FieldRecord, Places};

use crate::blocks::Blocks;
pub use crate::common::rng::Rng;
use crate::common::{list_lengths, Drawing, Lengths};

/// Accepted coordinates where something ends: the zeros, the smallest floats, squares that vanish, the bound and its neighbour.
const EDGES: [f64; 14] = [
    0.0,
    -0.0,
    f64::from_bits(1),
    -f64::from_bits(1),
    f64::from_bits(0x000f_ffff_ffff_ffff),
    f64::MIN_POSITIVE,
    2.3e-162,
    -1.5e-162,
    1e-150,
    1.0,
    1e3,
    -1e3,
    1e3f64.next_down(),
    -(1e3f64.next_down()),
];

/// Coordinates that are refused.
const REFUSED: [f64; 7] =
    [f64::NAN, f64::INFINITY, f64::NEG_INFINITY, 1e3f64.next_up(), -(1e3f64.next_up()), f64::MAX, -1e9];

/// How the coordinates of an outline are drawn.
#[derive(Clone, Copy)]
enum Shape {
    /// Anywhere in a box.
    Scattered { centre: [f64; 2], reach: f64 },
    /// On few whole numbers: repeated points, level and upright edges, equal distances.
    Lattice,
    /// Where something ends.
    Edges,
    /// So near to 0 that squares vanish.
    Tiny,
}

impl Shape {
    fn any(rng: &mut Rng) -> Shape {
        match rng.below(6) {
            0 | 1 => {
                let reach = rng.pick(&[1e-3, 0.5, 10.0, 90.0, 400.0]);
                Shape::Scattered { centre: [500.0 * rng.unit(), 500.0 * rng.unit()], reach }
            }
            2 | 3 => Shape::Lattice,
            4 => Shape::Edges,
            _ => Shape::Tiny,
        }
    }

    fn point(self, rng: &mut Rng) -> [f64; 2] {
        match self {
            Shape::Scattered { centre, reach } => centre.map(|c| c + reach * rng.unit()),
            Shape::Lattice => [0, 0].map(|_| rng.below(7) as f64 - 3.0),
            Shape::Edges => [0, 0].map(|_| rng.pick(&EDGES)),
            Shape::Tiny => [0, 0].map(|_| rng.unit() * rng.pick(&[1e-320, 1e-162, 1e-160, 1e-150])),
        }
    }
}

/// An outline, spoilt once in four.
pub fn drawing(rng: &mut Rng) -> Drawing {
    let shape = Shape::any(rng);
    let loops: Vec<Vec<[f64; 2]>> =
        (0..rng.pick(&[1, 1, 2, 3, 6])).map(|_| (0..3 + rng.below(14)).map(|_| shape.point(rng)).collect()).collect();
    let mut drawing = Drawing::of_loops(&loops);
    if rng.once_in(4) {
        spoil(rng, &mut drawing);
    }
    drawing
}

/// Makes one thing wrong: lists and lengths (1), a short loop (2), a coordinate (3, 4).
fn spoil(rng: &mut Rng, drawing: &mut Drawing) {
    let Drawing { outer, holes, hole_lengths: lengths } = drawing;
    match rng.below(10) {
        0 => outer.push(1.0),
        1 => drop(outer.pop()),
        2 => holes.push(1.0),
        3 => lengths.push(rng.pick(&[0, 1, 3, usize::MAX])),
        4 => drop(lengths.pop()),
        5 => {
            // The lengths' sum wraps round to what it was.
            let big = rng.pick(&[usize::MAX / 2, usize::MAX - 1, 1 << 63, 5]);
            let at = rng.below(lengths.len() + 1);
            lengths.splice(at..at, [big, 0usize.wrapping_sub(big)]);
        }
        6 => outer.truncate(2 * rng.below(3)),
        7 if !lengths.is_empty() => {
            // A hole shorter, the next longer.
            let k = rng.below(lengths.len());
            let moved = rng.below(lengths[k] + 1);
            lengths[k] -= moved;
            lengths.insert(k + 1, moved);
        }
        _ => {
            let list = if holes.is_empty() || rng.once_in(2) { outer } else { holes };
            let at = rng.below(list.len());
            list[at] = rng.pick(&REFUSED);
        }
    }
}

/// An outline of many points in a ring of steps, some of them in a hole.
pub fn large(rng: &mut Rng, points: usize) -> Drawing {
    let step = |k: usize| [(k % 256) as f64 * 3.0 - 400.0, (k / 256) as f64 * 3.0 - 400.0 + (k % 2) as f64];
    let all: Vec<[f64; 2]> = (0..points).map(step).collect();
    let (outer, hole) = all.split_at(rng.below(points / 2) + 3);
    Drawing::of_loops(&[outer.to_vec(), hole.to_vec()])
}

/// Outlines of 4,093 to 4,097 points, the last of which are too many: a ring, two loops, and as many loops of three as that makes.
pub fn about_most_points(rng: &mut Rng) -> Vec<Drawing> {
    let mut drawings = vec![];
    for points in 4_093..=4_097 {
        drawings.extend([lane(points), large(rng, points), threes(points)]);
    }
    drawings
}

/// One loop of so many points along the sides of a box of 1,000 by 4.
pub fn lane(points: usize) -> Drawing {
    let along = |k: usize| match 2_008.0 * k as f64 / points as f64 {
        s if s < 1_000.0 => [s - 500.0, 0.0],
        s if s < 1_004.0 => [500.0, s - 1_000.0],
        s if s < 2_004.0 => [1_504.0 - s, 4.0],
        s => [-500.0, 2_008.0 - s],
    };
    Drawing::of_loops(&[(0..points).map(along).collect()])
}

/// Loops of three points in rows inside an outer loop, which has those that are left.
fn threes(points: usize) -> Drawing {
    let holes = points / 3 - 1;
    let hole = |k: usize| {
        let [x, y] = [k % 40, k / 40].map(|place| 10.0 * place as f64);
        vec![[x, y], [x + 6.0, y + 1.0], [x + 2.0, y + 7.0]]
    };
    let corners = [[-20.0, -20.0], [420.0, -20.0], [420.0, 400.0], [200.0, 410.0], [-20.0, 400.0]];
    let outer = corners[..points - 3 * holes].to_vec();
    Drawing::of_loops(&[vec![outer], (0..holes).map(hole).collect()].concat())
}

/// An outline of several blocks of 16 segments, in the outer loop and in most holes. One in two has its points on quarters of whole numbers, so
/// that they are level with each other and with nodes of the field.
pub fn several_blocks(rng: &mut Rng) -> Drawing {
    let quarters = rng.once_in(2);
    let n = rng.pick(&[17, 31, 32, 33, 48, 49, 64, 96, 161]);
    let half = [3 + rng.below(5), 3 + rng.below(5)].map(|x| x as f64);
    let mut loops = vec![round_box(rng, n, [0.0, 0.0], half)];
    for _ in 0..rng.pick(&[0, 1, 1, 2, 4]) {
        let n = rng.pick(&[3, 8, 16, 17, 32, 33, 47, 64]);
        let (centre, reach) = (half.map(|x| x * rng.unit()), 0.5 + rng.unit().abs());
        loops.push(round_box(rng, n, centre, [reach, 1.5 * reach]));
    }
    for points in &mut loops {
        if quarters {
            points.as_flattened_mut().iter_mut().for_each(|x| *x = (4.0 * *x).round() / 4.0);
        }
        let start = rng.below(points.len());
        points.rotate_left(start);
        if rng.once_in(3) {
            points.reverse();
        }
    }
    Drawing::of_loops(&loops)
}

/// A loop of so many points round a centre: along the sides of a box, along an ellipse in it, or with every second point nearer to the centre.
fn round_box(rng: &mut Rng, n: usize, centre: [f64; 2], half: [f64; 2]) -> Vec<[f64; 2]> {
    let (round, teeth) = (rng.once_in(2), rng.once_in(3));
    let point = |k: usize| {
        let along = 2.0 * (4 * k % n) as f64 / n as f64 - 1.0;
        let [u, v] = [[1.0, along], [-along, 1.0], [-1.0, -along], [along, -1.0]][4 * k / n];
        let length = if round { (u * u + v * v).sqrt() } else { 1.0 };
        let share = if teeth && k % 2 == 1 { 0.7 / length } else { 1.0 / length };
        [centre[0] + half[0] * share * u, centre[1] + half[1] * share * v]
    };
    (0..n).map(point).collect()
}

/// A size at which an outline of several blocks has a moderate number of elements; most are such that nodes of the field are on quarters.
pub fn several_blocks_size(rng: &mut Rng) -> f64 {
    rng.pick(&[1.0, 1.0, 1.0, 2.0, 0.7, 1.3])
}

/// A point on or near the outline, on a ray through its points, at a bound, or anywhere.
pub fn point(rng: &mut Rng, drawing: &Drawing) -> [f64; 2] {
    let loops: Vec<&[f64]> =
        [&drawing.outer[..], &drawing.holes[..]].into_iter().filter(|list| list.len() >= 4).collect();
    if loops.is_empty() {
        return [rng.unit(), rng.unit()];
    }
    let list = rng.pick(&loops);
    let vertex = |i: usize| [list[2 * i], list[2 * i + 1]];
    let n = list.len() / 2;
    let i = rng.below(n);
    let (a, b) = (vertex(i), vertex((i + 1) % n));
    match rng.below(10) {
        0 => a,
        1 => {
            let t = rng.pick(&[0.5, 0.25, 0.1, 1.0 / 3.0]);
            [a[0] + t * (b[0] - a[0]), a[1] + t * (b[1] - a[1])]
        }
        2 => [rng.unit() * rng.pick(&[1.0, 10.0, 1e3]), a[1]],
        3 => [a[0], rng.unit() * rng.pick(&[1.0, 10.0, 1e3])],
        4 => [near(rng, a[0]), near(rng, a[1])],
        5 => [rng.pick(&EDGES), rng.pick(&EDGES)],
        6 if rng.once_in(2) => [rng.pick(&REFUSED), rng.pick(&EDGES)],
        6 => [a[0], rng.pick(&REFUSED)],
        7 => [rng.below(9) as f64 - 4.0, (rng.below(17) as f64 - 8.0) / 2.0],
        8 => {
            let c = vertex(rng.below(n));
            [(a[0] + b[0] + c[0]) / 3.0, (a[1] + b[1] + c[1]) / 3.0]
        }
        _ => [rng.unit() * 1e3, rng.unit() * 1e3],
    }
}

/// The float itself, its neighbours, or its opposite.
fn near(rng: &mut Rng, x: f64) -> f64 {
    rng.pick(&[x, x.next_up(), x.next_down(), -x])
}

// --- fields ---

/// What is lent for a field beside the outline: how many floats for values, and how many marks.
#[derive(Clone, Copy, Debug)]
pub struct Setting {
    pub size: f64,
    pub sweeps: usize,
    pub values: usize,
    pub marks: usize,
}

/// Sizes at and beyond the bounds.
const SIZES: [f64; 12] = [
    0.01,
    0.01f64.next_up(),
    0.01f64.next_down(),
    100.0,
    100f64.next_down(),
    100f64.next_up(),
    0.0,
    -0.0,
    -1.0,
    f64::NAN,
    f64::INFINITY,
    f64::from_bits(1),
];

/// An outline for a field: once in 20 without width or without height.
pub fn field_drawing(rng: &mut Rng) -> Drawing {
    let mut drawing = drawing(rng);
    if rng.once_in(20) {
        let (axis, level) = (rng.below(2), rng.pick(&EDGES));
        for list in [&mut drawing.outer, &mut drawing.holes] {
            list.iter_mut().skip(axis).step_by(2).for_each(|x| *x = level);
        }
    }
    drawing
}

/// Most sizes suit the outline, and most places are enough; the rest is anything.
pub fn setting(rng: &mut Rng, drawing: &Drawing) -> Setting {
    let size = match rng.below(8) {
        0 => rng.pick(&SIZES),
        1 => rng.pick(&[0.01, 0.1, 1.0, 10.0]) * (1.0 + 9.0 * rng.unit().abs()),
        _ => (extent(drawing) / (1.0 + 15.0 * rng.unit().abs())).clamp(0.01, 100.0),
    };
    let sweeps = match rng.below(12) {
        0 => rng.pick(&[1_001, usize::MAX]),
        1..=4 => rng.below(1_001),
        _ => rng.pick(&[0, 1, 2, 3, 20, 100, 400, 1_000]),
    };
    let mut nodes = || rng.pick(&[24, 400, 2_500, 2_500, 2_500, 2_500]);
    let [values, marks] = [2 * nodes(), nodes()];
    Setting { size, sweeps, values: values + rng.below(3), marks: marks + rng.below(3) }
}

/// The greater side of the outline's box, as far as it is a number.
pub fn extent(drawing: &Drawing) -> f64 {
    let side = |axis: usize| {
        let along =
            || [&drawing.outer, &drawing.holes].into_iter().flat_map(move |list| list.iter().skip(axis).step_by(2));
        let finite = || along().copied().filter(|x| x.is_finite());
        finite().fold(f64::NEG_INFINITY, f64::max) - finite().fold(f64::INFINITY, f64::min)
    };
    side(0).max(side(1))
}

/// A field record with its lists.
#[derive(Clone, Debug)]
pub struct Record {
    pub record: FieldRecord,
    pub values: Vec<f64>,
    pub marks: Vec<u8>,
}

/// A record that refusal 11 leaves be, of few nodes.
pub fn record(rng: &mut Rng) -> Record {
    let (nx, ny) = (2 + rng.below(6), 2 + rng.below(6));
    let h = rng.pick(&[0.001, 0.05, 0.5, 1.0, 13.7, 1e3]);
    let mut origin = || if rng.once_in(6) { rng.pick(&[2e3, -2e3, 0.0, -0.0]) } else { 500.0 * rng.unit() };
    let (xmin, ymin) = (origin(), origin());
    let values = (0..nx * ny).flat_map(|_| value(rng)).collect();
    let marks = (0..nx * ny).map(|_| rng.next() as u8).collect();
    Record { record: FieldRecord { xmin, ymin, h, nx, ny }, values, marks }
}

/// On the unit circle, on an axis, about the tolerance, at the bounds, or anything between them.
fn value(rng: &mut Rng) -> [f64; 2] {
    let (u, v) = (rng.unit(), rng.unit());
    match rng.below(6) {
        0 => rng.pick(&[[1.0, 0.0], [-1.0, 0.0], [0.0, 1.0], [0.0, -1.0], [-1.0, -0.0], [0.0, 0.0], [-0.0, -0.0]]),
        1 => [1e-12 * u, rng.pick(&[1e-12, 1e-13, 1e-162]) * v],
        2 => [rng.pick(&[4.0, -4.0]), rng.pick(&[4.0, -4.0, 0.0, 1e-300])],
        3 => [4.0 * u, 4.0 * v],
        _ => [u, (1.0 - u * u).sqrt().copysign(v)],
    }
}

/// Refusal 11's conditions are numbered from 0.
pub const CONDITIONS: usize = 14;

/// Breaks one of refusal 11's conditions, and no other.
pub fn break_condition(rng: &mut Rng, broken: &mut Record, condition: usize) {
    let Record { record, values, marks } = broken;
    let nodes = record.nodes();
    let far = [f64::NAN, f64::INFINITY, f64::NEG_INFINITY, 2e3f64.next_up(), -(2e3f64.next_up()), f64::MAX];
    match condition {
        0 => (record.nx, record.ny) = (1, nodes),
        1 => (record.nx, record.ny) = (nodes, 1),
        2 => {
            (record.nx, record.ny) = rng.pick(&[(0, 2), (2, 0), (0, 0), (0, usize::MAX)]);
            (*values, *marks) = (vec![], vec![]);
        }
        3 => {
            (record.nx, record.ny) = rng.pick(&[(501, 500), (2, 125_001), (125_001, 2), (500, 501)]);
            values.resize(2 * record.nodes(), 0.5);
            marks.resize(record.nodes(), 1);
        }
        // The product wraps round to the nodes lent.
        4 => {
            (record.nx, record.ny) =
                rng.pick(&[(1 << 63 | 2, 2), (2, 1 << 63 | 2), (1 << 62 | 1, 4), (4, 1 << 62 | 1)]);
            values.resize(8, 0.5);
            marks.resize(4, 1);
        }
        5 => drop(marks.pop()),
        6 => marks.push(1),
        7 => drop(values.pop()),
        8 => values.push(0.5),
        9 => record.h = rng.pick(&[0.001f64.next_down(), 0.0, -0.5, f64::from_bits(1), f64::NEG_INFINITY]),
        10 => record.h = rng.pick(&[1e3f64.next_up(), f64::MAX, f64::INFINITY, f64::NAN]),
        11 => record.xmin = rng.pick(&far),
        12 => record.ymin = rng.pick(&far),
        _ => {
            let at = rng.below(values.len());
            values[at] = rng.pick(&[4f64.next_up(), -(4f64.next_up()), f64::NAN, f64::INFINITY, f64::NEG_INFINITY]);
        }
    }
}

/// A point on a node or beside one, in the grid or about it, or where something ends.
pub fn grid_point(rng: &mut Rng, record: &FieldRecord) -> [f64; 2] {
    let FieldRecord { xmin, ymin, h, nx, ny } = *record;
    let mut along = |start: f64, n: usize| {
        let node = start + h * rng.below(n.clamp(1, 1_000)) as f64;
        match rng.below(12) {
            0 => rng.pick(&EDGES),
            1 if rng.once_in(3) => rng.pick(&REFUSED),
            1..=4 => near(rng, node),
            _ => node + 1.5 * h * rng.unit(),
        }
    };
    [along(xmin, nx), along(ymin, ny)]
}

/// Any two floats.
pub fn target(rng: &mut Rng) -> [f64; 2] {
    match rng.below(4) {
        0 => rng.pick(&[[1.0, 1.0], [1.0, -1.0], [-1.0, -1.0], [-1.0, 1.0], [0.0, 0.0], [0.0, 1.0], [-1.0, -0.0]]),
        1 => [0, 0].map(|_| if rng.once_in(2) { rng.pick(&REFUSED) } else { rng.pick(&EDGES) }),
        2 => [0, 0].map(|_| f64::from_bits(rng.next())),
        _ => [rng.unit(), rng.unit()],
    }
}

// --- runs ---

/// What a run has used where space was ample, and the points sampled.
#[derive(Clone, Copy, Debug)]
pub struct Needs {
    pub places: Places,
    pub sampled: usize,
}

/// The ways to choose the places for a run are numbered from 0.
pub const SPACES: usize = 13;

/// Exactly enough places, more, or too few of some.
pub fn places(rng: &mut Rng, needs: &Needs, space: usize) -> Places {
    let Needs { places: exact, sampled } = *needs;
    let Places { field_nodes, nodes, quads, edges, .. } = exact;
    let mut between = |low: usize, high: usize| rng.between(low, high);
    match space {
        0 => exact,
        1 => Places {
            field_nodes: field_nodes + between(0, 9),
            nodes: nodes + between(0, 9),
            quads: quads + between(0, 9),
            edges: edges + between(0, 9),
            ..exact
        },
        2 => Places { nodes: nodes - 1, ..exact },
        3 => Places { nodes: between(sampled, nodes), ..exact },
        4 => Places { nodes: between(0, sampled), ..exact },
        5 => Places { quads: quads.saturating_sub(1), ..exact },
        6 => Places { quads: between(0, quads), ..exact },
        7 => Places { quads: 0, ..exact },
        8 => Places { edges: edges - 1, ..exact },
        9 => Places { edges: between(sampled, edges), ..exact },
        10 => Places { edges: between(0, sampled), ..exact },
        11 => {
            Places { nodes: between(sampled, nodes), quads: between(0, quads), edges: between(sampled, edges), ..exact }
        }
        _ => Places { field_nodes: field_nodes - 1, ..exact },
    }
}

/// None, few, all that count, and more.
pub fn passes(rng: &mut Rng) -> usize {
    rng.pick(&[0, 0, 1, 2, 3, 5, 599, 600, 601, usize::MAX])
}

/// Lists of which the shortest have these places, for so many loops, and pools and blocks of these lengths; of those that hold the same places
/// one is the shortest, and others may be longer. The list of tries is full, short or empty.
pub fn lengths(rng: &mut Rng, places: &Places, loops: usize, pools: [usize; 2], blocks: usize) -> Lengths {
    let mut lengths = list_lengths(*places);
    let [values, marks, xs, ys, next, prev, snapshot, origins, quads, edges, ids, by_loop, scratch @ ..] = &mut lengths;
    let tried = [places.tried(), rng.below(places.nodes.clamp(1, 1_000)), rng.below(3)][rng.below(3)];
    *scratch = [pools[0], pools[1], blocks, tried];
    *by_loop = loops + rng.below(4);
    let by_node = [xs, ys, next, prev, snapshot, origins, ids];
    let shortest = rng.below(by_node.len());
    for (_, length) in by_node.into_iter().enumerate().filter(|(k, _)| *k != shortest) {
        *length += rng.below(4);
    }
    let fewer_values = rng.once_in(2);
    *values += rng.below(if fewer_values { 2 } else { 6 });
    *marks += if fewer_values { rng.below(4) } else { 0 };
    *quads += rng.below(4);
    *edges += rng.below(2);
    lengths
}

// --- pools and blocks ---

/// How the lists for a run's own use are chosen.
#[derive(Clone, Copy, Debug)]
pub struct Scratch {
    pub pools: Pools,
    pub blocks: Blocks,
}

impl Scratch {
    /// Those that every outline is paved with: all that a run can use, nothing, and less than it can use.
    pub const EACH: [Scratch; 4] = [
        Scratch { pools: Pools::Ample, blocks: Blocks::Full },
        Scratch { pools: Pools::None, blocks: Blocks::None },
        Scratch { pools: Pools::SevenCells, blocks: Blocks::Part },
        Scratch { pools: Pools::RunOut, blocks: Blocks::Exact },
    ];

    /// Pools and blocks of any kind.
    pub fn pick(rng: &mut Rng) -> [Scratch; 1] {
        [Scratch { pools: rng.pick(&Pools::ALL), blocks: rng.pick(&Blocks::ALL) }]
    }
}

/// How the lengths of a run's pools are chosen.
#[derive(Clone, Copy, Debug, PartialEq, Eq, PartialOrd, Ord)]
pub enum Pools {
    /// What `Places::pools` says.
    Ample,
    /// No cell in either.
    None,
    /// Seven cells in each. They come with ten or eleven places, so that only the least outlines don't run out at once: a pool's length
    /// decides both numbers. `Crowded` is for many items in few cells.
    SevenCells,
    /// One or both run out in the midst of the run, where it files anything then.
    RunOut,
    NodesAlone,
    EdgesAlone,
    /// Just the places that are needed in one, and one fewer in the other.
    Exact,
    /// Enough places, and so many cells that the keys (i, j) and (i + 1, j - 1) share one: chains are long.
    Crowded,
}

impl Pools {
    pub const ALL: [Pools; 8] = [
        Pools::Ample,
        Pools::None,
        Pools::SevenCells,
        Pools::RunOut,
        Pools::NodesAlone,
        Pools::EdgesAlone,
        Pools::Exact,
        Pools::Crowded,
    ];

    /// The lengths of `node_pool` and `edge_pool` for a run in these places that files so much.
    pub fn lengths(self, rng: &mut Rng, places: &Places, filed: &Filed) -> [usize; 2] {
        let [nodes, edges] = places.pools();
        let Filed { first, all } = *filed;
        let any = rng.below(4);
        match self {
            Pools::Ample => [nodes, edges],
            Pools::None => [any, rng.below(4)],
            Pools::SevenCells => [28 + any, 28 + rng.below(4)],
            Pools::NodesAlone => [nodes, any],
            Pools::EdgesAlone => [any, edges],
            Pools::RunOut => {
                let [node_pool, edge_pool] = [0, 1].map(|k| with_places(rng.between(first[k], all[k].max(1) - 1)));
                [[node_pool, edges], [nodes, edge_pool], [node_pool, edge_pool]][rng.below(3)]
            }
            Pools::Exact => [0, 1].map(|k| with_places(all[k].saturating_sub((any + k) % 2))),
            Pools::Crowded => all.map(|places| crowded(places) + any),
        }
    }
}

/// How many places a run takes in `node_pool` and `edge_pool`.
#[derive(Clone, Copy, Debug, Default)]
pub struct Filed {
    /// Before the first pass.
    pub first: [usize; 2],
    pub all: [usize; 2],
}

/// The places of a pool of this length, if it has a cell: crates/index_pools/specs/Pool.antt has the layout.
pub fn pool_places(length: usize) -> Option<usize> {
    (length >= 4).then(|| (length - 2 - length / 4) / 2)
}

/// The least length with so many places.
fn with_places(places: usize) -> usize {
    (8 * places / 3..).find(|&length| pool_places(length) >= Some(places)).expect("places grow with the length")
}

/// A length with so many places, or more, whose cells divide what the index's stride is above 1.
fn crowded(places: usize) -> usize {
    let cells = with_places(places).div_ceil(4);
    4 * (cells..).find(|cells| 2_654_435_760 % cells == 0).expect("it divides itself")
}
