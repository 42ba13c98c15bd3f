//! Generated cases, the same for a kind, seed and place on every machine: no angle function and no library beyond std is used.

use crate::file;
use crate::terms::{hex, Drawing, FieldRecord, Lent, Settings};

/// The kinds of cases, with what each draws. `mixed` takes one of the first for each case.
pub const KINDS: [(&str, fn(&mut Rng) -> Case); 15] = [
    ("visual", |rng| ordinary(rng, visual_field)),
    ("lattice", |rng| ordinary(rng, lattice)),
    ("concave", |rng| ordinary(rng, concave)),
    ("crossing", |rng| ordinary(rng, crossing)),
    ("holes", |rng| ordinary(rng, with_holes)),
    ("degenerate", degenerate),
    ("sizes", sizes),
    ("settings", settings),
    ("lists", lists),
    ("tight", tight),
    ("files", |rng| Case::File { bytes: whole_file(rng) }),
    ("damaged", damaged),
    ("queries", queries),
    ("directions", directions),
    ("slits", slits),
];

/// As many kinds as `mixed` takes from; those after them came later, and its cases stay the same.
const MIXED: usize = 14;

/// A question to put to oracle and port alike.
#[derive(Clone, Debug)]
pub enum Case {
    Pave {
        drawing: Drawing,
        settings: Settings,
        lent: Lent,
    },
    File {
        bytes: Vec<u8>,
    },
    Queries {
        drawing: Drawing,
        points: Vec<[f64; 2]>,
    },
    Directions {
        record: FieldRecord,
        values: Vec<f64>,
        marks: Vec<bool>,
        points: Vec<[f64; 2]>,
        targets: Vec<[f64; 2]>,
    },
}

impl Case {
    /// Case number `place` of a kind and seed; none for a kind that isn't one.
    pub fn new(kind: &str, seed: u64, place: u64) -> Option<Case> {
        let mut rng = Rng::new(seed, place);
        if kind == "mixed" {
            let (_, make) = KINDS[rng.below(MIXED)];
            return Some(make(&mut rng));
        }
        KINDS.iter().find(|(name, _)| *name == kind).map(|(_, make)| make(&mut rng))
    }

    /// The case as questions, line by line.
    pub fn lines(&self) -> String {
        match self {
            Case::Pave { drawing, settings: s, lent: l } => format!(
                "{}settings {} {} {}\nlent {} {} {} {}\npave\n",
                outline_line(drawing),
                hex(&[s.size]),
                s.sweeps,
                s.passes,
                l.field_nodes,
                l.nodes,
                l.quads,
                l.edges
            ),
            Case::File { bytes } => format!("file {}\n", bytes.iter().map(|b| format!("{b:02x}")).collect::<String>()),
            Case::Queries { drawing, points } => {
                let of_point = |p: &[f64; 2]| format!("contains {0}\nnearest {0}\ndistance {0}\n", hex(p));
                outline_line(drawing) + &points.iter().map(of_point).collect::<String>()
            }
            Case::Directions { record: r, values, marks, points, targets } => {
                let marks: String = marks.iter().map(|&mark| if mark { '1' } else { '0' }).collect();
                let head =
                    format!("record {} {} {} / {} / {marks}\n", hex(&[r.xmin, r.ymin, r.h]), r.nx, r.ny, hex(values));
                let query = |(p, t): (&[f64; 2], &[f64; 2])| format!("direction {} {}\n", hex(p), hex(t));
                head + &points.iter().zip(targets).map(query).collect::<String>()
            }
        }
    }
}

fn outline_line(drawing: &Drawing) -> String {
    let lengths: Vec<String> = drawing.hole_lengths.iter().map(|n| n.to_string()).collect();
    format!("outline {} / {} / {}\n", hex(&drawing.outer), hex(&drawing.holes), lengths.join(" "))
}

/// SplitMix64.
pub struct Rng {
    state: u64,
}

impl Rng {
    pub fn new(seed: u64, place: u64) -> Rng {
        let mut rng = Rng { state: seed };
        rng.state = rng.next() ^ place.wrapping_mul(0xd1b5_4a32_d192_ed03);
        rng
    }

    pub fn next(&mut self) -> u64 {
        self.state = self.state.wrapping_add(0x9e37_79b9_7f4a_7c15);
        let mut z = self.state;
        z = (z ^ (z >> 30)).wrapping_mul(0xbf58_476d_1ce4_e5b9);
        z = (z ^ (z >> 27)).wrapping_mul(0x94d0_49bb_1331_11eb);
        z ^ (z >> 31)
    }

    pub fn below(&mut self, n: usize) -> usize {
        (self.next() % n as u64) as usize
    }

    /// A whole number from `low` to `high`.
    pub fn whole(&mut self, low: usize, high: usize) -> usize {
        low + self.below(high - low + 1)
    }

    /// A float from `low` up to `high`.
    pub fn float(&mut self, low: f64, high: f64) -> f64 {
        low + (high - low) * ((self.next() >> 11) as f64 / (1u64 << 53) as f64)
    }

    /// True once in `n` times.
    pub fn once_in(&mut self, n: usize) -> bool {
        self.below(n) == 0
    }

    pub fn pick<T: Copy>(&mut self, list: &[T]) -> T {
        list[self.below(list.len())]
    }
}

pub type Loops = Vec<Vec<[f64; 2]>>;

// --- shapes ---

/// The point at a share of the way round the unit circle, from -1/8 turn on; even steps along a square, thrown on the circle.
fn round(share: f64) -> [f64; 2] {
    let side = (4.0 * share).floor();
    let along = 2.0 * (4.0 * share - side) - 1.0;
    let length = (1.0 + along * along).sqrt();
    let (u, v) = (1.0 / length, along / length);
    match side as i64 {
        0 => [u, v],
        1 => [-v, u],
        2 => [-u, -v],
        _ => [v, -u],
    }
}

/// A loop round a centre, counter-clockwise, the radius of each point drawn between two bounds and shaped by the direction.
fn ring(rng: &mut Rng, n: usize, centre: [f64; 2], radius: impl Fn(&mut Rng, [f64; 2], usize) -> f64) -> Vec<[f64; 2]> {
    let start = rng.float(0.0, 1.0 / n as f64);
    (0..n)
        .map(|k| {
            let u = round(start + k as f64 / n as f64);
            let r = radius(rng, u, k);
            [centre[0] + r * u[0], centre[1] + r * u[1]]
        })
        .collect()
}

/// A visual field in degrees, wider to the temporal side and below, most with a blind spot, some with a scotoma.
fn visual_field(rng: &mut Rng) -> Loops {
    let (n, side) = (rng.whole(6, 40), rng.pick(&[1.0, -1.0]));
    let outer = ring(rng, n, [0.0, 0.0], |rng, [u, v], _| {
        let reach = 60.0 + if u * side > 0.0 { 35.0 * u * u } else { 0.0 } + if v < 0.0 { 12.0 * v * v } else { 0.0 };
        reach * rng.float(0.9, 1.0)
    });
    let mut loops = vec![outer];
    if !rng.once_in(4) {
        let (n, r) = (rng.whole(4, 12), rng.float(2.0, 9.0));
        loops.push(ring(rng, n, [15.0 * side, -1.5], |_, [_, v], _| r * (0.8 + 0.2 * v * v)));
    }
    if rng.once_in(4) {
        let (n, r) = (rng.whole(3, 9), rng.float(1.0, 12.0));
        let centre = [rng.float(-30.0, 30.0), rng.float(-30.0, 30.0)];
        loops.push(ring(rng, n, centre, |rng, _, _| r * rng.float(0.6, 1.0)));
    }
    for hole in &mut loops[1..] {
        if rng.once_in(2) {
            hole.reverse();
        }
    }
    loops
}

/// Shapes on whole coordinates, many with slopes of 45 degrees: equal distances and ties.
fn lattice(rng: &mut Rng) -> Loops {
    let mut side = || rng.whole(2, 12) as f64;
    let (w, t, a, b) = (side(), side(), side(), side());
    let outer = match rng.below(6) {
        0 => vec![[0.0, 0.0], [w, 0.0], [w, t], [0.0, t]],
        1 => vec![[0.0, 0.0], [w + a, 0.0], [w + a, b], [w, b], [w, t + b], [0.0, t + b]],
        2 => vec![[w, 0.0], [0.0, w], [-w, 0.0], [0.0, -w]],
        3 => vec![
            [a, 0.0],
            [a + w, 0.0],
            [2.0 * a + w, a],
            [2.0 * a + w, a + t],
            [a + w, 2.0 * a + t],
            [a, 2.0 * a + t],
            [0.0, a + t],
            [0.0, a],
        ],
        4 => vec![[0.0, 0.0], [w, w], [2.0 * w, 0.0], [2.0 * w, t + w], [0.0, t + w]],
        _ => vec![[0.0, 0.0], [w, 0.0], [w + a, a], [w + a, a + t], [a, a + t], [0.0, t]],
    };
    let mut loops = vec![outer];
    if rng.once_in(3) {
        let (x, y, s) = (rng.whole(1, 5) as f64, rng.whole(1, 5) as f64, rng.whole(1, 3) as f64);
        loops.push(match rng.below(2) {
            0 => vec![[x, y], [x, y + s], [x + s, y + s], [x + s, y]],
            _ => vec![[x, y], [x + s, y + s], [x + 2.0 * s, y], [x + s, y - s]],
        });
    }
    loops
}

/// Stars, combs and steps.
fn concave(rng: &mut Rng) -> Loops {
    let outer = match rng.below(3) {
        0 => {
            let (n, deep) = (2 * rng.whole(3, 14), rng.float(0.15, 0.8));
            ring(rng, n, [0.0, 0.0], |rng, _, k| if k % 2 == 0 { rng.float(8.0, 10.0) } else { 10.0 * deep })
        }
        1 => {
            let (teeth, deep) = (rng.whole(2, 8), rng.float(0.5, 6.0));
            let top = |k: usize| [[2.0 * k as f64 + 1.7, 2.0 + deep], [2.0 * k as f64 + 0.9, 2.0]];
            let mut points = vec![[0.0, 0.0], [2.0 * teeth as f64, 0.0]];
            points.extend((0..teeth).rev().flat_map(top));
            points
        }
        _ => {
            let steps = rng.whole(1, 7);
            let mut points = vec![[0.0, 0.0]];
            for k in 0..steps {
                let (x, y) = ((k + 1) as f64 * 2.0, k as f64 * 1.5);
                points.extend([[x, y], [x, y + 1.5]]);
            }
            points.push([0.0, steps as f64 * 1.5]);
            points
        }
    };
    vec![outer]
}

/// Loops that cross themselves: points at random, few or many, or a figure of eight.
fn crossing(rng: &mut Rng) -> Loops {
    if rng.once_in(3) {
        let (w, t) = (rng.float(2.0, 12.0), rng.float(2.0, 12.0));
        return vec![vec![[0.0, 0.0], [w, t], [w, 0.0], [0.0, t]]];
    }
    let n = if rng.once_in(4) { rng.whole(60, 240) } else { rng.whole(3, 12) };
    let outer = (0..n).map(|_| [rng.float(-10.0, 10.0), rng.float(-10.0, 10.0)]).collect();
    vec![outer]
}

/// One to seven holes in any place: inside, across the outer loop, outside it, in one another; run either way.
fn with_holes(rng: &mut Rng) -> Loops {
    let n = rng.whole(4, 20);
    let mut loops = vec![ring(rng, n, [0.0, 0.0], |rng, _, _| rng.float(8.0, 10.0))];
    for _ in 0..rng.whole(1, 7) {
        let (n, r) = (rng.whole(3, 10), rng.float(0.3, 3.0));
        let centre = [rng.float(-9.0, 9.0), rng.float(-9.0, 9.0)];
        let mut hole = ring(rng, n, centre, |rng, _, _| r * rng.float(0.5, 1.0));
        if rng.once_in(2) {
            hole.reverse();
        }
        loops.push(hole);
    }
    loops
}

/// The square with a slit, at any scale: its mouth open, shut, crossed or overlapping, by the least float or by more; from any point on, either
/// way round.
fn slits(rng: &mut Rng) -> Case {
    let width = match rng.below(4) {
        0 => 0.0,
        1 => f64::from_bits(rng.whole(1, 3) as u64),
        2 => f64::from_bits((rng.whole(1, 1_012) as u64) << 52),
        _ => rng.float(0.0, 0.01),
    };
    let (e, f) = (rng.pick(&[width, -width]), rng.pick(&[width, -width, 0.0]));
    let mut points = vec![[-1.0, -2.0], [1.0, -2.0], [1.0, 0.0], [-e, f], [0.0, -1.0], [e, f], [-1.0, 0.0]];
    let start = rng.below(points.len());
    points.rotate_left(start);
    if rng.once_in(3) {
        points.reverse();
    }
    let size = f64::from_bits((1_023 - 6 + rng.below(13) as u64) << 52);
    let shift = if rng.once_in(3) { [rng.whole(0, 8) as f64, rng.whole(0, 8) as f64] } else { [0.0, 0.0] };
    let loops = vec![points.into_iter().map(|[x, y]| [size * (x + shift[0]), size * (y + shift[1])]).collect()];
    let settings = usual_settings(rng, size);
    paved(rng, &loops, settings)
}

/// For size 1: a rectangle, and scribbled holes that leave few of the program's node places for the paving.
fn crowded(rng: &mut Rng) -> Loops {
    let (w, t) = (rng.whole(12, 17) as f64, rng.whole(12, 17) as f64);
    let mut loops = vec![vec![[0.0, 0.0], [w, 0.0], [w, t], [0.0, t]]];
    for _ in 0..3 {
        let (n, reach) = (rng.whole(60, 80), rng.float(2.0, 6.0));
        let corner = [rng.float(0.0, w - reach), rng.float(0.0, t - reach)];
        let point = |_| [corner[0] + rng.float(0.0, reach), corner[1] + rng.float(0.0, reach)];
        loops.push((0..n).map(point).collect());
    }
    loops
}

fn any_shape(rng: &mut Rng) -> Loops {
    let shape = rng.pick::<fn(&mut Rng) -> Loops>(&[visual_field, lattice, concave, crossing, with_holes]);
    shape(rng)
}

// --- places, sizes and settings ---

/// Moves, scales, turns about or reverses the loops.
fn moved(rng: &mut Rng, mut loops: Loops) -> Loops {
    let scale = rng.pick(&[1.0, 1.0, 1.0, 0.5, 0.1, 2.0, 3.7]);
    let shift = match rng.below(4) {
        0 => [rng.float(-300.0, 300.0), rng.float(-300.0, 300.0)],
        1 => [rng.whole(0, 40) as f64 - 20.0, rng.whole(0, 40) as f64 - 20.0],
        _ => [0.0, 0.0],
    };
    for points in &mut loops {
        for p in points.iter_mut() {
            *p = [p[0] * scale + shift[0], p[1] * scale + shift[1]];
        }
        let start = rng.below(points.len());
        points.rotate_left(start);
        if rng.once_in(4) {
            points.reverse();
        }
    }
    loops
}

/// The greater extent of the loops' box, as far as it is a number.
fn extent(loops: &Loops) -> f64 {
    let reach = |axis: usize| {
        let values = || loops.iter().flatten().map(|p| p[axis]).filter(|x| x.is_finite());
        values().fold(f64::NEG_INFINITY, f64::max) - values().fold(f64::INFINITY, f64::min)
    };
    reach(0).max(reach(1))
}

/// A size that gives the loops a moderate number of elements; round where that comes near.
fn size_for(rng: &mut Rng, loops: &Loops) -> f64 {
    let across = rng.float(1.5, 16.0);
    let size = (extent(loops) / across).clamp(0.01, 100.0);
    if rng.once_in(2) && size > 0.6 {
        size.floor().max(1.0)
    } else {
        size
    }
}

fn usual_settings(rng: &mut Rng, size: f64) -> Settings {
    let sweeps = rng.pick(&[0, 1, 2, 5, 20, 100, 400, 400]);
    let passes = rng.pick(&[1, 2, 3, 7, 600, 600, 600, 600]);
    Settings { size, sweeps, passes }
}

/// Room for whatever an ordinary case needs.
const LIBRARY: Lent = Lent { field_nodes: 40_000, nodes: 40_000, quads: 40_000, edges: 120_000 };

fn some_lent(rng: &mut Rng) -> Lent {
    rng.pick(&[Lent::PROGRAM, Lent::PROGRAM, LIBRARY])
}

fn paved(rng: &mut Rng, loops: &Loops, settings: Settings) -> Case {
    Case::Pave { drawing: Drawing::of_loops(loops), settings, lent: some_lent(rng) }
}

fn ordinary(rng: &mut Rng, shape: fn(&mut Rng) -> Loops) -> Case {
    let loops = shape(rng);
    let loops = moved(rng, loops);
    let size = size_for(rng, &loops);
    let settings = usual_settings(rng, size);
    paved(rng, &loops, settings)
}

// --- floats at the edges ---

/// Floats where something ends: zeros, the smallest, squares that vanish, tolerances, bounds and what isn't finite.
fn edge_float(rng: &mut Rng) -> f64 {
    let bounds = [0.01, 100.0, 1_000.0, 1_001.0, 2_000.0, 0.001, 4.0, 1.0, 0.5];
    let x = match rng.below(8) {
        0 => 0.0,
        1 => rng.pick(&[f64::from_bits(1), f64::MIN_POSITIVE, f64::from_bits(0x000f_ffff_ffff_ffff)]),
        2 => rng.float(0.1, 10.0) * rng.pick(&[1e-162, 1e-154, 1e-150, 1e-300]),
        3 => rng.float(0.1, 10.0) * rng.pick(&[1e-13, 1e-12, 1e-7, 1e-9]),
        4 => rng.pick(&bounds),
        5 => rng.pick(&bounds).next_up(),
        6 => rng.pick(&bounds).next_down(),
        _ => rng.pick(&[f64::NAN, f64::INFINITY, f64::MAX, 1e9]),
    };
    if rng.once_in(2) {
        -x
    } else {
        x
    }
}

/// Like `edge_float`, but finite and at most 1,000 either way.
fn usable_edge_float(rng: &mut Rng) -> f64 {
    loop {
        let x = edge_float(rng);
        if x.abs() <= 1_000.0 {
            return x;
        }
    }
}

/// A place in the loops, for a change there.
fn some_place(rng: &mut Rng, loops: &Loops) -> (usize, usize) {
    let k = rng.below(loops.len());
    (k, rng.below(loops[k].len().max(1)))
}

/// One thing wrong or odd with the loops.
fn spoil(rng: &mut Rng, loops: &mut Loops) {
    let (k, i) = some_place(rng, loops);
    let n = loops[k].len();
    if n == 0 {
        return;
    }
    let (p, q) = (loops[k][i], loops[k][(i + 1) % n]);
    match rng.below(11) {
        0 => loops[k].insert(i, p),
        1 => loops[k].insert((i + 1) % n, [(p[0] + q[0]) / 2.0, (p[1] + q[1]) / 2.0]),
        2 => loops[k][i] = q,
        3 => loops[k].insert(i, [p[0] + usable_edge_float(rng) * 1e-9, p[1]]),
        4 => loops[k][i][rng.below(2)] = usable_edge_float(rng),
        5 => loops[k][i][rng.below(2)] = edge_float(rng),
        6 => loops[k].truncate(rng.whole(0, 3)),
        7 => loops[k].iter_mut().for_each(|point| point[1] = p[1]),
        8 => {
            let tiny = rng.pick(&[1e-162, 1e-13, 1e-9, 1e-5, 1e-160, 1e-320]);
            loops[k].iter_mut().flatten().for_each(|x| *x *= tiny);
        }
        9 => loops[k].iter_mut().flatten().for_each(|x| *x = if *x == 0.0 { -0.0 } else { *x }),
        _ => loops[k].iter_mut().flatten().for_each(|x| *x = x.clamp(-1.0, 1.0) * 1_000.0),
    }
}

/// An ordinary shape with one to three things wrong or odd.
fn degenerate(rng: &mut Rng) -> Case {
    let loops = any_shape(rng);
    let mut loops = moved(rng, loops);
    for _ in 0..rng.whole(1, 3) {
        spoil(rng, &mut loops);
    }
    let size = size_for(rng, &loops);
    let settings = usual_settings(rng, size);
    paved(rng, &loops, settings)
}

/// Sizes over the whole range and outside it, with the shape scaled to suit or not.
fn sizes(rng: &mut Rng) -> Case {
    let mut loops = any_shape(rng);
    let size = match rng.below(4) {
        0 => edge_float(rng),
        1 => rng.pick(&[
            0.01,
            0.01f64.next_down(),
            0.01f64.next_up(),
            100.0,
            100f64.next_up(),
            100f64.next_down(),
            0.0,
            -1.0,
        ]),
        _ => rng.float(0.01, 1.0) * rng.pick(&[0.1, 1.0, 10.0, 100.0]),
    };
    if (0.01..=100.0).contains(&size) && !rng.once_in(4) {
        let scale = size * rng.float(1.5, 12.0) / extent(&loops);
        loops.iter_mut().flatten().flatten().for_each(|x| *x *= scale);
    }
    let settings = usual_settings(rng, size);
    paved(rng, &loops, settings)
}

/// Sweeps and passes at and beyond their bounds.
fn settings(rng: &mut Rng) -> Case {
    let loops = any_shape(rng);
    let loops = moved(rng, loops);
    let size = size_for(rng, &loops);
    let sweeps = rng.pick(&[0, 1, 2, 3, 10, 399, 999, 1_000, 1_001, 65_535, u64::MAX]);
    let passes = rng.pick(&[0, 0, 1, 2, 3, 4, 10, 599, 600, 601, 65_535, u64::MAX]);
    paved(rng, &loops, Settings { size, sweeps, passes })
}

/// Lists of odd length, hole lengths that don't add up, too many points; among them some that are right.
fn lists(rng: &mut Rng) -> Case {
    let loops = any_shape(rng);
    let mut drawing = Drawing::of_loops(&loops);
    match rng.below(9) {
        0 => drawing.outer.push(1.0),
        1 => drawing.holes.push(1.0),
        2 => drawing.hole_lengths.push(rng.below(3)),
        3 => drawing.hole_lengths.extend([usize::MAX, 1]),
        4 => drawing.hole_lengths = vec![],
        5 => drawing.holes.extend([0.0, 0.0]),
        6 => drawing.outer = vec![0.5; 2 * rng.pick(&[4_097, 4_096, 4_095])],
        7 => drawing.hole_lengths.reverse(),
        _ => drawing.outer.clear(),
    }
    let size = size_for(rng, &loops);
    let settings = usual_settings(rng, size);
    Case::Pave { drawing, settings, lent: some_lent(rng) }
}

/// Little space: most end `full` for want of nodes, quads or edges, some are refused 9 or 10.
fn tight(rng: &mut Rng) -> Case {
    let loops = any_shape(rng);
    let loops = moved(rng, loops);
    let size = size_for(rng, &loops);
    let mut lent = LIBRARY;
    match rng.below(5) {
        0 => lent.nodes = rng.whole(0, 200) as u64,
        1 => lent.quads = rng.whole(0, 60) as u64,
        2 => lent.edges = rng.whole(0, 300) as u64,
        3 => lent.field_nodes = rng.whole(0, 800) as u64,
        _ => {
            lent = Lent { field_nodes: 4_000, nodes: 0, quads: 0, edges: 0 };
            for places in [&mut lent.nodes, &mut lent.quads, &mut lent.edges] {
                *places = rng.whole(20, 150) as u64;
            }
        }
    }
    Case::Pave { drawing: Drawing::of_loops(&loops), settings: usual_settings(rng, size), lent }
}

// --- files ---

/// A file in good order, of a shape that may be spoilt; some fill the program's places.
fn whole_file(rng: &mut Rng) -> Vec<u8> {
    loop {
        let (loops, size) = if rng.once_in(8) { (crowded(rng), 1.0) } else { file_shape(rng) };
        let mut settings = usual_settings(rng, size);
        if rng.once_in(10) {
            settings.sweeps = rng.pick(&[1_000, 1_001, 65_535]);
            settings.passes = rng.pick(&[0, 601, 65_535]);
        }
        if let Some(bytes) = file::write(&Drawing::of_loops(&loops), settings) {
            return bytes;
        }
    }
}

fn file_shape(rng: &mut Rng) -> (Loops, f64) {
    let loops = any_shape(rng);
    let mut loops = moved(rng, loops);
    if rng.once_in(4) {
        spoil(rng, &mut loops);
    }
    let size = if rng.once_in(20) { edge_float(rng) } else { size_for(rng, &loops) };
    (loops, size)
}

/// A file with one or two things wrong; half of the changed blocks get their check made anew.
fn damaged(rng: &mut Rng) -> Case {
    let mut bytes = whole_file(rng);
    for _ in 0..rng.whole(1, 2) {
        damage(rng, &mut bytes);
    }
    Case::File { bytes }
}

fn damage(rng: &mut Rng, bytes: &mut Vec<u8>) {
    let blocks = bytes.len() / 512;
    if blocks == 0 {
        return;
    }
    let block = 512 * rng.below(blocks);
    let at = match rng.below(8) {
        0 => return bytes.truncate(rng.below(bytes.len())),
        1 => return bytes.truncate(512 * rng.below(blocks)),
        2 => return bytes.extend(vec![0; rng.pick(&[1, 511, 512, 513])]),
        3 => block + 510 + rng.below(2),
        4 => 12 + rng.below(2),
        5 => 14 + rng.below(18),
        6 => block + 509 - rng.below(16),
        _ => block + rng.below(512),
    };
    let start = at / 512 * 512;
    bytes[at] = if rng.once_in(2) { rng.next() as u8 } else { bytes[at].wrapping_add(1) };
    if rng.once_in(2) && start + 512 <= bytes.len() {
        file::seal(&mut bytes[start..start + 512]);
    }
}

// --- queries ---

/// Points where a query can go either way: corners, points on segments, level with a corner, near the edge, anywhere.
fn query_point(rng: &mut Rng, loops: &Loops) -> [f64; 2] {
    let (k, i) = some_place(rng, loops);
    let points = &loops[k];
    if points.is_empty() || rng.once_in(8) {
        return [edge_float(rng), edge_float(rng)];
    }
    let (p, q) = (points[i], points[(i + 1) % points.len()]);
    let across = extent(loops).clamp(1e-3, 1e3);
    match rng.below(6) {
        0 => p,
        1 => [(p[0] + q[0]) / 2.0, (p[1] + q[1]) / 2.0],
        2 => [p[0] + rng.float(-across, across), p[1]],
        3 => [p[0], p[1] + rng.float(-across, across)],
        4 => [p[0] + usable_edge_float(rng) * 1e-3, p[1] + usable_edge_float(rng) * 1e-3],
        _ => [p[0] + rng.float(-across, across), p[1] + rng.float(-across, across)],
    }
}

fn queries(rng: &mut Rng) -> Case {
    let loops = any_shape(rng);
    let mut loops = moved(rng, loops);
    if rng.once_in(3) {
        spoil(rng, &mut loops);
    }
    let points = (0..16).map(|_| query_point(rng, &loops)).collect();
    let mut drawing = Drawing::of_loops(&loops);
    if rng.once_in(20) {
        drawing.outer.push(0.0);
    }
    Case::Queries { drawing, points }
}

/// A component of a field value: on the unit circle, small, anything allowed, or at an edge.
fn value(rng: &mut Rng) -> [f64; 2] {
    match rng.below(5) {
        0 => rng.pick(&[[1.0, 0.0], [-1.0, 0.0], [0.0, 1.0], [0.0, -1.0], [-1.0, -0.0], [0.0, 0.0]]),
        1 => [rng.float(-4.0, 4.0), rng.float(-4.0, 4.0)],
        2 => [rng.float(-1e-12, 1e-12), rng.float(-1e-12, 1e-12)],
        _ => {
            let share = rng.float(0.0, 1.0);
            round(share)
        }
    }
}

/// One thing that may make a field record none.
fn spoil_record(rng: &mut Rng, record: &mut FieldRecord, values: &mut Vec<f64>, marks: &mut Vec<bool>) {
    match rng.below(10) {
        0 => record.nx = rng.pick(&[0, 1, 2, u64::MAX]),
        1 => record.ny = rng.pick(&[0, 1, 2, 1 << 63]),
        2 => drop(values.pop()),
        3 => values.push(0.0),
        4 => drop(marks.pop()),
        5 => marks.push(true),
        6 => record.h = edge_float(rng),
        7 => record.xmin = edge_float(rng),
        8 => record.ymin = edge_float(rng),
        _ => {
            let at = rng.below(values.len());
            values[at] = edge_float(rng);
        }
    }
}

fn directions(rng: &mut Rng) -> Case {
    let (nx, ny) = (rng.whole(2, 7), rng.whole(2, 7));
    let h = rng.pick(&[0.001, 0.05, 0.5, 1.0, 13.7, 1_000.0]);
    let (xmin, ymin) = (rng.float(-500.0, 500.0), rng.float(-500.0, 500.0));
    let mut record = FieldRecord { xmin, ymin, h, nx: nx as u64, ny: ny as u64 };
    let mut values: Vec<f64> = (0..nx * ny).flat_map(|_| value(rng)).collect();
    let mut marks: Vec<bool> = (0..nx * ny).map(|_| rng.once_in(2)).collect();
    if rng.once_in(3) {
        spoil_record(rng, &mut record, &mut values, &mut marks);
    }
    let point = |rng: &mut Rng| match rng.below(8) {
        0 => [edge_float(rng), edge_float(rng)],
        1 => [xmin + h * rng.below(nx) as f64, ymin + h * rng.below(ny) as f64],
        _ => [xmin + h * rng.float(-1.0, 1.0 + nx as f64), ymin + h * rng.float(-1.0, 1.0 + ny as f64)],
    };
    let target = |rng: &mut Rng| match rng.below(5) {
        0 => [edge_float(rng), edge_float(rng)],
        1 => rng.pick(&[[1.0, 1.0], [1.0, -1.0], [-1.0, -1.0], [0.0, 0.0], [0.0, 1.0], [-1.0, 0.0]]),
        _ => [rng.float(-1.0, 1.0), rng.float(-1.0, 1.0)],
    };
    let points = (0..16).map(|_| point(rng)).collect();
    let targets = (0..16).map(|_| target(rng)).collect();
    Case::Directions { record, values, marks, points, targets }
}
