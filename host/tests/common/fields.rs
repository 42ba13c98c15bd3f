//! Fields at random of thirteen kinds, the same for a seed: drawn loops and a size. Whole numbers of degrees and hands that shake are both among them.

use super::rng::Rng;
use super::Drawing;

pub const KINDS: [&str; 13] = [
    "round",
    "oval",
    "blob",
    "rough",
    "concave",
    "hemianopia",
    "quadrant",
    "neck",
    "notch",
    "steps",
    "rim hole",
    "tiny holes",
    "examples",
];

type Loop = Vec<[f64; 2]>;

/// Drawn fields of the repository's own.
const EXAMPLES: [&str; 6] = [
    include_str!("../../../examples/right-eye.csv"),
    include_str!("../../../examples/left-eye.csv"),
    include_str!("../../../examples/hemianopia.csv"),
    include_str!("../../../examples/hand-drawn.csv"),
    include_str!("../../../examples/24-2.csv"),
    include_str!("../../../examples/30-2.csv"),
];

/// A field of a kind, and a size for it; `fine` is what the size is divided by.
pub fn field(kind: &str, seed: u64, fine: f64) -> (Drawing, f64) {
    let mut rng = Rng(seed.wrapping_mul(0x9e37_79b9_7f4a_7c15) ^ 0x5ea5_1de5);
    let radius = 20.0 + 40.0 * part(&mut rng);
    // From a twelfth of the radius to a third of that, as many small as large ones.
    let size = radius * 0.16 * 0.2f64.powf(part(&mut rng)) / fine;
    if kind == "examples" {
        let drawn = EXAMPLES[rng.below(EXAMPLES.len())];
        return (Drawing::of_loops(&example(drawn)), 1.5 * 5.0f64.powf(part(&mut rng)) / fine);
    }
    let loops = loops(kind, radius, size, &mut rng);
    (Drawing::of_loops(&loops), size)
}

/// From 0 up to 1.
fn part(rng: &mut Rng) -> f64 {
    (rng.unit() + 1.0) / 2.0
}

fn loops(kind: &str, r: f64, size: f64, rng: &mut Rng) -> Vec<Loop> {
    let mut loops = vec![match kind {
        "round" => round(r, rng.between(24, 90)),
        "oval" => oval(r, rng),
        "rough" => rough(r, rng),
        "concave" => waves(r, 0.22, rng),
        "hemianopia" => sector(r, 180.0, 0.0, rng),
        "quadrant" => sector(r, 270.0, 0.0, rng),
        "notch" => notch(r, rng),
        "neck" => neck(r, size, rng),
        "steps" => steps(r, rng),
        _ => waves(r, 0.08, rng),
    }];
    match kind {
        "rim hole" => loops.push(rim_hole(r, size, &loops[0], rng)),
        "tiny holes" => loops.extend(tiny_holes(r, size, rng)),
        "neck" | "notch" | "concave" => {}
        _ if rng.once_in(2) => loops.push(shifted(&ring(r * 0.09, r * 0.12, 12, 0.0), [-0.35 * r, -0.12 * r])),
        _ => {}
    }
    loops
}

fn ring(a: f64, b: f64, count: usize, first: f64) -> Loop {
    let angle = |k: usize| (k as f64 / count as f64 + first) * std::f64::consts::TAU;
    (0..count).map(|k| [a * angle(k).cos(), b * angle(k).sin()]).collect()
}

fn round(r: f64, count: usize) -> Loop {
    ring(r, r, count, 0.0)
}

fn shifted(points: &[[f64; 2]], by: [f64; 2]) -> Loop {
    points.iter().map(|[x, y]| [x + by[0], y + by[1]]).collect()
}

fn oval(r: f64, rng: &mut Rng) -> Loop {
    let (b, turn) = (r * (0.5 + 0.4 * part(rng)), part(rng) * 3.0);
    let points = ring(r, b, rng.between(20, 80), 0.0);
    points.iter().map(|[x, y]| [x * turn.cos() - y * turn.sin(), x * turn.sin() + y * turn.cos()]).collect()
}

fn polar(count: usize, radius: impl Fn(f64) -> f64) -> Loop {
    let angle = |k: usize| k as f64 / count as f64 * std::f64::consts::TAU;
    (0..count).map(|k| [radius(angle(k)) * angle(k).cos(), radius(angle(k)) * angle(k).sin()]).collect()
}

fn waves(r: f64, high: f64, rng: &mut Rng) -> Loop {
    let terms: Vec<[f64; 3]> = (2..6).map(|k| [f64::from(k), high * rng.unit(), 3.2 * rng.unit()]).collect();
    let count = rng.between(30, 90);
    polar(count, |t| r * terms.iter().fold(0.9, |sum, [k, high, turn]| sum + high * (k * t + turn).cos()))
}

fn rough(r: f64, rng: &mut Rng) -> Loop {
    let radii: Vec<f64> = (0..rng.between(14, 40)).map(|_| r * (0.78 + 0.22 * part(rng))).collect();
    polar(radii.len(), |t| radii[(t / std::f64::consts::TAU * radii.len() as f64).round() as usize % radii.len()])
}

/// So many degrees of a circle, and the middle.
fn sector(r: f64, degrees: f64, first: f64, rng: &mut Rng) -> Loop {
    let count = rng.between(16, 40);
    let angle = |k: usize| (90.0 + first + degrees * k as f64 / count as f64).to_radians();
    let mut points: Loop = (0..=count).map(|k| [r * angle(k).cos(), r * angle(k).sin()]).collect();
    if degrees > 180.0 || rng.once_in(2) {
        points.push([0.0, 0.0]);
    }
    points
}

fn notch(r: f64, rng: &mut Rng) -> Loop {
    let (wide, deep) = (15.0 + 35.0 * part(rng), r * (0.15 + 0.6 * part(rng)));
    let mut points = sector(r, 360.0 - wide, wide / 2.0, rng);
    let last = points.len() - 1;
    points[last] = [0.0, deep];
    points
}

/// Two rounds with a bridge between them.
fn neck(r: f64, size: f64, rng: &mut Rng) -> Loop {
    let half = (size * (0.7 + 2.5 * part(rng))).min(0.35 * r);
    let (long, count) = (r * (0.1 + 0.5 * part(rng)), rng.between(14, 30));
    let open = (half / (0.6 * r)).asin();
    let arc = |middle: f64, first: f64| {
        let angle = move |k: usize| first + (std::f64::consts::TAU - 2.0 * open) * k as f64 / count as f64;
        (0..=count).map(move |k| [middle + 0.6 * r * angle(k).cos(), 0.6 * r * angle(k).sin()])
    };
    let apart = 0.6 * r + long / 2.0;
    arc(apart, std::f64::consts::PI + open).chain(arc(-apart, open)).collect()
}

/// A staircase outline on whole cells.
fn steps(r: f64, rng: &mut Rng) -> Loop {
    let cell = r / rng.between(4, 9) as f64;
    let high = |x: f64| ((r * r - x * x).max(0.0).sqrt() / cell).round().max(1.0) * cell;
    let count = (r / cell).round() as i32;
    let mut upper = Loop::new();
    for k in -count..count {
        let y = high((f64::from(k) + 0.5) * cell);
        upper.extend([[f64::from(k) * cell, y], [f64::from(k + 1) * cell, y]]);
    }
    let mut points: Loop = upper.iter().map(|[x, y]| [*x, -y]).collect();
    points.extend(upper.iter().rev());
    points.dedup();
    let corner = |k: usize| {
        let [a, b, c] = [points.len() - 1, 0, 1].map(|by| points[(k + by) % points.len()]);
        (b[0] - a[0]) * (c[1] - b[1]) != (b[1] - a[1]) * (c[0] - b[0])
    };
    (0..points.len()).filter(|&k| corner(k)).map(|k| points[k]).collect()
}

/// A blind spot near the rim, a tenth of a size to two sizes away.
fn rim_hole(r: f64, size: f64, rim: &[[f64; 2]], rng: &mut Rng) -> Loop {
    let hole = ring(r * (0.06 + 0.1 * part(rng)), r * (0.06 + 0.1 * part(rng)), rng.between(6, 16), 0.1);
    let (turn, gap) = (part(rng) * 6.3, size * (0.15 + 1.9 * part(rng)));
    let away = |by: f64| {
        let moved = shifted(&hole, [by * turn.cos(), by * turn.sin()]);
        let outside = moved.iter().any(|&p| !within(p, rim));
        let near =
            moved.iter().flat_map(|&p| (0..rim.len()).map(move |k| from_side(p, rim[k], rim[(k + 1) % rim.len()])));
        let back = rim.iter().flat_map(|&p| {
            (0..moved.len()).map(|k| from_side(p, moved[k], moved[(k + 1) % moved.len()])).collect::<Vec<_>>()
        });
        (!outside).then(|| near.chain(back).fold(f64::INFINITY, f64::min))
    };
    let (mut low, mut high) = (0.0, 1.5 * r);
    for _ in 0..40 {
        let by = (low + high) / 2.0;
        if away(by).is_some_and(|near| near >= gap) {
            low = by;
        } else {
            high = by;
        }
    }
    shifted(&hole, [low * turn.cos(), low * turn.sin()])
}

fn tiny_holes(r: f64, size: f64, rng: &mut Rng) -> Vec<Loop> {
    let mut places: Loop = Vec::new();
    for _ in 0..rng.between(2, 7) {
        let (far, turn) = (0.55 * r * part(rng), part(rng) * 6.3);
        let place = [far * turn.cos(), far * turn.sin()];
        if places.iter().all(|[x, y]| (x - place[0]).hypot(y - place[1]) > 3.0 * size) {
            places.push(place);
        }
    }
    let holes = places.iter().map(|&place| (place, size * (0.15 + 0.6 * part(rng)), rng.between(3, 8)));
    holes.map(|(place, small, count)| shifted(&ring(small, small, count, 0.1), place)).collect()
}

fn example(text: &str) -> Vec<Loop> {
    let mut loops = vec![Loop::new()];
    for line in text.lines().map(|line| line.split('#').next().unwrap_or("").trim()) {
        let Some((x, y)) = line.split_once(',') else {
            loops.push(Loop::new());
            continue;
        };
        let point = [x, y].map(|word| word.trim().parse().expect("a number"));
        loops.last_mut().expect("a loop").push(point);
    }
    loops.retain(|points| points.len() >= 3);
    loops
}

fn within([x, y]: [f64; 2], points: &[[f64; 2]]) -> bool {
    let crosses = |k: usize| {
        let ([ax, ay], [bx, by]) = (points[k], points[(k + 1) % points.len()]);
        (ay > y) != (by > y) && x < (bx - ax) * (y - ay) / (by - ay) + ax
    };
    (0..points.len()).filter(|&k| crosses(k)).count() % 2 == 1
}

fn from_side(p: [f64; 2], a: [f64; 2], b: [f64; 2]) -> f64 {
    let (side, to) = ([b[0] - a[0], b[1] - a[1]], [p[0] - a[0], p[1] - a[1]]);
    let square = side[0] * side[0] + side[1] * side[1];
    let t = if square > 0.0 { ((to[0] * side[0] + to[1] * side[1]) / square).clamp(0.0, 1.0) } else { 0.0 };
    (to[0] - t * side[0]).hypot(to[1] - t * side[1])
}
