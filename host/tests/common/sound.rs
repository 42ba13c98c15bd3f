//! The judgement of soundness as the tests make it, in whole numbers of any size: what two segments have in common is worked out as a set,
//! by the places on the first where it begins and ends, and inside is a winding number.

use super::whole::{unit, Whole};

type Point = [Whole; 2];

fn way(a: &Point, b: &Point) -> Point {
    [&b[0] - &a[0], &b[1] - &a[1]]
}

fn cross(u: &Point, v: &Point) -> Whole {
    &(&u[0] * &v[1]) - &(&u[1] * &v[0])
}

fn dot(u: &Point, v: &Point) -> Whole {
    &(&u[0] * &v[0]) + &(&u[1] * &v[1])
}

fn is_zero(n: &Whole) -> bool {
    !n.is_positive() && !n.is_negative()
}

fn less(a: &Whole, b: &Whole) -> bool {
    (a - b).is_negative()
}

/// On which side of a line a point is.
#[derive(Clone, Copy, Debug, PartialEq, Eq)]
pub enum Side {
    Left,
    On,
    Right,
}

/// The side of the way from a to b on which c is.
pub fn side(a: [f64; 2], b: [f64; 2], c: [f64; 2]) -> Side {
    let least = [a, b, c].as_flattened().iter().filter_map(|&x| unit(x)).min().unwrap_or(0);
    let [a, b, c] = [a, b, c].map(|p| p.map(|x| Whole::of_float(x, least)));
    let turn = cross(&way(&a, &b), &way(&a, &c));
    match (turn.is_positive(), turn.is_negative()) {
        (true, _) => Side::Left,
        (_, true) => Side::Right,
        _ => Side::On,
    }
}

/// What two segments have in common.
#[derive(Clone, Copy, Debug, PartialEq, Eq)]
pub enum Common {
    Nothing,
    OnePoint,
    Many,
}

/// n / d is from 0 to 1, where d isn't 0.
fn from_0_to_1(n: &Whole, d: &Whole) -> bool {
    let (n, d) = if d.is_negative() { (&Whole::default() - n, &Whole::default() - d) } else { (n.clone(), d.clone()) };
    !n.is_negative() && !less(&d, &n)
}

/// Whether p is on the segment from a to b.
fn is_on(p: &Point, a: &Point, b: &Point) -> bool {
    let (along, to) = (way(a, b), way(a, p));
    is_zero(&cross(&along, &to)) && !dot(&along, &to).is_negative() && !less(&dot(&along, &along), &dot(&along, &to))
}

/// What the segments from a to b and from c to d have in common.
pub fn common(a: &Point, b: &Point, c: &Point, d: &Point) -> Common {
    let (r, s, to) = (way(a, b), way(c, d), way(a, c));
    let one_if = |on: bool| if on { Common::OnePoint } else { Common::Nothing };
    if a == b {
        return one_if(is_on(a, c, d));
    }
    if c == d {
        return one_if(is_on(c, a, b));
    }
    let across = cross(&r, &s);
    if !is_zero(&across) {
        return one_if(from_0_to_1(&cross(&to, &s), &across) && from_0_to_1(&cross(&to, &r), &across));
    }
    if !is_zero(&cross(&to, &r)) {
        return Common::Nothing;
    }
    // On one line: the places of c and d along a to b, in units of its squared length.
    let (full, first, second) = (dot(&r, &r), dot(&to, &r), dot(&way(a, d), &r));
    let (low, high) = if less(&first, &second) { (first, second) } else { (second, first) };
    let begin = if low.is_negative() { Whole::default() } else { low };
    let end = if less(&full, &high) { full } else { high };
    match (less(&begin, &end), begin == end) {
        (true, _) => Common::Many,
        (_, true) => Common::OnePoint,
        _ => Common::Nothing,
    }
}

/// How often the loop runs round p, which isn't on it.
fn winding(p: &Point, ring: &[Point]) -> i32 {
    let mut turns = 0;
    for (k, a) in ring.iter().enumerate() {
        let b = &ring[(k + 1) % ring.len()];
        let side = cross(&way(a, b), &way(a, p));
        match (less(&p[1], &a[1]), less(&p[1], &b[1])) {
            (false, true) if side.is_positive() => turns += 1,
            (true, false) if side.is_negative() => turns -= 1,
            _ => {}
        }
    }
    turns
}

fn segment(ring: &[Point], k: usize) -> (&Point, &Point) {
    (&ring[k], &ring[(k + 1) % ring.len()])
}

fn crosses_itself(ring: &[Point]) -> bool {
    let n = ring.len();
    (0..n).any(|i| {
        (i + 1..n).any(|j| {
            let ((a, b), (c, d)) = (segment(ring, i), segment(ring, j));
            let met = common(a, b, c, d);
            let neighbours = j == i + 1 || (i == 0 && j == n - 1);
            met == Common::Many || (!neighbours && met != Common::Nothing)
        })
    })
}

fn touch(s: &[Point], t: &[Point]) -> bool {
    (0..s.len()).any(|i| {
        (0..t.len()).any(|j| {
            let ((a, b), (c, d)) = (segment(s, i), segment(t, j));
            common(a, b, c, d) != Common::Nothing
        })
    })
}

/// Whether the outline, which isn't refused, is sound: the coordinates of its loops, the outer one first.
pub fn is_sound(loops: &[&[f64]]) -> bool {
    let least = loops.iter().copied().flatten().filter_map(|&x| unit(x)).min().unwrap_or(0);
    let point = |p: &[f64]| [Whole::of_float(p[0], least), Whole::of_float(p[1], least)];
    let rings: Vec<Vec<Point>> = loops.iter().map(|points| points.chunks(2).map(point).collect()).collect();
    if rings.iter().any(|ring| crosses_itself(ring)) {
        return false;
    }
    if (0..rings.len()).any(|k| (0..k).any(|l| touch(&rings[k], &rings[l]))) {
        return false;
    }
    // Nothing touches, so one point of a hole decides where it lies.
    let (outer, holes) = rings.split_first().expect("an outline has an outer loop");
    let inside = |hole: &[Point], ring: &[Point]| winding(&hole[0], ring) != 0;
    holes.iter().all(|hole| inside(hole, outer))
        && (0..holes.len()).all(|k| (0..holes.len()).all(|l| k == l || !inside(&holes[k], &holes[l])))
}
