//! The nearest edge by name: its readings by hand, and generated outlines beside two models. One works in whole numbers and is exact;
//! the other has the reference's float operations. Both list every segment by its name and take the least, by distance, then loop, then place.

mod common;

use common::rng::Rng;
use common::{Drawing, Lent, Raw};
use sitjorbe::raw::{distance_to_boundary, nearest_segment};
use sitjorbe::Segment;

type Loop = Vec<[f64; 2]>;

const SQUARE: [[f64; 2]; 4] = [[0.0, 0.0], [4.0, 0.0], [4.0, 4.0], [0.0, 4.0]];

/// The name that is answered.
fn name(loops: &[&[[f64; 2]]], point: [f64; 2]) -> (usize, usize) {
    let drawing = Drawing::of_loops(&loops.iter().map(|points| points.to_vec()).collect::<Vec<_>>());
    let nearest = nearest_segment(&drawing.outline(), point).unwrap();
    (nearest.loop_index, nearest.segment_index)
}

#[test]
fn the_readings() {
    // Equal distances: the lower place, then the outer loop, then the lower hole.
    assert_eq!(name(&[&SQUARE], [0.0, 0.0]), (0, 0), "segment 3 is as near");
    assert_eq!(name(&[&SQUARE], [-1.0, -1.0]), (0, 0), "segment 3 is as near");
    assert_eq!(name(&[&SQUARE], [-1.0, 2.0]), (0, 3));
    assert_eq!(name(&[&SQUARE], [2.0, 2.0]), (0, 0), "all four are as near");
    assert_eq!(name(&[&SQUARE, &SQUARE], [-1.0, 2.0]), (0, 3), "a hole equal to the outer loop");
    let [low, high] = [[1.0, 0.5], [3.0, 3.5]].map(|[y, tip]| [[1.0, y], [2.0, y], [1.5, tip]]);
    assert_eq!(name(&[&SQUARE, &low, &high], [1.5, 2.0]), (1, 0), "hole 1 is as near");
    assert_eq!(name(&[&SQUARE, &high, &low], [1.5, 2.0]), (1, 0), "hole 1 is as near");
    assert_eq!(name(&[&SQUARE, &low, &high], [1.5, 2.5]), (2, 0));
    assert_eq!(name(&[&SQUARE, &low, &low], [1.5, 1.25]), (1, 0), "two holes alike");
    // A place counts from 0, in the order drawn.
    for first in 0..4 {
        let mut turned = SQUARE;
        turned.rotate_left(first);
        assert_eq!(name(&[&turned], [5.0, 2.0]), (0, (5 - first) % 4), "from point {first}");
    }
    let mut clockwise = SQUARE;
    clockwise.reverse();
    assert_eq!(name(&[&clockwise], [2.0, 5.0]), (0, 0), "sampling runs the loop the other way");
    assert_eq!(name(&[&clockwise], [-1.0, 2.0]), (0, 3), "from the last point to the first");
    // A segment of no length is a segment and has a place.
    let pausing = [[0.0, 0.0], [2.0, 0.0], [2.0, 0.0], [2.0, 2.0], [0.0, 2.0]];
    assert_eq!(name(&[&pausing], [3.0, -1.0]), (0, 0), "1 and 2 are as near");
    assert_eq!(name(&[&pausing], [3.0, 1.0]), (0, 2));
    assert_eq!(name(&[&pausing[1..]], [3.0, -1.0]), (0, 0), "itself answered");
    assert_eq!(name(&[&[[1.0, 1.0]; 3]], [0.0, 0.0]), (0, 0), "nothing else to answer");
    // The same ends at two places: the first.
    let twice = [SQUARE, SQUARE].concat();
    assert_eq!(name(&[&twice], [-1.0, 2.0]), (0, 3), "7 has the same ends");
    // Minus zero and zero are equally far.
    assert_eq!(name(&[&[[-0.0, -0.0], [0.0, 0.0], [1.0, 0.0]]], [-0.0, 0.0]), (0, 0));
}

#[test]
fn a_refused_point_has_no_name() {
    for point in [[f64::NAN, 1.0], [1.0, f64::INFINITY], [1000.0_f64.next_up(), 0.0]] {
        let mut lent = Lent::new(&Drawing::square(4.0));
        // SAFETY: each pointer comes with its list's length.
        let raw = unsafe { Raw::ask(lent.outer.parts(), lent.holes.parts(), lent.hole_lengths.parts(), point) };
        assert_eq!((raw.nearest.loop_index, raw.nearest.segment_index), (0, 0));
        assert_ne!(raw.nearest.refusal, 0);
    }
}

// ---- what is generated

/// A loop spoilt in the ways that a drawing is: begun elsewhere, run the other way, points repeated, run twice.
fn spoilt(rng: &mut Rng, mut points: Loop) -> Loop {
    let first = rng.below(points.len());
    points.rotate_left(first);
    if rng.once_in(2) {
        points.reverse();
    }
    while rng.once_in(3) {
        let place = rng.below(points.len());
        points.insert(place, points[place]);
    }
    if rng.once_in(4) {
        points = points.repeat(2);
    }
    points
}

/// An outer loop and up to three holes, each of them now and then a loop that was there before.
fn loops(rng: &mut Rng, mut one: impl FnMut(&mut Rng) -> Loop) -> Vec<Loop> {
    let mut drawn: Vec<Loop> = vec![];
    for _ in 0..rng.between(1, 4) {
        let fresh = drawn.is_empty() || !rng.once_in(3);
        let points = if fresh { one(rng) } else { drawn[rng.below(drawn.len())].clone() };
        drawn.push(if rng.once_in(2) { spoilt(rng, points) } else { points });
    }
    drawn
}

/// Every segment by its name, with its ends.
fn segments(loops: &[Loop]) -> Vec<(usize, usize, [f64; 2], [f64; 2])> {
    let of_loop = |(k, points): (usize, &Loop)| {
        let ends = points.clone().into_iter().zip(points.clone().into_iter().cycle().skip(1));
        ends.enumerate().map(move |(i, (a, b))| (k, i, a, b)).collect::<Vec<_>>()
    };
    loops.iter().enumerate().flat_map(of_loop).collect()
}

/// What was met.
#[derive(Debug, Default)]
struct Met {
    queries: usize,
    ties: usize,
    ties_across_loops: usize,
    same_ends: usize,
    no_length: usize,
    in_holes: usize,
}

impl Met {
    /// Puts points to the entry and to the model, whose distances are compared as they are.
    fn compare<D: PartialOrd>(
        &mut self,
        loops: &[Loop],
        points: &[[f64; 2]],
        distance: impl Fn([f64; 2], [f64; 2], [f64; 2]) -> D,
    ) -> Vec<Segment> {
        let lent = Lent::new(&Drawing::of_loops(loops));
        let named = segments(loops);
        let ask = |&point: &[f64; 2]| {
            let answer = nearest_segment(&lent.outline(), point).unwrap();
            let far: Vec<D> = named.iter().map(|&(_, _, a, b)| distance(point, a, b)).collect();
            let least = far.iter().fold(&far[0], |least, d| if d < least { d } else { least });
            let nearest: Vec<_> =
                named.iter().zip(&far).filter(|(_, d)| *d == least).map(|(segment, _)| segment).collect();
            let &&(k, i, a, b) = nearest.iter().min_by_key(|&&&(k, i, ..)| (k, i)).unwrap();
            let bits = |[a, b]: [[f64; 2]; 2]| [a[0], a[1], b[0], b[1]].map(f64::to_bits);
            let told = || format!("{loops:?} {point:?}");
            assert_eq!((answer.loop_index, answer.segment_index), (k, i), "{}", told());
            assert_eq!(bits([answer.a, answer.b]), bits([a, b]), "{}", told());
            let to_boundary = distance_to_boundary(&lent.outline(), point).unwrap();
            assert_eq!(answer.distance.to_bits(), to_boundary.to_bits(), "{}", told());
            self.queries += 1;
            self.ties += usize::from(nearest.len() > 1);
            self.ties_across_loops += usize::from(nearest.iter().any(|other| other.0 != k));
            self.same_ends +=
                usize::from(nearest.iter().any(|other| (other.0, other.1) != (k, i) && (other.2, other.3) == (a, b)));
            self.no_length += usize::from(a == b);
            self.in_holes += usize::from(k > 0);
            answer
        };
        let answers = points.iter().map(ask).collect();
        assert!(lent.kept(), "written: {loops:?}");
        answers
    }

    /// Prints the figures, and fails where one is low.
    fn finish(self, what: &str) {
        println!("{what}: {self:?}");
        let Met { queries, ties, ties_across_loops, same_ends, no_length, in_holes } = self;
        let rare = [ties, ties_across_loops, same_ends, no_length, in_holes].into_iter().min();
        assert!(rare >= Some(queries / 200), "a kind of answer is rare");
    }
}

// ---- in whole numbers

/// A rectangle on the lattice whose sides are powers of two, each of them cut in half now and then.
fn rectangle(rng: &mut Rng) -> Loop {
    let [x, y] = [0; 2].map(|_| rng.below(9) as f64);
    let [w, h] = [0; 2].map(|_| rng.pick(&[2.0, 4.0, 8.0, 16.0]));
    let corners = [[x, y], [x + w, y], [x + w, y + h], [x, y + h]];
    let halved = |k: usize| {
        let (a, b): ([f64; 2], [f64; 2]) = (corners[k], corners[(k + 1) % 4]);
        let half = [(a[0] + b[0]) / 2.0, (a[1] + b[1]) / 2.0];
        if rng.once_in(4) {
            vec![a, half]
        } else {
            vec![a]
        }
    };
    (0..4).flat_map(halved).collect()
}

/// The square of the distance to a segment along an axis: the differences to the nearest place between its ends.
fn squared(point: [f64; 2], a: [f64; 2], b: [f64; 2]) -> i64 {
    let axis = |k: usize| {
        let [p, a, b] = [point[k], a[k], b[k]].map(|x| x as i64);
        p - p.clamp(a.min(b), a.max(b))
    };
    axis(0).pow(2) + axis(1).pow(2)
}

#[test]
fn rectangles_beside_whole_numbers() {
    let mut rng = Rng(3);
    let mut met = Met::default();
    for _ in 0..4_000 {
        let drawn = loops(&mut rng, rectangle);
        let points: Vec<[f64; 2]> = (0..10).map(|_| [0; 2].map(|_| rng.below(32) as f64 - 4.0)).collect();
        for (answer, &point) in met.compare(&drawn, &points, squared).into_iter().zip(&points) {
            let exact = squared(point, answer.a, answer.b) as f64;
            assert_eq!(answer.distance.to_bits(), exact.sqrt().to_bits(), "{drawn:?} {point:?}");
        }
    }
    met.finish("rectangles");
}

// ---- with the reference's floats

/// SCOPE's distance of a point from a segment.
fn float_distance(p: [f64; 2], a: [f64; 2], b: [f64; 2]) -> f64 {
    let ab = [b[0] - a[0], b[1] - a[1]];
    let length2 = ab[0] * ab[0] + ab[1] * ab[1];
    if length2 <= 0.0 {
        return ((p[0] - a[0]).powi(2) + (p[1] - a[1]).powi(2)).sqrt();
    }
    let t = (((p[0] - a[0]) * ab[0] + (p[1] - a[1]) * ab[1]) / length2).clamp(0.0, 1.0);
    let q = [a[0] + t * ab[0], a[1] + t * ab[1]];
    ((p[0] - q[0]).powi(2) + (p[1] - q[1]).powi(2)).sqrt()
}

/// A coordinate: on a lattice, anywhere, at the bound, or hardly off 0.
fn coordinate(rng: &mut Rng) -> f64 {
    match rng.below(8) {
        0..=3 => rng.below(7) as f64 - 3.0,
        4..=5 => 10.0 * rng.unit(),
        6 => rng.pick(&[1000.0, -1000.0, 999.9]),
        _ => rng.pick(&[0.0, -0.0, 5e-324, -5e-324, 1e-160, 1e-12]),
    }
}

fn polygon(rng: &mut Rng) -> Loop {
    let count = if rng.once_in(6) { rng.between(17, 70) } else { rng.between(3, 9) };
    (0..count).map(|_| [0; 2].map(|_| coordinate(rng))).collect()
}

/// A point to ask about: a corner, the middle of a side, level with one, or any.
fn asked(rng: &mut Rng, loops: &[Loop]) -> [f64; 2] {
    let points = &loops[rng.below(loops.len())];
    let place = rng.below(points.len());
    let (a, b) = (points[place], points[(place + 1) % points.len()]);
    match rng.below(5) {
        0 => a,
        1 => [(a[0] + b[0]) / 2.0, (a[1] + b[1]) / 2.0],
        2 => [a[0], coordinate(rng)],
        _ => [0; 2].map(|_| coordinate(rng)),
    }
}

#[test]
fn polygons_beside_the_references_floats() {
    let mut rng = Rng(4);
    let mut met = Met::default();
    for _ in 0..8_000 {
        let drawn = loops(&mut rng, polygon);
        let points: Vec<[f64; 2]> = (0..10).map(|_| asked(&mut rng, &drawn)).collect();
        for (answer, &point) in met.compare(&drawn, &points, float_distance).into_iter().zip(&points) {
            let again = float_distance(point, answer.a, answer.b);
            assert_eq!(answer.distance.to_bits(), again.to_bits(), "{drawn:?} {point:?}");
        }
    }
    met.finish("polygons");
}
