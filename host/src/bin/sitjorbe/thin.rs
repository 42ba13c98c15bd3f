//! `--thin`: fewer points where an outline has more than the paving can follow, asked for and never done unasked.
//!
//! Corners stay: the points that Douglas and Peucker's rule keeps (1973) at a quarter of the spacing. Between two of them so many points stay, evenly along the way, that
//! they are about one spacing apart. Every point that stays is one that was drawn.

use crate::csv::{Field, Point};
use crate::words::{counted, short};

/// Of the spacing, how far a point may be from the chord that passes it by before it counts as a corner.
const CORNER: f64 = 0.25;
const LEAST_POINTS: usize = 3;

/// A thinned field, and what the thinning did.
pub struct Thinned {
    pub field: Field,
    /// Points that stay, and points that were drawn.
    pub kept: [usize; 2],
    /// No drawn point is farther than this from the outline that is left, in degrees.
    pub moved: f64,
    pub spacing: f64,
}

impl Thinned {
    /// The field with points about one spacing apart.
    pub fn of(field: &Field, spacing: f64) -> Thinned {
        let loops: Vec<Vec<usize>> = field.loops.iter().map(|points| places(points, spacing)).collect();
        let moved = field.loops.iter().zip(&loops).map(|(points, kept)| farthest(points, kept));
        let moved = moved.fold(0.0, f64::max);
        let pick = |(points, kept): (&Vec<Point>, &Vec<usize>)| kept.iter().map(|k| points[*k]).collect::<Vec<_>>();
        let thinned: Vec<Vec<Point>> = field.loops.iter().zip(&loops).map(pick).collect();
        let count = |loops: &[Vec<Point>]| loops.iter().map(Vec::len).sum();
        let kept = [count(&thinned), count(&field.loops)];
        Thinned { field: Field { loops: thinned, ..field.clone() }, kept, moved, spacing }
    }

    pub fn in_words(&self) -> String {
        let [kept, drawn] = self.kept;
        if kept == drawn {
            return format!("Thinned to {}°: all {} stay.", short(self.spacing), counted(drawn, "point"));
        }
        let moved = if self.moved < 0.0005 { "less than 0.001".to_string() } else { short(self.moved) };
        format!(
            "Thinned to {}°: {kept} of {} stay; the outline moves by at most {moved}°.",
            short(self.spacing),
            counted(drawn, "point")
        )
    }
}

fn between(a: &Point, b: &Point) -> f64 {
    (b.x - a.x).hypot(b.y - a.y)
}

/// How far a point is from a segment.
fn off(p: &Point, a: &Point, b: &Point) -> f64 {
    let (ux, uy, vx, vy) = (b.x - a.x, b.y - a.y, p.x - a.x, p.y - a.y);
    let length = ux * ux + uy * uy;
    let along = if length > 0.0 { ((ux * vx + uy * vy) / length).clamp(0.0, 1.0) } else { 0.0 };
    (vx - along * ux).hypot(vy - along * uy)
}

/// The places of a loop's points that stay, rising.
fn places(points: &[Point], spacing: f64) -> Vec<usize> {
    if points.len() <= LEAST_POINTS {
        return (0..points.len()).collect();
    }
    let corners = corners(points, CORNER * spacing);
    let mut kept = vec![];
    for (place, from) in corners.iter().enumerate() {
        let to = corners.get(place + 1).copied().unwrap_or(points.len() + corners[0]);
        kept.extend(spread(points, *from, to, spacing));
    }
    kept.sort_unstable();
    kept.dedup();
    kept
}

/// From one corner to before the next, about one spacing apart along the way; places past the end go on at the beginning.
fn spread(points: &[Point], from: usize, to: usize, spacing: f64) -> Vec<usize> {
    let at = |k: usize| &points[k % points.len()];
    let mut ways = vec![0.0];
    for k in from..to {
        ways.push(ways[k - from] + between(at(k), at(k + 1)));
    }
    let length = ways[to - from];
    let parts = ((length / spacing).round() as usize).clamp(1, to - from);
    let place = |part: usize| {
        let wish = length * part as f64 / parts as f64;
        let after = ways.partition_point(|way| *way < wish).min(to - from);
        let nearer = usize::from(after > 0 && wish - ways[after.saturating_sub(1)] < ways[after] - wish);
        (from + after - nearer) % points.len()
    };
    (0..parts).map(place).collect()
}

/// The points that the rule keeps: first and farthest from it, then what lies farther than the tolerance from a chord. Never fewer than three.
fn corners(points: &[Point], tolerance: f64) -> Vec<usize> {
    let farthest_from = |a: &Point| {
        (0..points.len()).max_by(|i, j| between(a, &points[*i]).total_cmp(&between(a, &points[*j]))).unwrap_or(0)
    };
    // The point farthest from any one is at a far end of the outline, and so a good one to begin with.
    let first = farthest_from(&points[0]);
    let second = farthest_from(&points[first]);
    let mut kept = vec![first.min(second), first.max(second)];
    kept.dedup();
    let mut open = vec![(kept[0], kept[kept.len() - 1]), (kept[kept.len() - 1], points.len() + kept[0])];
    let mut spare = None;
    while let Some((from, to)) = open.pop() {
        let [a, b] = [from, to].map(|k| &points[k % points.len()]);
        let gap = |k: usize| off(&points[k % points.len()], a, b);
        let Some(worst) = (from + 1..to).max_by(|i, j| gap(*i).total_cmp(&gap(*j))) else { continue };
        if gap(worst) > tolerance {
            kept.push(worst % points.len());
            open.extend([(from, worst), (worst, to)]);
        } else if spare.is_none_or(|(other, _)| gap(worst) > other) {
            spare = Some((gap(worst), worst % points.len()));
        }
    }
    if kept.len() < LEAST_POINTS {
        kept.extend(spare.map(|(_, place)| place));
    }
    kept.sort_unstable();
    kept
}

/// How far a dropped point is, at most, from the segment that passes it by.
fn farthest(points: &[Point], kept: &[usize]) -> f64 {
    let mut most: f64 = 0.0;
    for (place, from) in kept.iter().enumerate() {
        let to = kept.get(place + 1).copied().unwrap_or(points.len() + kept[0]);
        for k in from + 1..to {
            most = most.max(off(&points[k % points.len()], &points[*from], &points[to % points.len()]));
        }
    }
    most
}
