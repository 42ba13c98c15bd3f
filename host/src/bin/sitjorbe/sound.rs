//! What is unsound about an outline, and where, judged exactly. Whether it is sound the library says; this finds where it isn't.

use std::cmp::Ordering;

use crate::csv::{Field, Point};
use crate::exact::Exact;
use crate::naming::{Naming, Spot};

/// No more than these are found.
const MOST_FAULTS: usize = 5;

/// Something that is unsound.
#[derive(Clone, Debug, PartialEq)]
pub enum Fault {
    /// A point repeats the one before it.
    Doubled(Spot),
    /// Two neighbours lie on each other.
    Folded([Spot; 2]),
    /// Two segments meet, of one loop or of two.
    Meet([Spot; 2]),
    /// A hole isn't inside the outer loop.
    Outside(usize),
    /// A hole lies in another.
    Within(usize, usize),
    /// There is more than was looked for.
    More,
}

impl Fault {
    pub fn in_words(&self, field: &Field, naming: Naming) -> String {
        let pair = |pair: &[Spot; 2]| {
            let [one, other] = pair.map(|spot| naming.segment(field, spot));
            format!("the segments {one} and {other}")
        };
        let blind_spot = |k: usize| naming.blind_spot(field, k, "the blind spot");
        match self {
            Fault::Doubled(spot) => naming.doubled(field, *spot),
            Fault::Folded(spots) => pair(spots) + " lie on each other",
            Fault::Meet(spots) => {
                pair(spots) + if spots[0][0] == spots[1][0] { " meet" } else { ", of two loops, meet" }
            }
            Fault::Outside(k) => format!("{} isn't inside the outer outline", blind_spot(*k)),
            Fault::Within(k, other) => {
                format!("{} lies in {}", blind_spot(*k), naming.blind_spot(field, *other, "that"))
            }
            Fault::More => "more is unsound".to_string(),
        }
    }

    /// The segments that it is about: all those of a hole that lies where it may not.
    pub fn segments(&self, field: &Field) -> Vec<Spot> {
        match self {
            Fault::Doubled(spot) => vec![*spot],
            Fault::Folded(spots) | Fault::Meet(spots) => spots.to_vec(),
            Fault::Outside(k) | Fault::Within(k, _) => (0..field.loops[*k].len()).map(|place| [*k, place]).collect(),
            Fault::More => vec![],
        }
    }
}

fn at(point: &Point) -> [f64; 2] {
    [point.x, point.y]
}

/// On which side of the way from a to b c lies: left is greater. Floats decide where their rounding can't.
fn turn(a: [f64; 2], b: [f64; 2], c: [f64; 2]) -> Ordering {
    let (left, right) = ((b[0] - a[0]) * (c[1] - a[1]), (b[1] - a[1]) * (c[0] - a[0]));
    let (sum, determinant) = (left.abs() + right.abs(), left - right);
    if sum > 1e-250 && determinant.abs() > 4e-16 * sum {
        determinant.total_cmp(&0.0)
    } else {
        Exact::turn(a, b, c)
    }
}

type Segment = [[f64; 2]; 2];

/// Whether both ends of a segment are on one side of another's line, neither of them on it.
fn parted([a, b]: Segment, [c, d]: Segment) -> bool {
    let sides = [turn(a, b, c), turn(a, b, d)];
    sides == [Ordering::Less; 2] || sides == [Ordering::Greater; 2]
}

/// Whether two segments have a point in common, ends included.
fn meet(s: Segment, t: Segment) -> bool {
    let apart = |axis: usize| {
        let [[a, b], [c, d]] = [s, t].map(|ends| ends.map(|end| end[axis]));
        a.max(b) < c.min(d) || c.max(d) < a.min(b)
    };
    !apart(0) && !apart(1) && !parted(s, t) && !parted(t, s)
}

/// Whether the way from a to b and on to c goes back on itself at b.
fn folds_back(a: [f64; 2], b: [f64; 2], c: [f64; 2]) -> bool {
    let mut along = Exact::ZERO;
    for axis in [0, 1] {
        along.add(b[axis], c[axis]);
        along.add(-b[axis], b[axis]);
        along.add(-a[axis], c[axis]);
        along.add(a[axis], b[axis]);
    }
    turn(a, b, c) == Ordering::Equal && along.sign() == Ordering::Less
}

/// A segment and its place in its loop.
type Placed = (usize, Segment);

/// A loop's segments without those of no length, each with its place, and the loop's number.
struct Ring {
    number: usize,
    segments: Vec<Placed>,
    /// The segments of no length.
    doubled: Vec<Spot>,
}

/// The ends of two segments at which they meet: none where they cross between their ends.
fn touched(s: Segment, t: Segment) -> Vec<[f64; 2]> {
    let ends = |one: Segment, other: Segment| one.into_iter().filter(move |end| meet([*end, *end], other));
    ends(s, t).chain(ends(t, s)).collect()
}

/// Segments that meet, each place where they do once: several segments meet at one point where it is the end of some.
#[derive(Default)]
struct Meetings {
    seen: Vec<[f64; 2]>,
}

impl Meetings {
    /// Whether two segments that meet do so at a place that wasn't seen before.
    fn is_new(&mut self, s: Segment, t: Segment) -> bool {
        let places = touched(s, t);
        let known = places.iter().any(|place| self.seen.contains(place));
        self.seen.extend(places);
        !known
    }
}

impl Ring {
    fn of((number, points): (usize, &Vec<Point>)) -> Ring {
        let ends = points.iter().zip(points.iter().cycle().skip(1)).map(|(a, b)| [at(a), at(b)]);
        let (mut doubled, mut segments): (Vec<Placed>, Vec<Placed>) = ends.enumerate().partition(|(_, [a, b])| a == b);
        if segments.is_empty() {
            segments.extend(doubled.first());
            // Three times one point is sound: each of its segments is the others' neighbour.
            doubled.retain(|_| points.len() > 3);
        }
        Ring { number, segments, doubled: doubled.into_iter().map(|(place, _)| [number, place]).collect() }
    }

    /// A point of the loop.
    fn first(&self) -> [f64; 2] {
        self.segments[0].1[0]
    }

    /// Whether the ray from a point to the right meets an odd number of the segments.
    fn holds(&self, p: [f64; 2]) -> bool {
        let met = |(_, [a, b]): &&Placed| {
            (a[1] > p[1]) != (b[1] > p[1]) && (turn(*a, *b, p) == Ordering::Greater) == (b[1] > a[1])
        };
        self.segments.iter().filter(met).count() % 2 == 1
    }

    fn faults_within(&self, faults: &mut Vec<Fault>) {
        faults.extend(self.doubled.iter().map(|spot| Fault::Doubled(*spot)));
        let (n, mut meetings) = (self.segments.len(), Meetings::default());
        for j in 0..n {
            for i in 0..j {
                let ((first, [a, b]), (second, [c, d])) = (self.segments[i], self.segments[j]);
                let (after, before) = (j == i + 1, (j + 1) % n == i);
                let spots = [[self.number, first], [self.number, second]];
                if (after && folds_back(a, b, d)) || (before && folds_back(c, d, b)) {
                    faults.push(Fault::Folded(spots));
                } else if !after && !before && meet([a, b], [c, d]) && meetings.is_new([a, b], [c, d]) {
                    faults.push(Fault::Meet(spots));
                }
                if faults.len() > MOST_FAULTS {
                    return;
                }
            }
        }
    }

    /// The first segments of two loops that meet.
    fn touching(&self, other: &Ring) -> Option<Fault> {
        let pairs = self.segments.iter().flat_map(|one| other.segments.iter().map(move |two| (one, two)));
        let mut met = pairs.filter(|((_, one), (_, two))| meet(*one, *two));
        met.next().map(|((i, _), (j, _))| Fault::Meet([[self.number, *i], [other.number, *j]]))
    }
}

/// Of a hole and another loop that touch nothing of each other, so that any one point decides: what is wrong.
fn misplaced(hole: &Ring, other: &Ring) -> Option<Fault> {
    let is_outer = other.number == 0;
    match (other.holds(hole.first()), is_outer) {
        (true, true) => None,
        (false, true) => Some(Fault::Outside(hole.number)),
        (true, false) => Some(Fault::Within(hole.number, other.number)),
        (false, false) => hole.holds(other.first()).then_some(Fault::Within(other.number, hole.number)),
    }
}

/// What makes an outline unsound: nothing where it is sound. One more than are told says that there are more.
fn found(field: &Field) -> Vec<Fault> {
    let rings: Vec<Ring> = field.loops.iter().enumerate().map(Ring::of).collect();
    let mut faults = vec![];
    for (k, ring) in rings.iter().enumerate() {
        ring.faults_within(&mut faults);
        for other in &rings[..k] {
            if faults.len() > MOST_FAULTS {
                return faults;
            }
            faults.extend(other.touching(ring).or_else(|| misplaced(ring, other)));
        }
    }
    faults
}

/// What is unsound. The loops must have passed the refusals 2 to 4.
pub fn faults(field: &Field) -> Vec<Fault> {
    let mut faults = found(field);
    if faults.len() > MOST_FAULTS {
        faults.truncate(MOST_FAULTS);
        faults.push(Fault::More);
    }
    faults
}
