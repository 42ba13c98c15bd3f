//! What is lent and what is answered, in SCOPE's terms, and the listing. Nothing here knows the reference.

use std::fmt;

/// A refusal is its number alone.
#[derive(Clone, Copy, Debug, PartialEq, Eq)]
pub struct Refusal(pub u8);

impl fmt::Display for Refusal {
    fn fmt(&self, f: &mut fmt::Formatter<'_>) -> fmt::Result {
        writeln!(f, "refused {}", self.0)
    }
}

/// How many points an outline has at most (SCOPE, outlines of 4,096 points).
pub const MOST_POINTS: usize = 4_096;

/// An outline as it is lent: coordinates x, y, x, y, .. of the outer loop and of all holes, and each hole's number of points.
#[derive(Clone, Copy, Debug)]
pub struct Outline<'a> {
    pub outer: &'a [f64],
    pub holes: &'a [f64],
    pub hole_lengths: &'a [usize],
}

impl<'a> Outline<'a> {
    /// Refusal 1: lists of odd length, hole lengths that don't add up, more points in all than 4,096.
    pub fn check_lists(&self) -> Result<(), Refusal> {
        if self.outer.len() % 2 == 1 || self.holes.len() % 2 == 1 {
            return Err(Refusal(1));
        }
        let listed = self.hole_lengths.iter().try_fold(0usize, |sum, &length| sum.checked_add(length));
        if listed != Some(self.holes.len() / 2) || (self.outer.len() + self.holes.len()) / 2 > MOST_POINTS {
            return Err(Refusal(1));
        }
        Ok(())
    }

    /// Refusal 4: a coordinate beyond 1,000 either way.
    pub fn check_coordinates(&self) -> Result<(), Refusal> {
        if self.outer.iter().chain(self.holes).any(|x| x.abs() > 1_000.0) {
            return Err(Refusal(4));
        }
        Ok(())
    }

    /// The loops' points, the outer loop first. The lists must have passed `check_lists`.
    pub fn loops(&self) -> Vec<Vec<[f64; 2]>> {
        let pairs = |list: &[f64]| list.chunks_exact(2).map(|p| [p[0], p[1]]).collect::<Vec<_>>();
        let mut loops = vec![pairs(self.outer)];
        let mut rest = self.holes;
        for &length in self.hole_lengths {
            let (hole, others) = rest.split_at(2 * length);
            loops.push(pairs(hole));
            rest = others;
        }
        loops
    }
}

/// An outline that owns its lists.
#[derive(Clone, Debug, Default, PartialEq)]
pub struct Drawing {
    pub outer: Vec<f64>,
    pub holes: Vec<f64>,
    pub hole_lengths: Vec<usize>,
}

impl Drawing {
    /// The drawing with these loops, the outer one first.
    pub fn of_loops(loops: &[Vec<[f64; 2]>]) -> Drawing {
        let mut drawing = Drawing::default();
        for (k, points) in loops.iter().enumerate() {
            if k == 0 {
                drawing.outer = points.concat();
            } else {
                drawing.holes.extend(points.concat());
                drawing.hole_lengths.push(points.len());
            }
        }
        drawing
    }

    pub fn outline(&self) -> Outline<'_> {
        Outline { outer: &self.outer, holes: &self.holes, hole_lengths: &self.hole_lengths }
    }
}

/// Refusals 3 and 4 of a query's point.
pub fn check_point(p: [f64; 2]) -> Result<(), Refusal> {
    if p.iter().any(|x| !x.is_finite()) {
        return Err(Refusal(3));
    }
    if p.iter().any(|x| x.abs() > 1_000.0) {
        return Err(Refusal(4));
    }
    Ok(())
}

/// What the exam sets.
#[derive(Clone, Copy, Debug)]
pub struct Settings {
    pub size: f64,
    pub sweeps: u64,
    pub passes: u64,
}

impl Settings {
    /// Refusals 5 and 6.
    pub fn check_size(size: f64) -> Result<(), Refusal> {
        if !size.is_finite() || size <= 0.0 {
            return Err(Refusal(5));
        }
        if !(0.01..=100.0).contains(&size) {
            return Err(Refusal(6));
        }
        Ok(())
    }
}

/// The places lent. Where several lists hold the places, the caller names the fewest.
#[derive(Clone, Copy, Debug)]
pub struct Lent {
    pub field_nodes: u64,
    pub nodes: u64,
    pub quads: u64,
    pub edges: u64,
}

impl Lent {
    /// What the program lends.
    pub const PROGRAM: Lent = Lent { field_nodes: 1_600, nodes: 800, quads: 800, edges: 2_400 };

    /// Node places that count: those past 4,294,967,294 count as not lent.
    pub fn node_places(&self) -> u64 {
        self.nodes.min(4_294_967_294)
    }
}

/// The three floats and two counts of a field record.
#[derive(Clone, Copy, Debug)]
pub struct FieldRecord {
    pub xmin: f64,
    pub ymin: f64,
    pub h: f64,
    pub nx: u64,
    pub ny: u64,
}

impl FieldRecord {
    /// Refusal 11, with the values and the number of marks lent beside the record.
    pub fn check(&self, values: &[f64], marks: usize) -> Result<(), Refusal> {
        let product = self.nx as u128 * self.ny as u128;
        let counts = self.nx >= 2
            && self.ny >= 2
            && product <= 250_000
            && product == marks as u128
            && 2 * product == values.len() as u128;
        let floats = (0.001..=1_000.0).contains(&self.h)
            && self.xmin.abs() <= 2_000.0
            && self.ymin.abs() <= 2_000.0
            && values.iter().all(|v| v.abs() <= 4.0);
        if counts && floats {
            Ok(())
        } else {
            Err(Refusal(11))
        }
    }
}

/// Floats as their bits, 16 lower-case hexadecimal digits each, with a space between.
pub fn hex(floats: &[f64]) -> String {
    let words: Vec<String> = floats.iter().map(|x| format!("{:016x}", x.to_bits())).collect();
    words.join(" ")
}

/// How a paving ended.
#[derive(Clone, Copy, Debug, PartialEq, Eq)]
pub enum End {
    Still,
    Passes,
    Cap,
    Full,
}

impl End {
    pub fn name(self) -> &'static str {
        match self {
            End::Still => "still",
            End::Passes => "passes",
            End::Cap => "cap",
            End::Full => "full",
        }
    }
}

/// What a step of the front by hand did with the edge named (SCOPE, hand stepping).
#[derive(Clone, Copy, Debug, PartialEq, Eq, PartialOrd, Ord)]
pub enum Outcome {
    Placed,
    None,
    Full,
    Cap,
}

/// A mesh that is lent to be stepped by hand, its lists cut to the counts. `links` holds the front edges; `edges` the meshed edges, each pair as it is stored.
#[derive(Clone, Debug, Default)]
pub struct LentMesh {
    pub nodes: Vec<[f64; 2]>,
    pub quads: Vec<[usize; 4]>,
    pub links: Vec<(usize, usize)>,
    pub edges: Vec<(usize, usize)>,
}

/// A run's answer. Quads are a, b, d, c; front edges and distinct edges are sorted, the latter with the smaller id first.
#[derive(Clone, Debug, PartialEq)]
pub struct Run {
    pub nodes: Vec<[f64; 2]>,
    pub quads: Vec<[usize; 4]>,
    pub front: Vec<(usize, usize)>,
    pub edges: Vec<(usize, usize)>,
    pub loops: Vec<Vec<usize>>,
    pub end: End,
    /// `front_loops` lists nothing, which is SCOPE's word and the reference's; and the outline is sound (SCOPE, sound outlines).
    pub whole: bool,
}

/// The listing, as the program prints it.
impl fmt::Display for Run {
    fn fmt(&self, f: &mut fmt::Formatter<'_>) -> fmt::Result {
        let word = if self.whole { "whole" } else { "open" };
        let (nodes, quads, front) = (self.nodes.len(), self.quads.len(), self.front.len());
        writeln!(f, "mesh {nodes} {quads} {front} {} {word}", self.end.name())?;
        for node in &self.nodes {
            writeln!(f, "n {}", hex(node))?;
        }
        for [a, b, d, c] in &self.quads {
            writeln!(f, "q {a} {b} {d} {c}")?;
        }
        for ids in &self.loops {
            write!(f, "l")?;
            for id in ids {
                write!(f, " {id}")?;
            }
            writeln!(f)?;
        }
        Ok(())
    }
}
