//! Why a field stays open, at its places and in words.

use alloc::vec::Vec;
use core::fmt;

use super::constraints::Clash;
use super::ladder::{Failure, Job};
use super::plane::{angle, away, distance, middle, Point};
use super::triangulation::Triangulation;
use super::work::Halt;

/// A place that stays open, and why.
#[derive(Clone, Copy, Debug, PartialEq)]
pub struct Place {
    /// Where it is.
    pub at: [f64; 2],
    /// What keeps it open.
    pub why: Reason,
}

/// What keeps a field open. Points are those of the outline as drawn, counted from 1 through all its loops; degrees and distances are the outline's own.
#[derive(Clone, Copy, Debug, PartialEq)]
pub enum Reason {
    /// A corner of the outline is too narrow for any quad: a quad's corners have more than 20 degrees.
    Corner {
        /// The corner's inner angle.
        degrees: f64,
        /// The point, none where a loop's own sampling made the corner.
        point: Option<u32>,
    },
    /// Two parts of the outline are so near that what is sampled on one side doesn't meet what is sampled on the other.
    Gap {
        /// How near they are.
        distance: f64,
        /// How far apart the outline's nodes are there.
        spacing: f64,
        /// The two loops, 0 for the outer one.
        loops: [u32; 2],
    },
    /// The outline isn't sound as it is drawn ([`crate::raw::is_sound`]), though its nodes show no place.
    Unsound,
    /// The outline touches itself.
    Touches,
    /// The outline crosses itself.
    Crosses,
    /// A loop doesn't lie where it should: a blind spot outside the rim, or one in another.
    Sides,
    /// A quad is left with this least sine, which isn't above that of 20 degrees, and nothing that was tried mends it.
    Skew {
        /// The quad's least sine.
        sine: f64,
    },
    /// A triangle is left over.
    Triangle,
    /// The mesh isn't a paving of this outline at this size.
    OtherOutline,
    /// The judge refused the mesh for another reason.
    Refused(super::judge::NotClosed),
    /// The steps allowed are used up.
    Budget,
    /// The caller stopped it.
    Stopped,
}

impl fmt::Display for Reason {
    fn fmt(&self, f: &mut fmt::Formatter<'_>) -> fmt::Result {
        match *self {
            Reason::Corner { degrees, point: Some(point) } => {
                write!(f, "a corner of {degrees:.1} degrees at point {point}")
            }
            Reason::Corner { degrees, point: None } => write!(f, "a corner of {degrees:.1} degrees"),
            Reason::Gap { distance, spacing, loops: [0, 0] } => {
                write!(
                    f,
                    "the rim lies {distance:.2} degrees from itself, where the outline's points are {spacing:.1} apart"
                )
            }
            Reason::Gap { distance, spacing, loops: [0, _] } => {
                write!(f, "the blind spot lies {distance:.2} degrees from the rim, where the outline's points are {spacing:.1} apart")
            }
            Reason::Gap { distance, spacing, .. } => {
                write!(f, "a blind spot lies {distance:.2} degrees from another part, where the outline's points are {spacing:.1} apart")
            }
            Reason::Unsound => f.write_str("the outline isn't sound"),
            Reason::Touches => f.write_str("the outline touches itself"),
            Reason::Crosses => f.write_str("the outline crosses itself"),
            Reason::Sides => f.write_str("a loop lies on the wrong side of another"),
            Reason::Skew { sine } => write!(f, "a quad with a least sine of {sine:.2} that nothing mended"),
            Reason::Triangle => f.write_str("a triangle is left over"),
            Reason::OtherOutline => f.write_str("the mesh isn't a paving of this outline at this size"),
            Reason::Refused(refused) => write!(f, "{refused}"),
            Reason::Budget => f.write_str("the steps allowed are used up"),
            Reason::Stopped => f.write_str("it was stopped"),
        }
    }
}

/// Corners of 20 degrees or less have no quad.
const NARROW: f64 = 20.0;
/// Gaps below so many spacings are named.
const NEAR: f64 = 0.25;
/// No more places than so many are named.
const MOST: usize = 32;

/// The places at which a field stays open.
pub(super) fn places(job: &Job<'_>, failure: &Failure) -> Vec<Place> {
    let open: Vec<(Point, Reason)> = match failure {
        Failure::Halted(Halt::Budget) => return [Place { at: job.outline.nodes[0], why: Reason::Budget }].to_vec(),
        Failure::Halted(Halt::Stopped) => return [Place { at: job.outline.nodes[0], why: Reason::Stopped }].to_vec(),
        Failure::Clashes(clash) => return [clashes(*clash)].to_vec(),
        Failure::Left(middles) => middles.iter().map(|&at| (at, Reason::Triangle)).collect(),
        Failure::Refused(refused, bad) if bad.is_empty() => {
            [(job.outline.nodes[0], Reason::Refused(*refused))].to_vec()
        }
        Failure::Refused(_, bad) => bad.iter().map(|&(at, sine)| (at, Reason::Skew { sine })).collect(),
    };
    let mut places = corners(job);
    for (at, why) in open.into_iter().take(MOST) {
        let near_corner = places.iter().any(|place| distance(place.at, at) < 3.0 * job.size);
        match gap_near(job, at) {
            Some(gap) if !places.contains(&gap) => places.push(gap),
            Some(_) => {}
            None if !near_corner => places.push(Place { at, why }),
            None => {}
        }
    }
    places
}

/// Where an unsound outline's nodes touch or cross, if they do.
pub(super) fn unsound(job: &Job<'_>) -> Place {
    let outline = job.outline;
    let edges: Vec<[u32; 2]> = (0..).zip(&outline.next).map(|(a, &b)| [a, b]).collect();
    match Triangulation::default().of_edges(&outline.nodes, &edges) {
        Ok(_) => Place { at: outline.nodes[0], why: Reason::Unsound },
        Err(clash) => clashes(clash),
    }
}

fn clashes(clash: Clash) -> Place {
    let (at, why) = match clash {
        Clash::Touch(at) => (at, Reason::Touches),
        Clash::Cross(at) => (at, Reason::Crosses),
        Clash::Sides(at) => (at, Reason::Sides),
    };
    Place { at, why }
}

/// The corners of the sampled outline that no quad fits.
fn corners(job: &Job<'_>) -> Vec<Place> {
    let outline = job.outline;
    let at = |id: u32| outline.nodes[id as usize];
    let narrow = |k: u32| {
        let degrees = angle(at(outline.prev[k as usize]), at(k), at(outline.next[k as usize]));
        let point = outline.drawn[k as usize].map(|drawn| drawn + 1);
        (degrees <= NARROW).then(|| Place { at: at(k), why: Reason::Corner { degrees, point } })
    };
    (0..outline.nodes.len() as u32).filter_map(narrow).take(MOST).collect()
}

/// The narrowest gap of the outline near a place, by its spacing.
fn gap_near(job: &Job<'_>, place: Point) -> Option<Place> {
    let outline = job.outline;
    let at = |id: u32| outline.nodes[id as usize];
    let near = |&id: &u32| distance(at(id), place) < 4.0 * job.size;
    let nodes: Vec<u32> = (0..outline.nodes.len() as u32).filter(near).take(400).collect();
    let mut best: Option<(f64, Place)> = None;
    for &node in &nodes {
        for &a in &nodes {
            let b = outline.next[a as usize];
            let beside = [outline.next[node as usize], outline.prev[node as usize]];
            if a == node || b == node || beside.contains(&a) || beside.contains(&b) {
                continue;
            }
            let (gap, spacing) = (away(at(node), at(a), at(b)), distance(at(a), at(b)));
            let loops = [a, node].map(|id| outline.loops[id as usize]);
            let loops = [loops[0].min(loops[1]), loops[0].max(loops[1])];
            if gap < NEAR * spacing && best.is_none_or(|(part, _)| gap / spacing < part) {
                let why = Reason::Gap { distance: gap, spacing, loops };
                best = Some((gap / spacing, Place { at: middle(at(node), place), why }));
            }
        }
    }
    best.map(|(_, place)| place)
}
