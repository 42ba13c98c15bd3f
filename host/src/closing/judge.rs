//! What says that a mesh is closed: a closed mesh is made here alone, of nodes and quads that have passed every rule.
//!
//! The judge is the library's own check of a cover, which is proved: nothing of the closing is believed.

use alloc::vec::Vec;
use core::fmt;

use super::ladder::Job;
use super::plane::Point;
use crate::raw::covers;
use crate::NotCovered;

/// The sine of the paving's least corner, 20 degrees: what a reason names as skew.
pub(super) const LEAST_SINE: f64 = 0.342_020_143_325_668_7;
/// The farthest that a coordinate may be.
pub(super) const FARTHEST: f64 = 1_001.0;

/// Why nodes and quads aren't a closed mesh of an outline.
#[derive(Clone, Copy, Debug, PartialEq, Eq)]
pub enum NotClosed {
    /// The outline as drawn isn't sound.
    Unsound,
    /// The proved check of its cover refuses it.
    NotCovered(NotCovered),
}

impl fmt::Display for NotClosed {
    fn fmt(&self, f: &mut fmt::Formatter<'_>) -> fmt::Result {
        match self {
            NotClosed::Unsound => f.write_str("the outline isn't sound"),
            NotClosed::NotCovered(refused) => write!(f, "{refused}"),
        }
    }
}

impl core::error::Error for NotClosed {}

/// Where a quad of a closed mesh comes from.
#[derive(Clone, Copy, Debug, PartialEq, Eq, Hash)]
pub enum Kind {
    /// Paved, and where it was.
    Kept,
    /// Paved, with the same four nodes, of which at least one was moved.
    Bent,
    /// New.
    New,
}

/// A closed mesh: its quads cover the sampled outline's inside, each of them turns left at every corner with more than 20 degrees, and every side is matched by
/// another quad's or is the outline's. It is made by the judge alone.
#[derive(Clone, Debug, PartialEq)]
pub struct Closed {
    nodes: Vec<Point>,
    quads: Vec<[u32; 4]>,
    kinds: Vec<Kind>,
    sources: Vec<u32>,
    given_back: usize,
}

/// A mesh before it is judged.
#[derive(Clone, Debug, Default)]
pub(super) struct Claim {
    pub(super) nodes: Vec<Point>,
    pub(super) quads: Vec<[u32; 4]>,
    pub(super) kinds: Vec<Kind>,
    pub(super) sources: Vec<u32>,
    pub(super) given_back: usize,
}

impl Closed {
    /// The closed mesh that is claimed, if it is one.
    pub(super) fn judged(job: &Job<'_>, claim: Claim) -> Result<Closed, NotClosed> {
        let [xs, ys] = [0, 1].map(|axis| claim.nodes.iter().map(|node| node[axis]).collect::<Vec<f64>>());
        let ids: Vec<u32> = claim.quads.iter().flatten().copied().collect();
        if !covers(job.drawn, job.size, &xs, &ys, &ids).map_err(NotClosed::NotCovered)?.sound {
            return Err(NotClosed::Unsound);
        }
        let Claim { nodes, quads, kinds, sources, given_back } = claim;
        Ok(Closed { nodes, quads, kinds, sources, given_back })
    }

    /// The nodes, by number: first the sampled outline's, as in the paving, then the paved ones that are still used, then the new ones.
    #[must_use]
    pub fn nodes(&self) -> &[[f64; 2]] {
        &self.nodes
    }

    /// The quads, each run to the left: first the paved ones that were kept, in the order of placing, then the new ones.
    #[must_use]
    pub fn quads(&self) -> &[[u32; 4]] {
        &self.quads
    }

    /// Where each quad comes from.
    #[must_use]
    pub fn kinds(&self) -> &[Kind] {
        &self.kinds
    }

    /// For each node the number that it has in the paving, or [`crate::OFF`] for a new one.
    #[must_use]
    pub fn paved_nodes(&self) -> &[u32] {
        &self.sources
    }

    fn count(&self, kind: Kind) -> usize {
        self.kinds.iter().filter(|&&other| other == kind).count()
    }

    /// How many paved quads are there where they were.
    #[must_use]
    pub fn kept(&self) -> usize {
        self.count(Kind::Kept)
    }

    /// How many paved quads are there with a node moved.
    #[must_use]
    pub fn moved(&self) -> usize {
        self.count(Kind::Bent)
    }

    /// How many paved quads were given back.
    #[must_use]
    pub fn given_back(&self) -> usize {
        self.given_back
    }

    /// How many quads are new.
    #[must_use]
    pub fn new_quads(&self) -> usize {
        self.count(Kind::New)
    }
}
