//! What all parts of the closing share: the mesh, the caller's budget and progress, and scratch.

use alloc::vec::Vec;

use super::net::{Net, State};
use super::plane::{Point, Random};
use super::triangulation::Triangulation;
use super::{Progress, Stage};

/// Why the work ends early.
#[derive(Clone, Copy, Debug, PartialEq, Eq)]
pub(super) enum Halt {
    /// The steps allowed are used up.
    Budget,
    /// The caller's progress function said so.
    Stopped,
}

/// Counted steps: each is a node's smoothing, or as much of other work.
pub(super) struct Budget<'p> {
    pub(super) left: u64,
    pub(super) used: u64,
    told: u64,
    pub(super) stage: Stage,
    tell: &'p mut dyn FnMut(Progress) -> bool,
}

/// The caller is asked whether to go on once in so many steps.
const TELL_EACH: u64 = 2_000;

impl<'p> Budget<'p> {
    pub(super) fn new(steps: u64, tell: &'p mut dyn FnMut(Progress) -> bool) -> Budget<'p> {
        Budget { left: steps, used: 0, told: 0, stage: Stage::Filling, tell }
    }

    pub(super) fn spend(&mut self, steps: u64) -> Result<(), Halt> {
        self.left = self.left.checked_sub(steps).ok_or(Halt::Budget)?;
        self.used += steps;
        if self.used - self.told < TELL_EACH {
            return Ok(());
        }
        self.told = self.used;
        if (self.tell)(Progress { stage: self.stage, steps: self.used }) {
            Ok(())
        } else {
            Err(Halt::Stopped)
        }
    }

    pub(super) fn begin(&mut self, stage: Stage) -> Result<(), Halt> {
        self.stage = stage;
        if (self.tell)(Progress { stage, steps: self.used }) {
            Ok(())
        } else {
            Err(Halt::Stopped)
        }
    }
}

/// How many quads may be filled anew by repairs, and half as many more as there are paved ones.
const REFILLS: u64 = 20_000;

/// A set of numbers that is emptied at once.
#[derive(Default)]
pub(super) struct Stamps {
    marks: Vec<u32>,
    now: u32,
}

impl Stamps {
    /// Empties it, for numbers below a bound.
    pub(super) fn begin(&mut self, bound: usize) {
        if self.marks.len() < bound {
            self.marks.resize(bound, 0);
        }
        if self.now == u32::MAX {
            self.marks.fill(0);
            self.now = 0;
        }
        self.now += 1;
    }

    /// Whether a number wasn't in it yet; it is then.
    pub(super) fn add(&mut self, number: u32) -> bool {
        let mark = &mut self.marks[number as usize];
        let new = *mark != self.now;
        *mark = self.now;
        new
    }

    /// Adds a number, whatever its size.
    pub(super) fn put(&mut self, number: u32) {
        if self.marks.len() <= number as usize {
            self.marks.resize(number as usize + 1, 0);
        }
        self.marks[number as usize] = self.now;
    }

    pub(super) fn has(&self, number: u32) -> bool {
        self.marks.get(number as usize) == Some(&self.now)
    }
}

pub(super) struct Work<'p> {
    pub(super) net: Net,
    pub(super) budget: Budget<'p>,
    pub(super) random: Random,
    /// Whether paved nodes near the seam may move.
    pub(super) bends: bool,
    /// The corners round a node, as smoothing reads them.
    pub(super) corners: Vec<[Point; 3]>,
    pub(super) seen_nodes: Stamps,
    pub(super) seen_quads: Stamps,
    /// The nodes of a smoothing, and those to be looked at in its next sweep.
    pub(super) in_sweeps: Stamps,
    pub(super) awake: Vec<bool>,
    /// For each quad the number of changes when no operation on it paid.
    pub(super) in_vain: Vec<u64>,
    pub(super) triangles: Triangulation,
    /// A node's place among those of a front.
    pub(super) local: Vec<u32>,
    /// The quads of the patch that is being filled anew.
    pub(super) patch: Stamps,
    /// How many quads may still be filled anew.
    pub(super) refills: u64,
}

impl<'p> Work<'p> {
    pub(super) fn new(net: Net, budget: Budget<'p>, bends: bool) -> Work<'p> {
        let paved = net.quads.len() as u64;
        Work {
            net,
            budget,
            random: Random(0x9e37_79b9_7f4a_7c15),
            bends,
            corners: Vec::new(),
            seen_nodes: Stamps::default(),
            seen_quads: Stamps::default(),
            in_sweeps: Stamps::default(),
            awake: Vec::new(),
            in_vain: Vec::new(),
            triangles: Triangulation::default(),
            local: Vec::new(),
            patch: Stamps::default(),
            refills: REFILLS + paved / 2,
        }
    }

    /// The nodes of some quads, each once, in the order in which they come.
    pub(super) fn nodes_of(&mut self, quads: &[u32]) -> Vec<u32> {
        self.seen_nodes.begin(self.net.points.len());
        let mut nodes = Vec::with_capacity(2 * quads.len() + 2);
        for &q in quads {
            nodes.extend(self.net.quads[q as usize].into_iter().filter(|&id| self.seen_nodes.add(id)));
        }
        nodes
    }

    /// The quads round some nodes, each once.
    pub(super) fn quads_round(&mut self, nodes: &[u32]) -> Vec<u32> {
        self.seen_quads.begin(self.net.quads.len());
        let mut quads = Vec::with_capacity(3 * nodes.len());
        for &node in nodes {
            quads.extend(self.net.ring(node).iter().copied().filter(|&q| self.seen_quads.add(q)));
        }
        quads
    }

    /// Some quads and so many rings of quads round them.
    pub(super) fn with_rings(&mut self, quads: &[u32], rings: usize) -> Vec<u32> {
        let mut all = quads.to_vec();
        for _ in 0..rings {
            let nodes = self.nodes_of(&all);
            all = self.quads_round(&nodes);
        }
        all
    }

    pub(super) fn least_sine(&self, quads: &[u32]) -> f64 {
        quads.iter().map(|&q| self.net.sine(q)).fold(f64::INFINITY, f64::min)
    }

    /// Those of some quads that are still there.
    pub(super) fn still_there(&self, quads: &[u32]) -> Vec<u32> {
        quads.iter().copied().filter(|&q| self.net.state(q) != State::Gone).collect()
    }
}
