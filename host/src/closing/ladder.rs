//! The order of the work, and the ladder: first as much as may be is kept, then a layer round the front is given back, then two, then all; the first mesh that the
//! judge accepts is answered.

use alloc::vec;
use alloc::vec::Vec;

use super::constraints::Clash;
use super::judge::{Claim, Closed, Kind, NotClosed};
use super::net::{Net, State};
use super::plane::Point;
use super::points::Spacing;
use super::sampled::Sampled;
use super::work::{Budget, Halt, Work};
use super::Stage;
use crate::raw::Outline;

/// Layers given back round the front, rung by rung; the last gives all back.
const RUNGS: [usize; 4] = [0, 1, 2, usize::MAX];
/// Below this a node of a quad is lifted.
const LIFTED: f64 = 0.6;

/// What is to be closed.
pub(super) struct Job<'a> {
    pub(super) drawn: &'a Outline<'a>,
    pub(super) outline: &'a Sampled,
    pub(super) points: &'a [Point],
    pub(super) quads: &'a [[u32; 4]],
    pub(super) size: f64,
    pub(super) bends: bool,
}

/// Why a rung didn't close the mesh.
#[derive(Clone, Debug)]
pub(super) enum Failure {
    Halted(Halt),
    Clashes(Clash),
    /// What the judge said, and the middles and least sines of the quads that it can't accept.
    Refused(NotClosed, Vec<(Point, f64)>),
    /// Left-over triangles, by their middles.
    Left(Vec<Point>),
}

impl From<Halt> for Failure {
    fn from(halt: Halt) -> Failure {
        Failure::Halted(halt)
    }
}

/// Closes a paving, or says why the last rung that was tried didn't.
pub(super) fn climb(job: &Job<'_>, budget: Budget<'_>) -> Result<Closed, Failure> {
    let (mut budget, mut first) = (budget, None);
    for layers in RUNGS {
        let (outline, points) = (job.outline.clone(), job.points.to_vec());
        let quads = if layers == usize::MAX { Vec::new() } else { job.quads.to_vec() };
        let net = Net::new(outline, points, quads, job.size);
        let mut work = Work::new(net, budget, job.bends);
        let closed = work.close(if layers == usize::MAX { 0 } else { layers });
        let failure = match closed {
            Err(failure) => failure,
            Ok(()) => match Closed::judged(job, work.net.claim(job)) {
                Ok(closed) => return Ok(closed),
                Err(refused) => Failure::Refused(refused, work.net.bad_places()),
            },
        };
        budget = work.budget;
        match failure {
            Failure::Halted(_) | Failure::Clashes(_) => return Err(first.unwrap_or(failure)),
            _ => first = first.or(Some(failure)),
        }
    }
    Err(first.unwrap_or(Failure::Left(Vec::new())))
}

impl Work<'_> {
    fn close(&mut self, layers: usize) -> Result<(), Failure> {
        self.budget.begin(Stage::Filling)?;
        self.give_back(layers)?;
        let front = self.net.front();
        self.loosen(&front);
        let spacing = Spacing { size: self.net.size, across: None };
        let filled = self.fill(&front, spacing, usize::MAX)?.map_err(Failure::Clashes)?;
        if filled.is_none() || front.is_empty() {
            return Ok(());
        }
        self.budget.begin(Stage::Smoothing)?;
        self.smooth_all(6)?;
        let open = self.open_quads();
        self.clean(&open, 8)?;
        self.smooth_all(16)?;
        self.budget.begin(Stage::Pairing)?;
        self.heal()?;
        self.lift_all()?;
        let left: Vec<Point> = self.net.left_over();
        if !left.is_empty() {
            return Err(Failure::Left(left));
        }
        self.budget.begin(Stage::Repairing)?;
        self.repair()?;
        let open = self.open_quads();
        self.clean(&open, 4)?;
        self.smooth_all(16)?;
        Ok(self.lift_all()?)
    }

    fn open_quads(&self) -> Vec<u32> {
        self.net.all_quads().filter(|&q| self.net.state(q) == State::Open).collect()
    }

    fn smooth_all(&mut self, sweeps: usize) -> Result<(), Halt> {
        let nodes: Vec<u32> = (0..self.net.points.len() as u32).filter(|&node| self.net.is_free(node)).collect();
        self.smooth(&nodes, sweeps)
    }

    fn lift_all(&mut self) -> Result<(), Halt> {
        let quads: Vec<u32> = self.net.all_quads().filter(|&q| self.net.state(q) != State::Rigid).collect();
        self.lift(&quads, LIFTED)
    }
}

impl Net {
    /// The middles of the triangles that are left over.
    fn left_over(&self) -> Vec<Point> {
        let middle = |ids: &[u32; 3]| [0, 1].map(|axis| ids.iter().map(|&id| self.at(id)[axis]).sum::<f64>() / 3.0);
        self.holes.iter().zip(&self.open).filter(|(_, &open)| open).map(|(ids, _)| middle(ids)).collect()
    }

    /// The middles and least sines of the quads that can't be accepted.
    fn bad_places(&self) -> Vec<(Point, f64)> {
        let middle = |corners: [Point; 4]| [0, 1].map(|axis| corners.iter().map(|p| p[axis]).sum::<f64>() / 4.0);
        let all = self.all_quads().map(|q| (middle(self.corners(q)), self.sine(q)));
        all.filter(|(_, sine)| *sine <= super::judge::LEAST_SINE).collect()
    }

    /// The mesh in its last numbers: the outline's nodes, then the paved ones that have a quad, then the new ones; quads that were paved first.
    fn claim(&self, job: &Job<'_>) -> Claim {
        let (sampled, paved) = (self.outline.nodes.len(), self.paved);
        let mut number = vec![u32::MAX; self.points.len()];
        let mut claim = Claim::default();
        for (node, place) in number.iter_mut().enumerate() {
            if node < sampled || !self.rings[node].is_empty() {
                *place = claim.nodes.len() as u32;
                claim.nodes.push(self.points[node]);
                claim.sources.push(if node < paved { node as u32 } else { u32::MAX });
            }
        }
        let mut used = vec![false; self.quads.len()];
        let mut kept = 0;
        for &old in job.quads {
            let Some(q) = self.same_quad(old) else { continue };
            let stays =
                |&id: &u32| self.points[id as usize].map(f64::to_bits) == job.points[id as usize].map(f64::to_bits);
            claim.kinds.push(if old.iter().all(stays) { Kind::Kept } else { Kind::Bent });
            claim.quads.push(old.map(|id| number[id as usize]));
            used[q as usize] = true;
            kept += 1;
        }
        for q in self.all_quads().filter(|&q| !used[q as usize]) {
            claim.kinds.push(Kind::New);
            claim.quads.push(self.quads[q as usize].map(|id| number[id as usize]));
        }
        claim.given_back = job.quads.len() - kept;
        claim
    }

    /// The quad with these nodes in this order, wherever it begins.
    fn same_quad(&self, ids: [u32; 4]) -> Option<u32> {
        self.owner(ids[0], ids[1]).filter(|&q| {
            let (found, k) = (self.quads[q as usize], self.place(q, ids[0]));
            (0..4).all(|j| found[(k + j) % 4] == ids[j])
        })
    }
}
