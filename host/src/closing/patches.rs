//! Patches: some quads and left-over triangles taken out and filled anew, with one spacing and another; the best is kept if it is better than what was there.

use alloc::vec::Vec;

use super::net::State;
use super::points::Spacing;
use super::walk::Way;
use super::work::{Halt, Work};

/// A filling with more left-over triangles isn't tried.
const MOST_LEFT: usize = 24;
/// What counts as mended, and what a patch round a way must come to.
const MENDED: f64 = 0.5;
const LEAST_ROUND_WAY: f64 = 0.36;
const USUAL: [f64; 4] = [1.0, 0.85, 1.2, 0.7];

/// Quads and left-over triangles to be taken out.
#[derive(Clone, Debug, Default)]
pub(super) struct Patch {
    pub(super) quads: Vec<u32>,
    holes: Vec<u32>,
}

impl Work<'_> {
    /// The spacings that are tried first.
    pub(super) fn usual_spacings(&self) -> Vec<Spacing> {
        USUAL.iter().map(|part| Spacing { size: part * self.net.size, across: None }).collect()
    }

    /// So many rings of quads round some nodes; where `kept` isn't set only those that may change.
    pub(super) fn patch_round(&mut self, nodes: &[u32], rings: usize, kept: bool) -> Patch {
        let (mut nodes, mut quads) = (nodes.to_vec(), Vec::new());
        for _ in 0..rings {
            quads = self.quads_round(&nodes);
            quads.retain(|&q| kept || self.net.state(q) == State::Open);
            nodes = self.nodes_of(&quads);
        }
        let has = |&hole: &u32| {
            self.net.open[hole as usize] && self.net.holes[hole as usize].iter().all(|&id| self.seen_nodes.has(id))
        };
        let holes = if self.net.open.iter().any(|&open| open) {
            (0..self.net.holes.len() as u32).filter(has).collect()
        } else {
            Vec::new()
        };
        Patch { quads, holes }
    }

    /// The edges round a patch, the patch on their left; none if its left-over triangles are odd in number, which can't be filled.
    fn edges_round(&mut self, patch: &Patch) -> Option<Vec<[u32; 2]>> {
        let mut sides: Vec<[u32; 2]> = Vec::new();
        self.patch.begin(self.net.quads.len());
        patch.quads.iter().for_each(|&q| self.patch.put(q));
        let in_patch = |a: u32, b: u32| {
            self.net.owner(a, b).is_some_and(|q| self.patch.has(q))
                || self.net.hole_with(a, b).is_some_and(|hole| patch.holes.contains(&hole))
        };
        for &q in &patch.quads {
            let ids = self.net.quads[q as usize];
            sides.extend((0..4).map(|k| [ids[k], ids[(k + 1) % 4]]).filter(|&[a, b]| !in_patch(b, a)));
        }
        for &hole in &patch.holes {
            let ids = self.net.holes[hole as usize];
            sides.extend((0..3).map(|k| [ids[k], ids[(k + 1) % 3]]).filter(|&[a, b]| !in_patch(b, a)));
        }
        patch.holes.len().is_multiple_of(2).then_some(sides)
    }

    /// Takes a patch out and fills it anew, left-over triangles carried within it; answers the quads there and the least sine in and round them, none if it can't be.
    /// The caller has begun a trial.
    fn refill(&mut self, patch: &Patch, spacing: Spacing) -> Result<Option<f64>, Halt> {
        let Some(edges) = self.edges_round(patch) else { return Ok(None) };
        self.budget.spend(patch.quads.len() as u64)?;
        let nodes = self.nodes_of(&patch.quads);
        patch.quads.iter().for_each(|&q| self.net.remove_quad(q));
        patch.holes.iter().for_each(|&hole| self.net.fill_hole(hole));
        for node in nodes {
            if self.net.ring(node).is_empty()
                && !self.net.is_held(node)
                && !edges.iter().flatten().any(|&id| id == node)
            {
                self.net.drop_node(node);
            }
        }
        let Ok(Some(filled)) = self.fill(&edges, spacing, MOST_LEFT)? else { return Ok(None) };
        self.patch.begin(self.net.quads.len());
        filled.quads.iter().for_each(|&q| self.patch.put(q));
        for &hole in &filled.holes {
            if self.net.open[hole as usize] {
                let Some(way) = self.way_from(hole, usize::MAX, true)? else { return Ok(None) };
                if self.carry(&way).is_none() {
                    return Ok(None);
                }
            }
        }
        let mut all = filled.quads;
        all.extend((0..self.net.quads.len() as u32).rev().take(filled.holes.len()));
        all.retain(|&q| self.net.state(q) != State::Gone && self.patch.has(q));
        self.polish(&all).map(Some)
    }

    /// Tries patches with spacings; the first that counts as mended is kept, else the best if it is better than `floor`.
    pub(super) fn best_of(
        &mut self,
        patches: &[Patch],
        spacings: &[Spacing],
        floor: f64,
        enough: f64,
    ) -> Result<bool, Halt> {
        let mut best = (floor, None);
        for patch in patches {
            for &spacing in spacings {
                self.refills = self.refills.saturating_sub(patch.quads.len() as u64 + 20);
                let begun = self.net.trial();
                let least = self.refill(patch, spacing)?;
                if least.is_some_and(|least| least >= enough) {
                    self.net.keep();
                    return Ok(true);
                }
                self.net.take_back(begun);
                if let Some(least) = least.filter(|&least| least > best.0) {
                    best = (least, Some((patch, spacing)));
                }
            }
        }
        let (_, Some((patch, spacing))) = best else { return Ok(false) };
        let begun = self.net.trial();
        if self.refill(patch, spacing)?.is_some_and(|least| least > floor) {
            self.net.keep();
            return Ok(true);
        }
        self.net.take_back(begun);
        Ok(false)
    }

    /// Fills the patches round a way anew, where that comes to more than carrying a triangle along it did.
    pub(super) fn refill_way(&mut self, way: &Way, least: f64) -> Result<bool, Halt> {
        if self.refills == 0 {
            return Ok(false);
        }
        let mut nodes = self.nodes_of(&way.quads);
        for hole in [way.from, way.to] {
            nodes.extend(self.net.holes[hole as usize]);
        }
        let patches = [1, 2].map(|rings| self.patch_round(&nodes, rings, true));
        let spacings = self.usual_spacings();
        self.best_of(&patches, &spacings, least.max(LEAST_ROUND_WAY), MENDED)
    }
}
