//! Clean-up: nodes of too many or too few quads are mended by operations on a few quads, each tried on the mesh and taken back unless it pays (Kinney, "CleanUp:
//! improving quadrilateral finite element meshes", 1997; Canann, Muthukrishnan and Phillips, "Topological improvement procedures for quadrilateral finite element
//! meshes", 1998).

use alloc::vec::Vec;

use super::net::{Net, State};
use super::plane::{angle, shortest_longest};
use super::work::{Halt, Work};

/// A node of less cost is left alone.
const IDLE: f64 = 0.3;
/// Sweeps after an operation.
const SWEEPS: usize = 4;
/// What the least sine may fall to, with any gain and with a great one.
const GOOD: f64 = 0.5;
const FAIR: f64 = 0.42;
const GREAT_GAIN: f64 = 0.9;
const LEAST_GAIN: f64 = 0.3;

/// An operation on a quad, and by how much it lowers the costs of its nodes.
#[derive(Clone, Copy, Debug, PartialEq)]
pub(super) struct Offer {
    pub(super) kind: Kind,
    pub(super) gain: f64,
}

#[derive(Clone, Copy, Debug, PartialEq)]
pub(super) enum Kind {
    /// The quads left and right of a side are parted by the diagonal of their hexagon that is so many corners on, 1 or 2.
    Turn { a: u32, b: u32, by: usize },
    /// The first of two opposite nodes of a quad goes into the second.
    Collapse { quad: u32, from: u32, into: u32 },
}

impl Net {
    /// The cost of a node that had so many more quads that may change: their number against what its angle wants, more where they are too wide or too narrow.
    pub(super) fn cost(&self, node: u32, more: i32) -> f64 {
        let (mut count, mut room) = (more, self.full(node) - 60.0 * f64::from(self.held(node)));
        for &q in self.ring(node) {
            if self.state(q) == State::Open {
                count += 1;
            } else {
                let (corners, k) = (self.corners(q), self.place(q, node));
                room -= angle(corners[(k + 3) % 4], corners[k], corners[(k + 1) % 4]);
            }
        }
        if count <= 0 {
            return if more == 0 { 0.0 } else { 100.0 };
        }
        let (count, each) = (f64::from(count), room / f64::from(count));
        let off = count - room / 90.0;
        let wide = if each > 150.0 { 3.0 + 0.5 * (each - 150.0) } else { 0.0 };
        off * off + wide + if each < 35.0 { 3.0 } else { 0.0 }
    }

    /// What is wrong with a quad's form: sides longer than the size, and long beside short ones.
    fn form(&self, q: u32) -> f64 {
        let [shortest, longest] = shortest_longest(&self.corners(q));
        let long = (longest / (1.3 * self.size) - 1.0).max(0.0);
        let drawn = (longest / shortest.max(1e-300) / 2.2 - 1.0).clamp(0.0, 2.0);
        6.0 * long * long + 0.5 * long + 0.4 * drawn
    }
}

impl Work<'_> {
    /// Cleans up some quads in at most so many passes, and answers those that are there then, new ones too.
    pub(super) fn clean(&mut self, quads: &[u32], passes: usize) -> Result<Vec<u32>, Halt> {
        let mut all = quads.to_vec();
        for _ in 0..passes {
            let mut changed = Vec::new();
            for &q in &all {
                if self.net.state(q) == State::Open {
                    changed.extend(self.clean_quad(q)?);
                }
            }
            if changed.is_empty() {
                break;
            }
            self.seen_quads.begin(self.net.quads.len());
            all.extend(changed);
            all.retain(|&q| self.net.states[q as usize] != State::Gone && self.seen_quads.add(q));
        }
        Ok(self.still_there(&all))
    }

    /// The best operations on a quad, tried one after the other until one pays; answers the quads that it changed.
    fn clean_quad(&mut self, q: u32) -> Result<Vec<u32>, Halt> {
        let ids = self.net.quads[q as usize];
        if self.in_vain.len() < self.net.quads.len() {
            self.in_vain.resize(self.net.quads.len(), 0);
        }
        let changed = ids.iter().map(|&id| self.net.changed[id as usize]).fold(1, u64::max);
        if self.in_vain[q as usize] >= changed {
            return Ok(Vec::new());
        }
        self.budget.spend(1)?;
        for id in ids {
            if let Some(merged) = self.net.merge_doublet(id) {
                return Ok([merged].to_vec());
            }
        }
        if ids.iter().any(|&id| self.net.cost(id, 0) >= IDLE) {
            let mut offers = self.net.offers(q);
            offers.sort_by(|one, other| other.gain.total_cmp(&one.gain));
            for offer in offers {
                if let Some(changed) = self.attempt(offer)? {
                    return Ok(changed);
                }
            }
        }
        self.in_vain[q as usize] = self.net.changes.max(1);
        Ok(Vec::new())
    }

    /// Tries an operation; it stays if the quads round it are good enough then.
    fn attempt(&mut self, offer: Offer) -> Result<Option<Vec<u32>>, Halt> {
        let touched = self.net.touched_by(offer.kind);
        let mut nodes = self.nodes_of(&touched);
        let before = self.quads_round(&nodes);
        let (least, form) = (self.least_sine(&before), self.forms(&before));
        let begun = self.net.trial();
        let changed = self.net.operate(offer.kind);
        if let Kind::Collapse { from, .. } = offer.kind {
            nodes.retain(|&node| node != from);
        }
        let smoothed = self.smooth(&nodes, SWEEPS);
        let after = self.quads_round(&nodes);
        let (least_now, form_now) = (self.least_sine(&after), self.forms(&after));
        let good = least_now >= least.min(GOOD) || least_now > FAIR && offer.gain > GREAT_GAIN;
        if smoothed.is_ok() && good && offer.gain + form - form_now > LEAST_GAIN {
            self.net.keep();
            return Ok(Some(changed));
        }
        self.net.take_back(begun);
        smoothed.map(|()| None)
    }

    fn forms(&self, quads: &[u32]) -> f64 {
        quads.iter().map(|&q| self.net.form(q)).sum()
    }
}
