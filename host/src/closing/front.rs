//! The front: the edges between what is kept and what is open, with the open part on their left; what is given back at it; and how far from it quads may bend.

use alloc::vec::Vec;

use super::net::{Net, State};
use super::plane::{distance, shortest_longest};
use super::work::{Halt, Work};

/// A paved quad at the front is given back if its longest side is so many times its shortest, or so many sizes, or if its least sine is below this.
const MOST_RATIO: f64 = 3.0;
const MOST_SIZES: f64 = 1.7;
const LEAST_SINE: f64 = 0.45;
/// So many rings of quads round the front may bend, and so many of these may change altogether.
const BENDING_RINGS: usize = 3;
const OPEN_RINGS: usize = 2;

impl Net {
    /// All edges of the front.
    pub(super) fn front(&self) -> Vec<[u32; 2]> {
        let mut front = Vec::new();
        for q in self.all_quads() {
            let ids = self.quads[q as usize];
            let sides = (0..4).map(|k| [ids[k], ids[(k + 1) % 4]]);
            front.extend(sides.filter(|&[a, b]| self.is_open_side(a, b)).map(|[a, b]| [b, a]));
        }
        let outline = (0..).zip(&self.outline.next).map(|(a, &b)| [a, b]);
        front.extend(outline.filter(|&[a, b]| self.owner(a, b).is_none()));
        front
    }

    fn is_on_front(&self, node: u32) -> bool {
        let bare = |a: u32, b: u32| self.owner(a, b).is_none();
        if self.is_outline(node) {
            let (next, prev) = (self.outline.next[node as usize], self.outline.prev[node as usize]);
            if bare(node, next) || bare(prev, node) {
                return true;
            }
        }
        self.ring(node).iter().any(|&q| {
            let (ids, k) = (self.quads[q as usize], self.place(q, node));
            self.is_open_side(node, ids[(k + 1) % 4]) || self.is_open_side(ids[(k + 3) % 4], node)
        })
    }

    /// Whether a quad is too drawn out or too skew to build on.
    fn is_poor(&self, q: u32) -> bool {
        let (ids, corners) = (self.quads[q as usize], self.corners(q));
        // How the outline is sampled is no fault of the quad's.
        let shortest = (0..4)
            .filter(|&k| !(self.is_outline(ids[k]) && self.is_outline(ids[(k + 1) % 4])))
            .map(|k| distance(corners[k], corners[(k + 1) % 4]))
            .fold(f64::INFINITY, f64::min);
        let [_, longest] = shortest_longest(&corners);
        longest > MOST_RATIO * shortest || longest > MOST_SIZES * self.size || self.sine(q) < LEAST_SINE
    }
}

impl Work<'_> {
    /// Gives so many layers of quads round the front back, then each one at the front that is poor, until there is none.
    pub(super) fn give_back(&mut self, layers: usize) -> Result<(), Halt> {
        for _ in 0..layers {
            let round = self.at_front();
            self.budget.spend(round.len() as u64)?;
            round.iter().for_each(|&q| self.net.remove_quad(q));
        }
        let mut asked = self.at_front();
        while let Some(q) = asked.pop() {
            self.budget.spend(1)?;
            if self.net.state(q) != State::Gone && self.net.is_poor(q) {
                let ids = self.net.quads[q as usize];
                self.net.remove_quad(q);
                ids.iter().for_each(|&id| asked.extend(self.net.ring(id)));
            }
        }
        let paved = self.net.paved as u32;
        let bare: Vec<u32> =
            (0..paved).filter(|&id| !self.net.is_outline(id) && self.net.ring(id).is_empty()).collect();
        bare.into_iter().for_each(|id| self.net.drop_node(id));
        Ok(())
    }

    /// The quads with a node on the front.
    fn at_front(&mut self) -> Vec<u32> {
        let nodes: Vec<u32> = (0..self.net.points.len() as u32).filter(|&node| self.net.is_on_front(node)).collect();
        self.quads_round(&nodes)
    }

    /// Lets the rows next to the front bend, and the nearest of them change: the nodes of these rows alone may move.
    pub(super) fn loosen(&mut self, front: &[[u32; 2]]) {
        if !self.bends {
            return;
        }
        let mut nodes: Vec<u32> = front.iter().flatten().copied().collect();
        for ring in 1..=BENDING_RINGS {
            let round = self.quads_round(&nodes);
            let state = if ring <= OPEN_RINGS { State::Open } else { State::Bends };
            for &q in &round {
                if self.net.state(q) == State::Rigid {
                    self.net.set_state(q, state);
                }
            }
            nodes.extend(self.nodes_of(&round));
        }
        self.net.fixed[self.net.outline.nodes.len()..].fill(false);
        for q in 0..self.net.quads.len() {
            if self.net.states[q] == State::Rigid {
                self.net.quads[q].iter().for_each(|&id| self.net.fixed[id as usize] = true);
            }
        }
    }
}
