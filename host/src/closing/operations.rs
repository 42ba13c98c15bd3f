//! The operations of the clean-up: a doublet merged, a side turned, a quad collapsed.

use alloc::vec::Vec;

use super::cleanup::{Kind, Offer};
use super::net::{Net, State};
use super::plane::middle;

/// By how much the costs must fall.
const TURN_GAIN: f64 = 0.3;
const COLLAPSE_GAIN: f64 = 0.6;

impl Net {
    fn is_open_quad(&self, q: u32) -> bool {
        self.state(q) == State::Open
    }

    /// Merges the two quads of a node that has no more, which then goes.
    pub(super) fn merge_doublet(&mut self, node: u32) -> Option<u32> {
        let &[one, other] = self.ring(node) else { return None };
        if !self.is_soft(node) {
            return None;
        }
        let (ids, k) = (self.quads[one as usize], self.place(one, node));
        let [x, y, z] = [1, 2, 3].map(|by| ids[(k + by) % 4]);
        let w = self.quads[other as usize][(self.place(other, node) + 2) % 4];
        if w == y {
            return None;
        }
        self.remove_quad(other);
        self.set_quad(one, [x, y, z, w], State::Open);
        self.drop_node(node);
        Some(one)
    }

    /// The quads left and right of the side from a to b, and their hexagon from a on, to the left.
    fn hexagon(&self, a: u32, b: u32) -> Option<([u32; 2], [u32; 6])> {
        let (left, right) = (self.owner(a, b)?, self.owner(b, a)?);
        let on = |q: u32, id: u32, by: usize| self.quads[q as usize][(self.place(q, id) + by) % 4];
        let hexagon = [a, on(right, a, 1), on(right, a, 2), b, on(left, b, 1), on(left, b, 2)];
        let distinct = (0..6).all(|k| !hexagon[..k].contains(&hexagon[k]));
        (distinct && self.is_open_quad(left) && self.is_open_quad(right)).then_some(([left, right], hexagon))
    }

    /// The operations on a quad that would lower the costs enough.
    pub(super) fn offers(&self, q: u32) -> Vec<Offer> {
        let (ids, mut offers) = (self.quads[q as usize], Vec::new());
        for k in 0..4 {
            let (a, b) = (ids[k], ids[(k + 1) % 4]);
            if let Some((_, hexagon)) = self.hexagon(a, b) {
                offers.extend([1, 2].into_iter().filter_map(|by| self.turn_offer(a, b, by, &hexagon)));
            }
        }
        for k in 0..2 {
            offers.extend(self.collapse_offer(q, k));
        }
        offers
    }

    fn turn_offer(&self, a: u32, b: u32, by: usize, hexagon: &[u32; 6]) -> Option<Offer> {
        let (c, d) = (hexagon[by], hexagon[by + 3]);
        let fall = |node: u32, more: i32| self.cost(node, 0) - self.cost(node, more);
        let gain = fall(a, -1) + fall(b, -1) + fall(c, 1) + fall(d, 1);
        (gain > TURN_GAIN && !self.are_joined(c, d)).then_some(Offer { kind: Kind::Turn { a, b, by }, gain })
    }

    fn collapse_offer(&self, quad: u32, k: usize) -> Option<Offer> {
        let ids = self.quads[quad as usize];
        let (one, other) = (ids[k], ids[k + 2]);
        let (from, into) = if self.is_soft(one) && !(self.is_soft(other) && self.fixed_beside(one)) {
            (one, other)
        } else if self.is_soft(other) {
            (other, one)
        } else {
            return None;
        };
        if self.is_held(into) {
            return None;
        }
        let sides = [ids[(k + 1) % 4], ids[(k + 3) % 4]];
        let merged = self.ring(from).len() as i32 - 2;
        let fall = |node: u32, more: i32| self.cost(node, 0) - self.cost(node, more);
        let gain = self.cost(from, 0) + fall(into, merged) + fall(sides[0], -1) + fall(sides[1], -1);
        let may = gain > COLLAPSE_GAIN && self.may_merge(quad, from, into, sides);
        may.then_some(Offer { kind: Kind::Collapse { quad, from, into }, gain })
    }

    /// Whether the one of two soft nodes has a fixed node beside it: then it rather stays.
    fn fixed_beside(&self, node: u32) -> bool {
        self.ring(node).iter().any(|&q| self.quads[q as usize].iter().any(|&id| self.fixed[id as usize]))
    }

    /// Whether two opposite nodes of a quad may become one: no side is doubled and no node left with too few quads.
    fn may_merge(&self, quad: u32, from: u32, into: u32, sides: [u32; 2]) -> bool {
        let enough = |&id: &u32| self.ring(id).len() > if self.fixed[id as usize] { 1 } else { 2 };
        let around = |node: u32| {
            let next = move |&q: &u32| {
                let (ids, k) = (self.quads[q as usize], self.place(q, node));
                [ids[(k + 1) % 4], ids[(k + 3) % 4]]
            };
            self.ring(node).iter().flat_map(next)
        };
        let common_quad = self.ring(from).iter().any(|&q| q != quad && self.quads[q as usize].contains(&into));
        sides.iter().all(enough)
            && !common_quad
            && !self.are_joined(from, into)
            && around(from)
                .all(|id| sides.contains(&id) || !(around(into).any(|other| other == id) || self.are_joined(into, id)))
    }

    /// The quads that an operation changes, and those that only get another node.
    pub(super) fn touched_by(&self, kind: Kind) -> Vec<u32> {
        match kind {
            Kind::Turn { a, b, .. } => self.owner(a, b).into_iter().chain(self.owner(b, a)).collect(),
            Kind::Collapse { from, into, .. } => {
                let ring = self.ring(into).iter().filter(|&&q| !self.quads[q as usize].contains(&from));
                self.ring(from).iter().chain(ring).copied().collect()
            }
        }
    }

    /// Does an operation that was offered; answers the quads that have other nodes than before.
    pub(super) fn operate(&mut self, kind: Kind) -> Vec<u32> {
        match kind {
            Kind::Turn { a, b, by } => {
                let Some((quads, h)) = self.hexagon(a, b) else { return Vec::new() };
                for (k, q) in quads.into_iter().enumerate() {
                    let ids = [0, 1, 2, 3].map(|j| h[(by + 3 * k + j) % 6]);
                    self.set_quad(q, ids, State::Open);
                }
                quads.to_vec()
            }
            Kind::Collapse { quad, from, into } => {
                if self.is_free(into) {
                    self.move_to(into, middle(self.at(from), self.at(into)));
                }
                self.remove_quad(quad);
                let ring = self.ring(from).to_vec();
                for &q in &ring {
                    let ids = self.quads[q as usize].map(|id| if id == from { into } else { id });
                    self.set_quad(q, ids, State::Open);
                }
                self.drop_node(from);
                ring
            }
        }
    }
}
