//! The mesh under work: nodes, quads and left-over triangles, and what is asked of them.

use alloc::vec;
use alloc::vec::Vec;

use super::changes::Undo;
use super::plane::{angle, least_sine, Point};
use super::sampled::Sampled;

/// What may be done with a quad.
#[derive(Clone, Copy, Debug, PartialEq, Eq)]
pub(super) enum State {
    /// There is none of this number.
    Gone,
    /// Paved, and its nodes stay where they are.
    Rigid,
    /// Paved: its nodes may move, their numbers stay.
    Bends,
    /// Paved or new: all may change.
    Open,
}

pub(super) struct Net {
    pub(super) size: f64,
    pub(super) points: Vec<Point>,
    /// Each node's quads.
    pub(super) rings: Vec<Vec<u32>>,
    pub(super) quads: Vec<[u32; 4]>,
    pub(super) states: Vec<State>,
    /// Triangles that are neither paired nor filled, and whether each is still there.
    pub(super) holes: Vec<[u32; 3]>,
    pub(super) open: Vec<bool>,
    /// In how many of those that are still there a node is: it may be neither moved nor merged then.
    pub(super) held: Vec<u16>,
    /// Whether a node stays where it is, as the outline's do and paved ones away from the seam.
    pub(super) fixed: Vec<bool>,
    pub(super) outline: Sampled,
    /// The outline's inner angle at each of its nodes, in degrees.
    full: Vec<f64>,
    pub(super) there: Vec<bool>,
    /// How many nodes were paved: their numbers are given to no others.
    pub(super) paved: usize,
    pub(super) spare_quads: Vec<u32>,
    pub(super) spare_nodes: Vec<u32>,
    pub(super) journal: Vec<Undo>,
    pub(super) trials: u32,
    /// When a node's quads last changed, by the number of changes.
    pub(super) changed: Vec<u64>,
    pub(super) changes: u64,
}

impl Net {
    /// The paved nodes and quads of a sampled outline, every quad rigid.
    pub(super) fn new(outline: Sampled, points: Vec<Point>, quads: Vec<[u32; 4]>, size: f64) -> Net {
        let (nodes, count) = (points.len(), quads.len());
        let at = |id: u32| points[id as usize];
        let inner = |(&before, (k, &after))| angle(at(before), at(k), at(after));
        let full = outline.prev.iter().zip((0..).zip(&outline.next)).map(inner).collect();
        let mut rings = vec![Vec::new(); nodes];
        for (q, ids) in (0..).zip(&quads) {
            ids.iter().for_each(|&id| rings[id as usize].push(q));
        }
        Net {
            size,
            points,
            rings,
            quads,
            states: vec![State::Rigid; count],
            holes: Vec::new(),
            open: Vec::new(),
            held: vec![0; nodes],
            fixed: vec![true; nodes],
            outline,
            full,
            there: vec![true; nodes],
            paved: nodes,
            spare_quads: Vec::new(),
            spare_nodes: Vec::new(),
            journal: Vec::new(),
            trials: 0,
            changed: vec![0; nodes],
            changes: 0,
        }
    }

    pub(super) fn at(&self, node: u32) -> Point {
        self.points[node as usize]
    }

    pub(super) fn corners(&self, quad: u32) -> [Point; 4] {
        self.quads[quad as usize].map(|id| self.at(id))
    }

    pub(super) fn sine(&self, quad: u32) -> f64 {
        least_sine(&self.corners(quad))
    }

    pub(super) fn state(&self, quad: u32) -> State {
        self.states[quad as usize]
    }

    pub(super) fn ring(&self, node: u32) -> &[u32] {
        &self.rings[node as usize]
    }

    pub(super) fn is_outline(&self, node: u32) -> bool {
        (node as usize) < self.outline.nodes.len()
    }

    pub(super) fn is_held(&self, node: u32) -> bool {
        self.held[node as usize] > 0
    }

    /// In how many left-over triangles a node is.
    pub(super) fn held(&self, node: u32) -> u16 {
        self.held[node as usize]
    }

    /// Whether a node may move.
    pub(super) fn is_free(&self, node: u32) -> bool {
        !self.fixed[node as usize] && self.held[node as usize] == 0
    }

    /// Whether a node may be merged away.
    pub(super) fn is_soft(&self, node: u32) -> bool {
        self.is_free(node) && self.ring(node).iter().all(|&q| self.state(q) == State::Open)
    }

    /// The angle that a node's quads fill.
    pub(super) fn full(&self, node: u32) -> f64 {
        self.full.get(node as usize).copied().unwrap_or(360.0)
    }

    /// The place of a node in a quad of its ring.
    pub(super) fn place(&self, quad: u32, node: u32) -> usize {
        self.quads[quad as usize].iter().position(|&id| id == node).unwrap_or(0)
    }

    /// The quad with the side from a to b.
    pub(super) fn owner(&self, a: u32, b: u32) -> Option<u32> {
        self.ring(a).iter().copied().find(|&q| self.quads[q as usize][(self.place(q, a) + 1) % 4] == b)
    }

    /// Whether two nodes are joined by a side or by an edge of the outline.
    pub(super) fn are_joined(&self, a: u32, b: u32) -> bool {
        let on_outline =
            self.is_outline(a) && (self.outline.next[a as usize] == b || self.outline.prev[a as usize] == b);
        on_outline || self.owner(a, b).is_some() || self.owner(b, a).is_some()
    }

    pub(super) fn is_outline_edge(&self, a: u32, b: u32) -> bool {
        self.is_outline(a) && self.outline.next[a as usize] == b
    }

    /// The edge that a kept side leaves to be filled, on whose left the open part is: none if another quad or the outline is there.
    pub(super) fn is_open_side(&self, a: u32, b: u32) -> bool {
        self.owner(b, a).is_none() && !self.is_outline_edge(a, b)
    }

    /// The quads that are there, by number.
    pub(super) fn all_quads(&self) -> impl Iterator<Item = u32> + '_ {
        (0..).zip(&self.states).filter(|(_, &state)| state != State::Gone).map(|(q, _)| q)
    }
}
