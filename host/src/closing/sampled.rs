//! The sampled outline: the nodes that a paving begins with, and its edges.

use alloc::vec::Vec;

use super::plane::{distance, middle, Point};
use crate::raw::Outline;

/// What the paving's own sampling makes of an outline.
#[derive(Clone, Debug, Default)]
pub(super) struct Sampled {
    pub(super) nodes: Vec<Point>,
    /// The node after each node, and the one before it; the field is on the left.
    pub(super) next: Vec<u32>,
    pub(super) prev: Vec<u32>,
    /// Each node's loop, 0 for the outer one.
    pub(super) loops: Vec<u32>,
    /// The number of the drawn point that a node is, counted through all loops.
    pub(super) drawn: Vec<Option<u32>>,
}

/// The sampled outline of an outline and a size that a run doesn't refuse; none if it would have more than `most` nodes.
///
/// Each segment is cut into max(ceil(length / (1.05 size)), 1) equal parts; the outer loop runs with its area above 0 and holes the other way; a loop of an odd
/// number of nodes gets the middle of its longest edge, of equal ones the last.
pub(super) fn sampled(outline: &Outline<'_>, size: f64, most: usize) -> Option<Sampled> {
    let (mut all, mut rest, mut before) = (Sampled::default(), outline.holes, 0);
    all.add_loop(outline.outer, size, true, &mut before, most)?;
    for &count in outline.hole_lengths {
        let (hole, after) = rest.split_at_checked(count.checked_mul(2)?)?;
        all.add_loop(hole, size, false, &mut before, most)?;
        rest = after;
    }
    Some(all)
}

impl Sampled {
    fn add_loop(&mut self, points: &[f64], size: f64, left: bool, before: &mut u32, most: usize) -> Option<()> {
        let mut ids = self.cut(points, size, before, most)?;
        if (area(&self.nodes, &ids) > 0.0) != left {
            ids.reverse();
        }
        if ids.len() % 2 == 1 {
            let k = self.longest(&ids)?;
            let [a, b] = [ids[k], ids[(k + 1) % ids.len()]].map(|id| self.nodes[id as usize]);
            ids.insert(k + 1, self.push(middle(a, b), None));
        }
        let count = self.loops.last().map_or(0, |last| last + 1);
        self.loops.resize(self.nodes.len(), count);
        self.next.resize(self.nodes.len(), 0);
        self.prev.resize(self.nodes.len(), 0);
        for (k, &id) in ids.iter().enumerate() {
            let after = ids[(k + 1) % ids.len()];
            self.next[id as usize] = after;
            self.prev[after as usize] = id;
        }
        Some(())
    }

    /// The nodes along a loop as it is drawn.
    fn cut(&mut self, points: &[f64], size: f64, before: &mut u32, most: usize) -> Option<Vec<u32>> {
        let (count, mut ids) = (points.len() / 2, Vec::new());
        let at = |k: usize| [points[2 * (k % count)], points[2 * (k % count) + 1]];
        for i in 0..count {
            let (a, b) = (at(i), at(i + 1));
            let parts = at_least(distance(a, b) / (1.05 * size)).max(1);
            if parts > most.saturating_sub(self.nodes.len()) {
                return None;
            }
            ids.extend((0..parts).map(|k| {
                let t = k as f64 / parts as f64;
                let node = [a[0] + t * (b[0] - a[0]), a[1] + t * (b[1] - a[1])];
                self.push(node, (k == 0).then_some(*before + i as u32))
            }));
        }
        *before += count as u32;
        (ids.len() >= 3).then_some(ids)
    }

    fn push(&mut self, node: Point, drawn: Option<u32>) -> u32 {
        self.nodes.push(node);
        self.drawn.push(drawn);
        self.nodes.len() as u32 - 1
    }

    /// The last of the longest edges of a loop.
    fn longest(&self, ids: &[u32]) -> Option<usize> {
        let length = |k: usize| {
            let [a, b] = [ids[k], ids[(k + 1) % ids.len()]].map(|id| self.nodes[id as usize]);
            distance(a, b)
        };
        (0..ids.len()).max_by(|&j, &k| length(j).partial_cmp(&length(k)).unwrap_or(core::cmp::Ordering::Equal))
    }
}

/// The least whole number that isn't below a number; 0 for what isn't one.
fn at_least(x: f64) -> usize {
    let whole = x as usize;
    if (whole as f64) < x {
        whole.saturating_add(1)
    } else {
        whole
    }
}

/// Half the sum of the cross products along a loop, added as the paving adds them.
fn area(nodes: &[Point], ids: &[u32]) -> f64 {
    let at = |k: usize| nodes[ids[k % ids.len()] as usize];
    (0..ids.len()).map(|k| at(k)[0] * at(k + 1)[1] - at(k + 1)[0] * at(k)[1]).fold(0.0, |sum, term| sum + term) * 0.5
}
