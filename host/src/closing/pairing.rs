//! Pairs of triangles become quads: the best pair first, then along alternating paths where that pairs two triangles more. Some stay single.

use alloc::vec;
use alloc::vec::Vec;

use super::plane::{least_sine, shortest_longest, sine, Point};
use super::triangulation::{Triangulation, CORNERS, NONE};

/// A corner between two sides of the front can't be mended: with a lesser sine than the first there is no such pair, with a lesser one than the second it comes late.
const NO_CORNER: f64 = 0.36;
const BAD_CORNER: f64 = 0.5;
/// The least quality of a pair on an alternating path, and how many triangles are looked at for one.
const PATH_QUALITY: f64 = 0.1;
const PATH_TRIANGLES: usize = 64;

/// The quads and single triangles of a part, by the triangulation's points.
#[derive(Default)]
pub(super) struct Pairs {
    pub(super) quads: Vec<[u32; 4]>,
    pub(super) singles: Vec<[u32; 3]>,
}

impl Triangulation {
    /// The quad of a triangle and the one across its edge, and which of its sides are given.
    fn pair(&self, t: u32, k: usize) -> Option<([u32; 4], [bool; 4])> {
        let (u, j) = self.opposite(t, k)?;
        let ([a, b, c], d) = (self.from(t, k), self.corners[u as usize][j]);
        let given = |s: u32, k: usize| self.given[s as usize][k % 3];
        Some(([a, b, d, c], [given(t, k + 2), given(u, j + 1), given(u, j + 2), given(t, k + 1)]))
    }

    /// How good a pair is, at most 1; none if it may not be.
    fn quality(&self, (ids, given): ([u32; 4], [bool; 4]), front: u32) -> Option<f64> {
        let quad: [Point; 4] = ids.map(|id| self.at(id));
        let [shortest, longest] = shortest_longest(&quad);
        let least = least_sine(&quad);
        let shape = 0.6 + 0.4 * (1.6 * shortest / longest).min(1.0);
        let mut quality = if least > 0.0 { least * shape } else { 0.5 * least - 0.05 };
        for k in (0..4).filter(|&k| given[k] && given[(k + 3) % 4]) {
            let corner = sine(quad[(k + 3) % 4], quad[k], quad[(k + 1) % 4]);
            if corner < NO_CORNER {
                return None;
            }
            quality = if corner < BAD_CORNER { quality.min(0.1) } else { quality };
        }
        if least < NO_CORNER && ids.iter().all(|&id| id < front) {
            quality = quality.min(-0.7);
        }
        Some(quality)
    }

    /// Pairs the marked triangles; points below `front` are the front's.
    pub(super) fn pairs(&self, front: u32) -> Pairs {
        let mut edges = Vec::new();
        for t in (0..self.corners.len() as u32).filter(|&t| self.inside[t as usize]) {
            for k in 0..3 {
                let next = self.across[t as usize][k];
                if next != NONE && next > t {
                    let quality = self.pair(t, k).and_then(|pair| self.quality(pair, front));
                    edges.extend(quality.map(|quality| (quality, t, k)));
                }
            }
        }
        edges.sort_by(|one, other| other.0.total_cmp(&one.0).then((one.1, one.2).cmp(&(other.1, other.2))));
        let mut mate = vec![NONE; self.corners.len()];
        for &(_, t, k) in &edges {
            let next = self.across[t as usize][k];
            if mate[t as usize] == NONE && mate[next as usize] == NONE {
                mate[t as usize] = next;
                mate[next as usize] = t;
            }
        }
        let mut allowed = vec![[false; 3]; self.corners.len()];
        for (_, t, k) in edges.into_iter().filter(|edge| edge.0 >= PATH_QUALITY) {
            allowed[t as usize][k] = true;
            if let Some((u, j)) = self.opposite(t, k) {
                allowed[u as usize][j] = true;
            }
        }
        for t in 0..self.corners.len() as u32 {
            if self.inside[t as usize] && mate[t as usize] == NONE {
                self.lengthen(t, &allowed, &mut mate);
            }
        }
        self.as_paired(&mate)
    }

    /// Pairs a single triangle with another one by an alternating path, if a short one is there (Berge, "Two theorems in graph theory", 1957; no blossoms).
    fn lengthen(&self, single: u32, allowed: &[[bool; 3]], mate: &mut [u32]) {
        // Each triangle reached, and the place in this list of the one from which its mate was reached.
        let (mut reached, mut k) = (vec![(single, 0)], 0);
        while k < reached.len() && reached.len() < PATH_TRIANGLES {
            let t = reached[k].0;
            let over = (0..3).filter(|&edge| allowed[t as usize][edge]).map(|edge| self.across[t as usize][edge]);
            for u in over {
                let beyond = mate[u as usize];
                if beyond == NONE && u != single {
                    return Triangulation::exchange(u, k, &reached, mate);
                }
                if beyond != NONE && beyond != t && reached.iter().all(|&(other, _)| other != beyond && other != u) {
                    reached.push((beyond, k));
                }
            }
            k += 1;
        }
    }

    /// Pairs along a path found: what was reached last with `free`, its old mate with the one before, and so on.
    fn exchange(mut free: u32, mut k: usize, reached: &[(u32, usize)], mate: &mut [u32]) {
        loop {
            let (t, before) = reached[k];
            let old = mate[t as usize];
            mate[t as usize] = free;
            mate[free as usize] = t;
            if old == NONE {
                return;
            }
            (free, k) = (old, before);
        }
    }

    fn as_paired(&self, mate: &[u32]) -> Pairs {
        let mut pairs = Pairs::default();
        for t in (0..self.corners.len() as u32).filter(|&t| self.inside[t as usize]) {
            let other = mate[t as usize];
            if other == NONE {
                pairs.singles.push(self.corners[t as usize]);
            } else if t < other {
                let edge = (0..3).find(|&k| self.across[t as usize][k] == other);
                pairs.quads.extend(edge.and_then(|k| self.pair(t, k)).map(|(ids, _)| ids));
            }
        }
        debug_assert!(pairs.quads.iter().flatten().all(|&id| id >= CORNERS as u32));
        pairs
    }
}
