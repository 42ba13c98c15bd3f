//! Given edges in a triangulation: what crosses such an edge is flipped away (Sloan, "A fast algorithm for generating constrained Delaunay triangulations", 1993).
//! Then the part to be filled is what lies left of them.

use alloc::collections::VecDeque;
use alloc::vec;
use alloc::vec::Vec;

use super::plane::{Point, Random};
use super::triangulation::{Spot, Triangulation, CORNERS, NONE};

/// Why edges can't be given.
#[derive(Clone, Copy, Debug, PartialEq)]
pub(super) enum Clash {
    /// Two points are in one place, or a point lies on an edge.
    Touch(Point),
    /// Two edges cross.
    Cross(Point),
    /// Left of an edge isn't the part that is left of the others.
    Sides(Point),
}

impl Triangulation {
    /// Triangulates points, gives edges between them by the points' places in the list, and marks what lies left of them. It answers the steps taken.
    pub(super) fn of_edges(&mut self, points: &[Point], edges: &[[u32; 2]]) -> Result<u64, Clash> {
        let fold = |pick: fn(f64, f64) -> f64, start: f64| {
            [0, 1].map(|axis| points.iter().map(|point| point[axis]).fold(start, pick))
        };
        self.begin(fold(f64::min, f64::INFINITY), fold(f64::max, f64::NEG_INFINITY));
        let (order, mut steps, mut last) = (in_rounds(points), 0, 0);
        let mut number = vec![NONE; points.len()];
        for k in order {
            let point = points[k as usize];
            let (spot, walked) = self.find(point, last).ok_or(Clash::Touch(point))?;
            steps += walked as u64;
            let new = self.insert(point, spot).ok_or(Clash::Touch(point))?;
            (number[k as usize], last) = (new, self.of[new as usize]);
        }
        let edges: Vec<[u32; 2]> = edges.iter().map(|edge| edge.map(|k| number[k as usize])).collect();
        for &edge in &edges {
            steps += self.give(edge)?;
        }
        self.mark(&edges)?;
        self.number_as(&number, points);
        Ok(steps)
    }

    /// Gives the points the numbers of their places in the list, after the square's corners.
    fn number_as(&mut self, number: &[u32], points: &[Point]) {
        let mut place = vec![0; self.points.len()];
        (0..CORNERS as u32).for_each(|corner| place[corner as usize] = corner);
        (CORNERS as u32..).zip(number).for_each(|(k, &old)| place[old as usize] = k);
        self.corners.iter_mut().flatten().for_each(|corner| *corner = place[*corner as usize]);
        self.renumber(points);
        (0..self.corners.len() as u32).for_each(|t| {
            self.corners[t as usize].iter().for_each(|&corner| self.of[corner as usize] = t);
        });
    }

    /// Goes round a point from one of its triangles; answers the triangle with the edge from it to another point, and the place of that point in it.
    fn edge_from(&self, a: u32, b: u32) -> Option<(u32, usize)> {
        self.round(a).find(|&(t, k)| self.corners[t as usize][(k + 1) % 3] == b).map(|(t, k)| (t, (k + 2) % 3))
    }

    /// The triangles round a point, each with the point's place, to the left; it stops where the square ends.
    fn round(&self, a: u32) -> impl Iterator<Item = (u32, usize)> + '_ {
        let first = self.of[a as usize];
        let mut at = Some(first);
        core::iter::from_fn(move || {
            let t = at?;
            let k = self.place(t, a);
            let next = self.across[t as usize][(k + 1) % 3];
            at = (next != NONE && next != first).then_some(next);
            Some((t, k))
        })
    }

    /// The edge between two points from whichever triangle.
    fn edge_between(&self, a: u32, b: u32) -> Option<(u32, usize)> {
        self.edge_from(a, b).or_else(|| self.edge_from(b, a))
    }

    fn give(&mut self, [a, b]: [u32; 2]) -> Result<u64, Clash> {
        let mut crossing = self.crossing(a, b)?;
        let most = 64 + 8 * crossing.len() * crossing.len();
        let mut steps = 1;
        while let Some([p, q]) = crossing.pop_front() {
            steps += 1;
            let (t, k) = self.edge_between(p, q).ok_or(Clash::Cross(self.at(p)))?;
            if self.given[t as usize][k] || steps > most {
                return Err(Clash::Cross(self.at(p)));
            }
            let (u, j) = self.opposite(t, k).ok_or(Clash::Cross(self.at(p)))?;
            let [r, s] = [self.corners[t as usize][k], self.corners[u as usize][j]];
            if !self.flip(t, k) {
                crossing.push_back([p, q]);
            } else if ![a, b].iter().any(|end| *end == r || *end == s) && self.side(a, b, r) * self.side(a, b, s) < 0 {
                crossing.push_back([r, s]);
            }
        }
        for (t, k) in [self.edge_from(a, b), self.edge_from(b, a)].into_iter().flatten() {
            self.given[t as usize][k] = true;
        }
        Ok(steps as u64)
    }

    /// The edges that cross the way from a to b, as they come.
    fn crossing(&self, a: u32, b: u32) -> Result<VecDeque<[u32; 2]>, Clash> {
        let mut found = VecDeque::new();
        if self.edge_between(a, b).is_some() {
            return Ok(found);
        }
        let begins = self.round(a).find_map(|(t, k)| {
            let [_, p, q] = self.from(t, k);
            (self.side(a, b, p) < 0 && self.side(a, b, q) > 0).then_some((t, k, p, q))
        });
        let (mut t, mut k, mut p, mut q) = begins.ok_or(Clash::Touch(self.at(a)))?;
        while found.len() <= self.corners.len() {
            found.push_back([p, q]);
            let (u, j) = self.opposite(t, k).ok_or(Clash::Cross(self.at(p)))?;
            let far = self.corners[u as usize][j];
            if far == b {
                return Ok(found);
            }
            let on_left = match self.side(a, b, far) {
                0 => return Err(Clash::Touch(self.at(far))),
                side => side > 0,
            };
            // Across p to far if far is on the left, else across far to q.
            k = self.place(u, if on_left { q } else { p });
            if on_left {
                q = far;
            } else {
                p = far;
            }
            t = u;
        }
        Err(Clash::Cross(self.at(a)))
    }

    /// Marks the triangles left of the given edges, and all that they can be reached from without crossing one.
    fn mark(&mut self, edges: &[[u32; 2]]) -> Result<(), Clash> {
        let mut stack = Vec::new();
        for &[a, b] in edges {
            let (t, _) = self.edge_from(a, b).ok_or(Clash::Cross(self.at(a)))?;
            if !self.inside[t as usize] {
                self.inside[t as usize] = true;
                stack.push(t);
            }
            while let Some(t) = stack.pop() {
                for k in 0..3 {
                    let next = self.across[t as usize][k];
                    if self.given[t as usize][k] {
                        continue;
                    }
                    if next == NONE {
                        return Err(Clash::Sides(self.at(a)));
                    }
                    if !self.inside[next as usize] {
                        self.inside[next as usize] = true;
                        stack.push(next);
                    }
                }
            }
        }
        let wrong = edges.iter().find(|[a, b]| self.edge_from(*b, *a).is_some_and(|(t, _)| self.inside[t as usize]));
        wrong.map_or(Ok(()), |[a, _]| Err(Clash::Sides(self.at(*a))))
    }

    /// The point that a step finds, if it lies in the part to be filled and on no edge of the triangulation.
    pub(super) fn find_inside(&self, point: Point, from: u32) -> Option<(Spot, usize)> {
        let (spot, steps) = self.find(point, from)?;
        let (Spot::Inside(t) | Spot::OnEdge(t, _)) = spot else { return None };
        self.inside[t as usize].then_some((spot, steps))
    }
}

/// The places of points in the order in which to put them in: rounds that double, each along Hilbert's curve (Amenta, Choi and Rote, "Incremental constructions con
/// BRIO", 2003).
fn in_rounds(points: &[Point]) -> Vec<u32> {
    let mut random = Random(0x2545_f491_4f6c_dd1d);
    let fold = |axis: usize, pick: fn(f64, f64) -> f64, start: f64| points.iter().map(|p| p[axis]).fold(start, pick);
    let low = [0, 1].map(|axis| fold(axis, f64::min, f64::INFINITY));
    let high = [0, 1].map(|axis| fold(axis, f64::max, f64::NEG_INFINITY));
    let span = (high[0] - low[0]).max(high[1] - low[1]).max(f64::MIN_POSITIVE);
    let mut keyed: Vec<(u32, u64, u32)> = (0..)
        .zip(points)
        .map(|(k, point)| {
            let cell = [0, 1].map(|axis| ((point[axis] - low[axis]) / span * 65_535.0) as u32);
            (random.next().trailing_zeros(), hilbert(cell), k)
        })
        .collect();
    keyed.sort_unstable_by_key(|&(level, key, k)| (core::cmp::Reverse(level), key, k));
    keyed.into_iter().map(|(_, _, k)| k).collect()
}

/// The number of a cell of 65,536 by 65,536 along Hilbert's curve.
fn hilbert([mut x, mut y]: [u32; 2]) -> u64 {
    let (mut key, mut s) = (0u64, 1u32 << 15);
    while s > 0 {
        let (right, up) = (x & s > 0, y & s > 0);
        key = 4 * key + u64::from((3 * u32::from(right)) ^ u32::from(up));
        if !up {
            if right {
                (x, y) = (65_535 - x, 65_535 - y);
            }
            (x, y) = (y, x);
        }
        s >>= 1;
    }
    key
}
