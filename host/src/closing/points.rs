//! Points inside the open part: from each node four candidates a step away, along the rows that it belongs to and across them, the nodes nearest to the front first.
//!
//! No cross field is asked: the paved rows carry it in, and a point takes its direction from the node that it was set from. The spacing goes from that of the front
//! towards the size by a bounded factor a step, as in Borouchaki, Hecht and Frey, "Mesh gradation control" (1998).

use alloc::collections::BinaryHeap;
use alloc::vec;
use alloc::vec::Vec;
use core::cmp::Reverse;

use super::plane::{along, away, distance, halved, length, step, turned, unit, Point};
use super::triangulation::{Spot, Triangulation, CORNERS};
use super::work::{Budget, Halt};

/// The most by which the spacing changes from a node to the next one.
const GROWTH: f64 = 1.35;
/// In steps: how near a point may be to another, and to an edge of the front.
const NODE_ROOM: f64 = 0.7;
const EDGE_ROOM: f64 = 0.55;
/// The least spacing, in sizes.
const LEAST: f64 = 0.04;

/// How far apart points shall be.
#[derive(Clone, Copy, Debug)]
pub(super) struct Spacing {
    /// Far from the front.
    pub(super) size: f64,
    /// At a front node at most so many times its distance to the front across the open part.
    pub(super) across: Option<f64>,
}

/// What a point hands on to those set from it.
#[derive(Clone, Copy)]
struct Source {
    spacing: f64,
    way: f64,
    turn: Point,
}

/// The spacing and direction of each node of a front.
fn sources(points: &[Point], edges: &[[u32; 2]], spacing: Spacing) -> Vec<Source> {
    let mut sums = vec![(0.0, 0u32, [0.0; 2]); points.len()];
    for edge in edges {
        let side = step(points[edge[0] as usize], points[edge[1] as usize]);
        let direction = unit(side).unwrap_or([0.0; 2]);
        let twice = turned(direction, direction);
        for &end in edge {
            let (lengths, count, fourth) = &mut sums[end as usize];
            *lengths += length(side);
            *count += 1;
            *fourth = along(*fourth, 1.0, turned(twice, twice));
        }
    }
    let room = |k: usize, own: f64| match spacing.across {
        Some(part) => (part * across(points, edges, k)).clamp(0.1 * own, own),
        None => own,
    };
    let source = |(k, (lengths, count, fourth)): (usize, (f64, u32, Point))| {
        let own = (lengths / f64::from(count.max(1))).max(LEAST * spacing.size);
        let agree = length(fourth) > 0.8;
        let turn = unit(fourth).filter(|_| agree).map_or([1.0, 0.0], |fourth| halved(halved(fourth)));
        Source { spacing: room(k, own), way: 0.0, turn }
    };
    sums.into_iter().enumerate().map(source).collect()
}

/// How far a front node is from the nearest edge not at it that has it on its left.
fn across(points: &[Point], edges: &[[u32; 2]], node: usize) -> f64 {
    let p = points[node];
    let faces = |&&[a, b]: &&[u32; 2]| {
        let [u, v] = [points[a as usize], points[b as usize]];
        a as usize != node && b as usize != node && super::plane::cross(step(u, v), step(u, p)) > 0.0
    };
    let to = |&[a, b]: &[u32; 2]| away(p, points[a as usize], points[b as usize]);
    edges.iter().filter(faces).map(to).fold(f64::INFINITY, f64::min)
}

/// A float of 0 or more as a number in the same order.
fn rank(x: f64) -> u64 {
    x.max(0.0).to_bits()
}

impl Triangulation {
    /// Sets points in the marked part of a triangulation of a front.
    pub(super) fn set_points(
        &mut self,
        points: &[Point],
        edges: &[[u32; 2]],
        spacing: Spacing,
        budget: &mut Budget<'_>,
    ) -> Result<(), Halt> {
        let mut sources = sources(points, edges, spacing);
        let mut heap: BinaryHeap<Reverse<(u64, u32)>> = (0..points.len() as u32).map(|k| Reverse((0, k))).collect();
        while let Some(Reverse((_, k))) = heap.pop() {
            let (from, at) = (sources[k as usize], self.at(k + CORNERS as u32));
            let next = spacing.size.clamp(from.spacing / GROWTH, from.spacing * GROWTH);
            let step = (from.spacing + next) / 2.0;
            for turns in 0..4 {
                budget.spend(1)?;
                let turn = (0..turns).fold(from.turn, |turn, _| turned(turn, [0.0, 1.0]));
                if self.set_point(along(at, step, turn), k + CORNERS as u32, step) {
                    let source = Source { spacing: next, way: from.way + step, turn };
                    heap.push(Reverse((rank(source.way), sources.len() as u32)));
                    sources.push(source);
                }
            }
        }
        Ok(())
    }

    /// Puts in a point if there is room for it.
    fn set_point(&mut self, point: Point, from: u32, step: f64) -> bool {
        let Some((spot, _)) = self.find_inside(point, self.of[from as usize]) else { return false };
        let (Spot::Inside(t) | Spot::OnEdge(t, _)) = spot else { return false };
        self.has_room(point, t, step) && self.insert(point, spot).is_some()
    }

    /// Whether no node and no given edge is too near to a point, as far as can be seen from it. What is near is reached over edges that are near.
    fn has_room(&mut self, point: Point, from: u32, step: f64) -> bool {
        let (node, edge) = (NODE_ROOM * step, EDGE_ROOM * step);
        self.seen.begin(self.corners.len());
        self.seen.add(from);
        self.stack.clear();
        self.stack.push([from, 0]);
        while let Some([t, _]) = self.stack.pop() {
            for k in 0..3 {
                let [a, b, c] = self.from(t, k).map(|corner| self.at(corner));
                let (far, next) = (away(point, b, c), self.across[t as usize][k]);
                let given = self.given[t as usize][k];
                if distance(point, a) < node || given && far < edge {
                    self.stack.clear();
                    return false;
                }
                if !given && far < node && self.seen.add(next) {
                    self.stack.push([next, 0]);
                }
            }
        }
        true
    }
}
