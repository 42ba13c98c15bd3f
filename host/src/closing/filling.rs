//! Filling a part that a front encloses: triangulation, points, pairs. What can't be paired is left over as triangles.

use alloc::vec;
use alloc::vec::Vec;

use super::constraints::Clash;
use super::plane::Point;
use super::points::Spacing;
use super::triangulation::CORNERS;
use super::work::{Halt, Work};

/// What a part was filled with.
#[derive(Debug, Default)]
pub(super) struct Filled {
    pub(super) quads: Vec<u32>,
    pub(super) holes: Vec<u32>,
}

impl Work<'_> {
    /// Fills what is left of some edges with quads and left-over triangles, at most so many of these.
    pub(super) fn fill(
        &mut self,
        edges: &[[u32; 2]],
        spacing: Spacing,
        most_left: usize,
    ) -> Result<Result<Option<Filled>, Clash>, Halt> {
        if edges.is_empty() {
            return Ok(Ok(Some(Filled::default())));
        }
        let ids = self.ends_of(edges);
        let points: Vec<Point> = ids.iter().map(|&id| self.net.at(id)).collect();
        let local: Vec<[u32; 2]> = edges.iter().map(|edge| edge.map(|id| self.local[id as usize])).collect();
        self.budget.spend(ids.len() as u64)?;
        match self.triangles.of_edges(&points, &local) {
            Ok(steps) => self.budget.spend(steps / 4)?,
            Err(clash) => return Ok(Err(clash)),
        }
        self.triangles.set_points(&points, &local, spacing, &mut self.budget)?;
        let pairs = self.triangles.pairs((CORNERS + ids.len()) as u32);
        if pairs.singles.len() > most_left {
            return Ok(Ok(None));
        }
        let mut numbers = vec![0; CORNERS];
        numbers.extend(ids);
        for k in numbers.len()..self.triangles.points.len() {
            numbers.push(self.net.add_node(self.triangles.points[k]));
        }
        let quads = pairs.quads.iter().map(|quad| self.net.add_quad(quad.map(|k| numbers[k as usize]))).collect();
        let holes = pairs.singles.iter().map(|three| self.net.add_hole(three.map(|k| numbers[k as usize]))).collect();
        Ok(Ok(Some(Filled { quads, holes })))
    }

    /// The ends of some edges, each once, and for each its place among them.
    fn ends_of(&mut self, edges: &[[u32; 2]]) -> Vec<u32> {
        let count = self.net.points.len();
        self.seen_nodes.begin(count);
        self.local.resize(count.max(self.local.len()), 0);
        let mut ids = Vec::with_capacity(edges.len());
        for &id in edges.iter().flatten() {
            if self.seen_nodes.add(id) {
                self.local[id as usize] = ids.len() as u32;
                ids.push(id);
            }
        }
        ids
    }
}
