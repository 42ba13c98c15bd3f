//! Lifting the worst: a node goes where the least sine of its quads is greatest, by a pattern search (Hooke and Jeeves, "Direct search solution of numerical and
//! statistical problems", 1961), as in Freitag and Ollivier-Gooch, "Tetrahedral mesh improvement using swapping and smoothing" (1997).

use alloc::vec::Vec;

use super::plane::{along, distance, sine, turned, unit, Point};
use super::work::{Halt, Work};

const TRIALS: usize = 40;
const GAIN: f64 = 1e-4;
const ROUNDS: usize = 3;

/// The directions of the search: six, turned at random.
const SIXTH: Point = [0.5, 0.866_025_403_784_438_6];

impl Work<'_> {
    /// Moves nodes of those of some quads whose least sine is below a target.
    pub(super) fn lift(&mut self, quads: &[u32], target: f64) -> Result<(), Halt> {
        for _ in 0..ROUNDS {
            let low: Vec<u32> = quads.iter().copied().filter(|&q| self.net.sine(q) < target).collect();
            let mut any = false;
            for node in self.nodes_of(&low) {
                any |= self.net.is_free(node) && self.search(node, target)?;
            }
            if !any {
                break;
            }
        }
        Ok(())
    }

    /// The least of the sines of a node's quads and of four times its shortest spoke by the mean one, were the node at p. It stops below a bound.
    fn worth(&self, node: u32, p: Point, bound: f64) -> f64 {
        let (mut least, mut shortest, mut sum) = (f64::INFINITY, f64::INFINITY, 0.0);
        for &q in self.net.ring(node) {
            let k = self.net.place(q, node);
            let mut corners = self.net.corners(q);
            corners[k] = p;
            // The corner opposite to the node doesn't see it, and counts with the rest.
            for j in 0..4 {
                least = least.min(sine(corners[(j + 3) % 4], corners[j], corners[(j + 1) % 4]));
                if least <= bound {
                    return least;
                }
            }
            let spoke = distance(p, corners[(k + 1) % 4]);
            (shortest, sum) = (shortest.min(spoke), sum + spoke);
        }
        let mean = sum / self.net.ring(node).len().max(1) as f64;
        if mean > 0.0 {
            least.min(4.0 * shortest / mean)
        } else {
            f64::NEG_INFINITY
        }
    }

    /// Looks for a better place of a node; answers whether it was moved.
    fn search(&mut self, node: u32, target: f64) -> Result<bool, Halt> {
        let start = self.worth(node, self.net.at(node), f64::NEG_INFINITY);
        if start >= target {
            return Ok(false);
        }
        let (mut here, mut worth) = (self.net.at(node), start);
        let spokes = self.net.ring(node).iter().map(|&q| {
            let corners = self.net.corners(q);
            distance(here, corners[(self.net.place(q, node) + 1) % 4])
        });
        let mut far = 0.25 * spokes.fold(f64::INFINITY, f64::min);
        let mut trials = 0;
        while trials < TRIALS && far > 0.0 && far.is_finite() {
            let mut turn = self.anyhow();
            let mut better = false;
            for _ in 0..6 {
                trials += 1;
                let there = along(here, far, turn);
                let found = self.worth(node, there, worth + GAIN);
                if found > worth + GAIN {
                    (here, worth, better) = (there, found, true);
                    break;
                }
                turn = turned(turn, SIXTH);
            }
            far *= if better { 1.0 } else { 0.5 };
        }
        self.budget.spend(1 + trials as u64 / 4)?;
        if worth > start {
            self.net.move_to(node, here);
        }
        Ok(worth > start)
    }

    /// A unit step in any direction.
    fn anyhow(&mut self) -> Point {
        let step = [2.0 * self.random.part() - 1.0, 2.0 * self.random.part() - 1.0];
        unit(step).unwrap_or([1.0, 0.0])
    }
}
