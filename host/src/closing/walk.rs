//! Left-over triangles are carried to each other through the quads, one quad after the other: a triangle and the quad beside it make a pentagon, which is cut anew
//! into a quad and a triangle farther on. Where two triangles meet they become a quad.

use alloc::vec::Vec;

use super::net::{Net, State};
use super::plane::{least_sine, sine};
use super::work::{Halt, Work};

/// How far triangles are carried, round by round: near ones to each other first.
const REACHES: [usize; 5] = [1, 3, 6, 12, usize::MAX];
/// A patch round a way of so many quads may be filled anew.
const LONGEST_PATCHED: usize = 16;

/// A way from one left-over triangle to another.
pub(super) struct Way {
    pub(super) from: u32,
    pub(super) to: u32,
    pub(super) quads: Vec<u32>,
}

impl Net {
    fn is_triangle(&self, hole: u32) -> bool {
        self.open[hole as usize]
    }

    /// The left-over triangle with the side from a to b.
    pub(super) fn hole_with(&self, a: u32, b: u32) -> Option<u32> {
        if !(self.is_held(a) && self.is_held(b)) {
            return None;
        }
        let has = |ids: &[u32; 3]| (0..3).any(|k| ids[k] == a && ids[(k + 1) % 3] == b);
        (0..).zip(&self.holes).find(|&(hole, ids)| self.is_triangle(hole) && has(ids)).map(|(hole, _)| hole)
    }

    /// Cuts the pentagon of a triangle and a quad beside it anew, so that the triangle has the quad's side `out`; none if the five aren't five.
    fn carried(&self, three: [u32; 3], q: u32, out: [u32; 2]) -> Option<([u32; 4], [u32; 3])> {
        let ids = self.quads[q as usize];
        let (k, j) = (0..12)
            .map(|n| (n / 4, n % 4))
            .find(|&(k, j)| three[k] == ids[(j + 1) % 4] && three[(k + 1) % 3] == ids[j])?;
        let five = [three[(k + 2) % 3], three[k], ids[(j + 2) % 4], ids[(j + 3) % 4], three[(k + 1) % 3]];
        if (0..5).any(|k| five[..k].contains(&five[k])) {
            return None;
        }
        let side = (1..4).find(|&k| [five[k], five[k + 1]] == out)?;
        let cut = |m: usize| {
            let on = |by: usize| five[(m + by) % 5];
            ([on(1), on(2), on(3), on(4)], [on(4), on(0), on(1)])
        };
        let worth = |&(quad, [a, b, c]): &([u32; 4], [u32; 3])| {
            let middle = sine(self.at(a), self.at(b), self.at(c)) + 0.2;
            let least = least_sine(&quad.map(|id| self.at(id)));
            least.min(middle) - if self.is_outline(b) { 0.3 } else { 0.0 }
        };
        let [one, other] = [cut(side), cut(side + 1)];
        Some(if worth(&one) >= worth(&other) { one } else { other })
    }

    /// The quad of two triangles with a common side.
    fn joined(&self, one: [u32; 3], other: [u32; 3]) -> Option<[u32; 4]> {
        let (k, j) = (0..9)
            .map(|n| (n / 3, n % 3))
            .find(|&(k, j)| one[k] == other[(j + 1) % 3] && one[(k + 1) % 3] == other[j])?;
        let (c, d) = (one[(k + 2) % 3], other[(j + 2) % 3]);
        (c != d).then_some([one[k], d, one[(k + 1) % 3], c])
    }
}

impl Work<'_> {
    /// Carries all left-over triangles to each other.
    pub(super) fn heal(&mut self) -> Result<(), Halt> {
        for reach in REACHES {
            for hole in 0..self.net.holes.len() as u32 {
                if self.net.is_triangle(hole) {
                    self.heal_one(hole, reach)?;
                }
            }
        }
        Ok(())
    }

    /// Carries a triangle to the nearest other one within reach, and mends what that bends.
    fn heal_one(&mut self, hole: u32, reach: usize) -> Result<(), Halt> {
        let Some(way) = self.way_from(hole, reach, false)? else { return Ok(()) };
        let begun = self.net.trial();
        let Some(quads) = self.carry(&way) else {
            self.net.take_back(begun);
            return self.refill_way(&way, f64::NEG_INFINITY).map(|_| ());
        };
        let polished = self.polish(&quads);
        match polished {
            Err(halt) => {
                self.net.keep();
                Err(halt)
            }
            Ok(least) if least >= 0.5 || way.quads.len() > LONGEST_PATCHED => {
                self.net.keep();
                Ok(())
            }
            Ok(least) => {
                self.net.take_back(begun);
                if self.refill_way(&way, least)? {
                    return Ok(());
                }
                if let Some(quads) = self.carry(&way) {
                    self.polish(&quads)?;
                }
                Ok(())
            }
        }
    }

    /// The shortest way from a left-over triangle to another, through at most so many quads: those of the patch alone, or any.
    pub(super) fn way_from(&mut self, hole: u32, reach: usize, in_patch: bool) -> Result<Option<Way>, Halt> {
        self.seen_quads.begin(self.net.quads.len());
        // The quads reached, the place in this list of the one before each, and how many there are up to it.
        let (mut reached, mut k) = (Vec::<(u32, usize, usize)>::new(), 0);
        let [a, b, c] = self.net.holes[hole as usize];
        let mut sides = [[a, b], [b, c], [c, a]].to_vec();
        let (mut at, mut depth) = (usize::MAX, 0);
        loop {
            for &[u, v] in &sides {
                if let Some(to) = self.net.hole_with(v, u).filter(|&to| to != hole) {
                    let mut quads = Vec::new();
                    while let Some(&(q, before, _)) = reached.get(at) {
                        quads.push(q);
                        at = before;
                    }
                    quads.reverse();
                    return Ok(Some(Way { from: hole, to, quads }));
                }
                let next = self.net.owner(v, u).filter(|&q| !in_patch || self.patch.has(q));
                if let Some(q) = next.filter(|&q| depth < reach && self.seen_quads.add(q)) {
                    reached.push((q, at, depth + 1));
                }
            }
            let Some(&(q, _, count)) = reached.get(k) else { return Ok(None) };
            self.budget.spend(u64::from(k % 4 == 0))?;
            let ids = self.net.quads[q as usize];
            sides = [0, 1, 2, 3].map(|k| [ids[k], ids[(k + 1) % 4]]).to_vec();
            (at, depth, k) = (k, count, k + 1);
        }
    }

    /// Carries a triangle along a way and pairs it with the one there; answers the quads changed, none if the way can't be gone.
    pub(super) fn carry(&mut self, way: &Way) -> Option<Vec<u32>> {
        let mut three = self.net.holes[way.from as usize];
        let goal = self.net.holes[way.to as usize];
        for (k, &q) in way.quads.iter().enumerate() {
            let ids = self.net.quads[q as usize];
            let mut sides = (0..4).map(|k| [ids[k], ids[(k + 1) % 4]]);
            let out = sides.find(|&[u, v]| match way.quads.get(k + 1) {
                Some(&next) => self.net.owner(v, u) == Some(next),
                None => (0..3).any(|k| [goal[k], goal[(k + 1) % 3]] == [v, u]),
            })?;
            let (quad, farther) = self.net.carried(three, q, out)?;
            self.net.set_quad(q, quad, State::Open);
            three = farther;
        }
        let last = self.net.joined(three, goal)?;
        self.net.fill_hole(way.from);
        self.net.fill_hole(way.to);
        let mut quads = way.quads.clone();
        quads.push(self.net.add_quad(last));
        quads.iter().for_each(|&q| self.patch.put(q));
        Some(quads)
    }

    /// Cleans up, smooths and lifts some quads and a ring round them; answers the least sine there.
    pub(super) fn polish(&mut self, quads: &[u32]) -> Result<f64, Halt> {
        let region = self.with_rings(quads, 1);
        let cleaned = self.clean(&region, 4)?;
        let region = self.with_rings(&cleaned, 1);
        let nodes = self.nodes_of(&region);
        self.smooth(&nodes, 6)?;
        self.lift(&cleaned, 0.6)?;
        Ok(self.least_sine(&region))
    }
}
