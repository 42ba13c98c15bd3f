//! The blocks of an outline, as crates/outline_blocks/specs/Blocks.antt has them: up to 16 consecutive segments of one loop, with four numbers
//! in the list lent for them.

use std::ops::Range;

use super::Drawing;

/// A block, and the coordinates of its loop.
pub struct Block<'a> {
    pub number: usize,
    pub segments: Range<usize>,
    points: &'a [f64],
}

impl<'a> Block<'a> {
    /// The blocks of an outline that isn't refused, the outer loop's first; each loop's first number is a block for every 16 points before
    /// it, and one for every loop.
    pub fn all(drawing: &'a Drawing) -> Vec<Block<'a>> {
        let (mut all, mut before) = (vec![], 0);
        for (k, points) in drawing.loops().into_iter().enumerate() {
            let (n, first) = (points.len() / 2, before / 16 + k);
            let segments = (0..n).step_by(16).map(|from| from..n.min(from + 16));
            all.extend((first..).zip(segments).map(|(number, segments)| Block { number, segments, points }));
            before += n;
        }
        all
    }

    /// The least length of a list that has every block.
    pub fn needed(drawing: &Drawing) -> usize {
        Block::all(drawing).last().map_or(0, |block| 4 * (block.number + 1))
    }

    /// How far a segment of its loop reaches on a side: least x, greatest x, least y and greatest y are sides 0 to 3.
    fn segment_reach(&self, side: usize, segment: usize) -> f64 {
        let at = |k: usize| self.points[(2 * k + side / 2) % self.points.len()];
        let (u, v) = (at(segment), at(segment + 1));
        farther(side, farther(side, u, v), u + (v - u))
    }

    /// How far it reaches on a side.
    pub fn reach(&self, side: usize) -> f64 {
        let reaches = self.segments.clone().map(|segment| self.segment_reach(side, segment));
        reaches.reduce(|x, y| farther(side, x, y)).expect("a block has a segment")
    }

    pub fn is_listed(&self, list: &[u32]) -> bool {
        4 * self.number + 3 < list.len()
    }

    /// Whether the list's numbers for it are those of segments that reach as far as it does.
    pub fn is_filed(&self, list: &[u32]) -> bool {
        (0..4).all(|side| {
            let segment = list[4 * self.number + side] as usize;
            self.segments.contains(&segment) && self.segment_reach(side, segment) == self.reach(side)
        })
    }
}

fn farther(side: usize, x: f64, y: f64) -> f64 {
    if side % 2 == 1 {
        x.max(y)
    } else {
        x.min(y)
    }
}

/// The blocks that a list has numbers for, and those among them that aren't filed there.
pub fn listed(drawing: &Drawing, list: &[u32]) -> [usize; 2] {
    let all: Vec<Block<'_>> = Block::all(drawing).into_iter().filter(|block| block.is_listed(list)).collect();
    [all.len(), all.iter().filter(|block| !block.is_filed(list)).count()]
}
