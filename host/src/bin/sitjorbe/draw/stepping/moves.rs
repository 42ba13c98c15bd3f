//! What is asked of a front stepped by hand.

use crate::csv::Field;
use crate::json::Value;
use crate::run::MOST_PASSES;

use super::super::asked;
use super::super::wrong::Wrong;

/// More moves aren't made.
const MOST_MOVES: usize = 100_000;

/// A move of a sequence.
#[derive(Clone, Copy, Debug, PartialEq, Eq)]
pub enum Move {
    /// A step on an edge.
    Edge([u32; 2]),
    /// So many automatic passes.
    Passes(usize),
}

impl Move {
    fn of(value: &Value) -> Option<Move> {
        asked::edge(value).map(Move::Edge).or_else(|| value.as_count(MOST_PASSES).map(Move::Passes))
    }

    pub fn passes(self) -> usize {
        match self {
            Move::Passes(count) => count,
            Move::Edge(_) => 0,
        }
    }
}

/// What is asked.
pub struct Asked {
    pub field: Field,
    pub size: f64,
    pub moves: Vec<Move>,
    pub look: Option<[u32; 2]>,
}

impl Asked {
    pub fn of(body: &Value) -> Result<Asked, Wrong> {
        Ok(Asked {
            field: asked::field(body)?,
            size: asked::size(body)?,
            moves: asked::list(body, "moves", MOST_MOVES, Move::of)?,
            look: asked::maybe_edge(body, "look")?,
        })
    }

    /// How many moves at the beginning are passes. A run makes those faster than steps do, up to as many as it may make.
    pub fn leading(&self) -> usize {
        let mut total = 0;
        let a_run_makes_it = |next: &&Move| {
            total += next.passes();
            matches!(next, Move::Passes(_)) && total <= MOST_PASSES
        };
        self.moves.iter().take_while(a_run_makes_it).count()
    }

    /// What tells one outline and size from another: every bit.
    pub fn key(&self) -> Vec<u64> {
        let points = self.field.loops.iter().flatten().flat_map(|point| [point.x.to_bits(), point.y.to_bits()]);
        let lengths = self.field.loops.iter().map(|points| points.len() as u64);
        lengths.chain([self.size.to_bits()]).chain(points).collect()
    }
}
