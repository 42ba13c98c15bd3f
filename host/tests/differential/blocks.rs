//! The list lent for an outline's blocks: how its length is chosen, and how many of the blocks it has.

use std::collections::BTreeMap;

use sitjorbe::FieldRecord;

use crate::cases::Rng;
use crate::common::blocks::{listed, Block};
use crate::common::Drawing;

/// How the length of the list is chosen.
#[derive(Clone, Copy, Debug, PartialEq, Eq, PartialOrd, Ord)]
pub enum Blocks {
    /// What `Places::blocks` says.
    Full,
    /// No block.
    None,
    /// Some blocks and not all, where there are several.
    Part,
    /// Just the numbers that are needed, or one fewer.
    Exact,
}

impl Blocks {
    pub const ALL: [Blocks; 4] = [Blocks::Full, Blocks::None, Blocks::Part, Blocks::Exact];

    /// A length for this outline. One that is refused needs none; it gets as many.
    pub fn length(self, rng: &mut Rng, drawing: &Drawing, accepted: bool) -> usize {
        let full = 2 * drawing.points();
        let needed = if accepted { Block::needed(drawing) } else { full };
        match self {
            Blocks::Full => full,
            Blocks::None => rng.below(4),
            Blocks::Part => rng.between(4, needed.max(1) - 1),
            Blocks::Exact => needed.saturating_sub(rng.below(2)),
        }
    }
}

/// How many of an outline's blocks a list has.
#[derive(Clone, Copy, Debug, PartialEq, Eq, PartialOrd, Ord)]
enum Covered {
    None,
    Part,
    All,
}

impl Covered {
    const ALL: [Covered; 3] = [Covered::None, Covered::Part, Covered::All];
}

/// What makes an outline's blocks matter. The field's lowest row but one is level with the outline's lowest point; that doesn't count.
const MATTER: [&str; 3] = ["several in the outer loop", "several in a hole", "ends level with nodes"];

/// Which of these an outline has, with a field on this grid.
fn matter(drawing: &Drawing, record: &FieldRecord) -> [bool; 3] {
    let several = |points: &&[f64]| points.len() > 2 * 16;
    let (loops, blocks) = (drawing.loops(), Block::all(drawing));
    let row = |j: usize| record.ymin + j as f64 * record.h;
    let ends = |y: f64| blocks.iter().any(|block| [2, 3].iter().any(|&side| block.reach(side) == y));
    [several(&loops[0]), loops[1..].iter().any(several), (2..record.ny - 2).any(|j| ends(row(j)))]
}

/// The fields and runs that weren't refused, by their lists; and those with outlines whose blocks matter.
#[derive(Default)]
pub struct Counts {
    lists: BTreeMap<(Blocks, Covered), usize>,
    matter: [usize; MATTER.len()],
}

impl Counts {
    /// Notes a list that has been used; says what is wrong with what is left there.
    pub fn note(&mut self, kind: Blocks, drawing: &Drawing, record: &FieldRecord, list: &[u32]) -> Option<String> {
        let [count, wrong] = listed(drawing, list);
        let covered = match count {
            0 => Covered::None,
            _ if count == Block::all(drawing).len() => Covered::All,
            _ => Covered::Part,
        };
        *self.lists.entry((kind, covered)).or_default() += 1;
        let matter = matter(drawing, record);
        self.matter.iter_mut().zip(matter).for_each(|(count, has)| *count += usize::from(has));
        (wrong > 0).then(|| format!("{wrong} of {count} blocks aren't filed"))
    }

    /// Prints the figures; fails if a kind of list is rare, or one that has no block, some, or all; or if blocks seldom matter.
    pub fn finish(&self, what: &str, fewest: usize, fewest_matter: usize) {
        let count = |is_counted: &dyn Fn(Blocks, Covered) -> bool| -> usize {
            self.lists.iter().filter(|((kind, covered), _)| is_counted(*kind, *covered)).map(|(_, count)| count).sum()
        };
        let kinds = Blocks::ALL.map(|kind| (format!("{kind:?}"), count(&|k, _| k == kind), fewest));
        let covered = Covered::ALL.map(|part| (format!("covered {part:?}"), count(&|_, c| c == part), fewest));
        let matter = (0..3).map(|k| (MATTER[k].to_string(), self.matter[k], fewest_matter));
        let counts: Vec<(String, usize, usize)> = kinds.into_iter().chain(covered).chain(matter).collect();
        let texts: Vec<String> = counts.iter().map(|(name, count, _)| format!("{name}: {count}")).collect();
        println!("{what}, blocks: {}", texts.join(", "));
        let rare = counts.iter().find(|(_, count, fewest)| count < fewest);
        assert_eq!(rare, None, "{what}: such blocks are rare");
    }
}
