//! What a step did with an edge, or would do, and what a pass did.

use core::fmt;

use crate::{ffi, Refusal};

/// What a step did with the edge named. The numbers are those that cross from the library.
#[derive(Clone, Copy, Debug, PartialEq, Eq, Hash, PartialOrd, Ord)]
#[repr(u32)]
pub enum Outcome {
    /// A quad was placed.
    Placed = 0,
    /// Neither attempt answered a quad.
    None = 1,
    /// The quad would need a node, quad or distinct edge beyond those lent.
    Full = 2,
    /// 250,000 quads stand already, and nothing was attempted.
    Cap = 3,
}

impl Outcome {
    /// Every outcome, in the order of the numbers.
    pub const ALL: [Outcome; 4] = [Outcome::Placed, Outcome::None, Outcome::Full, Outcome::Cap];

    pub(crate) fn of_number(number: u32) -> Outcome {
        let found = Outcome::ALL.into_iter().find(|outcome| *outcome as u32 == number);
        found.unwrap_or_else(|| panic!("a bug: the library answered outcome {number}, which there isn't"))
    }
}

/// SCOPE's word: `placed`, `none`, `full` or `cap`.
impl fmt::Display for Outcome {
    fn fmt(&self, f: &mut fmt::Formatter<'_>) -> fmt::Result {
        f.write_str(match self {
            Outcome::Placed => "placed",
            Outcome::None => "none",
            Outcome::Full => "full",
            Outcome::Cap => "cap",
        })
    }
}

/// A look at a step before it is taken.
#[derive(Clone, Debug, PartialEq)]
pub struct Preview<'a> {
    /// What the step would answer.
    pub outcome: Outcome,
    /// The ids a, b, d, c of the quad that would be placed, if one would.
    pub quad: Option<[u32; 4]>,
    /// Where corner c would be, if it would be a new node.
    pub new_c: Option<[f64; 2]>,
    /// Where corner d would be, if it would be a new node.
    pub new_d: Option<[f64; 2]>,
    /// The front edges after the step, two numbers an edge, by their first node.
    front: &'a [u32],
}

impl<'a> Preview<'a> {
    /// A preview in a mesh of so many nodes, and its list of front edges.
    pub(crate) fn of(answer: &ffi::PreviewAnswer, nodes: u32, list: &'a [u32]) -> Preview<'a> {
        let outcome = Outcome::of_number(answer.outcome);
        let ffi::PreviewAnswer { a, b, d, c, cx, cy, dx, dy, front, .. } = *answer;
        let placed = outcome == Outcome::Placed;
        let is_new = |id: u32| placed && id >= nodes;
        Preview {
            outcome,
            quad: placed.then_some([a, b, d, c]),
            new_c: is_new(c).then_some([cx, cy]),
            new_d: is_new(d).then_some([dx, dy]),
            front: &list[..2 * front],
        }
    }

    /// Each front edge after the step, by the first node's id.
    #[must_use]
    pub fn front(&self) -> impl ExactSizeIterator<Item = [u32; 2]> + Clone + 'a {
        self.front.chunks_exact(2).map(|edge| [edge[0], edge[1]])
    }
}

/// What an automatic pass did.
#[derive(Clone, Copy, Debug, PartialEq, Eq)]
pub struct Pass {
    /// The quads that it placed.
    pub placed: usize,
    /// [`Outcome::Full`] or [`Outcome::Cap`] where it stopped for that; else [`Outcome::Placed`] if it placed any, and [`Outcome::None`] if it placed none.
    pub outcome: Outcome,
}

impl Pass {
    /// A pass over front edges: a step on each, as long as `go_on` says so, which is asked before each; none where it didn't. An edge that is refused isn't on
    /// the front any more.
    pub(crate) fn over(
        edges: impl IntoIterator<Item = [u32; 2]>,
        mut go_on: impl FnMut() -> bool,
        mut step: impl FnMut([u32; 2]) -> Result<Outcome, Refusal>,
    ) -> Option<Pass> {
        let mut placed = 0;
        for edge in edges {
            if !go_on() {
                return None;
            }
            match step(edge) {
                Ok(Outcome::Placed) => placed += 1,
                Ok(outcome @ (Outcome::Full | Outcome::Cap)) => return Some(Pass { placed, outcome }),
                Ok(Outcome::None) | Err(_) => {}
            }
        }
        Some(Pass { placed, outcome: if placed > 0 { Outcome::Placed } else { Outcome::None } })
    }
}

#[cfg(test)]
mod tests {
    use super::Outcome;

    #[test]
    fn outcomes_are_scopes() {
        let found: Vec<(u32, String)> =
            Outcome::ALL.iter().map(|outcome| (*outcome as u32, outcome.to_string())).collect();
        let words = ["placed", "none", "full", "cap"].map(String::from);
        assert_eq!(found, (0..).zip(words).collect::<Vec<_>>());
        assert_eq!(Outcome::ALL.map(|outcome| Outcome::of_number(outcome as u32)), Outcome::ALL);
    }

    #[test]
    #[should_panic(expected = "a bug: the library answered outcome 4")]
    fn an_unknown_number_is_a_bug() {
        Outcome::of_number(4);
    }
}
