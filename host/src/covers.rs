//! Whether the quads of a mesh, whatever made it, cover each point of an outline once.

use alloc::vec;
use core::{error, fmt};

use crate::raw::{least_places, Outline};
use crate::{ffi, floats};
use crate::{Mesh, Refusal};

/// What is known of a mesh that covers the sampled outline, besides that it does.
#[derive(Clone, Copy, Debug, PartialEq, Eq)]
pub struct Covered {
    /// Whether the outline as drawn is sound. A sound outline goes round its inside once, so that each point there is in exactly one quad.
    pub sound: bool,
}

/// Why the quads of a mesh don't cover the sampled outline: the first of these that holds.
#[derive(Clone, Copy, Debug, PartialEq, Eq, Hash)]
pub enum NotCovered {
    /// The outline or the size is refused, or the mesh isn't sound: an id is no node's, a coordinate isn't within 1,001, or there are more than 250,000 quads.
    Refused(Refusal),
    /// The mesh has fewer nodes than the sampled outline, which has this many.
    FewerNodes {
        /// How many nodes the sampled outline has.
        sampled: usize,
    },
    /// This quad, counted from 0, doesn't turn left by more than 20 degrees at all four corners; every one before it does.
    FoldedQuad {
        /// Its number.
        quad: usize,
    },
    /// This quad has a side that another quad has in the same direction, or that is neither the sampled outline's nor another quad's run back, or both.
    WrongSide {
        /// Its number.
        quad: usize,
    },
    /// The edge of the sampled outline from this node is no quad's side.
    UnlaidEdge {
        /// The edge's first node.
        node: usize,
    },
    /// This node isn't the sampled outline's, bit for bit; every one before it is.
    MovedNode {
        /// Its number.
        node: usize,
    },
}

impl NotCovered {
    /// The refusal: 1 to 7, 10, 23, or 27 to 30.
    ///
    /// ```
    /// assert_eq!(sitjorbe::NotCovered::FoldedQuad { quad: 3 }.refusal().number(), 27);
    /// ```
    #[must_use]
    pub fn refusal(self) -> Refusal {
        match self {
            NotCovered::Refused(refusal) => refusal,
            NotCovered::FewerNodes { .. } => Refusal::FrontNeedsSpace,
            NotCovered::FoldedQuad { .. } => Refusal::FoldedQuad,
            NotCovered::WrongSide { .. } => Refusal::WrongSide,
            NotCovered::UnlaidEdge { .. } => Refusal::UnlaidEdge,
            NotCovered::MovedNode { .. } => Refusal::MovedNode,
        }
    }
}

/// The refusal's words, and the quad or the node.
impl fmt::Display for NotCovered {
    fn fmt(&self, f: &mut fmt::Formatter<'_>) -> fmt::Result {
        match self {
            NotCovered::Refused(refusal) => write!(f, "{refusal}"),
            NotCovered::FewerNodes { sampled } => write!(
                f,
                "the mesh has fewer nodes than the sampled outline: begin it with all {sampled}, in their order"
            ),
            NotCovered::FoldedQuad { quad } | NotCovered::WrongSide { quad } => {
                write!(f, "{} (quad {quad})", self.refusal())
            }
            NotCovered::UnlaidEdge { node } | NotCovered::MovedNode { node } => {
                write!(f, "{} (node {node})", self.refusal())
            }
        }
    }
}

impl error::Error for NotCovered {}

impl Mesh {
    /// Whether the quads cover each point of the outline, as it was sampled, once: of every point of the plane there are as many quads as often as the sampled
    /// outline goes round it. A whole mesh of a run does.
    ///
    /// ```
    /// # let square = sitjorbe::Outline::new([[0.0, 0.0], [2.0, 0.0], [2.0, 2.0], [0.0, 2.0]]);
    /// let mesh = sitjorbe::Paver::new(1.0).pave(&square)?;
    /// assert!(mesh.covers()?.sound);
    /// # Ok::<(), Box<dyn std::error::Error>>(())
    /// ```
    ///
    /// # Errors
    ///
    /// Those of [`crate::raw::covers`]: of an open mesh the lowest quad or edge that is wrong.
    pub fn covers(&self) -> Result<Covered, NotCovered> {
        let read = self.net.read();
        covers(&self.outline.lent(), self.size, read.xs, read.ys, read.quads)
    }
}

/// Whether quads, four ids each in the order a, b, d, c that runs round them, cover each point of an outline, as a run samples it, once. The mesh has to begin with
/// the sampled outline's nodes in their order; what made it doesn't matter. That it answers so is proved: every quad turns left at all four corners with an
/// exact sine above 1/3, the steps between any two nodes and the exact areas balance, and of every point of the plane there are as many quads as often as the
/// sampled outline goes round it.
///
/// # Errors
///
/// The first of [`NotCovered`] that holds, in the order in which they stand there.
///
/// # Panics
///
/// Where the library refuses otherwise, which would be a bug.
pub fn covers(outline: &Outline<'_>, size: f64, xs: &[f64], ys: &[f64], quads: &[u32]) -> Result<Covered, NotCovered> {
    let sampled = least_places(outline, size).map_err(NotCovered::Refused)?.sampled_nodes;
    // A mesh with fewer nodes is refused, however many places there are.
    let answer = covers_numbers(outline, size, xs, ys, quads, sampled.min(xs.len()));
    let ffi::CoversAnswer { refusal, place, sound } = answer;
    match Refusal::check(refusal) {
        Ok(()) => Ok(Covered { sound }),
        Err(Refusal::FrontNeedsSpace) => Err(NotCovered::FewerNodes { sampled }),
        Err(Refusal::FoldedQuad) => Err(NotCovered::FoldedQuad { quad: place }),
        Err(Refusal::WrongSide) => Err(NotCovered::WrongSide { quad: place }),
        Err(Refusal::UnlaidEdge) => Err(NotCovered::UnlaidEdge { node: place }),
        Err(Refusal::MovedNode) => Err(NotCovered::MovedNode { node: place }),
        Err(refusal) => Err(NotCovered::Refused(refusal)),
    }
}

/// As [`covers`], with the numbers as they cross, and scratch for so many nodes of the sampled outline: with fewer than it has refusal 10.
pub fn covers_numbers(
    outline: &Outline<'_>,
    size: f64,
    xs: &[f64],
    ys: &[f64],
    quads: &[u32],
    places: usize,
) -> ffi::CoversAnswer {
    floats::check();
    let Outline { outer, holes, hole_lengths } = outline;
    let (mut sampled_xs, mut sampled_ys) = (vec![0.0; places], vec![0.0; places]);
    let (mut next, mut prev, mut edges) = (vec![0; places], vec![0; places], vec![0; 2 * places]);
    let mut keys = vec![0; quads.len()];
    // SAFETY: each pointer comes with the length of its slice, and the slices live until the call returns; those that may be written are borrowed for that. The
    // entry is proved to read and write nothing else.
    unsafe {
        ffi::sitjorbe_covers(
            outer.as_ptr(),
            outer.len(),
            holes.as_ptr(),
            holes.len(),
            hole_lengths.as_ptr(),
            hole_lengths.len(),
            size,
            xs.as_ptr(),
            xs.len(),
            ys.as_ptr(),
            ys.len(),
            quads.as_ptr(),
            quads.len(),
            u32::try_from(xs.len()).unwrap_or(u32::MAX),
            quads.len() / 4,
            sampled_xs.as_mut_ptr(),
            places,
            sampled_ys.as_mut_ptr(),
            places,
            next.as_mut_ptr(),
            places,
            prev.as_mut_ptr(),
            places,
            edges.as_mut_ptr(),
            2 * places,
            keys.as_mut_ptr(),
            keys.len(),
        )
    }
}
