//! How much to lend.

use crate::raw::Outline;
use crate::{ffi, floats};
use crate::{Places, Refusal};

/// The places that a run of an outline at a size can't do without.
#[derive(Clone, Copy, Debug, PartialEq, Eq)]
pub struct LeastPlaces {
    /// The field's nodes, at most 250,000: with fewer places [`Refusal::FieldNeedsSpace`].
    pub field_nodes: usize,
    /// The nodes of the sampled outline, and as many edges: with fewer places for either [`Refusal::FrontNeedsSpace`].
    pub sampled_nodes: usize,
}

/// The places that a run can't do without, proved to be what the refusals for want of space count. With them a run isn't refused for that; for quads, and the
/// nodes and edges that they add, it needs more.
///
/// ```
/// # use sitjorbe::raw::Outline;
/// # let square = Outline { outer: &[0.0, 0.0, 2.0, 0.0, 2.0, 2.0, 0.0, 2.0], holes: &[], hole_lengths: &[] };
/// let least = sitjorbe::raw::least_places(&square, 1.0)?;
/// assert_eq!((least.field_nodes, least.sampled_nodes), (49, 8));
/// # Ok::<(), sitjorbe::Refusal>(())
/// ```
///
/// # Errors
///
/// What refuses the outline or the size, as [`crate::raw::field`] does before it counts: [`Refusal::Lists`], [`Refusal::ShortLoop`], [`Refusal::NotFinite`],
/// [`Refusal::TooFar`], [`Refusal::NoSize`], [`Refusal::SizeOutOfRange`] and [`Refusal::Flat`].
pub fn least_places(outline: &Outline<'_>, size: f64) -> Result<LeastPlaces, Refusal> {
    floats::check();
    let Outline { outer, holes, hole_lengths: lens } = outline;
    // SAFETY: each pointer comes with the length of its slice, and the slices live until the call returns. The entry is proved to read nothing else,
    // and writes nothing.
    let answer = unsafe {
        ffi::sitjorbe_places(outer.as_ptr(), outer.len(), holes.as_ptr(), holes.len(), lens.as_ptr(), lens.len(), size)
    };
    let ffi::PlacesAnswer { refusal, field_nodes, sampled_nodes } = answer;
    Refusal::check(refusal).map(|()| LeastPlaces { field_nodes, sampled_nodes })
}

impl Places {
    /// The most quads of a run.
    pub const MOST_QUADS: usize = 250_000;

    /// Places for a run of this outline at this size: those that it can't do without, and for quads `growth` times a guess of how many there will be. The guess
    /// is a quad for each node of the sampled outline, and one for each square of the size in the outline's box. Each quad has places for the two
    /// nodes and three edges that it may add, so that of these only quads can run out.
    ///
    /// With a `growth` of 1 they seldom do. Where they do the run stops before the first quad that has no place, ends [`crate::End::Full`] and keeps the
    /// mesh so far: ask for a greater one and pave again. With 0 nothing is paved. No more than 250,000 quads are asked for, at which every run ends.
    ///
    /// ```
    /// # use sitjorbe::raw::Outline;
    /// # let square = Outline { outer: &[0.0, 0.0, 2.0, 0.0, 2.0, 2.0, 0.0, 2.0], holes: &[], hole_lengths: &[] };
    /// let places = sitjorbe::Places::for_outline(&square, 1.0, 1)?;
    /// assert_eq!((places.field_nodes, places.quads, places.nodes, places.edges), (49, 20, 48, 68));
    /// # Ok::<(), sitjorbe::Refusal>(())
    /// ```
    ///
    /// # Errors
    ///
    /// Those of [`least_places`].
    pub fn for_outline(outline: &Outline<'_>, size: f64, growth: usize) -> Result<Places, Refusal> {
        let LeastPlaces { field_nodes, sampled_nodes } = least_places(outline, size)?;
        // The field's nodes are half a size apart, or farther where they would be too many.
        let quads = growth.saturating_mul(sampled_nodes + field_nodes / 4).min(Places::MOST_QUADS);
        Ok(Places {
            field_nodes,
            nodes: sampled_nodes + 2 * quads,
            quads,
            edges: sampled_nodes + 3 * quads,
            points: (outline.outer.len() + outline.holes.len()) / 2,
        })
    }
}
