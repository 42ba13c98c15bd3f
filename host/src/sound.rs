//! Whether a drawn outline is sound.

use crate::queries::Outline;
use crate::{ffi, floats, Refusal};

/// Whether an outline is sound: no two segments of one loop meet except neighbours at their common end, no two loops touch, every
/// hole lies inside the outer loop, and no hole lies in another.
///
/// This is judged exactly: each float is the fraction that it is, and there is no tolerance. A loop may run either way round. It
/// goes through every pair of segments of a loop, and of every two loops.
///
/// ```
/// use sitjorbe::raw::{is_sound, Outline};
///
/// let outline = |outer| Outline { outer, holes: &[], hole_lengths: &[] };
/// assert_eq!(is_sound(&outline(&[0.0, 0.0, 2.0, 0.0, 2.0, 2.0, 0.0, 2.0])), Ok(true));
/// // A figure of eight.
/// assert_eq!(is_sound(&outline(&[0.0, 0.0, 2.0, 2.0, 2.0, 0.0, 0.0, 2.0])), Ok(false));
/// ```
///
/// An unsound outline is paved all the same; its mesh is never whole.
///
/// # Errors
///
/// [`Refusal::Lists`], [`Refusal::ShortLoop`], [`Refusal::NotFinite`] and [`Refusal::TooFar`], in this order.
pub fn is_sound(outline: &Outline<'_>) -> Result<bool, Refusal> {
    floats::check();
    let Outline { outer, holes, hole_lengths: lens } = outline;
    // SAFETY: each pointer comes with the length of its slice, and the slices live until the call returns. The entry is proved to
    // read nothing else and to write nothing.
    let answer = unsafe {
        ffi::sitjorbe_sound(outer.as_ptr(), outer.len(), holes.as_ptr(), holes.len(), lens.as_ptr(), lens.len())
    };
    Refusal::check(answer.refusal).map(|()| answer.sound)
}
