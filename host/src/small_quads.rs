//! The small quads that service technicians calibrate with.

use crate::{ffi, Refusal};

/// Every small quad, on the first places of the list lent; the others keep their contents.
///
/// A small quad is four points of a 4 by 4 lattice of unit spacing, in the order in which the paving would run round them, that the paving's
/// own test of a quad accepts. A point's number is 4 times its row plus its column, both from 0. The quads come in dictionary order, each
/// once, and each from all four of its corners.
///
/// ```
/// let mut list = vec![0; 4 * 4_000];
/// let quads = sitjorbe::small_quads(&mut list)?;
/// assert_eq!((quads.len(), quads[0]), (3_736, [0, 1, 5, 4]));
/// # Ok::<(), sitjorbe::Refusal>(())
/// ```
///
/// # Errors
///
/// [`Refusal::FoursNeedSpace`] where the list is too short for all of them. Nothing is written then.
pub fn small_quads(list: &mut [u32]) -> Result<&[[u32; 4]], Refusal> {
    // SAFETY: the pointer comes with the length of its slice, which is borrowed for writing until the call returns. The entry is proved to
    // read and write nothing else.
    let answer = unsafe { ffi::sitjorbe_small_quads(list.as_mut_ptr(), list.len()) };
    Refusal::check(answer.refusal)?;
    Ok(&list.as_chunks().0[..answer.count])
}
