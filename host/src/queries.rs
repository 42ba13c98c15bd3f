//! The three queries about a point and an outline.

use crate::{ffi, floats, Refusal};

/// An outline as it is lent: the outer loop, and any number of holes in it.
///
/// Any slices at all may be lent; what can't be used is refused when something is asked of it.
#[derive(Clone, Copy, Debug)]
pub struct Outline<'a> {
    /// The outer loop's coordinates: x, y, x, y, ..
    pub outer: &'a [f64],
    /// The coordinates of all holes, one hole after the other.
    pub holes: &'a [f64],
    /// The number of points of each hole.
    pub hole_lengths: &'a [usize],
}

impl Outline<'_> {
    /// The most points that an outline may have, in all its loops together; one with more is refused.
    pub const MOST_POINTS: usize = 4_096;
}

/// A segment of an outline by its name, and how far it is from the point that was asked about.
#[derive(Clone, Copy, Debug, PartialEq)]
pub struct Segment {
    /// Its loop: 0 for the outer one, k + 1 for hole k.
    pub loop_index: usize,
    /// Its place in the loop: 0 from the loop's first point to its second, in the order in which they are lent.
    pub segment_index: usize,
    /// The end that comes first in its loop.
    pub a: [f64; 2],
    /// The other end.
    pub b: [f64; 2],
    /// The distance from the point to the segment.
    pub distance: f64,
}

/// An entry that is asked about an outline and a point.
type Entry<T> = unsafe extern "C" fn(*const f64, usize, *const f64, usize, *const usize, usize, f64, f64) -> T;

fn ask<T>(entry: Entry<T>, outline: &Outline<'_>, [x, y]: [f64; 2]) -> T {
    floats::check();
    let Outline { outer, holes, hole_lengths: lens } = outline;
    // SAFETY: each pointer comes with the length of its slice, and the slices live until the call returns. The entries are
    // proved to read nothing else and to write nothing.
    unsafe { entry(outer.as_ptr(), outer.len(), holes.as_ptr(), holes.len(), lens.as_ptr(), lens.len(), x, y) }
}

/// Whether a point is inside the outer loop and outside every hole.
///
/// By the even-odd rule: a loop's inside is what a ray to the right leaves by an odd number of crossings. Of the points on
/// the outline itself some count as inside and some don't; of the unit square's corners (0, 0) does and (1, 1) doesn't.
///
/// ```
/// use sitjorbe::raw::{contains, Outline};
/// use sitjorbe::Refusal;
///
/// let square = Outline { outer: &[0.0, 0.0, 1.0, 0.0, 1.0, 1.0, 0.0, 1.0], holes: &[], hole_lengths: &[] };
/// assert_eq!([[0.5, 0.5], [0.0, 0.0], [1.0, 1.0]].map(|point| contains(&square, point)), [true, true, false].map(Ok));
/// assert_eq!(contains(&square, [f64::NAN, 0.0]), Err(Refusal::NotFinite));
/// ```
///
/// # Errors
///
/// [`Refusal::Lists`], [`Refusal::ShortLoop`], [`Refusal::NotFinite`] and [`Refusal::TooFar`] of the outline, in the order
/// of SCOPE, then the last two of the point.
pub fn contains(outline: &Outline<'_>, point: [f64; 2]) -> Result<bool, Refusal> {
    let answer = ask(ffi::sitjorbe_contains, outline, point);
    Refusal::check(answer.refusal).map(|()| answer.inside)
}

/// The segment of the outline that is nearest to a point: of equally near ones the first, the outer loop before the holes.
///
/// Its name tells it from any other segment with the same ends, as in a loop that is run twice. What is answered is always a
/// segment of the outline: the loop is one of its loops, the place one of that loop's segments, one a point.
///
/// ```
/// # use sitjorbe::raw::Outline;
/// # let square = Outline { outer: &[0.0, 0.0, 2.0, 0.0, 2.0, 2.0, 0.0, 2.0], holes: &[], hole_lengths: &[] };
/// let nearest = sitjorbe::raw::nearest_segment(&square, [1.75, 1.0])?;
/// assert_eq!((nearest.segment_index, nearest.distance), (1, 0.25));
/// # Ok::<(), sitjorbe::Refusal>(())
/// ```
///
/// # Errors
///
/// Those of [`contains`].
pub fn nearest_segment(outline: &Outline<'_>, point: [f64; 2]) -> Result<Segment, Refusal> {
    let answer = ask(ffi::sitjorbe_nearest_segment, outline, point);
    let ffi::NearestAnswer { refusal, ax, ay, bx, by, distance, loop_index, segment_index } = answer;
    Refusal::check(refusal).map(|()| Segment { loop_index, segment_index, a: [ax, ay], b: [bx, by], distance })
}

/// The distance from a point to the nearest segment of the outline.
///
/// ```
/// # use sitjorbe::raw::Outline;
/// # let square = Outline { outer: &[0.0, 0.0, 2.0, 0.0, 2.0, 2.0, 0.0, 2.0], holes: &[], hole_lengths: &[] };
/// assert_eq!(sitjorbe::raw::distance_to_boundary(&square, [1.75, 1.0]), Ok(0.25));
/// ```
///
/// # Errors
///
/// Those of [`contains`].
pub fn distance_to_boundary(outline: &Outline<'_>, point: [f64; 2]) -> Result<f64, Refusal> {
    let answer = ask(ffi::sitjorbe_distance_to_boundary, outline, point);
    Refusal::check(answer.refusal).map(|()| answer.distance)
}
