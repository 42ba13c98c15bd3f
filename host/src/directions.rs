//! The directions of a field at a whole list of points.

use alloc::vec;
use alloc::vec::Vec;

use crate::{ffi, floats, FieldRecord, Refusal};

/// What [`direction`](crate::raw::direction) answers for each point and its target, in their order, with the field record looked through only once.
///
/// A point that isn't finite or is beyond 1,000 has its refusal among the answers; the others don't notice.
///
/// ```
/// # use sitjorbe::raw::Outline;
/// # let square = Outline { outer: &[0.0, 0.0, 2.0, 0.0, 2.0, 2.0, 0.0, 2.0], holes: &[], hole_lengths: &[] };
/// # let (mut values, mut marks) = ([0.0; 98], [0; 49]);
/// # let record = sitjorbe::raw::field(&square, 1.0, 400, &mut values, &mut marks, &mut [])?;
/// let all = sitjorbe::raw::directions(&record, &values, &marks, &[[1.0, 0.0]], &[[0.9, 0.1]])?;
/// assert_eq!(all, [Ok([1.0, 0.0])]);
/// # Ok::<(), sitjorbe::Refusal>(())
/// ```
///
/// # Errors
///
/// [`Refusal::AnswerLists`] if there aren't as many targets as points, then [`Refusal::NoFieldRecord`], also where there are no points.
pub fn directions(
    record: &FieldRecord,
    values: &[f64],
    marks: &[u8],
    points: &[[f64; 2]],
    targets: &[[f64; 2]],
) -> Result<Vec<Result<[f64; 2], Refusal>>, Refusal> {
    let mut answers = vec![[0.0; 3]; points.len()];
    directions_in(record, values, marks, points, targets, &mut answers).map(Iterator::collect)
}

/// [`directions`] in memory that is kept from one list to the next: an answer's place for each point. The others keep their contents.
///
/// An answer is left there as three floats: 0 and the direction, or the refusal's number and two zeros.
///
/// ```
/// # use sitjorbe::raw::Outline;
/// # let square = Outline { outer: &[0.0, 0.0, 2.0, 0.0, 2.0, 2.0, 0.0, 2.0], holes: &[], hole_lengths: &[] };
/// # let (mut values, mut marks) = ([0.0; 98], [0; 49]);
/// # let record = sitjorbe::raw::field(&square, 1.0, 400, &mut values, &mut marks, &mut [])?;
/// let mut places = [[0.0; 3]; 2];
/// let mut all = sitjorbe::raw::directions_in(&record, &values, &marks, &[[1.0, 0.0]], &[[0.9, 0.1]], &mut places)?;
/// assert_eq!(all.next(), Some(Ok([1.0, 0.0])));
/// # Ok::<(), sitjorbe::Refusal>(())
/// ```
///
/// # Errors
///
/// As [`directions`], and [`Refusal::AnswerLists`] also if there are fewer places than points. Nothing is written then.
pub fn directions_in<'a>(
    record: &FieldRecord,
    values: &[f64],
    marks: &[u8],
    points: &[[f64; 2]],
    targets: &[[f64; 2]],
    answers: &'a mut [[f64; 3]],
) -> Result<impl ExactSizeIterator<Item = Result<[f64; 2], Refusal>> + 'a, Refusal> {
    floats::check();
    let FieldRecord { xmin, ymin, h, nx, ny } = *record;
    let count = points.len();
    let (points, targets, places) = (points.as_flattened(), targets.as_flattened(), answers.as_flattened_mut());
    // SAFETY: each pointer comes with the length of its slice, and the slices live until the call returns; the one that may be
    // written is borrowed for that. The entry is proved to read and write nothing else.
    let refusal = unsafe {
        ffi::sitjorbe_directions(
            xmin,
            ymin,
            h,
            nx,
            ny,
            values.as_ptr(),
            values.len(),
            marks.as_ptr(),
            marks.len(),
            points.as_ptr(),
            points.len(),
            targets.as_ptr(),
            targets.len(),
            places.as_mut_ptr(),
            places.len(),
        )
    };
    Refusal::check(refusal)?;
    Ok(answers[..count].iter().map(|&[number, x, y]| Refusal::check(number as u32).map(|()| [x, y])))
}
