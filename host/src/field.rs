//! The cross field of an outline, and its direction at a point.

use crate::raw::Outline;
use crate::Refusal;
use crate::{ffi, floats};

/// The floats and counts of a field record. Its values and marks are in the lists that were lent.
///
/// A record may be written down and lent again later: its fields are free, and one that isn't a field's is refused.
#[derive(Clone, Copy, Debug, PartialEq)]
pub struct FieldRecord {
    /// The grid's left column.
    pub xmin: f64,
    /// The grid's lowest row.
    pub ymin: f64,
    /// The distance of two neighbours.
    pub h: f64,
    /// The number of nodes in a row.
    pub nx: usize,
    /// The number of nodes in a column.
    pub ny: usize,
}

impl FieldRecord {
    /// The number of nodes of a field that [`field`] made: it has written twice as many values, and as many marks.
    ///
    /// ```
    /// let record = sitjorbe::FieldRecord { xmin: 0.0, ymin: 0.0, h: 0.5, nx: 7, ny: 5 };
    /// assert_eq!(record.nodes(), 35);
    /// ```
    ///
    /// # Panics
    ///
    /// If the counts are so great that their product isn't a `usize`; those of a field are at most 250,000 together.
    #[must_use]
    pub fn nodes(&self) -> usize {
        self.nx.checked_mul(self.ny).expect("a field has at most 250,000 nodes")
    }
}

/// The cross field of an outline for elements of a size, after at most so many sweeps.
///
/// Node (i, j) of the grid has number `j * nx + i`. Its value is written to places `2 * n` and `2 * n + 1` of `values`, its
/// mark to place `n` of `marks`: 1 if the outline fixes its value, else 0. Places past the nodes keep their contents.
///
/// `blocks` is for the field's own use: it files the outline there, 16 segments to a block, so that a node looks only at those
/// that can matter to it. Two numbers for each point of the outline are always enough, and any slice may be lent: segments
/// whose block has no place are looked at one by one, which takes longer, and the field is the same. What is left in it means
/// nothing.
///
/// ```
/// # use sitjorbe::raw::Outline;
/// # let square = Outline { outer: &[0.0, 0.0, 2.0, 0.0, 2.0, 2.0, 0.0, 2.0], holes: &[], hole_lengths: &[] };
/// let (mut values, mut marks, mut blocks) = ([0.0; 98], [0; 49], [0; 8]);
/// let record = sitjorbe::raw::field(&square, 1.0, 400, &mut values, &mut marks, &mut blocks)?;
/// assert_eq!((record.nx, record.ny, record.nodes()), (7, 7, 49));
/// # Ok::<(), sitjorbe::Refusal>(())
/// ```
///
/// # Errors
///
/// [`Refusal::Lists`], [`Refusal::ShortLoop`], [`Refusal::NotFinite`] and [`Refusal::TooFar`] of the outline, then
/// [`Refusal::NoSize`], [`Refusal::SizeOutOfRange`], [`Refusal::Flat`], [`Refusal::TooManySweeps`], and
/// [`Refusal::FieldNeedsSpace`] if `values` or `marks` has too few places; 250,000 nodes are always enough. Nothing is
/// written then.
pub fn field(
    outline: &Outline<'_>,
    size: f64,
    sweeps: usize,
    values: &mut [f64],
    marks: &mut [u8],
    blocks: &mut [u32],
) -> Result<FieldRecord, Refusal> {
    floats::check();
    let Outline { outer, holes, hole_lengths: lens } = outline;
    // SAFETY: each pointer comes with the length of its slice, and the slices live until the call returns; the three that may
    // be written are borrowed for that. The entry is proved to read and write nothing else.
    let answer = unsafe {
        ffi::sitjorbe_field(
            outer.as_ptr(),
            outer.len(),
            holes.as_ptr(),
            holes.len(),
            lens.as_ptr(),
            lens.len(),
            size,
            sweeps,
            values.as_mut_ptr(),
            values.len(),
            marks.as_mut_ptr(),
            marks.len(),
            blocks.as_mut_ptr(),
            blocks.len(),
        )
    };
    let ffi::FieldRecordAnswer { refusal, xmin, ymin, h, nx, ny } = answer;
    Refusal::check(refusal).map(|()| FieldRecord { xmin, ymin, h, nx, ny })
}

/// Of the field's four directions at a point, the one nearest to a target, which may be any two floats.
///
/// Lend exactly the field's values and marks: of lists that were longer, the first `2 * nodes` and `nodes` places.
///
/// ```
/// # use sitjorbe::raw::Outline;
/// # let square = Outline { outer: &[0.0, 0.0, 2.0, 0.0, 2.0, 2.0, 0.0, 2.0], holes: &[], hole_lengths: &[] };
/// # let (mut values, mut marks) = ([0.0; 98], [0; 49]);
/// # let record = sitjorbe::raw::field(&square, 1.0, 400, &mut values, &mut marks, &mut [])?;
/// let towards = sitjorbe::raw::direction(&record, &values, &marks, [1.0, 0.0], [0.9, 0.1])?;
/// assert_eq!(towards, [1.0, 0.0]);
/// # Ok::<(), sitjorbe::Refusal>(())
/// ```
///
/// # Errors
///
/// [`Refusal::NoFieldRecord`], then [`Refusal::NotFinite`] and [`Refusal::TooFar`] of the point. What [`field`] made is
/// proved never to be refused by the first.
pub fn direction(
    record: &FieldRecord,
    values: &[f64],
    marks: &[u8],
    [x, y]: [f64; 2],
    [tx, ty]: [f64; 2],
) -> Result<[f64; 2], Refusal> {
    floats::check();
    let FieldRecord { xmin, ymin, h, nx, ny } = *record;
    let (values, values_len) = (values.as_ptr(), values.len());
    let (marks, marks_len) = (marks.as_ptr(), marks.len());
    // SAFETY: as in `field`; nothing is written.
    let answer =
        unsafe { ffi::sitjorbe_direction(xmin, ymin, h, nx, ny, values, values_len, marks, marks_len, x, y, tx, ty) };
    Refusal::check(answer.refusal).map(|()| [answer.x, answer.y])
}
