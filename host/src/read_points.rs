//! An operator's points file.

use alloc::vec;
use alloc::vec::Vec;
use core::ops::Range;

use crate::{ffi, floats, Refusal};

/// What is wrong with a line of a points file.
#[derive(Clone, Copy, Debug, PartialEq, Eq)]
#[non_exhaustive]
#[repr(u32)]
pub enum FaultKind {
    /// A row that hasn't two values.
    NotTwo = 1,
    /// A row without an x.
    NoX = 2,
    /// A row without a y.
    NoY = 3,
    /// An x that isn't a number.
    BadX = 4,
    /// A y that isn't a number.
    BadY = 5,
    /// A comment that stands alone between two points of a loop.
    Comment = 6,
    /// A text of more than 268,435,456 bytes.
    TooLong = 7,
}

impl FaultKind {
    const ALL: [FaultKind; 7] = [
        FaultKind::NotTwo,
        FaultKind::NoX,
        FaultKind::NoY,
        FaultKind::BadX,
        FaultKind::BadY,
        FaultKind::Comment,
        FaultKind::TooLong,
    ];
}

/// A fault of a points file.
#[derive(Clone, Copy, Debug, PartialEq, Eq)]
pub struct TextFault {
    /// What is wrong.
    pub kind: FaultKind,
    /// The line, from 1; 0 where the text is too long.
    pub line: usize,
    /// The column, in bytes from 1; 0 where the text is too long.
    pub column: usize,
    /// Whether no row stands before this one, so that it may have been meant for a heading.
    pub leads: bool,
    /// How many faults the text has.
    pub faults: usize,
    /// The byte between x and y, a comma or a semicolon; 0 where the text is too long.
    pub separator: u8,
}

/// What an operator's points file says.
#[derive(Clone, Debug, Default, PartialEq)]
pub struct ReadPoints {
    /// The points of all loops as coordinates, x then y, the outline's first.
    pub coordinates: Vec<f64>,
    /// The line of each point, from 1.
    pub lines: Vec<usize>,
    /// How many points each loop has.
    pub loop_lengths: Vec<usize>,
    /// Where the comment that names each loop stands, in bytes behind a byte order mark, its `#` left out; empty where there is none.
    pub comments: Vec<Range<usize>>,
    /// The line of each loop's last point, where that repeats the first and is left out.
    pub left_out: Vec<Option<usize>>,
    /// The line of the heading.
    pub heading: Option<usize>,
    /// The byte between x and y, a comma or a semicolon.
    pub separator: u8,
}

/// Reads an operator's points file, bytes as they are. One point a line: x and y with a comma between, or a semicolon, and then the decimals may have commas. A
/// blank line ends a loop, the first of which is the outline. `#` begins a comment, and the one right before a loop names it. The first row may be a heading. A
/// last point that repeats its loop's first is left out. A number is proved to be the double nearest to its decimal.
///
/// ```
/// let read = sitjorbe::read_points(b"# A field\r\n0;0\r\n12,5;0\r\n12,5;3\r\n")?;
/// assert_eq!(read.coordinates, [0.0, 0.0, 12.5, 0.0, 12.5, 3.0]);
/// assert_eq!((read.lines, read.loop_lengths), (vec![2, 3, 4], vec![3]));
///
/// let fault = sitjorbe::read_points(b"0,0\n1,O\n").unwrap_err();
/// assert_eq!((fault.kind, fault.line, fault.column), (sitjorbe::FaultKind::BadY, 2, 3));
/// # Ok::<(), sitjorbe::TextFault>(())
/// ```
///
/// # Errors
///
/// The first [`TextFault`]; [`text_fault`] has the others.
pub fn read_points(text: &[u8]) -> Result<ReadPoints, TextFault> {
    let counted = call(text, 0, &mut [], &mut [], &mut [], &mut []);
    if let Some(fault) = fault_of(&counted) {
        return Err(fault);
    }
    let (points, loops) = (counted.points, counted.loops);
    let mut coordinates = vec![0.0; 2 * points];
    let mut lines = vec![0; points];
    let mut loop_lengths = vec![0; loops];
    let mut marks = vec![0; 3 * loops];
    let answer = call(text, 0, &mut coordinates, &mut lines, &mut loop_lengths, &mut marks);
    assert_eq!(answer.refusal, 0, "a bug: the lists have the places that were counted");
    let (marks, _) = marks.as_chunks::<3>();
    Ok(ReadPoints {
        coordinates,
        lines,
        loop_lengths,
        comments: marks.iter().map(|&[from, to, _]| from..to).collect(),
        left_out: marks.iter().map(|&[_, _, line]| (line > 0).then_some(line)).collect(),
        heading: (answer.heading > 0).then_some(answer.heading),
        separator: answer.separator as u8,
    })
}

/// Fault number `which` of a points file, from 0 in the order of reading, or none. A comment between two points is found at the second of them.
#[must_use]
pub fn text_fault(text: &[u8], which: usize) -> Option<TextFault> {
    fault_of(&call(text, which, &mut [], &mut [], &mut [], &mut [])).filter(|fault| which < fault.faults)
}

fn fault_of(answer: &ffi::PointsAnswer) -> Option<TextFault> {
    (answer.refusal == Refusal::FaultyText.number()).then(|| TextFault {
        kind: FaultKind::ALL.into_iter().find(|&kind| kind as u32 == answer.fault).unwrap_or(FaultKind::TooLong),
        line: answer.line,
        column: answer.column,
        leads: answer.leads,
        faults: answer.faults,
        separator: answer.separator as u8,
    })
}

fn call(
    text: &[u8],
    which: usize,
    coordinates: &mut [f64],
    lines: &mut [usize],
    lengths: &mut [usize],
    marks: &mut [usize],
) -> ffi::PointsAnswer {
    floats::check();
    // SAFETY: each pointer comes with the length of its slice, and the slices live until the call returns, those that are written borrowed for that. The entry is
    // proved to read and write nothing else.
    unsafe {
        ffi::sitjorbe_read_points(
            text.as_ptr(),
            text.len(),
            which,
            coordinates.as_mut_ptr(),
            coordinates.len(),
            lines.as_mut_ptr(),
            lines.len(),
            lengths.as_mut_ptr(),
            lengths.len(),
            marks.as_mut_ptr(),
            marks.len(),
        )
    }
}
