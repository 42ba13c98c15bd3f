//! One call of an exam: the mesh and the results as they are lent, and what is asked.

use crate::raw::Mesh;
use crate::{ffi, floats, Refusal};

/// A mesh as it is lent to an exam: any lists and counts at all. A count beyond its list stops at the last whole node or quad, and quads
/// stop at 250,000; a node is whole where both its coordinates and its origin are lent.
#[derive(Clone, Copy, Debug, Default, PartialEq)]
pub struct LentMesh<'a> {
    /// How many nodes there are.
    pub nodes: u32,
    /// A node's first coordinate.
    pub xs: &'a [f64],
    /// A node's second coordinate.
    pub ys: &'a [f64],
    /// How many quads there are.
    pub quad_count: usize,
    /// Four ids a quad, in the order a, b, d, c. A quad with an id that is no node never has all four thresholds.
    pub quads: &'a [u32],
    /// A node's successor on the front, or [`OFF`](crate::OFF). What isn't lent is off.
    pub next: &'a [u32],
    /// A node's predecessor on the front, or [`OFF`](crate::OFF). What isn't lent is off.
    pub prev: &'a [u32],
    /// The number of the outline loop that a node came from.
    pub origins: &'a [u16],
}

impl<'a> LentMesh<'a> {
    /// The mesh that a run made.
    #[must_use]
    pub fn of(mesh: &Mesh<'a>) -> LentMesh<'a> {
        let ((xs, ys), quads, (next, prev)) = (mesh.coordinates(), mesh.quad_ids(), mesh.links());
        let origins = mesh.origins();
        LentMesh { nodes: xs.len() as u32, xs, ys, quad_count: quads.len() / 4, quads, next, prev, origins }
    }
}

/// The results of an exam, lent to its desk: each call takes what the last one left, on the same mesh.
///
/// With figures that no call left a call does no harm: it moves them, modulo 2^32, by what it changes.
#[derive(Debug)]
pub struct Results<'a> {
    /// A threshold a node, in tenths of a decibel; anything above [`MOST_THRESHOLD`] means none.
    pub thresholds: &'a mut [u16],
    /// How many quads have all four thresholds.
    pub count: &'a mut u32,
    /// The sum of all thresholds of those quads, a node counted once for each.
    pub sum: &'a mut u32,
}

/// The results of an exam, lent to readers, who change nothing.
#[derive(Clone, Copy, Debug)]
pub struct SharedResults<'a> {
    /// As in [`Results`].
    pub thresholds: &'a [u16],
    /// As in [`Results`].
    pub count: &'a u32,
    /// As in [`Results`].
    pub sum: &'a u32,
}

/// The greatest threshold, in tenths of a decibel.
pub const MOST_THRESHOLD: u16 = 500;

/// What the list holds where no threshold stands; anything above [`MOST_THRESHOLD`] means the same.
pub const NO_THRESHOLD: u16 = u16::MAX;

/// The greatest weight of an estimate: all the way across a quad.
pub const MOST_WEIGHT: u32 = 256;

/// A node of an exam's mesh, and the number of the outline loop that it came from.
#[derive(Clone, Copy, Debug, PartialEq)]
pub struct Node {
    /// Its first coordinate.
    pub x: f64,
    /// Its second coordinate.
    pub y: f64,
    /// 0 for the outer loop, k + 1 for hole k.
    pub origin: u32,
}

/// What is asked of an exam, as it crosses: a role, an operation, and the numbers that the operation uses.
#[derive(Clone, Copy, Debug, Default, PartialEq)]
pub struct Asked {
    /// [`Asked::DESK`] or one of the two after it.
    pub role: u32,
    /// [`Asked::BEGIN`] or one of the eight after it.
    pub operation: u32,
    /// A node's, quad's or loop's number.
    pub item: u32,
    /// A threshold that is entered.
    pub value: u32,
    /// The estimate's weight from a towards b.
    pub u: u32,
    /// The estimate's weight from a towards c.
    pub v: u32,
}

impl Asked {
    /// Role: the desk, which begins an exam, enters and withdraws, and reads everything.
    pub const DESK: u32 = 1;
    /// Role: a reader, who reads everything.
    pub const READER: u32 = 2;
    /// Role: a masked reader, who reads nodes, quads and loops.
    pub const MASKED_READER: u32 = 3;
    /// Operation: begin the exam.
    pub const BEGIN: u32 = 1;
    /// Operation: enter a node's threshold, or replace it.
    pub const ENTER: u32 = 2;
    /// Operation: withdraw a node's threshold.
    pub const WITHDRAW: u32 = 3;
    /// Operation: read a node.
    pub const READ_NODE: u32 = 4;
    /// Operation: read a quad.
    pub const READ_QUAD: u32 = 5;
    /// Operation: read a loop of the front.
    pub const READ_LOOP: u32 = 6;
    /// Operation: read a node's threshold.
    pub const READ_THRESHOLD: u32 = 7;
    /// Operation: read both figures.
    pub const READ_FIGURES: u32 = 8;
    /// Operation: read an estimate.
    pub const READ_ESTIMATE: u32 = 9;
}

impl Results<'_> {
    pub(crate) fn shared(&self) -> SharedResults<'_> {
        SharedResults { thresholds: self.thresholds, count: self.count, sum: self.sum }
    }
}

impl SharedResults<'_> {
    /// No results: all that a masked reader lends.
    pub(crate) const NONE: SharedResults<'static> = SharedResults { thresholds: &[], count: &0, sum: &0 };
}

/// The numbers that a call answers, whatever is asked by whatever role. A loop's ids are on the first places of `reply`.
///
/// ```
/// # let square = sitjorbe::Outline::new([[0.0, 0.0], [2.0, 0.0], [2.0, 2.0], [0.0, 2.0]]);
/// # let mesh = sitjorbe::Paver::new(1.0).pave(&square)?;
/// use sitjorbe::raw::{exam_numbers, Asked, Results};
///
/// let (mut thresholds, mut count, mut sum) = ([0; 9], 7, 7);
/// let mut results = Results { thresholds: &mut thresholds, count: &mut count, sum: &mut sum };
/// let begin = Asked { role: Asked::DESK, operation: Asked::BEGIN, ..Asked::default() };
/// assert_eq!(exam_numbers(begin, &mesh.lent(), &mut results, &mut []).refusal, 0);
/// assert_eq!((thresholds[8], count, sum), (sitjorbe::NO_THRESHOLD, 0, 0));
/// # Ok::<(), sitjorbe::NotPaved>(())
/// ```
pub fn exam_numbers(
    asked: Asked,
    mesh: &LentMesh<'_>,
    results: &mut Results<'_>,
    reply: &mut [u32],
) -> ffi::ExamAnswer {
    floats::check();
    let Asked { role, operation, item, value, u, v } = asked;
    let LentMesh { nodes, xs, ys, quad_count, quads, next, prev, origins } = *mesh;
    let Results { thresholds, count, sum } = results;
    // SAFETY: each pointer comes with the length of its slice or is that of a number; what may be written is borrowed for that. The entry is
    // proved to read and write nothing else.
    unsafe {
        ffi::sitjorbe_exam(
            role,
            operation,
            item,
            value,
            u,
            v,
            nodes,
            xs.as_ptr(),
            xs.len(),
            ys.as_ptr(),
            ys.len(),
            quad_count,
            quads.as_ptr(),
            quads.len(),
            next.as_ptr(),
            next.len(),
            prev.as_ptr(),
            prev.len(),
            origins.as_ptr(),
            origins.len(),
            thresholds.as_mut_ptr(),
            thresholds.len(),
            *count,
            *sum,
            reply.as_mut_ptr(),
            reply.len(),
        )
    }
}

/// The numbers that a reader or a masked reader is answered: what [`exam_numbers`] answers to the role. The results are only read, and a masked
/// reader's play no part; a threshold to enter isn't asked for. Any other role is refused with 20, the desk's too.
///
/// ```
/// # let square = sitjorbe::Outline::new([[0.0, 0.0], [2.0, 0.0], [2.0, 2.0], [0.0, 2.0]]);
/// # let mesh = sitjorbe::Paver::new(1.0).pave(&square)?;
/// use sitjorbe::raw::{read_numbers, Asked, SharedResults};
///
/// let results = SharedResults { thresholds: &[300; 9], count: &4, sum: &4800 };
/// let figures = Asked { role: Asked::READER, operation: Asked::READ_FIGURES, ..Asked::default() };
/// assert_eq!(read_numbers(figures, &mesh.lent(), results, &mut []).sum, 4800);
/// let masked = Asked { role: Asked::MASKED_READER, ..figures };
/// assert_eq!(read_numbers(masked, &mesh.lent(), results, &mut []).refusal, 20);
/// # Ok::<(), sitjorbe::NotPaved>(())
/// ```
pub fn read_numbers(
    asked: Asked,
    mesh: &LentMesh<'_>,
    results: SharedResults<'_>,
    reply: &mut [u32],
) -> ffi::ExamAnswer {
    floats::check();
    let Asked { role, operation, item, value: _, u, v } = asked;
    let LentMesh { nodes, xs, ys, quad_count, quads, next, prev, origins } = *mesh;
    let SharedResults { thresholds, count, sum } = results;
    // SAFETY: each pointer comes with the length of its slice or is that of a number. The reply list alone may be written, and is borrowed for that. The entry is proved to
    // read and write nothing else.
    unsafe {
        ffi::sitjorbe_exam_read(
            role,
            operation,
            item,
            u,
            v,
            nodes,
            xs.as_ptr(),
            xs.len(),
            ys.as_ptr(),
            ys.len(),
            quad_count,
            quads.as_ptr(),
            quads.len(),
            next.as_ptr(),
            next.len(),
            prev.as_ptr(),
            prev.len(),
            origins.as_ptr(),
            origins.len(),
            thresholds.as_ptr(),
            thresholds.len(),
            count,
            sum,
            reply.as_mut_ptr(),
            reply.len(),
        )
    }
}

/// A read by one of the roles.
pub(crate) fn read(
    role: u32,
    operation: u32,
    [item, u, v]: [u32; 3],
    mesh: &LentMesh<'_>,
    results: SharedResults<'_>,
    reply: &mut [u32],
) -> Result<ffi::ExamAnswer, Refusal> {
    let answer = read_numbers(Asked { role, operation, item, value: 0, u, v }, mesh, results, reply);
    Refusal::check(answer.refusal).map(|()| answer)
}
