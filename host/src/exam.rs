//! An exam with results of its own.

use alloc::vec;
use alloc::vec::Vec;
use core::fmt;

use crate::raw::{LentMesh, Results, SharedResults};
use crate::{Desk, MaskedReader, Reader};

/// An exam on a mesh, with its results: both figures are always those worked out afresh from the thresholds that stand.
///
/// ```
/// use sitjorbe::raw::LentMesh;
/// use sitjorbe::{Exam, Refusal};
///
/// // Two quads with a side in common, and the front round them.
/// let (xs, ys) = ([0.0, 1.0, 1.0, 0.0, 2.0, 2.0], [0.0, 0.0, 1.0, 1.0, 0.0, 1.0]);
/// let mesh = LentMesh {
///     nodes: 6,
///     xs: &xs,
///     ys: &ys,
///     quad_count: 2,
///     quads: &[0, 1, 2, 3, 1, 4, 5, 2],
///     next: &[1, 4, 3, 0, 5, 2],
///     prev: &[3, 0, 5, 2, 1, 4],
///     origins: &[0; 6],
/// };
/// let mut exam = Exam::begin(mesh);
/// let mut desk = exam.desk();
/// assert_eq!(desk.estimate(0, 128, 128), Err(Refusal::NoQuad));
/// for (node, threshold) in [(0, 300), (1, 310), (2, 320), (3, 301), (4, 280), (5, 500)] {
///     desk.enter(node, threshold)?;
/// }
/// assert_eq!(desk.figures(), (2, 1231 + 1410));
///
/// // The patient blinked.
/// desk.withdraw(5)?;
/// assert_eq!(desk.figures(), (1, 1231));
/// assert_eq!(desk.withdraw(5), Err(Refusal::NoThreshold));
///
/// // A reader sees what the desk entered.
/// let reader = exam.reader();
/// assert_eq!((reader.threshold(4), reader.threshold(5)), (Ok(280), Err(Refusal::NoThreshold)));
/// assert_eq!([(0, 0), (256, 0), (256, 256), (0, 256)].map(|(u, v)| reader.estimate(0, u, v)), [300, 310, 320, 301].map(Ok));
/// assert_eq!(reader.estimate(0, 128, 128), Ok(307));
///
/// // A masked reader judges the mesh alone.
/// let masked = exam.masked_reader();
/// assert_eq!(masked.quad(1), Ok([1, 4, 5, 2]));
/// assert_eq!(masked.node(4).map(|node| (node.x, node.origin)), Ok((2.0, 0)));
/// assert_eq!(masked.loop_in(0, &mut [0; 6]), Ok(&[0, 1, 4, 5, 2, 3][..]));
/// # Ok::<(), Refusal>(())
/// ```
#[derive(Clone, PartialEq)]
pub struct Exam<'a> {
    mesh: LentMesh<'a>,
    thresholds: Vec<u16>,
    count: u32,
    sum: u32,
}

impl<'a> Exam<'a> {
    /// Begins an exam on a mesh: no threshold stands yet.
    #[must_use]
    pub fn begin(mesh: LentMesh<'a>) -> Exam<'a> {
        let nodes = (mesh.nodes as usize).min(mesh.xs.len()).min(mesh.ys.len()).min(mesh.origins.len());
        let mut exam = Exam { mesh, thresholds: vec![0; nodes], count: 0, sum: 0 };
        exam.desk().begin();
        exam
    }

    /// Its desk, which alone changes it.
    pub fn desk(&mut self) -> Desk<'_> {
        let Exam { mesh, thresholds, count, sum } = self;
        Desk::new(*mesh, Results { thresholds, count, sum })
    }

    /// A reader of it.
    #[must_use]
    pub fn reader(&self) -> Reader<'_> {
        Reader::new(self.mesh, self.shared())
    }

    /// A masked reader of it.
    #[must_use]
    pub fn masked_reader(&self) -> MaskedReader<'_> {
        MaskedReader::new(self.mesh)
    }

    /// The mesh.
    #[must_use]
    pub fn mesh(&self) -> &LentMesh<'a> {
        &self.mesh
    }

    fn shared(&self) -> SharedResults<'_> {
        SharedResults { thresholds: &self.thresholds, count: &self.count, sum: &self.sum }
    }
}

/// Without the results.
impl fmt::Debug for Exam<'_> {
    fn fmt(&self, f: &mut fmt::Formatter<'_>) -> fmt::Result {
        f.debug_struct("Exam").field("mesh", &self.mesh).finish_non_exhaustive()
    }
}
