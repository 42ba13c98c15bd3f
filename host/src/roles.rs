//! The three roles of an exam: [`Desk`], [`Reader`] and [`MaskedReader`]. What a role lacks doesn't compile.

use crate::exam_call::read;
use crate::raw::{exam_numbers, Asked, LentMesh, Results, SharedResults};
use crate::{Node, Refusal};

/// Role 1 begins an exam, enters and withdraws thresholds, and reads everything.
#[derive(Debug)]
pub struct Desk<'a> {
    mesh: LentMesh<'a>,
    results: Results<'a>,
}

/// Role 2 reads everything, and changes nothing.
///
/// ```compile_fail,E0599
/// # let exam = sitjorbe::Exam::begin(sitjorbe::raw::LentMesh::default());
/// exam.reader().enter(0, 300);
/// ```
///
/// ```compile_fail,E0599
/// # let exam = sitjorbe::Exam::begin(sitjorbe::raw::LentMesh::default());
/// exam.reader().withdraw(0);
/// ```
///
/// ```compile_fail,E0599
/// # let exam = sitjorbe::Exam::begin(sitjorbe::raw::LentMesh::default());
/// exam.reader().begin();
/// ```
#[derive(Clone, Copy, Debug)]
pub struct Reader<'a> {
    mesh: LentMesh<'a>,
    results: SharedResults<'a>,
}

/// Role 3 reads nodes, quads and loops. What it gets depends on the mesh and on what it asks alone: it is proved that two exams with the same
/// mesh answer it the same, refusals included, whatever their thresholds, counts and sums.
///
/// ```compile_fail,E0599
/// # let exam = sitjorbe::Exam::begin(sitjorbe::raw::LentMesh::default());
/// exam.masked_reader().figures();
/// ```
///
/// ```compile_fail,E0599
/// # let exam = sitjorbe::Exam::begin(sitjorbe::raw::LentMesh::default());
/// exam.masked_reader().threshold(0);
/// ```
///
/// ```compile_fail,E0599
/// # let exam = sitjorbe::Exam::begin(sitjorbe::raw::LentMesh::default());
/// exam.masked_reader().estimate(0, 128, 128);
/// ```
///
/// ```compile_fail,E0599
/// # let exam = sitjorbe::Exam::begin(sitjorbe::raw::LentMesh::default());
/// exam.masked_reader().enter(0, 300);
/// ```
#[derive(Clone, Copy, Debug)]
pub struct MaskedReader<'a> {
    mesh: LentMesh<'a>,
}

impl<'a> Desk<'a> {
    /// The desk of the exam on a mesh, with results lent.
    #[must_use]
    pub fn new(mesh: LentMesh<'a>, results: Results<'a>) -> Desk<'a> {
        Desk { mesh, results }
    }

    fn change(&mut self, operation: u32, item: u32, value: u32) -> Result<(), Refusal> {
        let asked = Asked { role: Asked::DESK, operation, item, value, u: 0, v: 0 };
        Refusal::check(exam_numbers(asked, &self.mesh, &mut self.results, &mut []).refusal)
    }

    /// Begins the exam: no threshold in any place lent, and both figures 0.
    pub fn begin(&mut self) {
        self.change(Asked::BEGIN, 0, 0).expect("an exam's beginning is never refused");
    }

    /// Enters the threshold of a node, or replaces it.
    ///
    /// # Errors
    ///
    /// [`Refusal::NoNode`], then [`Refusal::ThresholdTooHigh`]. Nothing changes then.
    pub fn enter(&mut self, node: u32, threshold: u32) -> Result<(), Refusal> {
        self.change(Asked::ENTER, node, threshold)
    }

    /// Withdraws the threshold of a node.
    ///
    /// # Errors
    ///
    /// [`Refusal::NoNode`], then [`Refusal::NoThreshold`]. Nothing changes then.
    pub fn withdraw(&mut self, node: u32) -> Result<(), Refusal> {
        self.change(Asked::WITHDRAW, node, 0)
    }

    fn shared(&self) -> SharedResults<'_> {
        self.results.shared()
    }
}

impl<'a> Reader<'a> {
    /// A reader of the exam on a mesh, with results lent.
    #[must_use]
    pub fn new(mesh: LentMesh<'a>, results: SharedResults<'a>) -> Reader<'a> {
        Reader { mesh, results }
    }

    fn shared(&self) -> SharedResults<'_> {
        self.results
    }
}

impl<'a> MaskedReader<'a> {
    /// A masked reader of the exam on a mesh. No results are lent: it is proved that they would play no part.
    #[must_use]
    pub fn new(mesh: LentMesh<'a>) -> MaskedReader<'a> {
        MaskedReader { mesh }
    }

    /// As the other roles' for the reads that they share.
    #[allow(clippy::unused_self)]
    fn shared(&self) -> SharedResults<'static> {
        SharedResults::NONE
    }
}

/// What each role reads of the mesh.
macro_rules! reads_mesh {
    ($role:ident, $number:ident) => {
        impl $role<'_> {
            /// A node's coordinates and origin.
            ///
            /// # Errors
            ///
            /// [`Refusal::NoNode`] where it isn't in the mesh.
            pub fn node(&self, node: u32) -> Result<Node, Refusal> {
                let r = read(Asked::$number, Asked::READ_NODE, [node, 0, 0], &self.mesh, self.shared(), &mut [])?;
                Ok(Node { x: r.x, y: r.y, origin: r.origin })
            }

            /// A quad's corners, in the order a, b, d, c.
            ///
            /// # Errors
            ///
            /// [`Refusal::NoQuad`] where it isn't in the mesh.
            pub fn quad(&self, quad: u32) -> Result<[u32; 4], Refusal> {
                let r = read(Asked::$number, Asked::READ_QUAD, [quad, 0, 0], &self.mesh, self.shared(), &mut [])?;
                Ok([r.a, r.b, r.d, r.c])
            }

            /// A loop of the front, on the first places of the reply list. Loops have three nodes or more and count from 0, each from its
            /// smallest id, in rising order of these. Past the last one a loop is empty, and every loop is where a link is out of range
            /// or the links aren't inverse to each other.
            ///
            /// # Errors
            ///
            /// [`Refusal::AnswerLists`] where the list is too short; it isn't written then.
            pub fn loop_in<'r>(&self, number: u32, reply: &'r mut [u32]) -> Result<&'r [u32], Refusal> {
                let r = read(Asked::$number, Asked::READ_LOOP, [number, 0, 0], &self.mesh, self.shared(), reply)?;
                Ok(&reply[..r.length])
            }
        }
    };
}

/// What the desk and a reader read of the results.
macro_rules! reads_results {
    ($role:ident, $number:ident) => {
        impl $role<'_> {
            /// The threshold at a node, in tenths of a decibel.
            ///
            /// # Errors
            ///
            /// [`Refusal::NoNode`], then [`Refusal::NoThreshold`] where none stands.
            pub fn threshold(&self, node: u32) -> Result<u32, Refusal> {
                let r = read(Asked::$number, Asked::READ_THRESHOLD, [node, 0, 0], &self.mesh, self.shared(), &mut [])?;
                Ok(r.threshold)
            }

            /// How many quads have all four thresholds, and the sum of all thresholds of those quads, a node counted once for each.
            pub fn figures(&self) -> (u32, u32) {
                let r = read(Asked::$number, Asked::READ_FIGURES, [0; 3], &self.mesh, self.shared(), &mut []);
                r.map(|r| (r.count, r.sum)).expect("the figures are never refused")
            }

            /// The estimate in a quad a, b, d, c, in tenths of a decibel and rounded down: at the weights u, from a towards b, and v, from a
            /// towards c.
            ///
            /// It lies between the least and the greatest threshold of the quad's corners. Were one threshold that stands some tenths more
            /// or less, the estimate would move by no more than that, and not at all in a quad that doesn't name the node.
            ///
            /// # Errors
            ///
            /// [`Refusal::NoQuad`] for a quad that isn't in the mesh or lacks a threshold, then [`Refusal::WeightTooHigh`].
            pub fn estimate(&self, quad: u32, u: u32, v: u32) -> Result<u32, Refusal> {
                let r = read(Asked::$number, Asked::READ_ESTIMATE, [quad, u, v], &self.mesh, self.shared(), &mut [])?;
                Ok(r.estimate)
            }
        }
    };
}

// The desk reads what a reader does, and is answered the same.
reads_mesh!(Desk, READER);
reads_mesh!(Reader, READER);
reads_mesh!(MaskedReader, MASKED_READER);
reads_results!(Desk, READER);
reads_results!(Reader, READER);
