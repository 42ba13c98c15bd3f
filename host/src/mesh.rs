//! The mesh of a run, owned.

use alloc::vec::Vec;

use crate::net::Net;
use crate::raw::{self, LentMesh};
#[cfg(doc)]
use crate::Stepper;
use crate::{End, Exam, Field, Outline, Refusal};

/// A mesh: the nodes and quads that pave an outline, and the loops round what is left of it.
///
/// Nodes and quads have numbers, from 0 in the order in which they came: the nodes of the sampled outline first. A quad is four numbers of nodes, a, b, d, c,
/// which run round it to the left; the front edge that it was laid on is a to b.
///
/// ```
/// use sitjorbe::{End, Outline, Paver};
///
/// let field = Outline::new([[0.0, 0.0], [8.0, 0.0], [8.0, 8.0], [0.0, 8.0]]).hole([[2.0, 2.0], [2.0, 4.0], [4.0, 4.0], [4.0, 2.0]]);
/// let mesh = Paver::new(1.0).pave(&field)?;
/// assert_eq!((mesh.nodes().len(), mesh.quads().len(), mesh.end()), (80, 44, Some(End::Still)));
/// assert_eq!((mesh.nodes()[1], mesh.quads()[0]), ([1.0, 0.0], [0, 1, 40, 31]));
/// assert_eq!((mesh.origins()[0], mesh.origins()[79]), (0, 0), "loop 0 is the outer one");
///
/// // The front encloses what couldn't be paved.
/// assert!(!mesh.is_whole());
/// assert_eq!(mesh.loops().iter().map(Vec::len).sum::<usize>(), mesh.front().count());
///
/// // An exam on it: thresholds in tenths of a decibel.
/// let mut exam = mesh.exam();
/// for node in mesh.quads()[0] {
///     exam.desk().enter(node, 300)?;
/// }
/// assert_eq!(exam.reader().figures(), (1, 1200));
///
/// // The order in which the quads are to be tested: the last one as soon as may be.
/// let order = mesh.order(&[43]);
/// assert_eq!(mesh.check_order(&order), Ok(()));
/// assert!(mesh.check_order(&order[1..]).is_err());
///
/// // For the motor bowl: the nodes in whole steps of 1/64 degree.
/// assert_eq!(mesh.bowl_steps()?.counts().nth(1), Some([64, 0]));
/// # Ok::<(), Box<dyn std::error::Error>>(())
/// ```
#[derive(Clone, Debug, PartialEq)]
pub struct Mesh {
    pub(crate) outline: Outline,
    pub(crate) size: f64,
    pub(crate) field: Field,
    pub(crate) net: Net,
    nodes: Vec<[f64; 2]>,
    loops: Vec<Vec<u32>>,
    whole: bool,
    end: Option<End>,
}

impl Mesh {
    /// The mesh of a run, copied out of the lists that were lent to it, with the outline and the size in degrees that the run was given.
    ///
    /// ```
    /// use sitjorbe::{Memory, Mesh, Outline, Paver};
    ///
    /// let square = Outline::new([[0.0, 0.0], [2.0, 0.0], [2.0, 2.0], [0.0, 2.0]]);
    /// let paver = Paver::new(1.0);
    /// let mut memory = Memory::new(paver.places(&square, 1)?)?;
    /// let kept = Mesh::of_run(&square, 1.0, &paver.pave_in(&square, &mut memory)?);
    /// assert_eq!(kept, paver.pave(&square)?);
    /// # Ok::<(), sitjorbe::NotPaved>(())
    /// ```
    #[must_use]
    pub fn of_run(outline: &Outline, size: f64, mesh: &raw::Mesh<'_>) -> Mesh {
        Mesh {
            outline: outline.clone(),
            size,
            field: Field::copied(mesh.record(), mesh.field()),
            net: Net::of_run(mesh),
            nodes: mesh.nodes().collect(),
            loops: mesh.front_loops().map(<[u32]>::to_vec).collect(),
            whole: mesh.is_whole(),
            end: Some(mesh.end()),
        }
    }

    /// What steps left. The loops are those that the library reads of the links, as it does for an exam.
    pub(crate) fn stepped(outline: &Outline, size: f64, field: &Field, net: &Net) -> Mesh {
        let net = net.trimmed();
        let nodes = net.nodes().collect();
        let loops = loops(net.lent());
        let whole = loops.is_empty() && outline.is_sound() == Ok(true);
        Mesh { outline: outline.clone(), size, field: field.clone(), net, nodes, loops, whole, end: None }
    }

    /// Each node's x and y in degrees, by number.
    ///
    /// ```
    /// # let square = sitjorbe::Outline::new([[0.0, 0.0], [2.0, 0.0], [2.0, 2.0], [0.0, 2.0]]);
    /// # let mesh = sitjorbe::Paver::new(1.0).pave(&square)?;
    /// assert_eq!((mesh.nodes().len(), mesh.nodes()[8]), (9, [1.0, 1.0]));
    /// # Ok::<(), sitjorbe::NotPaved>(())
    /// ```
    #[must_use]
    pub fn nodes(&self) -> &[[f64; 2]] {
        &self.nodes
    }

    /// Each quad's nodes a, b, d, c, in the order in which the quads were placed.
    ///
    /// ```
    /// # let square = sitjorbe::Outline::new([[0.0, 0.0], [2.0, 0.0], [2.0, 2.0], [0.0, 2.0]]);
    /// # let mesh = sitjorbe::Paver::new(1.0).pave(&square)?;
    /// assert_eq!((mesh.quads().len(), mesh.quads()[0]), (4, [0, 1, 8, 7]));
    /// # Ok::<(), sitjorbe::NotPaved>(())
    /// ```
    #[must_use]
    pub fn quads(&self) -> &[[u32; 4]] {
        self.net.quads()
    }

    /// Each distinct edge's two nodes, the smaller number first, in the order in which they came.
    ///
    /// ```
    /// # let square = sitjorbe::Outline::new([[0.0, 0.0], [2.0, 0.0], [2.0, 2.0], [0.0, 2.0]]);
    /// # let mesh = sitjorbe::Paver::new(1.0).pave(&square)?;
    /// assert_eq!((mesh.edges().len(), mesh.edges()[0]), (12, [0, 1]));
    /// # Ok::<(), sitjorbe::NotPaved>(())
    /// ```
    #[must_use]
    pub fn edges(&self) -> &[[u32; 2]] {
        self.net.edges()
    }

    /// For each node the number of the outline's loop that it came from: 0 for the outer one, k + 1 for hole k. A node that wasn't sampled has that of the node a
    /// of the quad that it came with. No quad has nodes of two numbers, and no loop of the front has.
    ///
    /// ```
    /// # let square = sitjorbe::Outline::new([[0.0, 0.0], [2.0, 0.0], [2.0, 2.0], [0.0, 2.0]]);
    /// # let mesh = sitjorbe::Paver::new(1.0).pave(&square)?;
    /// assert_eq!(mesh.origins(), [0; 9]);
    /// # Ok::<(), sitjorbe::NotPaved>(())
    /// ```
    #[must_use]
    pub fn origins(&self) -> &[u16] {
        self.net.origins()
    }

    /// The loops of the front that have three nodes or more: the rings round what is left unpaved, each from its smallest number. There is none where the mesh is
    /// whole, or open only because its outline is unsound.
    ///
    /// ```
    /// # let square = sitjorbe::Outline::new([[0.0, 0.0], [2.0, 0.0], [2.0, 2.0], [0.0, 2.0]]);
    /// # let mesh = sitjorbe::Paver::new(1.0).pave(&square)?;
    /// assert!(mesh.loops().is_empty(), "all is paved");
    /// # let sampled = sitjorbe::Paver::new(1.0).passes(0).pave(&square)?;
    /// assert_eq!(sampled.loops(), [[0, 1, 2, 3, 4, 5, 6, 7]]);
    /// # Ok::<(), sitjorbe::NotPaved>(())
    /// ```
    #[must_use]
    pub fn loops(&self) -> &[Vec<u32>] {
        &self.loops
    }

    /// Each front edge, from a node to the next one, by the first's number: where a [`Stepper`] may go on.
    ///
    /// ```
    /// # let square = sitjorbe::Outline::new([[0.0, 0.0], [2.0, 0.0], [2.0, 2.0], [0.0, 2.0]]);
    /// # let mesh = sitjorbe::Paver::new(1.0).pave(&square)?;
    /// assert_eq!(mesh.front().count(), 2, "an edge there and back");
    /// # Ok::<(), sitjorbe::NotPaved>(())
    /// ```
    pub fn front(&self) -> impl Iterator<Item = [u32; 2]> + Clone + '_ {
        self.net.front()
    }

    /// Whether the mesh is whole: the front has no loop of three nodes or more, and the outline is sound. Otherwise it is open.
    ///
    /// ```
    /// # let square = sitjorbe::Outline::new([[0.0, 0.0], [2.0, 0.0], [2.0, 2.0], [0.0, 2.0]]);
    /// # let mesh = sitjorbe::Paver::new(1.0).pave(&square)?;
    /// assert!(mesh.is_whole());
    /// # Ok::<(), sitjorbe::NotPaved>(())
    /// ```
    #[must_use]
    pub fn is_whole(&self) -> bool {
        self.whole
    }

    /// How the run ended; none for a mesh that was stepped by hand.
    ///
    /// ```
    /// # let square = sitjorbe::Outline::new([[0.0, 0.0], [2.0, 0.0], [2.0, 2.0], [0.0, 2.0]]);
    /// # let mesh = sitjorbe::Paver::new(1.0).pave(&square)?;
    /// assert_eq!(mesh.end(), Some(sitjorbe::End::Still));
    /// # Ok::<(), sitjorbe::NotPaved>(())
    /// ```
    #[must_use]
    pub fn end(&self) -> Option<End> {
        self.end
    }

    /// The outline that it paves.
    ///
    /// ```
    /// # let square = sitjorbe::Outline::new([[0.0, 0.0], [2.0, 0.0], [2.0, 2.0], [0.0, 2.0]]);
    /// # let mesh = sitjorbe::Paver::new(1.0).pave(&square)?;
    /// assert_eq!(mesh.outline(), &square);
    /// # Ok::<(), sitjorbe::NotPaved>(())
    /// ```
    #[must_use]
    pub fn outline(&self) -> &Outline {
        &self.outline
    }

    /// The length in degrees that was wanted of a quad's side.
    ///
    /// ```
    /// # let square = sitjorbe::Outline::new([[0.0, 0.0], [2.0, 0.0], [2.0, 2.0], [0.0, 2.0]]);
    /// # let mesh = sitjorbe::Paver::new(1.0).pave(&square)?;
    /// assert_eq!(mesh.size(), 1.0);
    /// # Ok::<(), sitjorbe::NotPaved>(())
    /// ```
    #[must_use]
    pub fn size(&self) -> f64 {
        self.size
    }

    /// The field that the quads were laid along.
    ///
    /// ```
    /// # let square = sitjorbe::Outline::new([[0.0, 0.0], [2.0, 0.0], [2.0, 2.0], [0.0, 2.0]]);
    /// # let mesh = sitjorbe::Paver::new(1.0).pave(&square)?;
    /// assert_eq!(mesh.field().record().h, 0.5);
    /// # Ok::<(), sitjorbe::NotPaved>(())
    /// ```
    #[must_use]
    pub fn field(&self) -> &Field {
        &self.field
    }

    /// The mesh as [`Exam::begin`] and the functions of [`raw`] take it.
    ///
    /// ```
    /// # let square = sitjorbe::Outline::new([[0.0, 0.0], [2.0, 0.0], [2.0, 2.0], [0.0, 2.0]]);
    /// # let mesh = sitjorbe::Paver::new(1.0).pave(&square)?;
    /// assert_eq!((mesh.lent().nodes, mesh.lent().quads.len()), (9, 16));
    /// # Ok::<(), sitjorbe::NotPaved>(())
    /// ```
    #[must_use]
    pub fn lent(&self) -> LentMesh<'_> {
        self.net.lent()
    }
}

/// The loops of three nodes or more.
fn loops(mesh: LentMesh<'_>) -> Vec<Vec<u32>> {
    let exam = Exam::begin(mesh);
    let mut reply = alloc::vec![0; mesh.nodes as usize];
    let mut read =
        |number| -> Result<Vec<u32>, Refusal> { Ok(exam.masked_reader().loop_in(number, &mut reply)?.to_vec()) };
    (0..).map_while(|number| read(number).ok().filter(|ids| !ids.is_empty())).collect()
}
