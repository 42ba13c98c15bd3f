//! A run's mesh, read out of the lists that were lent.

use crate::raw::MeshCounts;
use crate::{End, FieldRecord, OFF};

/// What a run made, in the lists that were lent.
///
/// ```
/// # use sitjorbe::raw::{Outline, Settings};
/// # use sitjorbe::{Memory, Places};
/// # let square = Outline { outer: &[0.0, 0.0, 2.0, 0.0, 2.0, 2.0, 0.0, 2.0], holes: &[], hole_lengths: &[] };
/// # let mut memory = Memory::new(Places::for_outline(&square, 1.0, 1)?)?;
/// # let settings = Settings { size: 1.0, sweeps: 400, passes: 600 };
/// # let mesh = memory.pave(&square, &settings)?;
/// assert_eq!((mesh.node_count(), mesh.quad_count(), mesh.edge_count(), mesh.front_count()), (9, 4, 12, 2));
/// assert_eq!((mesh.nodes().last(), mesh.quads().next()), (Some([1.0, 1.0]), Some([0, 1, 8, 7])));
/// assert_eq!((mesh.end(), mesh.is_whole(), mesh.loop_count()), (sitjorbe::End::Still, true, 0));
/// assert_eq!(mesh.unfiled(), [0, 0]);
/// # Ok::<(), Box<dyn std::error::Error>>(())
/// ```
#[derive(Clone, Copy, Debug)]
pub struct Mesh<'a> {
    pub(crate) end: End,
    pub(crate) whole: bool,
    pub(crate) record: FieldRecord,
    pub(crate) values: &'a [f64],
    pub(crate) marks: &'a [u8],
    pub(crate) xs: &'a [f64],
    pub(crate) ys: &'a [f64],
    pub(crate) next: &'a [u32],
    pub(crate) prev: &'a [u32],
    pub(crate) origins: &'a [u16],
    pub(crate) quads: &'a [u32],
    pub(crate) edges: &'a [u32],
    pub(crate) front: usize,
    pub(crate) loops: &'a [u32],
    pub(crate) loop_lengths: &'a [u32],
    pub(crate) filed: [usize; 2],
}

impl<'a> Mesh<'a> {
    /// How the paving ended.
    #[must_use]
    pub fn end(&self) -> End {
        self.end
    }

    /// Whether the mesh is whole: the front has no loop of three or more left, and the outline is sound ([`crate::raw::is_sound`]).
    /// Otherwise it is open.
    #[must_use]
    pub fn is_whole(&self) -> bool {
        self.whole
    }

    /// How many nodes and how many edges found no place in `node_pool` and in `edge_pool`: the run searched those one by one. Both are 0 where the pools
    /// sufficed; otherwise a run takes longer, and longer pools would help ([`crate::Places::pools`]).
    #[must_use]
    pub fn unfiled(&self) -> [usize; 2] {
        [self.node_count() - self.filed[0], self.edge_count() - self.filed[1]]
    }

    /// The field's record.
    #[must_use]
    pub fn record(&self) -> FieldRecord {
        self.record
    }

    /// The field's values and marks, just as [`crate::raw::direction`] asks for them.
    #[must_use]
    pub fn field(&self) -> (&'a [f64], &'a [u8]) {
        (self.values, self.marks)
    }

    /// The number of nodes.
    #[must_use]
    pub fn node_count(&self) -> usize {
        self.xs.len()
    }

    /// The number of quads.
    #[must_use]
    pub fn quad_count(&self) -> usize {
        self.quads.len() / 4
    }

    /// The number of distinct edges.
    #[must_use]
    pub fn edge_count(&self) -> usize {
        self.edges.len() / 2
    }

    /// The number of front edges.
    #[must_use]
    pub fn front_count(&self) -> usize {
        self.front
    }

    /// How much of the lists is in use.
    #[must_use]
    pub fn counts(&self) -> MeshCounts {
        MeshCounts {
            nodes: self.xs.len() as u32,
            quads: self.quad_count(),
            edges: self.edge_count(),
            front: self.front,
        }
    }

    /// The number of listed loops.
    #[must_use]
    pub fn loop_count(&self) -> usize {
        self.loop_lengths.len()
    }

    /// Each node's coordinates, by id.
    #[must_use]
    pub fn nodes(&self) -> impl ExactSizeIterator<Item = [f64; 2]> + Clone + 'a {
        self.xs.iter().zip(self.ys).map(|(&x, &y)| [x, y])
    }

    /// For each node, by id, the number of the outline's loop that it came from: 0 is the outer loop, and k + 1 hole k. A node that was sampled
    /// has its loop's number, and any other that of the node a of the quad it came with. No quad has nodes of two numbers, and no loop of the
    /// front has.
    #[must_use]
    pub fn origins(&self) -> &'a [u16] {
        self.origins
    }

    /// The nodes' first coordinates and their second ones, as they were lent.
    pub(crate) fn coordinates(&self) -> (&'a [f64], &'a [f64]) {
        (self.xs, self.ys)
    }

    /// The ids of all quads, four a quad, as they were lent.
    pub(crate) fn quad_ids(&self) -> &'a [u32] {
        self.quads
    }

    /// The ids of all edges, two an edge, as they were lent.
    pub(crate) fn edge_ids(&self) -> &'a [u32] {
        self.edges
    }

    /// Each quad's ids a, b, d, c, in the order in which the quads were placed.
    #[must_use]
    pub fn quads(&self) -> impl ExactSizeIterator<Item = [u32; 4]> + Clone + 'a {
        self.quads.chunks_exact(4).map(|quad| [quad[0], quad[1], quad[2], quad[3]])
    }

    /// Each distinct edge, the smaller id first, in the order in which they came.
    #[must_use]
    pub fn edges(&self) -> impl ExactSizeIterator<Item = [u32; 2]> + Clone + 'a {
        self.edges.chunks_exact(2).map(|edge| [edge[0], edge[1]])
    }

    /// Each front edge, from a node to the next one, by the first's id.
    pub fn front(&self) -> impl Iterator<Item = [u32; 2]> + Clone + 'a {
        (0u32..).zip(self.next).filter(|(_, &next)| next != OFF).map(|(id, &next)| [id, next])
    }

    /// The links of the front: for each node the next one and the one before, or [`OFF`].
    #[must_use]
    pub fn links(&self) -> (&'a [u32], &'a [u32]) {
        (self.next, self.prev)
    }

    /// The loops of the front that have three nodes or more, each from its smallest id; none if the mesh is whole, or open only
    /// because its outline is unsound.
    #[must_use]
    pub fn front_loops(&self) -> impl ExactSizeIterator<Item = &'a [u32]> + Clone + 'a {
        let ids = self.loops;
        let mut start = 0;
        self.loop_lengths.iter().map(move |&length| {
            let from = start;
            start += length as usize;
            &ids[from..start]
        })
    }
}
