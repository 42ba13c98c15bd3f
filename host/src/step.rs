//! One step of the front, and a look at it before, with the numbers as they cross.

use crate::raw::Outline;
use crate::FieldRecord;
#[cfg(doc)]
use crate::OFF;
use crate::{ffi, floats};

/// How much of a mesh's lists is in use.
#[derive(Clone, Copy, Debug, PartialEq, Eq)]
pub struct MeshCounts {
    /// Nodes.
    pub nodes: u32,
    /// Quads.
    pub quads: usize,
    /// Distinct edges.
    pub edges: usize,
    /// Front edges.
    pub front: usize,
}

/// What stays the same throughout a sequence of steps: the outline, the size, and the field.
#[derive(Clone, Copy, Debug)]
pub struct Ground<'a> {
    /// The outline.
    pub outline: Outline<'a>,
    /// The length wanted of a quad's side.
    pub size: f64,
    /// The field's floats and counts.
    pub record: FieldRecord,
    /// The field's values, two a field node.
    pub values: &'a [f64],
    /// The field's marks, one a field node.
    pub marks: &'a [u8],
}

/// A mesh's lists, lent to a step. Any slices may be lent; those that don't hold a sound mesh are refused.
#[derive(Debug)]
pub struct MeshLists<'a> {
    /// A node's first coordinate.
    pub xs: &'a mut [f64],
    /// A node's second coordinate.
    pub ys: &'a mut [f64],
    /// A node's successor on the front, or [`OFF`].
    pub next: &'a mut [u32],
    /// A node's predecessor on the front, or [`OFF`].
    pub prev: &'a mut [u32],
    /// The number of the outline's loop that a node came from.
    pub origins: &'a mut [u16],
    /// Four ids a quad, in the order a, b, d, c.
    pub quads: &'a mut [u32],
    /// Two ids a distinct edge, the smaller first.
    pub edges: &'a mut [u32],
}

/// A mesh's lists, which are only read. Any slices may be lent; those that don't hold a sound mesh are refused.
#[derive(Clone, Copy, Debug)]
pub struct MeshRead<'a> {
    /// As in [`MeshLists`], here and below.
    pub xs: &'a [f64],
    /// A node's second coordinate.
    pub ys: &'a [f64],
    /// A node's successor on the front.
    pub next: &'a [u32],
    /// A node's predecessor on the front.
    pub prev: &'a [u32],
    /// The number of the outline's loop that a node came from.
    pub origins: &'a [u16],
    /// Four ids a quad.
    pub quads: &'a [u32],
    /// Two ids a distinct edge.
    pub edges: &'a [u32],
}

impl MeshLists<'_> {
    /// The lists, to read them.
    #[must_use]
    pub fn read(&self) -> MeshRead<'_> {
        let MeshLists { xs, ys, next, prev, origins, quads, edges } = self;
        MeshRead { xs, ys, next, prev, origins, quads, edges }
    }
}

/// Steps on the edge from one node to another, with the numbers as they cross.
///
/// ```
/// # use sitjorbe::raw::{Outline, Settings};
/// # use sitjorbe::{Memory, Places};
/// # let square = Outline { outer: &[0.0, 0.0, 2.0, 0.0, 2.0, 2.0, 0.0, 2.0], holes: &[], hole_lengths: &[] };
/// # let mut memory = Memory::new(Places::for_outline(&square, 1.0, 1)?)?;
/// # let settings = Settings { size: 1.0, sweeps: 400, passes: 0 };
/// # let mesh = memory.pave(&square, &settings)?;
/// use sitjorbe::raw::{step_numbers, Ground, MeshLists};
///
/// let (record, counts) = (mesh.record(), mesh.counts());
/// let (values, marks) = (mesh.field().0.to_vec(), mesh.field().1.to_vec());
/// let ground = Ground { outline: square, size: 1.0, record, values: &values, marks: &marks };
/// let lists = memory.lists();
/// let mut lists = MeshLists {
///     xs: lists.xs,
///     ys: lists.ys,
///     next: lists.next,
///     prev: lists.prev,
///     origins: lists.origins,
///     quads: lists.quads,
///     edges: lists.edges,
/// };
/// let answer = step_numbers(&ground, &mut lists, counts, [0, 1]);
/// assert_eq!((answer.refusal, answer.outcome, answer.quads), (0, 0, 1));
/// # Ok::<(), Box<dyn std::error::Error>>(())
/// ```
///
/// # Errors
///
/// In the answer: 1 to 7 of outline and size, 11 of the field, 23 of the mesh, 24 of the edge. Nothing is written then.
pub fn step_numbers(
    ground: &Ground<'_>,
    lists: &mut MeshLists<'_>,
    counts: MeshCounts,
    edge: [u32; 2],
) -> ffi::StepAnswer {
    floats::check();
    let Ground { outline: Outline { outer, holes, hole_lengths: lens }, size, record, values, marks } = *ground;
    // SAFETY: each pointer comes with the length of its slice, and the slices live until the call returns; those that may be
    // written are borrowed for that. The entry is proved to read and write nothing else.
    unsafe {
        ffi::sitjorbe_step(
            outer.as_ptr(),
            outer.len(),
            holes.as_ptr(),
            holes.len(),
            lens.as_ptr(),
            lens.len(),
            size,
            record.xmin,
            record.ymin,
            record.h,
            record.nx,
            record.ny,
            values.as_ptr(),
            values.len(),
            marks.as_ptr(),
            marks.len(),
            lists.xs.as_mut_ptr(),
            lists.xs.len(),
            lists.ys.as_mut_ptr(),
            lists.ys.len(),
            lists.next.as_mut_ptr(),
            lists.next.len(),
            lists.prev.as_mut_ptr(),
            lists.prev.len(),
            lists.origins.as_mut_ptr(),
            lists.origins.len(),
            lists.quads.as_mut_ptr(),
            lists.quads.len(),
            lists.edges.as_mut_ptr(),
            lists.edges.len(),
            counts.nodes,
            counts.quads,
            counts.edges,
            counts.front,
            edge[0],
            edge[1],
        )
    }
}

/// What [`step_numbers`] would do, and in the list the front edges that it would leave, two numbers an edge, by their first node.
///
/// # Errors
///
/// In the answer: those of [`step_numbers`]; 23 also where the list has fewer than two numbers for each front edge and four more. Nothing is written then.
pub fn preview_numbers(
    ground: &Ground<'_>,
    lists: &MeshRead<'_>,
    counts: MeshCounts,
    edge: [u32; 2],
    list: &mut [u32],
) -> ffi::PreviewAnswer {
    floats::check();
    let Ground { outline: Outline { outer, holes, hole_lengths: lens }, size, record, values, marks } = *ground;
    // SAFETY: as in `step_numbers`; only the list may be written.
    unsafe {
        ffi::sitjorbe_preview(
            outer.as_ptr(),
            outer.len(),
            holes.as_ptr(),
            holes.len(),
            lens.as_ptr(),
            lens.len(),
            size,
            record.xmin,
            record.ymin,
            record.h,
            record.nx,
            record.ny,
            values.as_ptr(),
            values.len(),
            marks.as_ptr(),
            marks.len(),
            lists.xs.as_ptr(),
            lists.xs.len(),
            lists.ys.as_ptr(),
            lists.ys.len(),
            lists.next.as_ptr(),
            lists.next.len(),
            lists.prev.as_ptr(),
            lists.prev.len(),
            lists.origins.as_ptr(),
            lists.origins.len(),
            lists.quads.as_ptr(),
            lists.quads.len(),
            lists.edges.as_ptr(),
            lists.edges.len(),
            counts.nodes,
            counts.quads,
            counts.edges,
            counts.front,
            edge[0],
            edge[1],
            list.as_mut_ptr(),
            list.len(),
        )
    }
}
