//! The whole run: the field, the sampled outline, the paving, and the loops of the front that is left.

use crate::raw::{Mesh, Outline};
use crate::{ffi, floats};
use crate::{End, FieldRecord, Refusal};

/// What an exam sets for a run.
#[derive(Clone, Copy, Debug, PartialEq)]
pub struct Settings {
    /// The elements' size, 0.01 to 100.
    pub size: f64,
    /// The field's sweeps: at most 1,000.
    pub sweeps: usize,
    /// The passes allowed; more than 600 count as 600.
    pub passes: usize,
}

/// The lists lent to a run. Any slices at all may be lent; of those that hold the same places the shortest counts.
#[derive(Debug)]
pub struct Lists<'a> {
    /// Two floats a field node.
    pub values: &'a mut [f64],
    /// A mark a field node.
    pub marks: &'a mut [u8],
    /// A node's first coordinate.
    pub xs: &'a mut [f64],
    /// A node's second coordinate.
    pub ys: &'a mut [f64],
    /// The node that follows a node on the front; [`OFF`] for one off the front.
    pub next: &'a mut [u32],
    /// The node that comes before a node on the front; [`OFF`] for one off the front.
    pub prev: &'a mut [u32],
    /// A place a node, for the run's own use: it is left with 1 for a node on the front, 0 for one off it.
    pub snapshot: &'a mut [u32],
    /// The number of the outline's loop that a node came from.
    pub origins: &'a mut [u16],
    /// Four ids a quad, in the order a, b, d, c, which runs round it.
    pub quads: &'a mut [u32],
    /// Two ids a distinct edge, the smaller first.
    pub edges: &'a mut [u32],
    /// The ids of the listed loops, one loop after the other; a place a node.
    pub loops: &'a mut [u32],
    /// The lengths of the listed loops; a place a loop of the outline.
    pub loop_lengths: &'a mut [u32],
    /// For the run's own use: it files nodes there, so as not to search them all. Those that find no place are searched one by one: with few places
    /// or none it takes longer, and answers the same.
    pub node_pool: &'a mut [u32],
    /// As `node_pool`, for edges.
    pub edge_pool: &'a mut [u32],
    /// As `node_pool`, for the outline's segments, 16 to a block; [`crate::raw::field`] says more.
    pub blocks: &'a mut [u32],
    /// For the run's own use: three numbers a node, of the edge from it that was last tried in vain, so as not to try it again. Edges from nodes that
    /// have none are tried each time: with few places or none it takes longer, and answers the same.
    pub tried: &'a mut [u32],
}

/// What `next` and `prev` hold for a node off the front.
pub const OFF: u32 = u32::MAX;

/// Paves an outline with quads, in the lists lent.
///
/// Places past those that the mesh counts keep their contents, but in the pools, the blocks and `tried`.
///
/// ```
/// # use sitjorbe::raw::{Outline, Settings};
/// # use sitjorbe::{Memory, Places};
/// # let square = Outline { outer: &[0.0, 0.0, 2.0, 0.0, 2.0, 2.0, 0.0, 2.0], holes: &[], hole_lengths: &[] };
/// # let mut memory = Memory::new(Places::for_outline(&square, 1.0, 1)?)?;
/// # let settings = Settings { size: 1.0, sweeps: 400, passes: 600 };
/// let mesh = sitjorbe::raw::pave(&square, &settings, memory.lists())?;
/// assert_eq!((mesh.node_count(), mesh.quad_count()), (9, 4));
/// # Ok::<(), Box<dyn std::error::Error>>(())
/// ```
///
/// # Errors
///
/// Those of [`crate::raw::field`], then [`Refusal::FrontNeedsSpace`]. Nothing is written then.
pub fn pave<'a>(outline: &Outline<'_>, settings: &Settings, mut lists: Lists<'a>) -> Result<Mesh<'a>, Refusal> {
    let answer = pave_numbers(outline, settings, &mut lists);
    Refusal::check(answer.refusal)?;
    let ffi::PaveAnswer { end, whole, xmin, ymin, h, nx, ny, front, .. } = answer;
    let record = FieldRecord { xmin, ymin, h, nx, ny };
    let (field_nodes, nodes) = (record.nodes(), answer.nodes as usize);
    Ok(Mesh {
        end: End::of_number(end),
        whole,
        record,
        values: &lists.values[..2 * field_nodes],
        marks: &lists.marks[..field_nodes],
        xs: &lists.xs[..nodes],
        ys: &lists.ys[..nodes],
        next: &lists.next[..nodes],
        prev: &lists.prev[..nodes],
        origins: &lists.origins[..nodes],
        quads: &lists.quads[..4 * answer.quads],
        edges: &lists.edges[..2 * answer.edges],
        front,
        loops: &lists.loops[..answer.ids],
        loop_lengths: &lists.loop_lengths[..answer.loops],
        filed: [filed(lists.node_pool), filed(lists.edge_pool)],
    })
}

/// How many items a run has filed in a pool: the second number says it. A pool of fewer than four has room for none.
fn filed(pool: &[u32]) -> usize {
    if pool.len() < 4 {
        return 0;
    }
    pool[1] as usize
}

/// As [`pave`], with the numbers as they cross.
///
/// ```
/// # use sitjorbe::raw::{Outline, Settings};
/// # use sitjorbe::{Memory, Places};
/// # let square = Outline { outer: &[0.0, 0.0, 2.0, 0.0, 2.0, 2.0, 0.0, 2.0], holes: &[], hole_lengths: &[] };
/// # let mut memory = Memory::new(Places::for_outline(&square, 1.0, 1)?)?;
/// # let settings = Settings { size: 1.0, sweeps: 400, passes: 600 };
/// let answer = sitjorbe::raw::pave_numbers(&square, &settings, &mut memory.lists());
/// assert_eq!((answer.refusal, answer.nodes, answer.quads), (0, 9, 4));
/// # Ok::<(), Box<dyn std::error::Error>>(())
/// ```
pub fn pave_numbers(outline: &Outline<'_>, settings: &Settings, lists: &mut Lists<'_>) -> ffi::PaveAnswer {
    floats::check();
    let Outline { outer, holes, hole_lengths: lens } = outline;
    // SAFETY: each pointer comes with the length of its slice, and the slices live until the call returns; those that may be
    // written are borrowed for that. The entry is proved to read and write nothing else.
    unsafe {
        ffi::sitjorbe_pave(
            outer.as_ptr(),
            outer.len(),
            holes.as_ptr(),
            holes.len(),
            lens.as_ptr(),
            lens.len(),
            settings.size,
            settings.sweeps,
            settings.passes,
            lists.values.as_mut_ptr(),
            lists.values.len(),
            lists.marks.as_mut_ptr(),
            lists.marks.len(),
            lists.xs.as_mut_ptr(),
            lists.xs.len(),
            lists.ys.as_mut_ptr(),
            lists.ys.len(),
            lists.next.as_mut_ptr(),
            lists.next.len(),
            lists.prev.as_mut_ptr(),
            lists.prev.len(),
            lists.snapshot.as_mut_ptr(),
            lists.snapshot.len(),
            lists.origins.as_mut_ptr(),
            lists.origins.len(),
            lists.quads.as_mut_ptr(),
            lists.quads.len(),
            lists.edges.as_mut_ptr(),
            lists.edges.len(),
            lists.loops.as_mut_ptr(),
            lists.loops.len(),
            lists.loop_lengths.as_mut_ptr(),
            lists.loop_lengths.len(),
            lists.node_pool.as_mut_ptr(),
            lists.node_pool.len(),
            lists.edge_pool.as_mut_ptr(),
            lists.edge_pool.len(),
            lists.blocks.as_mut_ptr(),
            lists.blocks.len(),
            lists.tried.as_mut_ptr(),
            lists.tried.len(),
        )
    }
}
