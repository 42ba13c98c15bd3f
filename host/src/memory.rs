//! The lists of a run, owned, and how many places they have.

use alloc::vec::Vec;
use core::{error, fmt};

use crate::raw::{pave, Lists, Mesh, Outline, Settings};
use crate::Refusal;

/// How many places a host has for a run.
#[derive(Clone, Copy, Debug, PartialEq, Eq)]
pub struct Places {
    /// The places for field nodes; 250,000 are always enough.
    pub field_nodes: usize,
    /// The places for nodes.
    pub nodes: usize,
    /// The places for quads.
    pub quads: usize,
    /// The places for distinct edges.
    pub edges: usize,
    /// The points that an outline has, those of its holes too. One with more is paved as well, but `blocks` doesn't hold all its segments
    /// then: the others are looked at one by one for every node of the field and every quad that is tried. With 0 none is held.
    pub points: usize,
}

impl Places {
    /// Lengths of `node_pool` and `edge_pool` that are enough: eight numbers hold three places, a node takes one place, and an edge seldom
    /// more than five. Where a length is beyond a `usize` it is [`usize::MAX`], and no list is so long.
    ///
    /// ```
    /// let places = sitjorbe::Places { field_nodes: 100, nodes: 20, quads: 20, edges: 60, points: 4 };
    /// assert_eq!((places.pools(), places.tried(), places.blocks()), ([80, 960], 60, 8));
    /// ```
    #[must_use]
    pub fn pools(&self) -> [usize; 2] {
        [self.nodes.saturating_mul(4), self.edges.saturating_mul(16)]
    }

    /// A length of `tried` that is always enough: three numbers a node. Where it is beyond a `usize` it is [`usize::MAX`], and no list is so long.
    #[must_use]
    pub fn tried(&self) -> usize {
        self.nodes.saturating_mul(3)
    }

    /// A length of `blocks` that is always enough: 16 points take four numbers, and each loop, which has at least three points, four more. No outline
    /// that is paved has more than [`Outline::MOST_POINTS`].
    #[must_use]
    pub fn blocks(&self) -> usize {
        2 * self.points.min(Outline::MOST_POINTS)
    }
}

/// A list of zeros, so long.
fn zeros<T: Clone + Default>(length: usize) -> Result<Vec<T>, TooManyPlaces> {
    let mut list = Vec::new();
    list.try_reserve_exact(length).map_err(|_| TooManyPlaces)?;
    list.resize(length, T::default());
    Ok(list)
}

/// Why there is no [`Memory`] for so many [`Places`].
#[derive(Clone, Copy, Debug, PartialEq, Eq)]
pub struct TooManyPlaces;

impl fmt::Display for TooManyPlaces {
    fn fmt(&self, f: &mut fmt::Formatter<'_>) -> fmt::Result {
        f.write_str("there isn't memory for so many places: ask for fewer")
    }
}

impl error::Error for TooManyPlaces {}

/// The lists of a run, owned, for one run after the other.
///
/// ```
/// use sitjorbe::raw::{Outline, Settings};
/// use sitjorbe::{End, Memory, Places};
///
/// let mut memory = Memory::new(Places { field_nodes: 100, nodes: 20, quads: 20, edges: 60, points: 4 })?;
/// let square = Outline { outer: &[0.0, 0.0, 2.0, 0.0, 2.0, 2.0, 0.0, 2.0], holes: &[], hole_lengths: &[] };
/// let mesh = memory.pave(&square, &Settings { size: 1.0, sweeps: 400, passes: 600 })?;
/// assert_eq!((mesh.node_count(), mesh.quad_count(), mesh.end(), mesh.is_whole()), (9, 4, End::Still, true));
/// assert_eq!(mesh.nodes().last(), Some([1.0, 1.0]));
/// # Ok::<(), Box<dyn std::error::Error>>(())
/// ```
#[derive(Clone, Debug)]
pub struct Memory {
    values: Vec<f64>,
    marks: Vec<u8>,
    xs: Vec<f64>,
    ys: Vec<f64>,
    next: Vec<u32>,
    prev: Vec<u32>,
    snapshot: Vec<u32>,
    origins: Vec<u16>,
    quads: Vec<u32>,
    edges: Vec<u32>,
    loops: Vec<u32>,
    loop_lengths: Vec<u32>,
    node_pool: Vec<u32>,
    edge_pool: Vec<u32>,
    blocks: Vec<u32>,
    tried: Vec<u32>,
}

impl Memory {
    /// Lists with so many places. Nothing is allocated later.
    ///
    /// ```
    /// let places = sitjorbe::Places { field_nodes: usize::MAX, nodes: 20, quads: 20, edges: 60, points: 4 };
    /// assert_eq!(sitjorbe::Memory::new(places).err(), Some(sitjorbe::TooManyPlaces));
    /// ```
    ///
    /// # Errors
    ///
    /// [`TooManyPlaces`] where a list would be longer than any can be, or its memory can't be had.
    pub fn new(places: Places) -> Result<Memory, TooManyPlaces> {
        let Places { field_nodes, nodes, quads, edges, .. } = places;
        let [node_pool, edge_pool] = places.pools();
        Ok(Memory {
            values: zeros(field_nodes.saturating_mul(2))?,
            marks: zeros(field_nodes)?,
            xs: zeros(nodes)?,
            ys: zeros(nodes)?,
            next: zeros(nodes)?,
            prev: zeros(nodes)?,
            snapshot: zeros(nodes)?,
            origins: zeros(nodes)?,
            quads: zeros(quads.saturating_mul(4))?,
            edges: zeros(edges.saturating_mul(2))?,
            loops: zeros(nodes)?,
            // A loop is sampled with four nodes at least: where there are places for these, a quarter of them has one for each loop.
            loop_lengths: zeros(nodes / 4)?,
            node_pool: zeros(node_pool)?,
            edge_pool: zeros(edge_pool)?,
            blocks: zeros(places.blocks())?,
            tried: zeros(places.tried())?,
        })
    }

    /// The lists, to lend them.
    ///
    /// ```
    /// let places = sitjorbe::Places { field_nodes: 100, nodes: 20, quads: 20, edges: 60, points: 4 };
    /// let mut memory = sitjorbe::Memory::new(places)?;
    /// assert_eq!((memory.lists().values.len(), memory.lists().quads.len()), (200, 80));
    /// # Ok::<(), sitjorbe::TooManyPlaces>(())
    /// ```
    pub fn lists(&mut self) -> Lists<'_> {
        Lists {
            values: &mut self.values,
            marks: &mut self.marks,
            xs: &mut self.xs,
            ys: &mut self.ys,
            next: &mut self.next,
            prev: &mut self.prev,
            snapshot: &mut self.snapshot,
            origins: &mut self.origins,
            quads: &mut self.quads,
            edges: &mut self.edges,
            loops: &mut self.loops,
            loop_lengths: &mut self.loop_lengths,
            node_pool: &mut self.node_pool,
            edge_pool: &mut self.edge_pool,
            blocks: &mut self.blocks,
            tried: &mut self.tried,
        }
    }

    /// Paves an outline with quads. The mesh is read out of this memory, and lasts until the next run in it.
    ///
    /// ```
    /// # use sitjorbe::raw::{Outline, Settings};
    /// # use sitjorbe::{Memory, Places};
    /// # let square = Outline { outer: &[0.0, 0.0, 2.0, 0.0, 2.0, 2.0, 0.0, 2.0], holes: &[], hole_lengths: &[] };
    /// # let mut memory = Memory::new(Places::for_outline(&square, 1.0, 1)?)?;
    /// # let settings = Settings { size: 1.0, sweeps: 400, passes: 600 };
    /// assert_eq!(memory.pave(&square, &settings)?.quad_count(), 4);
    /// # Ok::<(), Box<dyn std::error::Error>>(())
    /// ```
    ///
    /// # Errors
    ///
    /// Those of [`pave`].
    pub fn pave(&mut self, outline: &Outline<'_>, settings: &Settings) -> Result<Mesh<'_>, Refusal> {
        pave(outline, settings, self.lists())
    }
}
