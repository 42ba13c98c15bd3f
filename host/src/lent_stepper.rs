//! The front stepped by hand in lent lists: one edge named, one quad placed or none, and a look at it before.

use alloc::vec;
use alloc::vec::Vec;

use crate::ffi;
use crate::raw::{preview_numbers, step_numbers, Ground, MeshCounts, MeshLists, MeshRead, Outline, Settings};
use crate::{FieldRecord, Memory, Outcome, Pass, Preview, Refusal, OFF};

/// A front that is stepped by hand, in the lists of a [`Memory`]: it begins with the sampled outline, and each step takes the mesh that the last one left.
///
/// ```
/// # use sitjorbe::raw::{Outline, Stepper};
/// # use sitjorbe::{Memory, Places};
/// # let square = Outline { outer: &[0.0, 0.0, 2.0, 0.0, 2.0, 2.0, 0.0, 2.0], holes: &[], hole_lengths: &[] };
/// # let mut memory = Memory::new(Places::for_outline(&square, 1.0, 1)?)?;
/// # let mut stepper = Stepper::new(square, 1.0, 400, &mut memory)?;
/// assert_eq!(stepper.preview([0, 1])?.quad, Some([0, 1, 8, 7]));
/// stepper.step([0, 1])?;
/// assert_eq!((stepper.counts().quads, stepper.quads()), (1, vec![[0, 1, 8, 7]]));
/// # Ok::<(), Box<dyn std::error::Error>>(())
/// ```
#[derive(Debug)]
pub struct Stepper<'a> {
    outline: Outline<'a>,
    size: f64,
    memory: &'a mut Memory,
    record: FieldRecord,
    counts: MeshCounts,
    list: Vec<u32>,
}

impl<'a> Stepper<'a> {
    /// Samples the outline and makes its field: a run of 0 passes.
    ///
    /// # Errors
    ///
    /// Those of [`Memory::pave`].
    pub fn new(outline: Outline<'a>, size: f64, sweeps: usize, memory: &'a mut Memory) -> Result<Stepper<'a>, Refusal> {
        Stepper::after(outline, &Settings { size, sweeps, passes: 0 }, memory)
    }

    /// The same after so many automatic passes.
    ///
    /// # Errors
    ///
    /// Those of [`Memory::pave`].
    pub fn after(outline: Outline<'a>, settings: &Settings, memory: &'a mut Memory) -> Result<Stepper<'a>, Refusal> {
        let mesh = memory.pave(&outline, settings)?;
        let record = mesh.record();
        let counts = MeshCounts {
            nodes: mesh.node_count() as u32,
            quads: mesh.quad_count(),
            edges: mesh.edge_count(),
            front: mesh.front_count(),
        };
        let places = memory.lists().xs.len();
        let list = vec![0; 2 * places.saturating_add(2)];
        Ok(Stepper { outline, size: settings.size, memory, record, counts, list })
    }

    /// Steps on the front edge from a node to the next one.
    ///
    /// # Errors
    ///
    /// [`Refusal::NotOnFront`]. The others don't come up here: the mesh is always one that a step left.
    pub fn step(&mut self, edge: [u32; 2]) -> Result<Outcome, Refusal> {
        let lists = self.memory.lists();
        let nodes = self.record.nodes();
        let ground = Ground {
            outline: self.outline,
            size: self.size,
            record: self.record,
            values: &lists.values[..2 * nodes],
            marks: &lists.marks[..nodes],
        };
        let mut mesh = MeshLists {
            xs: lists.xs,
            ys: lists.ys,
            next: lists.next,
            prev: lists.prev,
            origins: lists.origins,
            quads: lists.quads,
            edges: lists.edges,
        };
        let answer = step_numbers(&ground, &mut mesh, self.counts, edge);
        Refusal::check(answer.refusal)?;
        let ffi::StepAnswer { nodes, quads, edges, front, .. } = answer;
        self.counts = MeshCounts { nodes, quads, edges, front };
        Ok(Outcome::of_number(answer.outcome))
    }

    /// What a step on the edge would do; the mesh stays as it is.
    ///
    /// # Errors
    ///
    /// Those of [`Stepper::step`].
    pub fn preview(&mut self, edge: [u32; 2]) -> Result<Preview<'_>, Refusal> {
        let lists = self.memory.lists();
        let nodes = self.record.nodes();
        let ground = Ground {
            outline: self.outline,
            size: self.size,
            record: self.record,
            values: &lists.values[..2 * nodes],
            marks: &lists.marks[..nodes],
        };
        let mesh = MeshRead {
            xs: lists.xs,
            ys: lists.ys,
            next: lists.next,
            prev: lists.prev,
            origins: lists.origins,
            quads: lists.quads,
            edges: lists.edges,
        };
        let answer = preview_numbers(&ground, &mesh, self.counts, edge, &mut self.list);
        Refusal::check(answer.refusal)?;
        Ok(Preview::of(&answer, self.counts.nodes, &self.list))
    }

    /// An automatic pass: takes the front edges that are there now, by their first nodes in rising order, and steps on each that is still there when its
    /// turn comes. It stops where there is no place for a quad, and at 250,000 quads.
    ///
    /// What it leaves is what one more pass of [`Memory::pave`] leaves. A run is faster at it, so begin with its passes ([`Stepper::after`]) where nothing
    /// was placed by hand yet.
    ///
    /// ```
    /// use sitjorbe::raw::{Outline, Stepper};
    /// use sitjorbe::{Memory, Outcome, Places};
    ///
    /// let square = Outline { outer: &[0.0, 0.0, 2.0, 0.0, 2.0, 2.0, 0.0, 2.0], holes: &[], hole_lengths: &[] };
    /// let mut memory = Memory::new(Places::for_outline(&square, 1.0, 1)?)?;
    /// let mut stepper = Stepper::new(square, 1.0, 400, &mut memory)?;
    /// assert_eq!(stepper.step([3, 4])?, Outcome::Placed);
    /// let pass = stepper.pass();
    /// assert_eq!((pass.placed, pass.outcome, stepper.counts().front), (3, Outcome::Placed, 2));
    /// assert_eq!(stepper.pass().outcome, Outcome::None);
    /// # Ok::<(), Box<dyn std::error::Error>>(())
    /// ```
    pub fn pass(&mut self) -> Pass {
        self.pass_while(|| true).expect("it goes on")
    }

    /// The same, as long as `go_on` says so, which is asked before each edge: a pass of many edges on a large field takes long. Where it doesn't go on, none is
    /// answered, and the quads placed so far stay.
    pub fn pass_while(&mut self, go_on: impl FnMut() -> bool) -> Option<Pass> {
        Pass::over(self.front(), go_on, |edge| self.step(edge))
    }

    /// The counts of the mesh as it stands.
    #[must_use]
    pub fn counts(&self) -> MeshCounts {
        self.counts
    }

    /// Each node's coordinates, by id.
    pub fn nodes(&mut self) -> Vec<[f64; 2]> {
        let count = self.counts.nodes as usize;
        let lists = self.memory.lists();
        lists.xs[..count].iter().zip(&lists.ys[..count]).map(|(&x, &y)| [x, y]).collect()
    }

    /// Each quad's ids a, b, d, c, in the order in which they were placed.
    pub fn quads(&mut self) -> Vec<[u32; 4]> {
        let count = self.counts.quads;
        let lists = self.memory.lists();
        lists.quads[..4 * count].chunks_exact(4).map(|quad| [quad[0], quad[1], quad[2], quad[3]]).collect()
    }

    /// Each distinct edge, in the order in which they came.
    pub fn edges(&mut self) -> Vec<[u32; 2]> {
        let count = self.counts.edges;
        self.memory.lists().edges[..2 * count].chunks_exact(2).map(|edge| [edge[0], edge[1]]).collect()
    }

    /// Each front edge, by the first node's id.
    pub fn front(&mut self) -> Vec<[u32; 2]> {
        let count = self.counts.nodes as usize;
        let links = (0u32..).zip(&self.memory.lists().next[..count]);
        links.filter(|(_, &next)| next != OFF).map(|(id, &next)| [id, next]).collect()
    }

    /// The number of the outline's loop that each node came from, by id: 0 for the outer one.
    pub fn origins(&mut self) -> Vec<u16> {
        let count = self.counts.nodes as usize;
        self.memory.lists().origins[..count].to_vec()
    }
}
