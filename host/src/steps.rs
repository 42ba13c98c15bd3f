//! The motor bowl: the nodes of a mesh in whole steps of 1/64 degree, for meshes whose quads it can show.

use alloc::vec;
use alloc::vec::Vec;
use core::{error, fmt};

use crate::raw::{Mesh, MeshCounts, MeshRead};
use crate::Refusal;
use crate::{ffi, floats};

/// How many steps make a degree.
pub const STEPS_PER_DEGREE: i32 = 64;

/// Why the bowl can't show a mesh.
#[derive(Clone, Copy, Debug, PartialEq, Eq, Hash)]
pub enum NotShown {
    /// The lent mesh isn't sound, or the step buffer has fewer than two places a node.
    UnsoundMesh,
    /// This quad, counted from 0, doesn't turn left at all four corners in steps; every one before it does.
    Quad {
        /// Its number.
        quad: usize,
    },
}

impl NotShown {
    /// The refusal: 23 or 25.
    ///
    /// ```
    /// assert_eq!(sitjorbe::NotShown::Quad { quad: 3 }.refusal().number(), 25);
    /// ```
    #[must_use]
    pub fn refusal(self) -> Refusal {
        match self {
            NotShown::UnsoundMesh => Refusal::UnsoundMesh,
            NotShown::Quad { .. } => Refusal::NotShown,
        }
    }
}

/// The refusal's words, and the quad that can't be shown.
impl fmt::Display for NotShown {
    fn fmt(&self, f: &mut fmt::Formatter<'_>) -> fmt::Result {
        write!(f, "{}", self.refusal())?;
        match self {
            NotShown::UnsoundMesh => Ok(()),
            NotShown::Quad { quad } => write!(f, " (quad {quad})"),
        }
    }
}

impl error::Error for NotShown {}

/// A mesh's nodes in steps of the bowl. Each coordinate goes to the nearest step, halves to the even one: none moves by more than 1/128 of
/// a degree. Quads and front stay as they are.
#[derive(Clone, Debug, PartialEq, Eq)]
pub struct BowlSteps {
    /// Two places a node.
    places: Vec<i32>,
}

impl BowlSteps {
    /// The steps of a mesh as it is lent.
    ///
    /// ```
    /// # let square = sitjorbe::Outline::new([[0.0, 0.0], [2.0, 0.0], [2.0, 2.0], [0.0, 2.0]]);
    /// # let mesh = sitjorbe::Paver::new(1.0).pave(&square)?;
    /// let steps = mesh.bowl_steps()?;
    /// assert_eq!(steps.as_slice()[16..], [64, 64]);
    /// assert_eq!(steps.degrees().last(), Some([1.0, 1.0]));
    /// # Ok::<(), Box<dyn std::error::Error>>(())
    /// ```
    ///
    /// # Errors
    ///
    /// [`NotShown::UnsoundMesh`], then [`NotShown::Quad`] with the lowest such quad.
    pub fn of(mesh: &MeshRead<'_>, counts: MeshCounts) -> Result<BowlSteps, NotShown> {
        // More nodes than coordinates are refused, however many are counted.
        let nodes = (counts.nodes as usize).min(mesh.xs.len());
        let mut places = vec![0; 2 * nodes];
        steps(mesh, counts, &mut places).map(|()| BowlSteps { places })
    }

    /// Each node's steps from the origin, by id.
    #[must_use]
    pub fn counts(&self) -> impl ExactSizeIterator<Item = [i32; 2]> + Clone + '_ {
        self.places.chunks_exact(2).map(|node| [node[0], node[1]])
    }

    /// Each node's coordinates in degrees, by id. They are exact: a step is 2^-6 of a degree.
    #[must_use]
    pub fn degrees(&self) -> impl ExactSizeIterator<Item = [f64; 2]> + Clone + '_ {
        self.counts().map(|node| node.map(|count| f64::from(count) / f64::from(STEPS_PER_DEGREE)))
    }

    /// The places as they were written, two a node.
    #[must_use]
    pub fn as_slice(&self) -> &[i32] {
        &self.places
    }
}

impl Mesh<'_> {
    /// The nodes of a run's mesh in steps of the bowl.
    ///
    /// # Errors
    ///
    /// [`NotShown::Quad`] with the lowest quad that can't be shown.
    pub fn steps(&self) -> Result<BowlSteps, NotShown> {
        let ((xs, ys), (next, prev)) = (self.coordinates(), self.links());
        let (quads, edges, origins) = (self.quad_ids(), self.edge_ids(), self.origins());
        BowlSteps::of(&MeshRead { xs, ys, next, prev, origins, quads, edges }, self.counts())
    }
}

/// The steps of a lent mesh's nodes, in places lent for them: node i's are at 2·i and 2·i + 1, and places past the nodes' keep their
/// contents.
///
/// # Errors
///
/// [`NotShown::UnsoundMesh`], also for fewer than two places a node; then [`NotShown::Quad`] with the lowest such quad. Nothing is written
/// then.
pub fn steps(mesh: &MeshRead<'_>, counts: MeshCounts, places: &mut [i32]) -> Result<(), NotShown> {
    let ffi::BowlStepsAnswer { refusal, quad } = steps_numbers(mesh, counts, places);
    match Refusal::check(refusal) {
        Ok(()) => Ok(()),
        Err(Refusal::UnsoundMesh) => Err(NotShown::UnsoundMesh),
        Err(Refusal::NotShown) => Err(NotShown::Quad { quad }),
        Err(other) => panic!("a bug: the library answered refusal {} of a mesh in steps", other.number()),
    }
}

/// As [`steps`], with the numbers as they cross.
pub fn steps_numbers(mesh: &MeshRead<'_>, counts: MeshCounts, places: &mut [i32]) -> ffi::BowlStepsAnswer {
    floats::check();
    // SAFETY: each pointer comes with the length of its slice, and the slices live until the call returns; the one that may be
    // written is borrowed for that. The entry is proved to read and write nothing else.
    unsafe {
        ffi::sitjorbe_bowl_steps(
            mesh.xs.as_ptr(),
            mesh.xs.len(),
            mesh.ys.as_ptr(),
            mesh.ys.len(),
            mesh.next.as_ptr(),
            mesh.next.len(),
            mesh.prev.as_ptr(),
            mesh.prev.len(),
            mesh.origins.as_ptr(),
            mesh.origins.len(),
            mesh.quads.as_ptr(),
            mesh.quads.len(),
            mesh.edges.as_ptr(),
            mesh.edges.len(),
            counts.nodes,
            counts.quads,
            counts.edges,
            counts.front,
            places.as_mut_ptr(),
            places.len(),
        )
    }
}
