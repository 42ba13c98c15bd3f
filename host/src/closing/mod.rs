//! Closing: the part that a paving leaves open is filled with quads too, so that the whole field is covered.
//!
//! [`Mesh::close`], and [`close`] for lists of the host's own, answer a [`Closed`] mesh, or the places that stay open and why. What is done need not be believed: a
//! [`Closed`] mesh is made by the judge alone.
//!
//! The open part is triangulated (`front`, `triangulation`, `constraints`), points are set in it along the rows that lead into it (`points`), triangles are
//! paired (`pairing`), and those left over are carried to each other through the quads (`walk`). Three rings of paved quads next to the open part may bend, so that
//! rows are smoothed and cleaned up across the seam (`smoothing`, `lift`, `cleanup`, `operations`); what stays low is filled anew in patches (`patches`,
//! `repair`). Where that isn't accepted, layers of paved quads are given back (`ladder`).
//!
//! It is the same to the bit on every machine and in every thread: no clock, no hashing, no function of the system; only additions, products, quotients and roots.
//! The caller sets how many steps it may take, hears of its progress and may stop it.

mod changes;
mod cleanup;
mod constraints;
mod filling;
mod front;
mod judge;
mod ladder;
mod lift;
mod net;
mod operations;
mod pairing;
mod patches;
mod plane;
mod points;
mod reasons;
mod repair;
mod sampled;
mod smoothing;
mod triangulation;
mod walk;
mod work;

use alloc::vec::Vec;

use crate::raw::{is_sound, Outline};
use crate::Mesh;
pub use judge::{Closed, Kind, NotClosed};
pub use reasons::{Place, Reason};

/// What may be done with the paved quads next to the open part.
#[derive(Clone, Copy, Debug, Default, PartialEq, Eq, Hash)]
pub enum Way {
    /// The nodes of three rings of them may move. Paved nodes beyond these never do.
    #[default]
    Bend,
    /// Every paved node that is kept stays in its place.
    Keep,
}

/// How a mesh is closed.
#[derive(Clone, Copy, Debug, PartialEq, Eq)]
pub struct Effort {
    /// What may move.
    pub way: Way,
    /// How many steps may be taken, each as long as a node's smoothing or less: about a third of a microsecond.
    pub steps: u64,
}

impl Effort {
    /// As many steps as nearly every field needs that can be closed, for a paving of so many nodes: one of 300 quads takes a thousandth of them.
    #[must_use]
    pub fn usual(way: Way, nodes: usize) -> Effort {
        Effort { way, steps: 10_000_000 + 1_000 * nodes as u64 }
    }
}

/// What is being done.
#[derive(Clone, Copy, Debug, PartialEq, Eq, Hash)]
pub enum Stage {
    /// The open part is triangulated and paired.
    Filling,
    /// What is new and what may bend is smoothed and cleaned up.
    Smoothing,
    /// Left-over triangles are carried to each other.
    Pairing,
    /// Low quads are filled anew.
    Repairing,
}

/// How far a closing has got.
#[derive(Clone, Copy, Debug, PartialEq, Eq)]
pub struct Progress {
    /// What is being done. It begins again where layers are given back.
    pub stage: Stage,
    /// The steps taken so far.
    pub steps: u64,
}

/// What became of a mesh.
#[derive(Clone, Debug, PartialEq)]
pub enum Closing {
    /// It is closed.
    Closed(Closed),
    /// It stays open, at these places at least. The paving is as it was.
    Open(Vec<Place>),
}

/// Closes a paving of an outline with quads of a size: its nodes, the sampled outline's first, and its quads, each run to the left, as [`crate::raw::pave`] makes them.
/// `progress` is called from time to time, and ends the work by answering false.
///
/// Nodes and quads that aren't a paving of this outline, an outline that isn't sound and one that can't be closed are answered as open, with what is wrong. Memory grows
/// with the mesh alone.
pub fn close(
    outline: &Outline<'_>,
    size: f64,
    nodes: &[[f64; 2]],
    quads: &[[u32; 4]],
    effort: Effort,
    progress: &mut dyn FnMut(Progress) -> bool,
) -> Closing {
    let Some(sampled) = sampled::sampled(outline, size, nodes.len()).filter(|sampled| is_paving(sampled, nodes, quads))
    else {
        return Closing::Open([Place { at: [0.0; 2], why: Reason::OtherOutline }].to_vec());
    };
    let job =
        ladder::Job { drawn: outline, outline: &sampled, points: nodes, quads, size, bends: effort.way == Way::Bend };
    if is_sound(outline) != Ok(true) {
        return Closing::Open([reasons::unsound(&job)].to_vec());
    }
    match ladder::climb(&job, work::Budget::new(effort.steps, progress)) {
        Ok(closed) => Closing::Closed(closed),
        Err(failure) => Closing::Open(reasons::places(&job, &failure)),
    }
}

/// Whether nodes begin with the sampled outline's, are near enough, and quads have four of them each.
fn is_paving(sampled: &sampled::Sampled, nodes: &[[f64; 2]], quads: &[[u32; 4]]) -> bool {
    let bits = |node: &[f64; 2]| node.map(f64::to_bits);
    let near = |node: &[f64; 2]| node.iter().all(|x| x.abs() <= judge::FARTHEST);
    let four = |quad: &[u32; 4]| (0..4).all(|k| (quad[k] as usize) < nodes.len() && !quad[..k].contains(&quad[k]));
    sampled.nodes.len() <= nodes.len()
        && sampled.nodes.iter().zip(nodes).all(|(one, other)| bits(one) == bits(other))
        && nodes.iter().all(near)
        && quads.iter().all(four)
}

impl Mesh {
    /// Closes what this mesh leaves open, by the usual effort: see [`crate::closing`].
    ///
    /// ```
    /// use sitjorbe::closing::{Closing, Way};
    /// use sitjorbe::{Outline, Paver};
    ///
    /// let field = Outline::new([[0.0, 0.0], [8.0, 0.0], [8.0, 8.0], [0.0, 8.0]]).hole([[2.0, 2.0], [2.0, 4.0], [4.0, 4.0], [4.0, 2.0]]);
    /// let mesh = Paver::new(1.0).pave(&field)?;
    /// assert!(!mesh.is_whole());
    /// let Closing::Closed(closed) = mesh.close(Way::Bend) else { panic!("it can be closed") };
    /// assert_eq!(closed.quads().len(), 60);
    /// # Ok::<(), sitjorbe::NotPaved>(())
    /// ```
    #[must_use]
    pub fn close(&self, way: Way) -> Closing {
        self.close_with(Effort::usual(way, self.nodes().len()), &mut |_| true)
    }

    /// Closes what this mesh leaves open, with an effort of the caller's and with progress told; the caller may stop it by answering false.
    pub fn close_with(&self, effort: Effort, progress: &mut dyn FnMut(Progress) -> bool) -> Closing {
        close(&self.outline.lent(), self.size, self.nodes(), self.quads(), effort, progress)
    }
}
