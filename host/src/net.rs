//! A mesh's lists, owned: what a mesh and a stepper lend.

use alloc::vec::Vec;

use crate::raw::{self, LentMesh, MeshCounts, MeshLists, MeshRead};
use crate::OFF;

/// The lists of a mesh and how much of them is in use.
#[derive(Clone, Debug, PartialEq)]
pub(crate) struct Net {
    xs: Vec<f64>,
    ys: Vec<f64>,
    next: Vec<u32>,
    prev: Vec<u32>,
    origins: Vec<u16>,
    quads: Vec<[u32; 4]>,
    edges: Vec<[u32; 2]>,
    pub(crate) counts: MeshCounts,
}

/// The most nodes, quads and edges that a step adds.
const ADDED: [usize; 3] = [2, 1, 3];

impl Net {
    pub(crate) fn of_run(mesh: &raw::Mesh<'_>) -> Net {
        let ((xs, ys), (next, prev)) = (mesh.coordinates(), mesh.links());
        Net {
            xs: xs.to_vec(),
            ys: ys.to_vec(),
            next: next.to_vec(),
            prev: prev.to_vec(),
            origins: mesh.origins().to_vec(),
            quads: mesh.quads().collect(),
            edges: mesh.edges().collect(),
            counts: mesh.counts(),
        }
    }

    /// The lists without places past the counts.
    pub(crate) fn trimmed(&self) -> Net {
        let nodes = self.counts.nodes as usize;
        Net {
            xs: self.xs[..nodes].to_vec(),
            ys: self.ys[..nodes].to_vec(),
            next: self.next[..nodes].to_vec(),
            prev: self.prev[..nodes].to_vec(),
            origins: self.origins[..nodes].to_vec(),
            quads: self.quads().to_vec(),
            edges: self.edges().to_vec(),
            counts: self.counts,
        }
    }

    /// Places for one more quad and all that it may add.
    pub(crate) fn make_room(&mut self) {
        let MeshCounts { nodes, quads, edges, .. } = self.counts;
        let [nodes, quads, edges] = [nodes as usize + ADDED[0], quads + ADDED[1], edges + ADDED[2]];
        extend(&mut self.xs, nodes);
        extend(&mut self.ys, nodes);
        extend(&mut self.next, nodes);
        extend(&mut self.prev, nodes);
        extend(&mut self.origins, nodes);
        extend(&mut self.quads, quads);
        extend(&mut self.edges, edges);
    }

    pub(crate) fn lists(&mut self) -> MeshLists<'_> {
        MeshLists {
            xs: &mut self.xs,
            ys: &mut self.ys,
            next: &mut self.next,
            prev: &mut self.prev,
            origins: &mut self.origins,
            quads: self.quads.as_flattened_mut(),
            edges: self.edges.as_flattened_mut(),
        }
    }

    pub(crate) fn read(&self) -> MeshRead<'_> {
        MeshRead {
            xs: &self.xs,
            ys: &self.ys,
            next: &self.next,
            prev: &self.prev,
            origins: &self.origins,
            quads: self.quads.as_flattened(),
            edges: self.edges.as_flattened(),
        }
    }

    pub(crate) fn lent(&self) -> LentMesh<'_> {
        let MeshRead { xs, ys, next, prev, origins, quads, .. } = self.read();
        LentMesh { nodes: self.counts.nodes, xs, ys, quad_count: self.counts.quads, quads, next, prev, origins }
    }

    pub(crate) fn nodes(&self) -> impl ExactSizeIterator<Item = [f64; 2]> + Clone + '_ {
        self.xs.iter().zip(&self.ys).take(self.counts.nodes as usize).map(|(&x, &y)| [x, y])
    }

    pub(crate) fn origins(&self) -> &[u16] {
        &self.origins[..self.counts.nodes as usize]
    }

    pub(crate) fn quads(&self) -> &[[u32; 4]] {
        &self.quads[..self.counts.quads]
    }

    pub(crate) fn edges(&self) -> &[[u32; 2]] {
        &self.edges[..self.counts.edges]
    }

    /// Each front edge, from a node to the next one, by the first's id.
    pub(crate) fn front(&self) -> impl Iterator<Item = [u32; 2]> + Clone + '_ {
        let links = (0..self.counts.nodes).zip(&self.next);
        links.filter(|(_, &next)| next != OFF).map(|(id, &next)| [id, next])
    }
}

/// At least so many places: twice as many as before where there are fewer.
fn extend<T: Clone + Default>(list: &mut Vec<T>, places: usize) {
    if list.len() < places {
        list.resize(places.max(2 * list.len()), T::default());
    }
}
