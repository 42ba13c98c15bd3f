//! What the tests of an exam share: a mesh as it counts, what stands at its nodes and thresholds and estimates in Rust, written from SCOPE's words; and the lists of an
//! exam with guards round them, hostile ones too.

use std::collections::BTreeSet;

use sitjorbe::raw::{exam_numbers, read_numbers, Asked, LentMesh, Results, SharedResults};
use sitjorbe::{ffi, Desk, Reader};

use super::rng::Rng;
use super::Guarded;

/// A mesh as it counts, and the list of thresholds.
#[derive(Clone, Debug)]
pub struct Model {
    pub nodes: u32,
    pub quads: Vec<[u32; 4]>,
    pub list: Vec<u16>,
}

#[derive(Clone, Copy, Debug)]
pub enum Event {
    Enter(u32, u32),
    Withdraw(u32),
}

impl Event {
    fn node(self) -> u32 {
        match self {
            Event::Enter(node, _) | Event::Withdraw(node) => node,
        }
    }
}

impl Model {
    /// "a count beyond its list stops at its last whole node or quad, and quads stop at 250,000"
    pub fn of(mesh: &LentMesh<'_>, list: &[u16]) -> Model {
        let whole = mesh.xs.iter().zip(mesh.ys).zip(mesh.origins).count();
        let quads = mesh.quads.chunks(4).filter_map(|quad| <[u32; 4]>::try_from(quad).ok());
        Model {
            nodes: (0..mesh.nodes).take(whole).count() as u32,
            quads: quads.take(mesh.quad_count).take(250_000).collect(),
            list: list.to_vec(),
        }
    }

    /// The threshold that stands at an id: "anything above 500 means none", and an id that is no node has none.
    pub fn standing(&self, id: u32) -> Option<u32> {
        let place = self.list.get(id as usize).filter(|_| id < self.nodes)?;
        (*place <= 500).then_some(u32::from(*place))
    }

    /// "15 for a node id not in the mesh or past the lent threshold list"
    pub fn is_missing(&self, node: u32) -> bool {
        node >= self.nodes || node as usize >= self.list.len()
    }

    /// "how many quads have all four thresholds and the sum of all thresholds of those quads, a node counted once for each such quad"
    pub fn figures(&self) -> [u32; 2] {
        let thresholds = |quad: &[u32; 4]| {
            let nodes: BTreeSet<u32> = quad.iter().copied().collect();
            nodes.into_iter().map(|id| self.standing(id)).collect::<Option<Vec<u32>>>()
        };
        let complete: Vec<Vec<u32>> = self.quads.iter().filter_map(thresholds).collect();
        [complete.len() as u32, complete.iter().flatten().sum()]
    }

    /// "15 for a node id not in the mesh or past the lent threshold list, 16 for a threshold above 500, 17 for a withdrawal where none
    /// stands; in that order, and nothing changes"
    pub fn take(&mut self, event: Event) -> u32 {
        let node = event.node();
        match event {
            _ if self.is_missing(node) => 15,
            Event::Enter(_, 501..) => 16,
            Event::Withdraw(_) if self.standing(node).is_none() => 17,
            Event::Enter(_, threshold) => self.write(node, threshold as u16),
            Event::Withdraw(_) => self.write(node, 65_535),
        }
    }

    fn write(&mut self, node: u32, place: u16) -> u32 {
        self.list[node as usize] = place;
        0
    }

    /// "18 for a quad not in the mesh or lacking a threshold, then 19 for a weight above 256"
    pub fn estimate(&self, quad: u32, u: u32, v: u32) -> Result<u32, u32> {
        let ids = self.quads.get(quad as usize).ok_or(18u32)?;
        let corners: Option<Vec<u32>> = ids.iter().map(|&id| self.standing(id)).collect();
        let corners: Vec<i64> = corners.ok_or(18u32)?.into_iter().map(i64::from).collect();
        if u > 256 || v > 256 {
            return Err(19);
        }
        Ok(blended(i64::from(u), i64::from(v), corners.try_into().expect("a quad has four corners")))
    }
}

/// "((256 − u)(256 − v)·Ta + u(256 − v)·Tb + u·v·Td + (256 − u)·v·Tc) / 65,536, rounded down", worked out along a to b and along c to d, and then from the
/// one to the other: the greatest whole number that isn't above it.
pub fn blended(u: i64, v: i64, [a, b, d, c]: [i64; 4]) -> u32 {
    let across = |from: i64, to: i64| 256 * from + u * (to - from);
    let sum = 256 * across(a, b) + v * (across(c, d) - across(a, b));
    (0..).take_while(|whole| i64::from(*whole) * 65_536 <= sum).last().expect("no threshold is below 0")
}

/// A figure that moves as another does, modulo 2^32.
pub fn moved(figure: u32, old: u32, new: u32) -> u32 {
    figure.wrapping_sub(old).wrapping_add(new)
}

/// The lists of an exam, each with its guards, and the two figures between guards of their own.
pub struct ExamLists {
    pub nodes: u32,
    pub xs: Guarded<f64>,
    pub ys: Guarded<f64>,
    pub quad_count: usize,
    pub quads: Guarded<u32>,
    pub next: Guarded<u32>,
    pub prev: Guarded<u32>,
    pub origins: Guarded<u16>,
    pub thresholds: Guarded<u16>,
    pub count: Guarded<u32>,
    pub sum: Guarded<u32>,
    pub reply: Guarded<u32>,
}

impl ExamLists {
    /// A mesh whose nodes have their origins, with no links, and no reply list.
    pub fn new(
        nodes: u32,
        places: [usize; 2],
        quad_count: usize,
        quads: &[u32],
        thresholds: &[u16],
        figures: [u32; 2],
    ) -> ExamLists {
        let origins: Vec<u16> = (0..places[0].max(places[1])).map(|k| (k % 3) as u16).collect();
        let [xs, ys] = places.map(|length| Guarded::new(&(0..length).map(|k| k as f64 + 0.25).collect::<Vec<_>>()));
        let [count, sum] = figures.map(|figure| Guarded::new(&[figure]));
        let (quads, thresholds, origins) = (Guarded::new(quads), Guarded::new(thresholds), Guarded::new(&origins));
        let [next, prev, reply] = [(); 3].map(|()| Guarded::new(&[]));
        ExamLists { nodes, xs, ys, quad_count, quads, next, prev, origins, thresholds, count, sum, reply }
    }

    pub fn with_links(self, next: &[u32], prev: &[u32]) -> ExamLists {
        ExamLists { next: Guarded::new(next), prev: Guarded::new(prev), ..self }
    }

    pub fn with_reply(self, reply: &[u32]) -> ExamLists {
        ExamLists { reply: Guarded::new(reply), ..self }
    }

    pub fn mesh(&self) -> LentMesh<'_> {
        LentMesh {
            nodes: self.nodes,
            xs: self.xs.list(),
            ys: self.ys.list(),
            quad_count: self.quad_count,
            quads: self.quads.list(),
            next: self.next.list(),
            prev: self.prev.list(),
            origins: self.origins.list(),
        }
    }

    fn parts(&mut self) -> (LentMesh<'_>, Results<'_>, &mut [u32]) {
        let ExamLists { nodes, xs, ys, quad_count, quads, next, prev, origins, thresholds, count, sum, reply } = self;
        let mesh = LentMesh {
            nodes: *nodes,
            xs: xs.list(),
            ys: ys.list(),
            quad_count: *quad_count,
            quads: quads.list(),
            next: next.list(),
            prev: prev.list(),
            origins: origins.list(),
        };
        let [count, sum] = [count, sum].map(|figure| &mut figure.list_mut()[0]);
        (mesh, Results { thresholds: thresholds.list_mut(), count, sum }, reply.list_mut())
    }

    pub fn desk(&mut self) -> Desk<'_> {
        let (mesh, results, _) = self.parts();
        Desk::new(mesh, results)
    }

    pub fn reader(&self) -> Reader<'_> {
        let [count, sum] = [&self.count, &self.sum].map(|figure| &figure.list()[0]);
        Reader::new(self.mesh(), SharedResults { thresholds: self.thresholds.list(), count, sum })
    }

    pub fn ask(&mut self, asked: Asked) -> ffi::ExamAnswer {
        let (mesh, mut results, reply) = self.parts();
        exam_numbers(asked, &mesh, &mut results, reply)
    }

    /// Asks the readers' entry, to which the results are lent for reading.
    pub fn read(&self, asked: Asked, reply: &mut [u32]) -> ffi::ExamAnswer {
        let [count, sum] = [&self.count, &self.sum].map(|figure| &figure.list()[0]);
        read_numbers(asked, &self.mesh(), SharedResults { thresholds: self.thresholds.list(), count, sum }, reply)
    }

    pub fn model(&self) -> Model {
        Model::of(&self.mesh(), self.thresholds.list())
    }

    pub fn figures(&self) -> [u32; 2] {
        [&self.count, &self.sum].map(|figure| figure.list()[0])
    }

    /// Whether the mesh keeps every bit, and the guards of what may be written.
    pub fn kept(&self) -> bool {
        let mesh = self.xs.kept() && self.ys.kept() && self.quads.kept() && self.next.kept() && self.prev.kept();
        let results = self.thresholds.kept_from(usize::MAX) && self.count.kept_from(1) && self.sum.kept_from(1);
        mesh && self.origins.kept() && results && self.reply.kept_from(usize::MAX)
    }
}

/// Lists of any lengths, ids that are no nodes, nodes several times in a quad, junk in the list.
pub fn hostile(rng: &mut Rng) -> ExamLists {
    let nodes = rng.below(12);
    let near =
        |rng: &mut Rng, n: usize| (n + rng.below(3)).saturating_sub(if rng.once_in(3) { rng.below(4) } else { 0 });
    let places = [near(rng, nodes), near(rng, nodes)];
    let length = near(rng, nodes);
    let numbers = 4 * rng.below(14) + if rng.once_in(3) { rng.below(4) } else { 0 };
    let id = |rng: &mut Rng| match rng.below(12) {
        0 => rng.pick(&[u32::MAX, u32::MAX - 1, 1 << 31, 65_535, nodes as u32 + 1]),
        _ => rng.below(nodes + 1) as u32,
    };
    let quads: Vec<u32> = (0..numbers).map(|_| id(rng)).collect();
    let quad_count = if rng.once_in(4) {
        rng.pick(&[0, 1, usize::MAX, usize::MAX / 4 + 1, 250_001])
    } else {
        near(rng, numbers / 4)
    };
    let nodes = if rng.once_in(10) { u32::MAX } else { nodes as u32 };
    let list = junk_thresholds(rng, length);
    let figures = [rng.next() as u32, rng.next() as u32];
    ExamLists::new(nodes, places, quad_count, &quads, &list, figures)
}

/// A list of thresholds, with junk in some places.
pub fn junk_thresholds(rng: &mut Rng, length: usize) -> Vec<u16> {
    let place = |rng: &mut Rng| match rng.below(4) {
        0 => rng.pick(&[501, 65_534, 65_535, 32_768, 500]),
        _ => rng.below(502) as u16,
    };
    (0..length).map(|_| place(rng)).collect()
}
