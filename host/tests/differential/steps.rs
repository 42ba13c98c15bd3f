//! Fronts stepped by hand: the library beside the reference's own `try_edge` on the edges named, every bit of every list; each step looked at before; and the
//! exact books of each sequence. Then damaged meshes that 23 lets pass, which no run leaves.
//!
//! SITJORBE_SEQUENCES says how many sequences, SITJORBE_SEED which ones.

use std::collections::BTreeMap;
use std::env;

use oracle::generate::Case;
use oracle::patched::Stepping;
use oracle::terms::{self, LentMesh, Outcome};
use sitjorbe::raw::{preview_numbers, step_numbers, Ground, MeshCounts, MeshLists, MeshRead, Settings};
use sitjorbe::{FieldRecord, Memory, Places, OFF};

use crate::cases::Rng;
use crate::common::book::{self, Answered, Sampled};
use crate::common::{bits, Drawing, Guarded};

const AMPLE: Places = Places { field_nodes: 2_500, nodes: 1_500, quads: 1_500, edges: 4_500, points: 300 };

fn number(name: &str, usual: u64) -> u64 {
    env::var(name).map_or(usual, |text| text.parse().unwrap_or_else(|_| panic!("{name} is a number")))
}

/// A mesh's lists, each with its guards.
struct Guards {
    xs: Guarded<f64>,
    ys: Guarded<f64>,
    next: Guarded<u32>,
    prev: Guarded<u32>,
    origins: Guarded<u16>,
    quads: Guarded<u32>,
    edges: Guarded<u32>,
    counts: MeshCounts,
}

impl Guards {
    fn lists(&mut self) -> MeshLists<'_> {
        MeshLists {
            xs: self.xs.list_mut(),
            ys: self.ys.list_mut(),
            next: self.next.list_mut(),
            prev: self.prev.list_mut(),
            origins: self.origins.list_mut(),
            quads: self.quads.list_mut(),
            edges: self.edges.list_mut(),
        }
    }

    fn read(&self) -> MeshRead<'_> {
        MeshRead {
            xs: self.xs.list(),
            ys: self.ys.list(),
            next: self.next.list(),
            prev: self.prev.list(),
            origins: self.origins.list(),
            quads: self.quads.list(),
            edges: self.edges.list(),
        }
    }

    fn bits(&self) -> Vec<Vec<u64>> {
        let MeshRead { xs, ys, next, prev, origins, quads, edges } = self.read();
        vec![bits(xs), bits(ys), bits(next), bits(prev), bits(origins), bits(quads), bits(edges)]
    }

    /// Whether nothing beside the lists, or past what the counts say, was written.
    fn kept(&self) -> bool {
        let n = self.counts.nodes as usize;
        let nodes = self.xs.kept_from(n) && self.ys.kept_from(n) && self.next.kept_from(n) && self.prev.kept_from(n);
        nodes
            && self.origins.kept_from(n)
            && self.quads.kept_from(4 * self.counts.quads)
            && self.edges.kept_from(2 * self.counts.edges)
    }

    fn front(&self) -> Vec<[u32; 2]> {
        let links = (0u32..).zip(&self.next.list()[..self.counts.nodes as usize]);
        links.filter(|(_, &next)| next != OFF).map(|(u, &v)| [u, v]).collect()
    }

    /// The mesh in the oracle's terms.
    fn terms(&self) -> LentMesh {
        let n = self.counts.nodes as usize;
        let id = |&id: &u32| id as usize;
        let quads = self.quads.list()[..4 * self.counts.quads].chunks_exact(4);
        let edges = self.edges.list()[..2 * self.counts.edges].chunks_exact(2);
        LentMesh {
            nodes: (0..n).map(|i| [self.xs.list()[i], self.ys.list()[i]]).collect(),
            quads: quads.map(|quad| [id(&quad[0]), id(&quad[1]), id(&quad[2]), id(&quad[3])]).collect(),
            links: self.front().iter().map(|[u, v]| (*u as usize, *v as usize)).collect(),
            edges: edges.map(|edge| (id(&edge[0]), id(&edge[1]))).collect(),
        }
    }

    /// What differs from the reference's mesh: nodes bit for bit, quads in their order, front and edges.
    fn differs(&self, run: &terms::Run) -> Option<String> {
        let mine = self.terms();
        let bits = |nodes: &[[f64; 2]]| nodes.iter().map(|node| node.map(f64::to_bits)).collect::<Vec<_>>();
        let mut edges = mine.edges.clone();
        edges.sort_unstable();
        edges.dedup();
        let parts = [
            ("nodes", bits(&mine.nodes) == bits(&run.nodes)),
            ("quads", mine.quads == run.quads),
            ("front", mine.links == run.front),
            ("edges", edges == run.edges),
            ("front count", self.counts.front == run.front.len()),
        ];
        let wrong: Vec<&str> = parts.into_iter().filter(|(_, same)| !same).map(|(name, _)| name).collect();
        (!wrong.is_empty()).then(|| wrong.join(", "))
    }
}

/// How many places a sequence lends.
fn lengths(rng: &mut Rng, sampled: usize, used: [usize; 3]) -> [usize; 3] {
    let [nodes, quads, edges] = used;
    match rng.below(3) {
        0 => [AMPLE.nodes, AMPLE.quads, AMPLE.edges],
        1 => [nodes, quads, edges],
        _ => [rng.between(sampled, nodes), rng.between(0, quads), rng.between(sampled, edges)],
    }
}

#[derive(Default)]
struct Tally {
    sequences: usize,
    steps: BTreeMap<Outcome, usize>,
    refused: usize,
    short: usize,
}

/// One sequence: the sampled outline, then edges named one after the other, in ample places or few.
fn sequence(rng: &mut Rng, drawing: &Drawing, size: f64, tally: &mut Tally) -> Option<()> {
    let settings = Settings { size, sweeps: 100, passes: 600 };
    let mut memory = Memory::new(AMPLE).unwrap();
    let used = memory.pave(&drawing.outline(), &settings).ok()?;
    let used = [used.node_count(), used.quad_count(), used.edge_count()];
    let start = memory.pave(&drawing.outline(), &Settings { passes: 0, ..settings }).expect("as before");
    if start.node_count() > 120 {
        return None;
    }
    let [nodes, quads, edges] = lengths(rng, start.node_count(), used);
    let lent = terms::Lent { field_nodes: 2_500, nodes: nodes as u64, quads: quads as u64, edges: edges as u64 };
    let terms::Drawing { outer, holes, hole_lengths } = terms::Drawing {
        outer: drawing.outer.clone(),
        holes: drawing.holes.clone(),
        hole_lengths: drawing.hole_lengths.clone(),
    };
    let outline = terms::Outline { outer: &outer, holes: &holes, hole_lengths: &hole_lengths };
    let mut reference = Stepping::new(outline, size, 100, &lent).expect("not refused");
    let (values, marks) = start.field();
    let (values, marks): (Vec<f64>, Vec<u8>) = (values.to_vec(), marks.to_vec());
    let record = start.record();
    let sampled = Sampled {
        nodes: start.nodes().collect(),
        edges: start.front().map(|[u, v]| (u as usize, v as usize)).collect(),
        loops: drawing.loop_count(),
    };
    // Junk past the counts.
    let n = start.node_count();
    let longer = |list: Vec<u32>, length: usize| [list, vec![0xa5a5_a5a5; length]].concat()[..length].to_vec();
    let floats = |list: Vec<f64>| [list, vec![f64::NAN; nodes]].concat()[..nodes].to_vec();
    let (next, prev) = start.links();
    let mut origins: Vec<u16> = (0..nodes).map(|_| rng.next() as u16).collect();
    let mut mesh = Guards {
        xs: Guarded::new(&floats(start.nodes().map(|[x, _]| x).collect())),
        ys: Guarded::new(&floats(start.nodes().map(|[_, y]| y).collect())),
        next: Guarded::new(&longer(next.to_vec(), nodes)),
        prev: Guarded::new(&longer(prev.to_vec(), nodes)),
        origins: Guarded::new(&origins),
        quads: Guarded::new(&longer(vec![], 4 * quads)),
        edges: Guarded::new(&longer(start.edges().flatten().collect(), 2 * edges)),
        counts: MeshCounts { nodes: n as u32, quads: 0, edges: n, front: n },
    };
    let ground = Ground { outline: drawing.outline(), size, record, values: &values, marks: &marks };
    assert_eq!(mesh.differs(&reference.mesh()), None, "a run of 0 passes leaves the sampled outline");
    tally.sequences += 1;
    let mut list = vec![0; 2 * AMPLE.nodes];
    let mut stopped = false;
    for _ in 0..rng.between(4, 40) {
        let front = mesh.front();
        // Mostly an edge of the front; now and then one that is none.
        let edge = if rng.once_in(8) { [rng.below(n) as u32, rng.below(n) as u32] } else { rng.pick(&front) };
        let before = mesh.bits();
        list.fill(0x5afe);
        let places = if rng.once_in(2) { 2 * front.len() + 4 } else { list.len() };
        let preview = preview_numbers(&ground, &mesh.read(), mesh.counts, edge, &mut list[..places]);
        assert_eq!(mesh.bits(), before, "a preview only reads");
        let counts = mesh.counts;
        let step = step_numbers(&ground, &mut mesh.lists(), counts, edge);
        if !front.contains(&edge) {
            assert_eq!((step.refusal, preview.refusal), (24, 24), "{edge:?}");
            assert_eq!(mesh.bits(), before);
            tally.refused += 1;
            continue;
        }
        assert_eq!((step.refusal, preview.refusal), (0, 0), "{edge:?}");
        let outcome = reference.step(edge[0] as usize, edge[1] as usize);
        let all = [Outcome::Placed, Outcome::None, Outcome::Full, Outcome::Cap];
        assert_eq!(all[step.outcome as usize], outcome, "{edge:?} of {front:?}");
        *tally.steps.entry(outcome).or_default() += 1;
        stopped |= outcome == Outcome::Full;
        if outcome != Outcome::Placed {
            assert_eq!(mesh.bits(), before);
        }
        mesh.counts = MeshCounts { nodes: step.nodes, quads: step.quads, edges: step.edges, front: step.front };
        assert_eq!(mesh.differs(&reference.mesh()), None, "{edge:?}");
        // New nodes take the number of node a.
        for place in counts.nodes as usize..mesh.counts.nodes as usize {
            origins[place] = origins[edge[0] as usize];
        }
        assert_eq!(mesh.origins.list(), origins);
        // The preview is the step.
        let after: Vec<u32> = mesh.front().concat();
        assert_eq!((preview.outcome, preview.front, &list[..after.len()]), (step.outcome, step.front, &after[..]));
        assert!(list[after.len()..].iter().all(|&place| place == 0x5afe), "places past the edges keep their contents");
        if outcome == Outcome::Placed {
            let quad = &mesh.quads.list()[4 * counts.quads..4 * counts.quads + 4];
            assert_eq!([preview.a, preview.b, preview.d, preview.c], quad);
            assert_eq!(preview.new_nodes, mesh.counts.nodes - counts.nodes);
            let place = |id: u32| {
                let new = id >= counts.nodes;
                [mesh.xs.list(), mesh.ys.list()].map(|list| if new { list[id as usize].to_bits() } else { 0 })
            };
            let shown = [[preview.cx, preview.cy], [preview.dx, preview.dy]].map(|point| point.map(f64::to_bits));
            assert_eq!(shown, [place(preview.c), place(preview.d)]);
        } else {
            let zeros = [preview.a, preview.b, preview.d, preview.c, preview.new_nodes];
            assert_eq!((zeros, [preview.cx, preview.cy, preview.dx, preview.dy]), ([0; 5], [0.0; 4]));
        }
    }
    tally.short += usize::from(stopped);
    assert!(mesh.kept(), "written beside");
    let run = mesh.terms();
    let answered = Answered {
        next: {
            let links: BTreeMap<usize, usize> = run.links.iter().copied().collect();
            (0..run.nodes.len()).map(|u| links.get(&u).copied()).collect()
        },
        nodes: run.nodes,
        quads: run.quads,
        front: mesh.counts.front,
        loops: reference.mesh().loops,
    };
    book::check(&sampled, &answered).unwrap_or_else(|what| panic!("the books of a sequence: {what}"));
    Some(())
}

#[test]
fn sequences_beside_the_reference() {
    let (wanted, seed) = (number("SITJORBE_SEQUENCES", 1_200) as usize, number("SITJORBE_SEED", 1));
    let mut rng = Rng(seed ^ 0x57e9);
    let mut tally = Tally::default();
    let kinds = ["visual", "lattice", "concave", "holes", "crossing", "degenerate", "sizes"];
    for place in 0.. {
        if tally.sequences == wanted {
            break;
        }
        let kind = kinds[place as usize % kinds.len()];
        let Some(Case::Pave { drawing, settings, .. }) = Case::new(kind, seed, place) else {
            panic!("{kind} is paved");
        };
        let terms::Drawing { outer, holes, hole_lengths } = drawing;
        sequence(&mut rng, &Drawing { outer, holes, hole_lengths }, settings.size, &mut tally);
    }
    let Tally { sequences, steps, refused, short } = tally;
    println!("{sequences} sequences, {short} of them short of places: {steps:?}, refused with 24: {refused}");
    for outcome in [Outcome::Placed, Outcome::None, Outcome::Full] {
        assert!(steps.get(&outcome).copied().unwrap_or(0) >= wanted / 10, "{outcome:?} is rare");
    }
}

/// Meshes that 23 lets pass and no run leaves: links exchanged, edges missing, listed twice or the wrong way round. The answer is the definitions', and that of
/// the reference, whose set of edges holds the pairs as they are stored.
#[test]
fn damaged_meshes_beside_the_reference() {
    let mut rng = Rng(12);
    let mut placed = 0;
    let mut found = BTreeMap::<Outcome, usize>::new();
    let drawing = Drawing::of_loops(&[vec![[0.0, 0.0], [5.0, 0.5], [6.0, 4.0], [2.0, 5.5], [-1.0, 3.0]]]);
    for round in 0..6_000 {
        let size = [0.6, 0.8, 1.1][round % 3];
        let mut memory = Memory::new(AMPLE).unwrap();
        let settings = Settings { size, sweeps: 100, passes: round / 3 % 3 };
        let start = memory.pave(&drawing.outline(), &settings).unwrap();
        let (values, marks) = start.field();
        let (values, marks): (Vec<f64>, Vec<u8>) = (values.to_vec(), marks.to_vec());
        let record = start.record();
        let n = start.node_count();
        let (mut next, mut prev) = (start.links().0.to_vec(), start.links().1.to_vec());
        let mut edges: Vec<u32> = start.edges().flatten().collect();
        let mut front = start.front_count();
        for _ in 0..rng.between(1, 4) {
            let (u, v) = (rng.below(n), rng.below(n));
            match rng.below(5) {
                0 | 1 if next[u] != OFF && next[v] != OFF => {
                    let (a, b) = (next[u], next[v]);
                    (next[u], next[v]) = (b, a);
                    (prev[a as usize], prev[b as usize]) = (v as u32, u as u32);
                }
                2 if next[u] != OFF => {
                    let a = next[u];
                    (next[u], prev[a as usize]) = (OFF, OFF);
                    front -= 1;
                }
                3 => {
                    let k = rng.below(edges.len() / 2);
                    edges.swap(2 * k, 2 * k + 1);
                }
                _ => edges.truncate(2 * rng.below(edges.len() / 2 + 1)),
            }
            if edges.is_empty() {
                break;
            }
        }
        let spare = |list: Vec<u32>, more: usize| [list, vec![7; more]].concat();
        let edge_count = edges.len() / 2;
        let mut mesh = Guards {
            xs: Guarded::new(&start.nodes().map(|[x, _]| x).chain([0.0; 2]).collect::<Vec<_>>()),
            ys: Guarded::new(&start.nodes().map(|[_, y]| y).chain([0.0; 2]).collect::<Vec<_>>()),
            next: Guarded::new(&spare(next, 2)),
            prev: Guarded::new(&spare(prev, 2)),
            origins: Guarded::new(&vec![5; n + 2]),
            quads: Guarded::new(&spare(start.quads().flatten().collect(), 4)),
            edges: Guarded::new(&spare(edges, 8)),
            counts: MeshCounts { nodes: n as u32, quads: start.quad_count(), edges: edge_count, front },
        };
        let Some(&edge) = mesh.front().get(rng.below(front.max(1))) else { continue };
        let lent = terms::Lent {
            field_nodes: 2_500,
            nodes: n as u64 + 2,
            quads: start.quad_count() as u64 + 1,
            edges: edge_count as u64 + 4,
        };
        let FieldRecord { xmin, ymin, h, nx, ny } = record;
        let marked: Vec<bool> = marks.iter().map(|&mark| mark == 1).collect();
        let field = (terms::FieldRecord { xmin, ymin, h, nx: nx as u64, ny: ny as u64 }, &values[..], &marked[..]);
        let outline =
            terms::Outline { outer: &drawing.outer, holes: &drawing.holes, hole_lengths: &drawing.hole_lengths };
        let before = mesh.terms();
        let mut reference = Stepping::of_mesh(outline, size, field, &before, &lent).expect("not refused");
        let outcome = reference.step(edge[0] as usize, edge[1] as usize);
        let ground = Ground { outline: drawing.outline(), size, record, values: &values, marks: &marks };
        let counts = mesh.counts;
        let step = step_numbers(&ground, &mut mesh.lists(), counts, edge);
        let all = [Outcome::Placed, Outcome::None, Outcome::Full, Outcome::Cap];
        assert_eq!((step.refusal, all[step.outcome as usize]), (0, outcome), "{round}: {edge:?}");
        *found.entry(outcome).or_default() += 1;
        mesh.counts = MeshCounts { nodes: step.nodes, quads: step.quads, edges: step.edges, front: step.front };
        assert_eq!(mesh.differs(&reference.mesh()), None, "{round}: {edge:?}");
        if outcome == Outcome::Placed {
            placed += 1;
            // The edges a b, b d, d c, c a that weren't there come in that order, the smaller id first.
            let [a, b, d, c] = *mesh.terms().quads.last().unwrap();
            let mut expected = before.edges.clone();
            for (u, v) in [(a, b), (b, d), (d, c), (c, a)] {
                let pair = (u.min(v), u.max(v));
                if !expected.contains(&pair) {
                    expected.push(pair);
                }
            }
            assert_eq!(mesh.terms().edges, expected, "{round}");
        }
    }
    println!("damaged meshes: {found:?}");
    assert!(placed >= 500, "{placed}");
}
