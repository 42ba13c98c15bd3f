//! Runs beside the patched reference in the same run: a rectangle of 30 by 27 degrees and circles of 90 degrees, paved with hundreds to
//! a hundred thousand quads, and a comb sampled to a million nodes. Exits with 1 if any bit differs.
//!
//! The paving's time is what a run takes more than one without passes, which makes the field, samples the outline and lists the
//! loops; the sampling's is what that takes more than the field alone. Times are the processor's, so that waiting for it isn't
//! counted; other work still shares its caches.

use std::ffi::c_long;
use std::process::exit;

use oracle::patched::{pave, Field};
use oracle::terms;
use sitjorbe::raw::{field, pave as paved, Lists, Mesh, Outline, Settings};
use sitjorbe::{Memory, Places};

extern "C" {
    /// The processor time used so far, in microseconds.
    fn clock() -> c_long;
}

/// Milliseconds of processor time, and the answer.
fn timed<T>(run: impl FnOnce() -> T) -> (f64, T) {
    // SAFETY: `clock` takes nothing and writes nothing.
    let start = unsafe { clock() };
    let answer = run();
    (unsafe { clock() - start } as f64 / 1e3, answer)
}

/// The coordinates of a regular polygon's corners, 90 degrees from the centre.
fn circle(points: usize) -> Vec<f64> {
    let angle = |k: usize| std::f64::consts::TAU * k as f64 / points as f64;
    (0..points).flat_map(|k| [90.0 * angle(k).cos(), 90.0 * angle(k).sin()]).collect()
}

/// The coordinates of 48 points, twelve a side.
fn rectangle() -> Vec<f64> {
    let corners = [[0.0, 0.0], [30.0, 0.0], [30.0, 27.0], [0.0, 27.0]];
    let side = |k: usize| {
        let ([ax, ay], [bx, by]) = (corners[k], corners[(k + 1) % 4]);
        (0..12).map(move |i| f64::from(i) / 12.0).flat_map(move |t| [ax + t * (bx - ax), ay + t * (by - ay)])
    };
    (0..4).flat_map(side).collect()
}

/// A comb of ten teeth, with an outline a little longer than `length`.
fn comb(length: f64) -> Vec<f64> {
    let tooth = length / 20.0;
    let sides = |k: usize| {
        let (left, right) = (4.0 * k as f64 + 1.0, 4.0 * k as f64 + 3.0);
        [right, 0.0, right, tooth, left, tooth, left, 0.0]
    };
    [0.0, -1.0, 40.0, -1.0].into_iter().chain((0..10).rev().flat_map(sides)).collect()
}

/// The least times of the library and of the reference.
#[derive(Clone, Copy)]
struct Least {
    library: f64,
    reference: f64,
}

impl Least {
    const NONE: Least = Least { library: f64::INFINITY, reference: f64::INFINITY };

    fn note(&mut self, library: f64, reference: f64) {
        self.library = self.library.min(library);
        self.reference = self.reference.min(reference);
    }

    /// What this takes more than another.
    fn beyond(self, other: Least) -> Least {
        Least { library: self.library - other.library, reference: self.reference - other.reference }
    }

    fn print(self, what: &str) {
        let Least { library, reference } = self;
        println!("  {what}: {library:.1}, {reference:.1}, {:.2}", library / reference);
    }
}

fn same(mesh: &Mesh<'_>, run: &terms::Run) -> bool {
    let bits = |node: [f64; 2]| node.map(f64::to_bits);
    let list = |ids: &[u32]| ids.iter().map(|&id| id as usize).collect::<Vec<_>>();
    mesh.nodes().map(bits).eq(run.nodes.iter().copied().map(bits))
        && mesh.quads().map(|quad| quad.map(|id| id as usize)).eq(run.quads.iter().copied())
        && mesh.front().map(|[u, v]| (u as usize, v as usize)).eq(run.front.iter().copied())
        && mesh.front_loops().map(list).eq(run.loops.iter().cloned())
        && mesh.end().to_string() == run.end.name()
}

fn refused(settings: Settings) -> ! {
    println!("refused: {settings:?}");
    exit(1)
}

/// An outline, the memory for its runs, and how often each is timed.
struct Bench {
    outer: Vec<f64>,
    places: Places,
    memory: Memory,
    rounds: usize,
}

impl Bench {
    fn new(outer: Vec<f64>, places: Places, rounds: usize) -> Bench {
        Bench { outer, places, memory: Memory::new(places).unwrap(), rounds }
    }

    /// With a tenth more places than the run uses, where 250,000 quads are enough.
    fn fitting(outer: Vec<f64>, settings: Settings, rounds: usize) -> Bench {
        let points = outer.len() / 2;
        let most = Places { field_nodes: 250_000, nodes: 500_000, quads: 250_000, edges: 1_000_000, points };
        let mut bench = Bench::new(outer, most, rounds);
        let drawn = Outline { outer: &bench.outer, holes: &[], hole_lengths: &[] };
        let Ok(mesh) = bench.memory.pave(&drawn, &settings) else { refused(settings) };
        let [nodes, quads, edges] =
            [mesh.node_count(), mesh.quad_count(), mesh.edge_count()].map(|count| count + count / 10);
        Bench::new(bench.outer, Places { field_nodes: mesh.record().nodes(), nodes, quads, edges, points }, rounds)
    }

    fn lent(&self) -> terms::Lent {
        let [field_nodes, nodes, quads, edges] =
            [self.places.field_nodes, self.places.nodes, self.places.quads, self.places.edges].map(|n| n as u64);
        terms::Lent { field_nodes, nodes, quads, edges }
    }

    /// Whole runs of both, in turn; also the nodes and quads.
    fn runs(&mut self, settings: Settings) -> (Least, usize, usize) {
        let lent = self.lent();
        let Settings { size, sweeps, passes } = settings;
        let asked = terms::Settings { size, sweeps: sweeps as u64, passes: passes as u64 };
        let outline = terms::Outline { outer: &self.outer, holes: &[], hole_lengths: &[] };
        let (mut least, mut counts) = (Least::NONE, (0, 0));
        for _ in 0..self.rounds {
            let drawn = Outline { outer: &self.outer, holes: &[], hole_lengths: &[] };
            let (library, mesh) = timed(|| self.memory.pave(&drawn, &settings));
            let (reference, run) = timed(|| pave(outline, asked, &lent));
            least.note(library, reference);
            let (Ok(mesh), Ok(run)) = (mesh, run) else { refused(settings) };
            if !same(&mesh, &run) {
                println!("the runs differ: {settings:?}");
                exit(1);
            }
            counts = (mesh.node_count(), mesh.quad_count());
        }
        (least, counts.0, counts.1)
    }

    /// The least milliseconds of the library's runs without pools and blocks.
    fn without_scratch(&mut self, settings: Settings) -> f64 {
        let drawn = Outline { outer: &self.outer, holes: &[], hole_lengths: &[] };
        let run = |memory: &mut Memory| {
            let lists = Lists { node_pool: &mut [], edge_pool: &mut [], blocks: &mut [], tried: &mut [], ..memory.lists() };
            timed(|| paved(&drawn, &settings, lists).is_ok()).0
        };
        (0..self.rounds).map(|_| run(&mut self.memory)).fold(f64::INFINITY, f64::min)
    }

    /// The fields of both alone.
    fn fields(&mut self, size: f64, sweeps: usize) -> Least {
        let drawn = Outline { outer: &self.outer, holes: &[], hole_lengths: &[] };
        let outline = terms::Outline { outer: &self.outer, holes: &[], hole_lengths: &[] };
        let nodes = self.places.field_nodes;
        let mut least = Least::NONE;
        for _ in 0..self.rounds {
            let lists = self.memory.lists();
            let (library, _) = timed(|| field(&drawn, size, sweeps, lists.values, lists.marks, lists.blocks));
            let (reference, _) = timed(|| Field::new(outline, size, sweeps as u64, nodes as u64));
            least.note(library, reference);
        }
        least
    }
}

/// Runs of an outline: the field of so many sweeps, and the paving. The paving is timed on a field of few sweeps, which is nearly the same.
fn paving(what: &str, outer: Vec<f64>, size: f64, sweeps: usize, rounds: usize) {
    let few = Settings { size, sweeps: 20, passes: 600 };
    let mut bench = Bench::fitting(outer, few, rounds);
    let (some, nodes, quads) = bench.runs(few);
    let (none, ..) = bench.runs(Settings { passes: 0, ..few });
    let Least { library, reference } = some.beyond(none);
    let each = |time: f64| 1e3 * time / quads as f64;
    let megabytes = |length: usize| 4e-6 * length as f64;
    let ([node_pool, edge_pool], blocks) = (bench.places.pools().map(megabytes), megabytes(bench.places.blocks()));
    println!(
        "{what}, size {size}: {nodes} nodes, {quads} quads; pools of {node_pool:.2} and {edge_pool:.2} MB, blocks of {blocks:.4} MB"
    );
    bench.fields(size, sweeps).print(&format!("field, {sweeps} sweeps"));
    some.beyond(none).print("paving");
    if quads > 0 {
        println!("  microseconds a quad: {:.1}, {:.1}", each(library), each(reference));
    }
    if quads < 10_000 {
        let without = |bench: &mut Bench, passes| bench.without_scratch(Settings { passes, ..few });
        let (all, start) = (without(&mut bench, few.passes), without(&mut bench, 0));
        println!("  paving without pools and blocks: {:.1}", all - start);
        println!("  a whole run without pools and blocks, {} sweeps: {all:.1}, with them {:.1}", few.sweeps, some.library);
    }
}

/// Outlines sampled to many nodes, without sweeps and passes.
fn sampling(rounds: usize) {
    let outer = comb(10_400.0);
    let points = outer.len() / 2;
    let places = Places { field_nodes: 250_000, nodes: 1_100_000, quads: 0, edges: 1_100_000, points };
    let mut bench = Bench::new(outer, places, rounds);
    for size in [0.08, 0.04, 0.02, 0.01] {
        let (all, nodes, _) = bench.runs(Settings { size, sweeps: 0, passes: 0 });
        println!("comb, size {size}: {nodes} nodes sampled");
        all.beyond(bench.fields(size, 0)).print("sampling, filing and loops");
        all.print("a whole run, no sweeps, no passes");
    }
}

fn main() {
    let words: Vec<String> = std::env::args().skip(1).collect();
    let number = |k: usize, usual: usize| words.get(k).map_or(usual, |word| word.parse().expect("a whole number"));
    let (rounds, sweeps) = (number(0, 5), number(1, 400));
    println!("milliseconds of processor time, the least of {rounds}: library, reference, ratio");
    let circles = |points: usize, sizes: &[f64]| {
        for &size in sizes {
            paving(&format!("circle of {points} points"), circle(points), size, sweeps, rounds);
        }
    };
    if words.len() > 2 {
        let sizes: Vec<f64> = words[3..].iter().map(|word| word.parse().expect("a size")).collect();
        return circles(number(2, 120), &sizes);
    }
    paving("rectangle", rectangle(), 1.0, sweeps, rounds);
    circles(120, &[2.0, 1.0, 0.5]);
    circles(1_000, &[2.0, 1.0, 0.5]);
    sampling(rounds);
}
