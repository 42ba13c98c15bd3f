//! Whole runs: nodes, quads, edges, front, loops, counts, end and field, every bit; and the exact books of each run.
//!
//! Each outline is paved with ample space, and again with space chosen from what that run used: exactly enough, one place short,
//! any number short; and with other passes. With ample space it is paved four times: with full pools, none, seven cells in each, and
//! pools that run out; and with all its blocks, none, some, and about all. The other runs have pools and blocks of any kind.
//! SITJORBE_OUTLINES says how many outlines of each kind, SITJORBE_SEED which ones.

use std::collections::BTreeMap;
use std::env;

use oracle::generate::Case;
use oracle::patched::{front, pave_again, Field};
use oracle::terms::{self, Run};
use sitjorbe::raw::{Mesh, Settings};
use sitjorbe::{End, FieldRecord, Places, Refusal, OFF};

use crate::blocks::{Blocks, Counts};
use crate::cases::{self, Filed, Needs, Pools, Rng, Scratch, Setting};
use crate::common::book::{self, Answered, Sampled};
use crate::common::origins::{fault, origins};
use crate::common::{bits, used, Drawing, Guarded, Lengths, Lent, RunPlaces, LISTS};

/// Enough for most outlines that are generated.
const AMPLE: Places = Places { field_nodes: 2_500, nodes: 1_500, quads: 1_500, edges: 4_500, points: 300 };

/// All that a run answers, floats as bits.
#[derive(Debug, PartialEq)]
struct Outcome {
    end: String,
    whole: bool,
    grid: [u64; 5],
    values: Vec<u64>,
    marks: Vec<u8>,
    nodes: Vec<[u64; 2]>,
    quads: Vec<[usize; 4]>,
    edges: Vec<(usize, usize)>,
    front: Vec<(usize, usize)>,
    loops: Vec<Vec<usize>>,
    /// Nodes, quads, edges and front edges.
    counts: [usize; 4],
}

impl Outcome {
    fn of_library(mesh: &Mesh<'_>) -> Outcome {
        let pair = |[u, v]: [u32; 2]| (u as usize, v as usize);
        let record = mesh.record();
        let (values, marks) = mesh.field();
        let mut edges: Vec<(usize, usize)> = mesh.edges().map(pair).collect();
        edges.sort_unstable();
        Outcome {
            end: mesh.end().to_string(),
            whole: mesh.is_whole(),
            grid: grid([record.xmin, record.ymin, record.h], [record.nx as u64, record.ny as u64]),
            values: bits(values),
            marks: marks.to_vec(),
            nodes: mesh.nodes().map(|node| node.map(f64::to_bits)).collect(),
            quads: mesh.quads().map(|quad| quad.map(|id| id as usize)).collect(),
            edges,
            front: mesh.front().map(pair).collect(),
            loops: ids(mesh),
            counts: [mesh.node_count(), mesh.quad_count(), mesh.edge_count(), mesh.front_count()],
        }
    }

    fn of_oracle(run: Run, field: &Field) -> Outcome {
        let record = field.record();
        Outcome {
            end: run.end.name().to_string(),
            whole: run.whole,
            grid: grid([record.xmin, record.ymin, record.h], [record.nx, record.ny]),
            values: bits(field.values().as_flattened()),
            marks: field.marks().iter().map(|&mark| u8::from(mark)).collect(),
            nodes: run.nodes.iter().map(|node| node.map(f64::to_bits)).collect(),
            counts: [run.nodes.len(), run.quads.len(), run.edges.len(), run.front.len()],
            quads: run.quads,
            edges: run.edges,
            front: run.front,
            loops: run.loops,
        }
    }

    /// The names of the parts that differ.
    fn differences(&self, other: &Outcome) -> Vec<&'static str> {
        let parts = [
            ("end", self.end == other.end),
            ("whole", self.whole == other.whole),
            ("grid", self.grid == other.grid),
            ("values", self.values == other.values),
            ("marks", self.marks == other.marks),
            ("nodes", self.nodes == other.nodes),
            ("quads", self.quads == other.quads),
            ("edges", self.edges == other.edges),
            ("front", self.front == other.front),
            ("loops", self.loops == other.loops),
            ("counts", self.counts == other.counts),
        ];
        parts.into_iter().filter(|(_, same)| !same).map(|(name, _)| name).collect()
    }
}

fn grid([xmin, ymin, h]: [f64; 3], [nx, ny]: [u64; 2]) -> [u64; 5] {
    [xmin.to_bits(), ymin.to_bits(), h.to_bits(), nx, ny]
}

fn ids(mesh: &Mesh<'_>) -> Vec<Vec<usize>> {
    mesh.front_loops().map(|ids| ids.iter().map(|&id| id as usize).collect()).collect()
}

/// What the books are closed with.
fn answered(mesh: &Mesh<'_>) -> Answered {
    Answered {
        nodes: mesh.nodes().collect(),
        quads: mesh.quads().map(|quad| quad.map(|id| id as usize)).collect(),
        next: mesh.links().0.iter().map(|&next| (next != OFF).then_some(next as usize)).collect(),
        front: mesh.front_count(),
        loops: ids(mesh),
    }
}

/// The places that these nodes and edges take in the pools: one a node, and one for each key of an edge's rectangle.
fn filed(nodes: &[[f64; 2]], edges: &[(usize, usize)], size: f64) -> [usize; 2] {
    let keys = |node: [f64; 2]| node.map(|x| (x / (2.0 * size)).floor() as i64);
    let spans = |&(u, v): &(usize, usize)| {
        let (k, l) = (keys(nodes[u]), keys(nodes[v]));
        [k[0].abs_diff(l[0]) as usize, k[1].abs_diff(l[1]) as usize]
    };
    // An edge whose spans are above 4,096 is filed nowhere.
    let kept = edges.iter().map(spans).filter(|[i, j]| i + j <= 4_096);
    [nodes.len(), kept.map(|[i, j]| (i + 1) * (j + 1)).sum()]
}

/// How far a pool serves a run.
#[derive(Clone, Copy, Debug, PartialEq, Eq, PartialOrd, Ord)]
enum Served {
    /// It has no cell, or runs out before the first pass.
    Never,
    /// It runs out later.
    Partly,
    Always,
}

impl Served {
    const ALL: [Served; 3] = [Served::Never, Served::Partly, Served::Always];

    /// For a pool of this length, where the run takes so many places before the first pass and in all.
    fn new(length: usize, first: usize, all: usize) -> Served {
        match cases::pool_places(length) {
            Some(places) if all <= places => Served::Always,
            Some(places) if first <= places => Served::Partly,
            _ => Served::Never,
        }
    }
}

/// Whether `prev` undoes `next`, and holds nothing else.
fn links_agree(mesh: &Mesh<'_>) -> bool {
    let (next, prev) = mesh.links();
    let mut expected = vec![OFF; next.len()];
    for [u, v] in mesh.front() {
        expected[v as usize] = u;
    }
    prev == expected
}

/// The oracle's outcome, and what such a run files; or the refusal.
type Expected = Result<(Outcome, Filed), u32>;

/// An outline with settings, put to both; the oracle's field and the sampled outline are made once.
struct Asked {
    drawing: Drawing,
    settings: Settings,
    field: Option<Field>,
    sampled: Option<Sampled>,
}

impl Asked {
    fn new(drawing: Drawing, settings: Settings) -> Asked {
        Asked { drawing, settings, field: None, sampled: None }
    }

    fn outline(drawing: &Drawing) -> terms::Outline<'_> {
        let Drawing { outer, holes, hole_lengths } = drawing;
        terms::Outline { outer, holes, hole_lengths }
    }

    fn of_oracle(&mut self, places: &Places) -> Result<Run, u32> {
        let Settings { size, sweeps, passes } = self.settings;
        let settings = terms::Settings { size, sweeps: sweeps as u64, passes: passes as u64 };
        let run = pave_again(Asked::outline(&self.drawing), settings, &lent(places), &mut self.field);
        run.map_err(|refusal| u32::from(refusal.0))
    }

    /// The outline as the reference's `from_boundary` samples it.
    fn sampled(&mut self) -> &Sampled {
        let Asked { drawing, settings, sampled, .. } = self;
        sampled.get_or_insert_with(|| {
            let endless = Places { field_nodes: 0, nodes: usize::MAX, quads: 0, edges: usize::MAX, points: 0 };
            let run = front(Asked::outline(drawing), settings.size, &lent(&endless)).expect("it was paved");
            Sampled { nodes: run.nodes, edges: run.front, loops: 1 + drawing.hole_lengths.len() }
        })
    }

    /// What the oracle answers in these places, and what such a run files.
    fn expected(&mut self, places: &Places) -> Expected {
        let run = self.of_oracle(places)?;
        let size = self.settings.size;
        let all = filed(&run.nodes, &run.edges, size);
        let Sampled { nodes, edges, .. } = self.sampled();
        let first = filed(nodes, edges, size);
        let outcome = Outcome::of_oracle(run, self.field.as_ref().expect("the run has made it"));
        Ok((outcome, Filed { first, all }))
    }

    /// What is wrong with a run of the library, where the oracle's outcome is this. The books follow from the outcome: of runs with the same
    /// one they are gone through once.
    fn faults(&mut self, mesh: &Mesh<'_>, expected: &Outcome, books: bool) -> Vec<String> {
        let mut faults: Vec<String> =
            Outcome::of_library(mesh).differences(expected).into_iter().map(String::from).collect();
        if !links_agree(mesh) {
            faults.push("prev".to_string());
        }
        let quads = answered(mesh).quads;
        let numbers = origins(&self.drawing, self.settings.size, &quads);
        if mesh.origins() != numbers {
            faults.push("origins".to_string());
        }
        if books {
            faults.extend(book::check(self.sampled(), &answered(mesh)).err());
            faults.extend(fault(&numbers, &self.sampled().edges, &quads));
        }
        faults
    }

    /// The grid of the oracle's field, which has been made.
    fn record(&self) -> FieldRecord {
        let terms::FieldRecord { xmin, ymin, h, nx, ny } = self.field.as_ref().expect("a run has made it").record();
        FieldRecord { xmin, ymin, h, nx: nx as usize, ny: ny as usize }
    }

    /// What the run needs where space is ample, if it isn't refused.
    fn needs(&mut self) -> Option<Needs> {
        let run = self.of_oracle(&AMPLE).ok()?;
        let field_nodes = self.field.as_ref().expect("the run has made it").marks().len();
        let [nodes, quads, edges] = [run.nodes.len(), run.quads.len(), run.edges.len()];
        let places = Places { field_nodes, nodes, quads, edges, points: self.drawing.points() };
        Some(Needs { places, sampled: self.sampled().nodes.len() })
    }
}

fn lent(places: &Places) -> terms::Lent {
    let [field_nodes, nodes, quads, edges] =
        [places.field_nodes, places.nodes, places.quads, places.edges].map(|count| count as u64);
    terms::Lent { field_nodes, nodes, quads, edges }
}

/// What was asked, and how it was answered: ends and refusals by their names, each with its number of runs.
#[derive(Default)]
struct Tally {
    outlines: usize,
    answers: BTreeMap<String, usize>,
    whole: usize,
    /// Open, with no loop left: the outline is unsound.
    unsound: usize,
    nodes: usize,
    quads: usize,
    /// How far the nodes' and the edges' pools served runs that weren't refused.
    pools: BTreeMap<(Pools, [Served; 2]), usize>,
    /// Runs that weren't refused, with a list of tries for every node lent, for some, and for none.
    tries: BTreeMap<&'static str, usize>,
    blocks: Counts,
    faults: Vec<String>,
}

impl Tally {
    /// Puts a run to both, in lists of which the shortest have these places, with each of these pools and blocks; `short` says what the
    /// lists are short of.
    fn compare(&mut self, rng: &mut Rng, asked: &mut Asked, places: &Places, short: &str, scratch: &[Scratch]) {
        let expected = asked.expected(places);
        let filed = expected.as_ref().map_or(Filed::default(), |(_, filed)| *filed);
        for (k, kind) in scratch.iter().enumerate() {
            let pools = kind.pools.lengths(rng, places, &filed);
            let blocks = kind.blocks.length(rng, &asked.drawing, expected.is_ok());
            let lengths = cases::lengths(rng, places, asked.drawing.loop_count(), pools, blocks);
            let mut lists = RunPlaces::new(lengths);
            let mut faults = self.run(asked, &expected, &mut lists, short, k == 0);
            if expected.is_ok() {
                faults.extend(self.pools(kind.pools, &lists, &filed));
                *self.tries.entry(tries(places, &lengths)).or_default() += 1;
                faults.extend(self.blocks.note(kind.blocks, &asked.drawing, &asked.record(), lists.blocks()));
            }
            let asked = || format!("{:?} {:?} {lengths:?}", asked.drawing, asked.settings);
            self.faults.extend(faults.into_iter().map(|fault| format!("{fault}: {}", asked())));
        }
    }

    /// What is wrong with a run in these lists.
    fn run(
        &mut self,
        asked: &mut Asked,
        expected: &Expected,
        lists: &mut RunPlaces,
        short: &str,
        books: bool,
    ) -> Vec<String> {
        let lent = Lent::new(&asked.drawing);
        let library = lists.pave(&lent.outline(), &asked.settings).map_err(Refusal::number);
        let (answer, used, mut faults) = match (library, expected) {
            (Ok(mesh), Ok((outcome, _))) => {
                self.whole += usize::from(mesh.is_whole());
                self.unsound += usize::from(!mesh.is_whole() && mesh.loop_count() == 0);
                self.nodes += mesh.node_count();
                self.quads += mesh.quad_count();
                let full = mesh.end() == End::Full;
                let answer = if full { format!("full ({short})") } else { mesh.end().to_string() };
                (answer, used(&mesh), asked.faults(&mesh, outcome, books))
            }
            (library, expected) => {
                let [library, reference] = [library.err(), expected.as_ref().err().copied()];
                let fault = (library != reference).then(|| format!("refused {library:?}, not {reference:?}"));
                (library.unwrap_or(0).to_string(), [0; LISTS.len()], fault.into_iter().collect())
            }
        };
        faults.extend(lists.written_past(used).iter().map(|name| format!("{name} written")));
        if !lent.kept() {
            faults.push("the outline written".to_string());
        }
        *self.answers.entry(answer).or_default() += 1;
        faults
    }

    /// Notes how far the pools serve a run that files so much. Names those that have everything filed at its end and shouldn't, or the reverse:
    /// a pool without a cell has nothing filed, and in others the first number says how many places are in use.
    fn pools(&mut self, kind: Pools, lists: &RunPlaces, filed: &Filed) -> Vec<String> {
        let [.., node_pool, edge_pool, _, _] = lists.numbers.each_ref().map(Guarded::list);
        let pools = [("node_pool", node_pool), ("edge_pool", edge_pool)];
        let served = [0, 1].map(|k| Served::new(pools[k].1.len(), filed.first[k], filed.all[k]));
        *self.pools.entry((kind, served)).or_default() += 1;
        let all_filed = |k: usize| pools[k].1.len() >= 4 && pools[k].1[0] as usize == filed.all[k];
        let wrong = (0..2).filter(|&k| all_filed(k) != (served[k] == Served::Always));
        wrong.map(|k| format!("{} should serve {:?}", pools[k].0, served[k])).collect()
    }

    /// An outline with ample space, with space of two kinds chosen from what it used, and with other passes.
    fn outline(&mut self, rng: &mut Rng, mut asked: Asked) {
        self.outlines += 1;
        let Some(needs) = asked.needs() else {
            return self.compare(rng, &mut asked, &AMPLE, "nothing", &Scratch::EACH);
        };
        for (space, scratch) in [
            (1, &Scratch::EACH[..]),
            (self.outlines % cases::SPACES, &Scratch::pick(rng)),
            (rng.below(cases::SPACES), &Scratch::pick(rng)),
        ] {
            let places = cases::places(rng, &needs, space);
            self.compare(rng, &mut asked, &places, short(&places, &needs), scratch);
        }
        if self.outlines.is_multiple_of(3) {
            asked.settings.passes = cases::passes(rng);
            let places = cases::places(rng, &needs, 1);
            let scratch = Scratch::pick(rng);
            self.compare(rng, &mut asked, &places, "other passes", &scratch);
        }
    }

    /// The runs, not refused, with pools of this kind that served so far.
    fn count_pools(&self, is_counted: impl Fn(Pools, [Served; 2]) -> bool) -> usize {
        self.pools.iter().filter(|((kind, served), _)| is_counted(*kind, *served)).map(|(_, count)| count).sum()
    }

    /// Prints how far the pools served, and for how many nodes there was a list of tries; fails if a kind of pools is rare, or one that served nowhere, part of
    /// a run, or all of it, or a kind of such lists.
    fn finish_pools(&self, what: &str) {
        let kinds = Pools::ALL.map(|kind| (format!("{kind:?}"), self.count_pools(|k, _| k == kind)));
        let served = [("node_pool", 0), ("edge_pool", 1)].into_iter().flat_map(|(name, k)| {
            let count = move |how| self.count_pools(|_, served| served[k] == how);
            Served::ALL.map(|how| (format!("{name} {how:?}"), count(how)))
        });
        let tries = TRIES.map(|name| (format!("tries for {name}"), self.tries.get(name).copied().unwrap_or(0)));
        let counts: Vec<(String, usize)> = kinds.into_iter().chain(served).chain(tries).collect();
        let texts: Vec<String> = counts.iter().map(|(name, count)| format!("{name}: {count}")).collect();
        println!("{what}, pools: {}", texts.join(", "));
        let rare = counts.iter().find(|(_, count)| *count < self.outlines / 200);
        assert_eq!(rare, None, "{what}: such pools are rare");
    }

    /// Prints the figures; fails on a fault, or if one of these answers is rare, or a kind of pools or blocks.
    fn finish(self, what: &str, expected: &[&str]) {
        self.finish_where_blocks_matter(what, expected, 0);
    }

    /// As `finish`; fails also if there are fewer runs whose blocks matter, for any one reason.
    fn finish_where_blocks_matter(self, what: &str, expected: &[&str], fewest: usize) {
        self.finish_answers(what, expected);
        self.finish_pools(what);
        self.blocks.finish(what, self.outlines / 200, fewest);
    }

    /// Prints what was answered; fails on a fault, or if one of these answers is rare.
    fn finish_answers(&self, what: &str, expected: &[&str]) {
        let Tally { outlines, answers, whole, nodes, quads, faults, .. } = self;
        let runs: usize = answers.values().sum();
        let counts: Vec<String> = answers.iter().map(|(answer, count)| format!("{answer}: {count}")).collect();
        println!(
            "{what}: {outlines} outlines, {runs} runs with {nodes} nodes and {quads} quads; {}; whole {whole}; {} faults",
            counts.join(", "),
            faults.len()
        );
        assert!(faults.is_empty(), "{}", faults[..faults.len().min(5)].join("\n"));
        for answer in expected {
            assert!(answers.get(*answer).is_some_and(|&count| count >= outlines / 200), "{what}: {answer} is rare");
        }
    }
}

const TRIES: [&str; 3] = ["all nodes", "some", "none"];

/// For how many of the nodes lent the list of tries has places.
fn tries(places: &Places, lengths: &Lengths) -> &'static str {
    let [.., tried] = *lengths;
    match tried {
        _ if tried >= places.tried() => TRIES[0],
        0..3 => TRIES[2],
        _ => TRIES[1],
    }
}

/// What these places are short of.
fn short(places: &Places, needs: &Needs) -> &'static str {
    let Needs { places: exact, .. } = needs;
    match [places.nodes < exact.nodes, places.quads < exact.quads, places.edges < exact.edges] {
        [false, false, false] => "nothing",
        [true, false, false] => "nodes",
        [false, true, false] => "quads",
        [false, false, true] => "edges",
        _ => "several",
    }
}

fn number(variable: &str, usual: u64) -> u64 {
    env::var(variable).map_or(usual, |text| text.parse().expect("a number"))
}

/// A generated outline of a kind. Seven in eight get few sweeps, since the field's time is most of a run's.
fn generated(kind: &str, seed: u64, place: u64) -> Asked {
    let Some(Case::Pave { drawing, settings, .. }) = Case::new(kind, seed, place) else {
        panic!("the oracle generates outlines");
    };
    let terms::Drawing { outer, holes, hole_lengths } = drawing;
    let terms::Settings { size, sweeps, passes } = settings;
    let few = !place.is_multiple_of(8) && sweeps <= 1_000;
    let sweeps = if few { sweeps.min(3) } else { sweeps };
    let settings = Settings { size, sweeps: sweeps as usize, passes: passes as usize };
    Asked::new(Drawing { outer, holes, hole_lengths }, settings)
}

fn runs(kind: &str, expected: &[&str]) {
    let (outlines, seed) = (number("SITJORBE_OUTLINES", 2_000), number("SITJORBE_SEED", 1));
    let (mut tally, mut rng) = (Tally::default(), Rng(seed));
    for place in 0..outlines {
        tally.outline(&mut rng, generated(kind, seed, place));
    }
    tally.finish(&format!("runs, {kind}"), expected);
}

/// The answers that each kind of outline must give often.
const USUAL: [&str; 7] = ["still", "passes", "full (nodes)", "full (quads)", "full (edges)", "9", "10"];

#[test]
fn runs_of_visual_fields() {
    runs("visual", &USUAL);
}

#[test]
fn runs_on_whole_coordinates() {
    runs("lattice", &USUAL);
}

#[test]
fn runs_of_concave_outlines() {
    runs("concave", &USUAL);
}

#[test]
fn runs_of_outlines_that_cross_themselves() {
    runs("crossing", &USUAL);
}

#[test]
fn runs_round_several_holes() {
    runs("holes", &USUAL);
}

#[test]
fn runs_of_degenerate_outlines() {
    runs("degenerate", &[&USUAL[..], &["2", "3", "4", "7"]].concat());
}

#[test]
fn runs_of_all_sizes() {
    runs("sizes", &[&USUAL[..], &["5", "6"]].concat());
}

#[test]
fn runs_of_all_settings() {
    runs("settings", &[&USUAL[..], &["8"]].concat());
}

#[test]
fn runs_of_lists_that_do_not_fit() {
    runs("lists", &["still", "passes", "1", "2"]);
}

#[test]
fn runs_in_tight_places() {
    runs("tight", &USUAL);
}

/// The square with a slit, of which the reference leaves no loop: whole and open by soundness alone.
#[test]
fn runs_of_slits() {
    let (outlines, seed) = (number("SITJORBE_OUTLINES", 2_000), number("SITJORBE_SEED", 1));
    let (mut tally, mut rng) = (Tally::default(), Rng(seed));
    for place in 0..outlines {
        tally.outline(&mut rng, generated("slits", seed, place));
    }
    let (whole, unsound, few) = (tally.whole, tally.unsound, tally.outlines / 2);
    println!("runs, slits: {whole} whole, {unsound} open with no loop left");
    assert!(whole > few && unsound > few, "{whole} whole, {unsound} open with no loop left");
    // No quad of theirs makes a node, so no pool of nodes runs out on the way.
    tally.finish_answers("runs, slits", &["still", "passes", "full (quads)", "full (edges)", "9", "10"]);
}

#[test]
fn runs_of_hostile_outlines() {
    let (mut tally, mut rng) = (Tally::default(), Rng(10 + number("SITJORBE_SEED", 1)));
    for _ in 0..number("SITJORBE_OUTLINES", 2_000) {
        let drawing = cases::field_drawing(&mut rng);
        let Setting { size, sweeps, .. } = cases::setting(&mut rng, &drawing);
        let (sweeps, passes) = (if sweeps <= 1_000 { sweeps.min(3) } else { sweeps }, cases::passes(&mut rng));
        tally.outline(&mut rng, Asked::new(drawing, Settings { size, sweeps, passes }));
    }
    tally.finish("runs, hostile outlines", &["still", "passes", "1", "2", "3", "4", "5", "6", "7", "8", "9", "10"]);
}

#[test]
fn runs_of_several_blocks() {
    let outlines = number("SITJORBE_OUTLINES", 2_000);
    let (mut tally, mut rng) = (Tally::default(), Rng(20 + number("SITJORBE_SEED", 1)));
    for place in 0..outlines {
        let (drawing, size) = (cases::several_blocks(&mut rng), cases::several_blocks_size(&mut rng));
        let settings =
            Settings { size, sweeps: if place % 8 == 0 { 20 } else { 2 }, passes: rng.pick(&[1, 3, 600, 600]) };
        tally.outline(&mut rng, Asked::new(drawing, settings));
    }
    tally.finish_where_blocks_matter("runs of several blocks", &USUAL, outlines as usize);
}

/// A run with all the space it needs.
fn roomy(tally: &mut Tally, rng: &mut Rng, drawing: Drawing, settings: Settings) {
    let places = Places { field_nodes: 250_000, nodes: 70_000, quads: 4_000, edges: 70_000, points: drawing.points() };
    let scratch = [(Pools::Ample, Blocks::Full), (Pools::Crowded, Blocks::Part)];
    let scratch = scratch.map(|(pools, blocks)| Scratch { pools, blocks });
    tally.outlines += 1;
    tally.compare(rng, &mut Asked::new(drawing, settings), &places, "nothing", &scratch);
}

#[test]
fn runs_of_many_nodes() {
    let (mut tally, mut rng) = (Tally::default(), Rng(8));
    for (place, (across, passes)) in [(45.0, 600), (60.0, 12), (50.0, 600), (80.0, 3)].into_iter().enumerate() {
        let Asked { drawing, .. } = generated("visual", 2, place as u64);
        let size = cases::extent(&drawing) / across;
        roomy(&mut tally, &mut rng, drawing, Settings { size, sweeps: 2, passes });
    }
    for drawing in cases::about_most_points(&mut rng) {
        let passes = rng.pick(&[0, 1]);
        roomy(&mut tally, &mut rng, drawing, Settings { size: 100.0, sweeps: 0, passes });
    }
    let lane = cases::lane(4_096);
    roomy(&mut tally, &mut rng, lane, Settings { size: 0.49, sweeps: 1, passes: 1 });
    tally.finish("runs of many nodes", &["still", "passes"]);
}

/// A square of side 520 has room for more than 250,000 quads of size 1: the run ends in cap, in places for just so many. All that it answers
/// is compared; its books aren't gone through, which takes ten times as long as the runs.
#[test]
fn a_run_ends_in_cap() {
    let settings = Settings { size: 1.0, sweeps: 1, passes: 600 };
    let (mut tally, mut asked) = (Tally::default(), Asked::new(Drawing::square(520.0), settings));
    let places = Places { field_nodes: 250_000, nodes: 252_814, quads: 250_000, edges: 510_000, points: 4 };
    let expected = asked.expected(&places);
    let mut lists = RunPlaces::new(cases::lengths(&mut Rng(10), &places, 1, places.pools(), places.blocks()));
    let faults = tally.run(&mut asked, &expected, &mut lists, "nothing", false);
    let Tally { nodes, quads, answers, .. } = tally;
    println!("a run that ends in cap: {nodes} nodes and {quads} quads; {} faults", faults.len());
    assert_eq!(faults, Vec::<String>::new());
    assert_eq!((nodes, quads, answers), (252_814, 250_000, BTreeMap::from([("cap".to_string(), 1)])));
}

// --- what is compared is found to differ ---

/// A run of the library, and what the oracle answers.
fn example() -> (Outcome, Outcome, Sampled, Answered) {
    let mut asked = generated("lattice", 1, 5);
    let run = asked.of_oracle(&AMPLE).expect("it is accepted");
    let reference = Outcome::of_oracle(run, asked.field.as_ref().expect("the run has made it"));
    let mut lists =
        RunPlaces::new(cases::lengths(&mut Rng(9), &AMPLE, asked.drawing.loop_count(), AMPLE.pools(), AMPLE.blocks()));
    let mesh = lists.pave(&asked.drawing.outline(), &asked.settings).expect("it is accepted");
    (Outcome::of_library(&mesh), reference, asked.sampled().clone(), answered(&mesh))
}

/// A part of what is answered, and a change of it.
type Change = (&'static str, fn(&mut Outcome));

/// One thing changed in each part, in the order of the parts.
const CHANGES: [Change; 11] = [
    ("end", |outcome| outcome.end = "full".to_string()),
    ("whole", |outcome| outcome.whole = !outcome.whole),
    ("grid", |outcome| outcome.grid[2] += 1),
    ("values", |outcome| outcome.values[7] ^= 1),
    ("marks", |outcome| outcome.marks[3] ^= 1),
    ("nodes", |outcome| outcome.nodes[9][1] ^= 1),
    ("quads", |outcome| outcome.quads[1].swap(0, 3)),
    ("edges", |outcome| outcome.edges.truncate(8)),
    ("front", |outcome| outcome.front[0].1 += 1),
    ("loops", |outcome| outcome.loops.push(vec![1, 2, 3])),
    ("counts", |outcome| outcome.counts[3] += 1),
];

#[test]
fn differences_of_runs_are_found() {
    let (library, reference, ..) = example();
    assert!(library.differences(&reference).is_empty());
    for (part, change) in CHANGES {
        let (_, mut changed, ..) = example();
        change(&mut changed);
        assert_eq!(library.differences(&changed), [part]);
    }
}

#[test]
fn faults_in_the_books_of_runs_are_found() {
    let (_, _, sampled, run) = example();
    assert_eq!(book::check(&sampled, &run), Ok(()));
    let spoilt = |spoil: &dyn Fn(&mut Answered)| {
        let mut run = run.clone();
        spoil(&mut run);
        book::check(&sampled, &run).is_err()
    };
    let (nodes, quads) = (run.nodes.len(), run.quads.len());
    assert!(quads >= 12, "{quads} quads are few");
    for quad in 0..quads {
        assert!(
            spoilt(&|run| run.quads = [&run.quads[..quad], &run.quads[quad + 1..]].concat()),
            "quad {quad} is dropped"
        );
        assert!(spoilt(&|run| run.quads.insert(quad, run.quads[quad])), "quad {quad} stands twice");
        for (corner, id) in (0..4).flat_map(|corner| (0..nodes).map(move |id| (corner, id))) {
            let same = run.quads[quad][corner] == id;
            assert!(same || spoilt(&|run| run.quads[quad][corner] = id), "corner {corner} of quad {quad} is {id}");
        }
    }
    for node in 0..nodes {
        let other = if run.next[node].is_some() { None } else { Some(0) };
        assert!(spoilt(&|run| run.next[node] = other), "the link of {node} is {other:?}");
    }
    for node in 0..sampled.nodes.len() {
        assert!(spoilt(&|run| run.nodes[node][0] = run.nodes[node][0].next_up()), "node {node} is moved");
    }
}
