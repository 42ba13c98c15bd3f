//! Closes fields at random, of thirteen kinds, and says how well: `closing_fields [--count N] [--seed S] [--fine F] [--kind K] [--keep] [--each] [--svg FOLDER]
//! [--gmsh]`.
//!
//! Of those whose sampled outline has no corner of 20 degrees or less and no gap below a tenth of its spacing it says how many are closed; of those closed, over all quads,
//! the sines, the sides, the inner nodes that haven't four quads, what was kept, and the time beside that of the run itself. `--fine 3` asks for sizes a third as large, so
//! for nine times as many quads. `--gmsh` meshes each field by Gmsh too, where it is installed: whole quads by algorithm 6 and Blossom, on one core.

#[path = "../../tests/common/fields.rs"]
mod fields;
mod fit;
mod gmsh;
mod picture;
#[path = "../../tests/common/rng.rs"]
#[allow(dead_code)]
mod rng;

use std::collections::BTreeMap;
use std::env;
use std::fs;

use fit::is_fit;
use picture::picture;

use sitjorbe::closing::{close, Closed, Closing, Effort, Reason, Way};
use sitjorbe::raw::{Outline, Settings};
use sitjorbe::{Memory, Places};

/// An outline that owns its lists, as the generator makes it.
#[derive(Clone, Debug, Default)]
pub struct Drawing {
    outer: Vec<f64>,
    holes: Vec<f64>,
    hole_lengths: Vec<usize>,
}

impl Drawing {
    fn of_loops(loops: &[Vec<[f64; 2]>]) -> Drawing {
        Drawing {
            outer: loops[0].concat(),
            holes: loops[1..].concat().concat(),
            hole_lengths: loops[1..].iter().map(Vec::len).collect(),
        }
    }

    fn outline(&self) -> Outline<'_> {
        Outline { outer: &self.outer, holes: &self.holes, hole_lengths: &self.hole_lengths }
    }
}

/// What was measured of a field.
#[derive(Clone, Debug, Default)]
struct Measured {
    kind: &'static str,
    /// No corner and no gap forbids it.
    fit: bool,
    closed: bool,
    paved: usize,
    quads: usize,
    kept: [usize; 2],
    sines: Vec<f64>,
    ratios: Vec<f64>,
    /// Inner nodes, and those that haven't four quads.
    inner: [usize; 2],
    /// Of the field and paving, and of the closing, in seconds.
    times: [f64; 2],
    /// Gmsh's quads and seconds.
    other: Option<(usize, f64)>,
}

struct Wish {
    count: usize,
    seed: u64,
    fine: f64,
    kind: Option<String>,
    way: Way,
    each: bool,
    svg: Option<String>,
    gmsh: bool,
}

fn main() {
    let wish = wish();
    let mut all = Vec::new();
    for k in 0..wish.count {
        let kind = fields::KINDS[k % fields::KINDS.len()];
        if wish.kind.as_deref().is_none_or(|only| only == kind) {
            let seed = wish.seed * 1_000_000 + k as u64;
            all.extend(measured(kind, seed, &wish));
        }
    }
    say(&all);
}

fn wish() -> Wish {
    let words: Vec<String> = env::args().skip(1).collect();
    let after = |name: &str| words.iter().position(|word| word == name).and_then(|k| words.get(k + 1)).cloned();
    let number = |name: &str, usual: f64| after(name).map_or(usual, |word| word.parse().expect("a number"));
    let has = |name: &str| words.iter().any(|word| word == name);
    Wish {
        count: number("--count", 130.0) as usize,
        seed: number("--seed", 1.0) as u64,
        fine: number("--fine", 1.0),
        kind: after("--kind"),
        way: if has("--keep") { Way::Keep } else { Way::Bend },
        each: has("--each"),
        svg: after("--svg"),
        gmsh: has("--gmsh"),
    }
}

fn measured(kind: &'static str, seed: u64, wish: &Wish) -> Option<Measured> {
    let (drawing, size) = fields::field(kind, seed, wish.fine);
    let (outline, settings) = (drawing.outline(), Settings { size, sweeps: 400, passes: 600 });
    let mut memory = Memory::new(Places::for_outline(&outline, size, 2).ok()?).ok()?;
    let start = memory.pave(&outline, &Settings { sweeps: 0, passes: 0, ..settings }).ok()?;
    let fit = is_fit(&start);
    let begun = processor_time();
    let mesh = memory.pave(&outline, &settings).ok()?;
    let run = processor_time() - begun;
    let (begun, mut steps) = (processor_time(), 0);
    let (nodes, quads): (Vec<_>, Vec<_>) = (mesh.nodes().collect(), mesh.quads().collect());
    let closing = close(&outline, size, &nodes, &quads, Effort::usual(wish.way, nodes.len()), &mut |progress| {
        steps = progress.steps;
        true
    });
    let times = [run, processor_time() - begun];
    let mut found = Measured { kind, fit, paved: mesh.quad_count(), times, ..Measured::default() };
    match &closing {
        Closing::Closed(closed) => found.take(closed),
        Closing::Open(places) => {
            let why: String =
                places.iter().take(3).map(|place| format!("{} at {:.1?}; ", place.why, place.at)).collect();
            if fit || places.iter().any(|place| place.why == Reason::Budget) {
                println!("open: {kind} {seed}, size {size:.3}, {} paved: {why}", mesh.quad_count());
            }
        }
    }
    found.other = if wish.gmsh { gmsh::meshed(&outline, size) } else { None };
    if let Some(folder) = &wish.svg {
        let name = format!("{folder}/{}-{seed}.svg", kind.replace(' ', "-"));
        fs::write(name, picture(&mesh, &closing)).expect("written");
    }
    if wish.each {
        let least = found.sines.iter().copied().fold(1.0, f64::min);
        let [run, time] = found.times.map(|time| 1e3 * time);
        println!(
            "{kind:>11} {seed}: {:>6} paved {:>6} quads, least {least:.3}, run {run:.1} ms, closing {time:.1} ms, {steps} steps",
            found.paved, found.quads
        );
    }
    Some(found)
}

extern "C" {
    /// The processor time used so far, in microseconds.
    fn clock() -> i64;
}

/// The processor time used so far, in seconds.
fn processor_time() -> f64 {
    // SAFETY: it takes nothing and only reads a clock.
    unsafe { clock() as f64 / 1e6 }
}

impl Measured {
    fn take(&mut self, closed: &Closed) {
        self.closed = true;
        self.quads = closed.quads().len();
        self.kept = [closed.kept(), closed.moved()];
        let mut count = vec![0u32; closed.nodes().len()];
        let mut inner: BTreeMap<(u32, u32), i32> = BTreeMap::new();
        for quad in closed.quads() {
            let corners = quad.map(|id| closed.nodes()[id as usize]);
            let side = |k: usize| {
                let ([ax, ay], [bx, by]) = (corners[k % 4], corners[(k + 1) % 4]);
                [bx - ax, by - ay]
            };
            let lengths = [0, 1, 2, 3].map(|k| side(k)[0].hypot(side(k)[1]));
            let sine = |k: usize| {
                let (u, v) = (side(k), side(k + 1));
                (u[0] * v[1] - u[1] * v[0]) / (lengths[k] * lengths[(k + 1) % 4])
            };
            self.sines.push((0..4).map(sine).fold(1.0, f64::min));
            self.ratios.push(
                lengths.iter().copied().fold(0.0, f64::max) / lengths.iter().copied().fold(f64::INFINITY, f64::min),
            );
            quad.iter().for_each(|&id| count[id as usize] += 1);
            for k in 0..4 {
                let (u, v) = (quad[k], quad[(k + 1) % 4]);
                *inner.entry((u.min(v), u.max(v))).or_default() += 1;
            }
        }
        let mut rim = vec![false; count.len()];
        inner
            .iter()
            .filter(|(_, &times)| times == 1)
            .for_each(|(&(u, v), _)| (rim[u as usize], rim[v as usize]) = (true, true));
        let inside = count.iter().zip(&rim).filter(|(&count, &rim)| !rim && count > 0);
        self.inner = [inside.clone().count(), inside.filter(|(&count, _)| count != 4).count()];
    }
}

/// What a list has at a share of its length, once sorted.
fn at_share(list: &mut [f64], share: f64) -> f64 {
    list.sort_by(f64::total_cmp);
    list.get(((list.len() as f64 * share) as usize).min(list.len().saturating_sub(1))).copied().unwrap_or(f64::NAN)
}

fn say(all: &[Measured]) {
    for kind in fields::KINDS {
        line(kind, &all.iter().filter(|one| one.kind == kind).collect::<Vec<_>>());
    }
    line("all", &all.iter().collect::<Vec<_>>());
    println!("\n{:>14} fields  run ms a field  closing  ratio: median, most   us a quad: run, closing", "paved quads");
    for [low, high] in [[0, 200], [200, 400], [400, 1_000], [1_000, 3_000], [3_000, 10_000], [10_000, 1_000_000]] {
        let some: Vec<&Measured> = all.iter().filter(|one| (low..high).contains(&one.paved) && one.closed).collect();
        let (fields, quads) = (some.len() as f64, some.iter().map(|one| one.quads as f64).sum::<f64>());
        let time = |k: usize| some.iter().map(|one| one.times[k]).sum::<f64>();
        let mut ratios: Vec<f64> = some.iter().map(|one| one.times[1] / one.times[0]).collect();
        if !some.is_empty() {
            println!(
                "{low:>6}-{high:<7} {:>6}  {:>14.2}  {:>7.2}  {:>13.2}, {:<6.2}  {:>10.1}, {:.1}",
                some.len(),
                1e3 * time(0) / fields,
                1e3 * time(1) / fields,
                at_share(&mut ratios, 0.5),
                at_share(&mut ratios, 1.0),
                1e6 * time(0) / quads,
                1e6 * time(1) / quads
            );
            let others: Vec<(usize, f64)> = some.iter().filter_map(|one| one.other).collect();
            if !others.is_empty() {
                let (quads, time) = others.iter().fold((0, 0.0), |sum, one| (sum.0 + one.0, sum.1 + one.1));
                println!("{:>80}Gmsh: {:.1}", "", 1e6 * time / quads as f64);
            }
        }
    }
}

/// Figures of some fields: least sines are a field's, the others are over all quads.
fn line(name: &str, some: &[&Measured]) {
    let closed: Vec<&&Measured> = some.iter().filter(|one| one.closed).collect();
    let fit = some.iter().filter(|one| one.fit).count();
    let fit_closed = closed.iter().filter(|one| one.fit).count();
    let mut least: Vec<f64> = closed.iter().map(|one| one.sines.iter().copied().fold(1.0, f64::min)).collect();
    let mut sines: Vec<f64> = closed.iter().flat_map(|one| one.sines.iter().copied()).collect();
    let mut ratios: Vec<f64> = closed.iter().flat_map(|one| one.ratios.iter().copied()).collect();
    let sum = |of: fn(&Measured) -> usize| closed.iter().map(|one| of(one)).sum::<usize>() as f64;
    println!(
        "{name:>11}: closed {}/{} (fit {fit_closed}/{fit}), least sine {:.3} median {:.3}, 1 % {:.3} median {:.3}, irregular {:.3}, ratio {:.2}, kept {:.3} unmoved {:.3}",
        closed.len(),
        some.len(),
        at_share(&mut least, 0.0),
        at_share(&mut least, 0.5),
        at_share(&mut sines, 0.01),
        at_share(&mut sines, 0.5),
        sum(|one| one.inner[1]) / sum(|one| one.inner[0]),
        at_share(&mut ratios, 0.99),
        sum(|one| one.kept[0] + one.kept[1]) / sum(|one| one.paved),
        sum(|one| one.kept[0]) / sum(|one| one.paved)
    );
}
