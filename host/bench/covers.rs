//! The check of a mesh's cover: a lattice of 250,000 quads, in the order of rows and shuffled, and with its last quad left out. Exits with 1 if one is judged wrongly.
//!
//! Times are the processor's, so that waiting for it isn't counted; other work still shares its caches.

use std::ffi::c_long;
use std::process::exit;

use sitjorbe::raw::{covers, Outline};
use sitjorbe::{Covered, NotCovered};

extern "C" {
    /// The processor time used so far, in microseconds.
    fn clock() -> c_long;
}

/// Quads a side.
const SIDE: usize = 500;

/// Milliseconds of processor time.
fn timed(run: impl FnOnce()) -> f64 {
    // SAFETY: `clock` takes nothing and writes nothing.
    let start = unsafe { clock() };
    run();
    (unsafe { clock() - start } as f64) / 1e3
}

/// The lattice's nodes, those of its outline first, and its quads.
fn lattice() -> (Vec<f64>, Vec<f64>, Vec<[u32; 4]>) {
    let rim = (0..SIDE).map(|k| [k, 0]).chain((0..SIDE).map(|k| [SIDE, k]));
    let rim = rim.chain((0..SIDE).map(|k| [SIDE - k, SIDE])).chain((0..SIDE).map(|k| [0, SIDE - k]));
    let within = (1..SIDE).flat_map(|x| (1..SIDE).map(move |y| [x, y]));
    let nodes: Vec<[usize; 2]> = rim.chain(within).collect();
    let mut ids = vec![0; (SIDE + 1) * (SIDE + 1)];
    for (id, [x, y]) in nodes.iter().enumerate() {
        ids[x * (SIDE + 1) + y] = id as u32;
    }
    let id = |x: usize, y: usize| ids[x * (SIDE + 1) + y];
    let square = |k: usize| (k / SIDE, k % SIDE);
    let quads = (0..SIDE * SIDE).map(square).map(|(x, y)| [id(x, y), id(x + 1, y), id(x + 1, y + 1), id(x, y + 1)]);
    let axis = |k: usize| nodes.iter().map(|node| node[k] as f64).collect();
    (axis(0), axis(1), quads.collect())
}

/// The quads in another order.
fn shuffled(mut quads: Vec<[u32; 4]>) -> Vec<[u32; 4]> {
    let mut state = 1u64;
    for k in (1..quads.len()).rev() {
        state = state.wrapping_mul(6_364_136_223_846_793_005).wrapping_add(1_442_695_040_888_963_407);
        quads.swap(k, (state >> 33) as usize % (k + 1));
    }
    quads
}

fn main() {
    let rounds: usize = std::env::args().nth(1).map_or(5, |word| word.parse().expect("a number of rounds"));
    let (xs, ys, rows) = lattice();
    // Drawn from node to node, so that it is sampled there.
    let outer: Vec<f64> = xs.iter().zip(&ys).take(4 * SIDE).flat_map(|(x, y)| [*x, *y]).collect();
    let outline = Outline { outer: &outer, holes: &[], hole_lengths: &[] };
    let mut short = rows.clone();
    short.pop();
    let covered = Ok(Covered { sound: true });
    let open = Err(NotCovered::WrongSide { quad: SIDE * (SIDE - 1) - 1 });
    let cases = [
        ("row by row", rows.clone(), covered),
        ("shuffled", shuffled(rows), covered),
        ("the last left out", short, open),
    ];
    for (name, quads, wanted) in &cases {
        let mut least = f64::INFINITY;
        for _ in 0..rounds {
            let mut found = None;
            least = least.min(timed(|| found = Some(covers(&outline, 1.0, &xs, &ys, quads.as_flattened()))));
            if found.as_ref() != Some(wanted) {
                eprintln!("{name}: {found:?}");
                exit(1);
            }
        }
        println!("{} quads, {name}: {least:.0} ms", quads.len());
    }
}
