//! The bowl's steps of a lattice of a million nodes: with no quads, with 250,000, and with all 998,001 that it has; and the same worked out in
//! plain Rust, which doesn't check the mesh. Exits with 1 if a mesh is refused or a step differs.
//!
//! Times are the processor's, so that waiting for it isn't counted; other work still shares its caches.

use std::ffi::c_long;
use std::process::exit;

use sitjorbe::raw::{steps, MeshCounts, MeshRead};
use sitjorbe::OFF;

extern "C" {
    /// The processor time used so far, in microseconds.
    fn clock() -> c_long;
}

/// Nodes a side.
const SIDE: u32 = 1_000;

/// Milliseconds of processor time.
fn timed(run: impl FnOnce()) -> f64 {
    // SAFETY: `clock` takes nothing and writes nothing.
    let start = unsafe { clock() };
    run();
    (unsafe { clock() - start } as f64) / 1e3
}

/// The steps in plain Rust: false if a quad doesn't turn left at all four corners.
fn plain(mesh: &MeshRead<'_>, quads: usize, places: &mut [i32]) -> bool {
    let step = |x: f64| (64.0 * x).round_ties_even() as i64;
    let at = |id: u32| [step(mesh.xs[id as usize]), step(mesh.ys[id as usize])];
    let left = |[u, v, w]: [[i64; 2]; 3]| (v[0] - u[0]) * (w[1] - v[1]) > (v[1] - u[1]) * (w[0] - v[0]);
    for quad in mesh.quads.chunks_exact(4).take(quads) {
        let [a, b, d, c] = [quad[0], quad[1], quad[2], quad[3]].map(at);
        if ![[c, a, b], [a, b, d], [b, d, c], [d, c, a]].into_iter().all(left) {
            return false;
        }
    }
    for (place, (&x, &y)) in places.chunks_exact_mut(2).zip(mesh.xs.iter().zip(mesh.ys)) {
        (place[0], place[1]) = (step(x) as i32, step(y) as i32);
    }
    true
}

fn main() {
    let rounds = std::env::args().nth(1).map_or(20, |word| word.parse().expect("a number of rounds"));
    let nodes = (SIDE * SIDE) as usize;
    // Off the steps by a little that differs from node to node.
    let coordinate = |k: u32, id: u32| f64::from(k) * 1.5 - 750.0 + f64::from(id % 97) * 1e-5;
    let xs: Vec<f64> = (0..SIDE * SIDE).map(|id| coordinate(id % SIDE, id)).collect();
    let ys: Vec<f64> = (0..SIDE * SIDE).map(|id| coordinate(id / SIDE, id)).collect();
    let first = (0..SIDE * (SIDE - 1)).filter(|id| id % SIDE < SIDE - 1);
    let quads: Vec<u32> = first.clone().flat_map(|id| [id, id + 1, id + SIDE + 1, id + SIDE]).collect();
    let edges: Vec<u32> = first.flat_map(|id| [id, id + 1, id, id + SIDE]).collect();
    let (links, origins) = (vec![OFF; nodes], vec![0; nodes]);
    let mesh =
        MeshRead { xs: &xs, ys: &ys, next: &links, prev: &links, origins: &origins, quads: &quads, edges: &edges };
    let (mut places, mut others) = (vec![0; 2 * nodes], vec![1; 2 * nodes]);
    for (quads, edges) in [(0, 0), (250_000, 500_000), (quads.len() / 4, edges.len() / 2)] {
        let counts = MeshCounts { nodes: nodes as u32, quads, edges, front: 0 };
        let (mut least, mut least_plain) = (f64::INFINITY, f64::INFINITY);
        for _ in 0..rounds {
            let mut answer = Ok(());
            least = least.min(timed(|| answer = steps(&mesh, counts, &mut places)));
            let mut shown = true;
            least_plain = least_plain.min(timed(|| shown = plain(&mesh, quads, &mut others)));
            if answer.is_err() || !shown || places != others {
                println!("{answer:?}, in plain Rust {shown}");
                exit(1);
            }
        }
        let ratio = least / least_plain;
        println!("{nodes} nodes, {quads} quads, {edges} edges: {least:.1} ms, {least_plain:.1} in plain Rust, ratio {ratio:.2}");
    }
}
