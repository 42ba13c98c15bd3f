//! Presentation orders of a circle of 90 degrees paved at size 0.25, which stops at 250,000 quads: the order of placing and an accepted
//! shuffle, of all quads and of the first ones, with scratch and without. Exits with 1 if an order isn't accepted.
//!
//! Times are the processor's, so that waiting for it isn't counted; other work still shares its caches.

use std::ffi::c_long;
use std::process::exit;

use sitjorbe::raw::{check_order_in, nearest_order, OrderScratch, Outline, Settings};
use sitjorbe::{Memory, Places};

extern "C" {
    /// The processor time used so far, in microseconds.
    fn clock() -> c_long;
}

/// Milliseconds of processor time, and the answer.
fn timed<T>(run: impl FnOnce() -> T) -> (f64, T) {
    // SAFETY: `clock` takes nothing and writes nothing.
    let start = unsafe { clock() };
    let answer = run();
    (unsafe { clock() - start } as f64 / 1e3, answer)
}

/// The ids of the quads of the circle, at most 250,000 quads.
fn quads() -> Vec<u32> {
    let angle = |k: usize| std::f64::consts::TAU * k as f64 / 120.0;
    let outer: Vec<f64> = (0..120).flat_map(|k| [90.0 * angle(k).cos(), 90.0 * angle(k).sin()]).collect();
    let places = Places { field_nodes: 250_000, nodes: 500_000, quads: 250_000, edges: 1_000_000, points: 120 };
    let mut memory = Memory::new(places).unwrap();
    let outline = Outline { outer: &outer, holes: &[], hole_lengths: &[] };
    let mesh = memory.pave(&outline, &Settings { size: 0.25, sweeps: 20, passes: 600 }).expect("the circle is paved");
    mesh.quads().flatten().collect()
}

/// The numbers below `count`, mixed by a linear congruential generator.
fn mixed(count: usize) -> Vec<u32> {
    let mut list: Vec<u32> = (0..count as u32).collect();
    let mut state = 1u64;
    for k in (1..count).rev() {
        state = state.wrapping_mul(6_364_136_223_846_793_005).wrapping_add(1_442_695_040_888_963_407);
        list.swap(k, ((state >> 33) % (k as u64 + 1)) as usize);
    }
    list
}

/// The least time of some rounds.
fn least(rounds: usize, quads: &[u32], order: &[u32], scratch: &mut OrderScratch) -> f64 {
    let round = |_| {
        let (time, answer) =
            timed(|| check_order_in(order.len(), quads, order, &mut scratch.places, &mut scratch.pool));
        if let Err(refused) = answer {
            println!("{refused}");
            exit(1);
        }
        time
    };
    (0..rounds).map(round).fold(f64::INFINITY, f64::min)
}

fn main() {
    let rounds = std::env::args().nth(1).map_or(5, |rounds| rounds.parse().expect("a number of rounds"));
    let quads = quads();
    println!("quads, scratch: order of placing, accepted shuffle, making the shuffle; ms");
    for (count, scratch) in
        [(25_000, true), (50_000, true), (100_000, true), (250_000, true), (2_500, false), (5_000, false)]
    {
        let count = count.min(quads.len() / 4);
        let mut scratch = if scratch { OrderScratch::new(count) } else { OrderScratch::default() };
        let placing: Vec<u32> = (0..count as u32).collect();
        let wish = mixed(count);
        let (making, shuffle) = timed(|| nearest_order(count, &quads, &wish));
        let [placing, shuffled] = [&placing, &shuffle].map(|order| least(rounds, &quads, order, &mut scratch));
        println!("  {count}, {}: {placing:.1}, {shuffled:.1}, {making:.1}", scratch.pool.len());
    }
}
