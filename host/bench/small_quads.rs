//! The list of every small quad, in just the places that it needs: the least, the middle and the greatest time of some rounds, 200 unless given.
//!
//! Times are the processor's, so that waiting for it isn't counted; other work still shares its caches.

use std::env;
use std::ffi::c_long;

use sitjorbe::small_quads;

extern "C" {
    /// The processor time used so far, in microseconds.
    fn clock() -> c_long;
}

fn main() {
    let rounds: usize = env::args().nth(1).map_or(200, |word| word.parse().expect("the number of rounds"));
    let mut list = vec![0; 14_944];
    let mut times: Vec<c_long> = (0..rounds.max(1))
        .map(|_| {
            // SAFETY: `clock` takes nothing and writes nothing.
            let start = unsafe { clock() };
            let quads = small_quads(&mut list).expect("14,944 places are enough").len();
            assert_eq!(quads, 3_736);
            unsafe { clock() - start }
        })
        .collect();
    times.sort_unstable();
    let [least, middle, greatest] = [0, times.len() / 2, times.len() - 1].map(|place| times[place] as f64 / 1e3);
    println!("{} rounds: least {least:.2} ms, middle {middle:.2} ms, greatest {greatest:.2} ms", times.len());
}
