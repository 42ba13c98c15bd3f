//! Directions at 500 points of a field of 250,000 nodes, by one call for the list and by 500 single queries, in turn: the least and the middle time
//! of some rounds, 20 unless given. Exits with 1 if an answer differs, or the list takes more than a twentieth.
//!
//! Times are the processor's, so that waiting for it isn't counted; other work still shares its caches.

use std::env;
use std::ffi::c_long;
use std::process::ExitCode;

use sitjorbe::raw::{direction, directions_in};
use sitjorbe::FieldRecord;

const POINTS: usize = 500;
const RECORD: FieldRecord = FieldRecord { xmin: -50.0, ymin: -50.0, h: 0.2, nx: 500, ny: 500 };

extern "C" {
    /// The processor time used so far, in microseconds.
    fn clock() -> c_long;
}

/// What a call takes, in milliseconds.
fn timed<T>(call: impl FnOnce() -> T) -> (f64, T) {
    // SAFETY: `clock` takes nothing and writes nothing.
    let start = unsafe { clock() };
    let answer = call();
    (unsafe { clock() - start } as f64 / 1e3, answer)
}

fn main() -> ExitCode {
    let rounds: usize = env::args().nth(1).map_or(20, |word| word.parse().expect("the number of rounds"));
    // Directions that turn from node to node, and points all over the grid.
    let angles = (0..RECORD.nodes()).map(|n| 0.001 * n as f64);
    let values: Vec<f64> = angles.flat_map(|angle| [angle.cos(), angle.sin()]).collect();
    let marks = vec![0; RECORD.nodes()];
    let points: Vec<[f64; 2]> =
        (0..POINTS).map(|k| [k as f64 * 0.199 - 49.7, (k * k % 997) as f64 * 0.1 - 49.7]).collect();
    let targets: Vec<[f64; 2]> = (0..POINTS).map(|k| [(k as f64).cos(), (k as f64).sin()]).collect();
    let mut answers = vec![[0.0; 3]; POINTS];
    let mut times: [Vec<f64>; 2] = [vec![], vec![]];
    for _ in 0..rounds.max(1) {
        let (list_time, list) = timed(|| {
            let found = directions_in(&RECORD, &values, &marks, &points, &targets, &mut answers);
            found.expect("the lists fit, and the record is one").collect::<Vec<_>>()
        });
        let (single_time, single) = timed(|| {
            let pairs = points.iter().zip(&targets);
            pairs.map(|(point, target)| direction(&RECORD, &values, &marks, *point, *target)).collect::<Vec<_>>()
        });
        if list != single {
            println!("an answer of the list isn't the single query's");
            return ExitCode::FAILURE;
        }
        times[0].push(list_time);
        times[1].push(single_time);
    }
    let [list, single] = times.map(|mut times| {
        times.sort_by(f64::total_cmp);
        [times[0], times[times.len() / 2]]
    });
    for (which, k) in [("least", 0), ("middle", 1)] {
        println!("{which}: list {:.3} ms, single {:.1} ms, ratio 1/{:.0}", list[k], single[k], single[k] / list[k]);
    }
    if list[1] * 20.0 > single[1] {
        println!("the list takes more than a twentieth");
        return ExitCode::FAILURE;
    }
    ExitCode::SUCCESS
}
