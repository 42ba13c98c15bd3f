//! Single steps and previews in a circle of 90 degrees, paved for as many passes as place about 1,000, 10,000 and 100,000 quads: the check of the mesh (a step on
//! an edge that isn't on the front, so refused with 24 after it), a step where no quad fits, a step that places one, and a preview.
//!
//! Times are the processor's, so that waiting for it isn't counted; other work still shares its caches.

use std::ffi::c_long;

use sitjorbe::raw::{Outline, Settings, Stepper};
use sitjorbe::{Memory, Outcome, Places, Refusal};

extern "C" {
    /// The processor time used so far, in microseconds.
    fn clock() -> c_long;
}

/// Milliseconds of processor time, and the answer.
fn timed<T>(run: impl FnOnce() -> T) -> (f64, T) {
    // SAFETY: `clock` takes nothing and writes nothing.
    let start = unsafe { clock() };
    let answer = run();
    (unsafe { clock() - start } as f64 / 1e3, answer)
}

/// The median of some times; a dash for none.
fn median(times: &mut [f64]) -> String {
    times.sort_by(f64::total_cmp);
    times.get(times.len() / 2).map_or("-".to_string(), |time| format!("{time:.3}"))
}

fn main() {
    let rounds: usize = std::env::args().nth(1).map_or(40, |word| word.parse().expect("a number of rounds"));
    let angle = |k: usize| std::f64::consts::TAU * k as f64 / 120.0;
    let outer: Vec<f64> = (0..120).flat_map(|k| [90.0 * angle(k).cos(), 90.0 * angle(k).sin()]).collect();
    let outline = Outline { outer: &outer, holes: &[], hole_lengths: &[] };
    let places = Places { field_nodes: 250_000, nodes: 400_000, quads: 250_000, edges: 800_000, points: 120 };
    let mut memory = Memory::new(places).unwrap();
    println!("quads nodes front: check, none, placed, preview in ms of processor time, medians of at most {rounds}");
    for (size, passes) in [(3.0, 4), (1.0, 17), (0.4, 70)] {
        let settings = Settings { size, sweeps: 20, passes };
        let mut stepper = Stepper::after(outline, &settings, &mut memory).expect("the circle is paved");
        let counts = stepper.counts();
        let edges = stepper.front();
        let (mut check, mut none, mut placed, mut preview) = (vec![], vec![], vec![], vec![]);
        for edge in edges.iter().step_by(1 + edges.len() / (4 * rounds)) {
            let (time, answer) = timed(|| stepper.step([edge[1], edge[0]]));
            if answer == Err(Refusal::NotOnFront) {
                check.push(time);
            }
            let (time, answer) = timed(|| stepper.preview(*edge).map(|preview| preview.outcome));
            if answer.is_ok() {
                preview.push(time);
            }
            let (time, answer) = timed(|| stepper.step(*edge));
            match answer {
                Ok(Outcome::None) => none.push(time),
                Ok(Outcome::Placed) => placed.push(time),
                _ => {}
            }
        }
        let [check, none, placed, preview] = [&mut check, &mut none, &mut placed, &mut preview].map(|times| median(times));
        println!("{} {} {}: {check}, {none}, {placed}, {preview}", counts.quads, counts.nodes, counts.front);
    }
}
