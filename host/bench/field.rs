//! Fields of a circle of 90 degrees, beside the patched reference in the same run: the time of seeds and marks, which is that
//! of a field without sweeps, also where no list is lent for blocks, and what the sweeps add. Exits with 1 if any bit differs.
//!
//! Times are the processor's, so that waiting for it isn't counted; other work still shares its caches.

#[path = "../src/ffi.rs"]
#[allow(dead_code)] // only the field is timed
mod ffi;

use std::ffi::c_long;
use std::process::exit;

use oracle::patched::Field;
use oracle::terms::Outline;

extern "C" {
    /// The processor time used so far, in microseconds.
    fn clock() -> c_long;
}

const MOST_NODES: usize = 250_000;

/// The coordinates of a regular polygon's corners, 90 degrees from the centre.
fn circle(points: usize) -> Vec<f64> {
    let angle = |k: usize| std::f64::consts::TAU * k as f64 / points as f64;
    (0..points).flat_map(|k| [90.0 * angle(k).cos(), 90.0 * angle(k).sin()]).collect()
}

/// Milliseconds of processor time, and the answer.
fn timed<T>(run: impl FnOnce() -> T) -> (f64, T) {
    // SAFETY: `clock` takes nothing and writes nothing.
    let start = unsafe { clock() };
    let answer = run();
    (unsafe { clock() - start } as f64 / 1e3, answer)
}

/// The library's field, in lists lent once for all fields.
struct Places {
    values: Vec<f64>,
    marks: Vec<u8>,
    blocks: Vec<u32>,
}

impl Places {
    fn field(&mut self, outer: &[f64], size: f64, sweeps: usize) -> ffi::FieldRecordAnswer {
        let Places { values, marks, blocks } = self;
        let (to, to_len, bytes, bytes_len) = (values.as_mut_ptr(), values.len(), marks.as_mut_ptr(), marks.len());
        let (holes, lens): (&[f64], &[usize]) = (&[], &[]);
        // SAFETY: each pointer comes with the length of its slice.
        unsafe {
            ffi::sitjorbe_field(
                outer.as_ptr(),
                outer.len(),
                holes.as_ptr(),
                0,
                lens.as_ptr(),
                0,
                size,
                sweeps,
                to,
                to_len,
                bytes,
                bytes_len,
                blocks.as_mut_ptr(),
                blocks.len(),
            )
        }
    }

    fn equals(&self, field: &Field) -> bool {
        let nodes = field.marks().len();
        let bits = |x: &f64| x.to_bits();
        self.values[..2 * nodes].iter().map(bits).eq(field.values().as_flattened().iter().map(bits))
            && self.marks[..nodes].iter().map(|&mark| mark == 1).eq(field.marks().iter().copied())
    }
}

/// The least times of the library and of the reference, for one number of sweeps.
struct Least {
    library: f64,
    reference: f64,
}

fn least(places: &mut Places, outer: &[f64], size: f64, sweeps: usize, rounds: usize) -> Least {
    let mut least = Least { library: f64::INFINITY, reference: f64::INFINITY };
    let outline = Outline { outer, holes: &[], hole_lengths: &[] };
    for _ in 0..rounds {
        let (time, answer) = timed(|| places.field(outer, size, sweeps));
        least.library = least.library.min(time);
        let (time, field) = timed(|| Field::new(outline, size, sweeps as u64, MOST_NODES as u64));
        least.reference = least.reference.min(time);
        let same = answer.refusal == 0 && field.is_ok_and(|field| places.equals(&field));
        if !same {
            println!("the fields differ: {} points, size {size}, {sweeps} sweeps", outer.len() / 2);
            exit(1);
        }
    }
    least
}

fn main() {
    let mut words = std::env::args().skip(1).map(|word| word.parse().expect("SWEEPS and ROUNDS are numbers"));
    let (sweeps, rounds) = (words.next().unwrap_or(400), words.next().unwrap_or(5));
    let mut places = Places { values: vec![0.0; 2 * MOST_NODES], marks: vec![0; MOST_NODES], blocks: vec![] };
    println!("milliseconds of processor time, the least of {rounds}: library, reference, ratio");
    for points in [120, 1_000] {
        let outer = circle(points);
        for size in [2.0, 1.0, 0.5] {
            places.blocks = vec![];
            let without = least(&mut places, &outer, size, 0, rounds);
            places.blocks = vec![0; 2 * points];
            let seeds = least(&mut places, &outer, size, 0, rounds);
            let all = least(&mut places, &outer, size, sweeps, rounds);
            let record = places.field(&outer, size, 0);
            let line = |what: &str, library: f64, reference: f64| {
                println!("  {what}: {library:.1}, {reference:.1}, {:.2}", library / reference);
            };
            println!("{points} points, size {size}, {} x {} nodes", record.nx, record.ny);
            line("seeds and marks", seeds.library, seeds.reference);
            line("seeds and marks without blocks", without.library, without.reference);
            line(&format!("{sweeps} sweeps"), all.library - seeds.library, all.reference - seeds.reference);
            line("all", all.library, all.reference);
        }
    }
}
