//! The number routines beside Rust's std: a comparison on special and random cases, then the root's speed beside the
//! hardware's. Exits with 1 if any answer differs.

use std::hint::black_box;
use std::time::Instant;

#[link(name = "numbers", kind = "static")]
extern "C" {
    fn sqrt_f64(x: f64) -> f64;
    fn floor_quotient(x: f64, b: f64) -> i64;
    fn ceil_count(x: f64) -> u64;
    fn min_f64(x: f64, y: f64) -> f64;
    fn max_f64(x: f64, y: f64) -> f64;
    fn clamp_f64(x: f64, lo: f64, hi: f64) -> f64;
    fn is_finite_f64(x: f64) -> bool;
    fn abs_f64(x: f64) -> f64;
}

/// Zeros, infinities, a NaN, the ends of the subnormals and of the integer types, and halves.
const SPECIAL: [f64; 34] = [
    0.0,
    -0.0,
    0.5,
    -0.5,
    1.0,
    -1.0,
    1.5,
    -1.5,
    2.0,
    4.0,
    0.1,
    -0.1,
    f64::INFINITY,
    f64::NEG_INFINITY,
    f64::NAN,
    f64::MAX,
    f64::MIN,
    f64::MIN_POSITIVE,
    2.225073858507201e-308,
    5e-324,
    -5e-324,
    4503599627370495.5,
    -4503599627370495.5,
    4503599627370497.0,
    -9007199254740993.0,
    9223372036854774784.0,
    9223372036854775808.0,
    -9223372036854775808.0,
    -9223372036854777856.0,
    18446744073709549568.0,
    18446744073709551616.0,
    1e-162,
    1.4916681462400413e-154,
    1.3407807929942596e154,
];

const FRACTION: u64 = (1 << 52) - 1;

/// Marsaglia's xorshift, so that a run can be repeated.
struct Random(u64);

impl Random {
    fn bits(&mut self) -> u64 {
        self.0 ^= self.0 << 13;
        self.0 ^= self.0 >> 7;
        self.0 ^= self.0 << 17;
        self.0
    }

    /// A float of one of six kinds.
    fn float(&mut self) -> f64 {
        let kind = self.bits() % 6;
        let b = self.bits();
        match kind {
            // any pattern
            0 => f64::from_bits(b),
            // a subnormal, of any length
            1 => f64::from_bits((b & 1 << 63) | (b & FRACTION) >> (self.bits() % 52)),
            // a number of quarters, of any size
            2 => ((b as i64) >> (self.bits() % 64)) as f64 * 0.25,
            // beside the square of a float, where a root is hard to round
            3 => {
                let r = f64::from_bits((b & FRACTION) | (1023 - self.bits() % 2) << 52);
                f64::from_bits((r * r).to_bits() + self.bits() % 5 - 2)
            }
            // beside a power of two
            4 => f64::from_bits(
                (b & 0xfff << 52)
                    .wrapping_add(self.bits() % 5)
                    .wrapping_sub(2),
            ),
            // a coordinate
            _ => (b >> 11) as f64 * (2000.0 / 9007199254740992.0) - 1000.0,
        }
    }
}

/// The same bits, or two NaNs.
fn same(a: f64, b: f64) -> bool {
    a.to_bits() == b.to_bits() || (a.is_nan() && b.is_nan())
}

/// How many answers differ for x and y, of the nine that are compared.
fn differences(x: f64, y: f64) -> u64 {
    // of equal zeros ours is the first; Rust may take either
    let (least, greatest) = if x == y { (x, x) } else { (x.min(y), x.max(y)) };
    // bounds with which Rust doesn't panic
    let (lo, hi) = if y <= 3.0 {
        (y, 3.0)
    } else if y > 3.0 {
        (3.0, y)
    } else {
        (-1.0, 3.0)
    };
    let agree = unsafe {
        [
            ("sqrt_f64", same(sqrt_f64(x), x.sqrt())),
            (
                "floor_quotient",
                floor_quotient(x, y) == (x / y).floor() as i64,
            ),
            (
                "floor_quotient by 1",
                floor_quotient(x, 1.0) == x.floor() as i64,
            ),
            ("ceil_count", ceil_count(x) == x.ceil() as usize as u64),
            ("min_f64", same(min_f64(x, y), least)),
            ("max_f64", same(max_f64(x, y), greatest)),
            ("clamp_f64", same(clamp_f64(x, lo, hi), x.clamp(lo, hi))),
            ("is_finite_f64", is_finite_f64(x) == x.is_finite()),
            ("abs_f64", same(abs_f64(x), x.abs())),
        ]
    };
    let mut count = 0;
    for (name, equal) in agree {
        if !equal {
            println!(
                "{name} differs at x = {x:e} ({:016x}), y = {y:e} ({:016x})",
                x.to_bits(),
                y.to_bits()
            );
            count += 1;
        }
    }
    count
}

/// Every pair of special floats, then `cases` random pairs; how many answers differ.
fn compare(random: &mut Random, cases: u64) -> u64 {
    let mut count = 0;
    for x in SPECIAL {
        for y in SPECIAL {
            count += differences(x, y);
        }
    }
    for _ in 0..cases {
        let x = random.float();
        count += differences(x, random.float());
    }
    println!(
        "compared: 9 answers for each of {} special and {cases} random pairs; {count} differ",
        SPECIAL.len() * SPECIAL.len()
    );
    count
}

fn proved(x: f64) -> f64 {
    unsafe { sqrt_f64(x) }
}

/// The hardware's root behind a call, as ours is.
#[inline(never)]
fn hardware(x: f64) -> f64 {
    x.sqrt()
}

const SLICES: usize = 3001;
const CALLS: usize = 1024;

/// Nanoseconds a call, where no call waits for another.
fn independent(root: impl Fn(f64) -> f64, xs: &[f64]) -> f64 {
    let start = Instant::now();
    let mut sum = 0.0;
    for &x in xs {
        sum += root(x);
    }
    black_box(sum);
    start.elapsed().as_nanos() as f64 / xs.len() as f64
}

/// Nanoseconds a call, where each waits for the last; an addition is with it.
fn dependent(root: impl Fn(f64) -> f64, xs: &[f64]) -> f64 {
    let start = Instant::now();
    let mut last = 0.0;
    for &x in xs {
        last = root(last + x);
    }
    black_box(last);
    start.elapsed().as_nanos() as f64 / xs.len() as f64
}

/// Prints the least and the median of each.
fn report(name: &str, mut ours: Vec<f64>, mut theirs: Vec<f64>) {
    ours.sort_by(f64::total_cmp);
    theirs.sort_by(f64::total_cmp);
    let mid = ours.len() / 2;
    println!(
        "{name}: proved {:.2} ns (median {:.2}), hardware {:.2} ns (median {:.2}), ratio {:.2} (of medians {:.2})",
        ours[0],
        ours[mid],
        theirs[0],
        theirs[mid],
        ours[0] / theirs[0],
        ours[mid] / theirs[mid]
    );
}

/// Short slices on fresh numbers from 1 to 1,001, the two roots in turn, so that both meet the machine's other work alike
/// and nothing can be learnt from one slice to the next.
fn time(random: &mut Random) {
    let mut times: [Vec<f64>; 4] = Default::default();
    for _ in 0..SLICES {
        let xs: Vec<f64> = (0..CALLS)
            .map(|_| 1.0 + (random.bits() >> 11) as f64 / 9007199254740992.0 * 1000.0)
            .collect();
        times[0].push(independent(proved, &xs));
        times[1].push(independent(hardware, &xs));
        times[2].push(dependent(proved, &xs));
        times[3].push(dependent(hardware, &xs));
    }
    let [a, b, c, d] = times;
    println!("root: the least of {SLICES} slices of {CALLS} calls, each called out of line");
    report("independent calls", a, b);
    report("a chain of calls", c, d);
}

fn main() {
    let cases = std::env::args()
        .nth(1)
        .map_or(20_000_000, |n| n.parse().expect("CASES is a number"));
    let mut random = Random(88172645463325252);
    let differ = compare(&mut random, cases);
    time(&mut random);
    if differ > 0 {
        std::process::exit(1);
    }
}
