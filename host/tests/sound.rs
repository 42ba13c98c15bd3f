//! The judgement of soundness: its readings worked out by hand, refusals first, and generated outlines beside a model that works out common
//! points as sets and inside as a winding number (tests/common/sound.rs).

mod common;

use common::sound::{self, Side};
use common::{refused, Drawing, Lent};
use sitjorbe::raw::is_sound;
use sitjorbe::{ffi, Refusal};

fn drawn(loops: &[&[[f64; 2]]]) -> Drawing {
    Drawing::of_loops(&loops.iter().map(|points| points.to_vec()).collect::<Vec<_>>())
}

const SQUARE: [[f64; 2]; 4] = [[0.0, 0.0], [4.0, 0.0], [4.0, 4.0], [0.0, 4.0]];

#[test]
fn the_readings() {
    const LEAST: f64 = 5e-324;
    let hole = |points: &[[f64; 2]]| drawn(&[&SQUARE, points]);
    let mut turned = SQUARE;
    turned.reverse();
    let cases: Vec<(&str, Drawing, bool)> = vec![
        ("square", drawn(&[&SQUARE]), true),
        ("clockwise", drawn(&[&turned]), true),
        ("corner on a side", drawn(&[&[[0.0, 0.0], [4.0, 0.0], [4.0, 4.0], [2.0, 0.0]]]), false),
        ("spike", drawn(&[&[[0.0, 0.0], [4.0, 0.0], [2.0, 0.0], [2.0, 3.0]]]), false),
        (
            "spike that the Rust paves whole",
            drawn(&[&[[0.0, 0.0], [2.0, 0.0], [2.0, 2.0], [1.0, 2.0], [1.0, 1.0], [1.0, 2.0], [0.0, 2.0]]]),
            false,
        ),
        ("three points in line", drawn(&[&[[0.0, 0.0], [1.0, 1.0], [2.0, 2.0]]]), false),
        ("thin triangle", drawn(&[&[[0.0, 0.0], [1.0, 1.0], [2.0, 2.0_f64.next_up()]]]), true),
        ("corner twice", drawn(&[&[[0.0, 0.0], [4.0, 0.0], [4.0, 0.0], [4.0, 4.0], [0.0, 4.0]]]), false),
        ("first point again at the end", drawn(&[&[[0.0, 0.0], [4.0, 0.0], [4.0, 4.0], [0.0, 0.0]]]), false),
        ("straight on", drawn(&[&[[0.0, 0.0], [1.0, 0.0], [2.0, 0.0], [2.0, 2.0], [0.0, 2.0]]]), true),
        ("figure of eight", drawn(&[&[[0.0, 0.0], [4.0, 4.0], [4.0, 0.0], [0.0, 4.0]]]), false),
        ("hole inside", hole(&[[1.0, 1.0], [2.0, 1.0], [2.0, 2.0]]), true),
        ("hole with a corner on the outer loop", hole(&[[0.0, 1.0], [2.0, 1.0], [2.0, 2.0]]), false),
        ("hole a hair inside", hole(&[[LEAST, 1.0], [2.0, 1.0], [2.0, 2.0]]), true),
        ("hole equal to the outer loop", hole(&SQUARE), false),
        ("hole outside", hole(&[[6.0, 1.0], [7.0, 1.0], [7.0, 2.0]]), false),
        ("hole round the outer loop", hole(&[[-9.0, -9.0], [9.0, -9.0], [0.0, 9.0]]), false),
        (
            "hole in a hole",
            drawn(&[&SQUARE, &[[1.0, 1.0], [3.0, 1.0], [3.0, 3.0], [1.0, 3.0]], &[[1.5, 1.5], [2.0, 1.5], [2.0, 2.0]]]),
            false,
        ),
        (
            "hole round a hole",
            drawn(&[&SQUARE, &[[1.5, 1.5], [2.0, 1.5], [2.0, 2.0]], &[[1.0, 1.0], [3.0, 1.0], [3.0, 3.0], [1.0, 3.0]]]),
            false,
        ),
        ("minus zero", drawn(&[&[[-0.0, 0.0], [4.0, -0.0], [4.0, 4.0], [0.0, 4.0]]]), true),
        ("slit open by the least float", Drawing::slit(-LEAST, LEAST), true),
        ("slit shut", Drawing::slit(0.0, 0.0), false),
        ("slit crossed by the least float", Drawing::slit(LEAST, LEAST), false),
        ("slit overlapping", Drawing::slit(LEAST, 0.0), false),
        ("slit open", Drawing::slit(-0.001, 0.001), true),
        ("slit crossed", Drawing::slit(0.001, 0.001), false),
    ];
    for (what, drawing, expected) in cases {
        assert_eq!(is_sound(&drawing.outline()), Ok(expected), "{what}");
        assert_eq!(sound::is_sound(&drawing.loops()), expected, "{what}: the model");
    }
}

#[test]
fn refusals_come_first_with_false() {
    for (what, drawing, point, number) in refused() {
        if point.iter().any(|x| !(x.abs() <= 1000.0)) {
            continue; // the point's refusal, which isn't asked here
        }
        assert_eq!(is_sound(&drawing.outline()), Err(Refusal::of_number(number).unwrap()), "{what}");
        let mut lent = Lent::new(&drawing);
        let ((outer, m), (holes, n), (lens, k)) = (lent.outer.parts(), lent.holes.parts(), lent.hole_lengths.parts());
        // SAFETY: each pointer comes with its list's length.
        let answer = unsafe { ffi::sitjorbe_sound(outer, m, holes, n, lens, k) };
        assert_eq!((answer.refusal, answer.sound), (number, false), "{what}");
        assert!(lent.kept(), "{what}");
    }
}

/// Numbers that are as good as drawn.
struct Draw(u64);

impl Draw {
    fn next(&mut self) -> u64 {
        self.0 ^= self.0 << 13;
        self.0 ^= self.0 >> 7;
        self.0 ^= self.0 << 17;
        self.0
    }

    fn below(&mut self, n: u64) -> u64 {
        (self.next() >> 11) % n
    }

    fn lattice(&mut self, n: u64) -> [f64; 2] {
        [self.below(n) as f64, self.below(n) as f64]
    }

    /// A float within 1,000, of any exponent.
    fn float(&mut self) -> f64 {
        let exponent = self.below(1033);
        let x = f64::from_bits(exponent << 52 | self.next() >> 12 | self.below(2) << 63);
        if x.abs() <= 1000.0 {
            x
        } else {
            x.signum()
        }
    }

    /// x, or a float some last places beside it.
    fn beside(&mut self, x: f64) -> f64 {
        let moved = match self.below(4) {
            0 => x,
            1 => x.next_up(),
            2 => x.next_down(),
            _ => f64::from_bits(x.to_bits() ^ self.below(64)),
        };
        if moved.abs() <= 1000.0 {
            moved
        } else {
            x
        }
    }

    /// A point on the line from a to b, as near as floats have it, or a little beside it.
    fn near_line(&mut self, a: [f64; 2], b: [f64; 2]) -> [f64; 2] {
        let t = self.below(9) as f64 / 8.0;
        [0, 1].map(|axis| {
            let x = a[axis] + t * (b[axis] - a[axis]);
            self.beside(x)
        })
    }

    /// Three or four points of which one is near the line through two others, at any scale.
    fn near_degenerate(&mut self) -> Drawing {
        let scale = f64::from_bits((1 + self.below(1030)) << 52);
        let wild = self.below(3) == 0;
        let mut point = || if wild { [self.float(), self.float()] } else { self.lattice(9).map(|x| (x - 4.0) * scale) };
        let (a, b, c) = (point(), point(), point());
        let d = self.near_line(a, b);
        match self.below(3) {
            0 => drawn(&[&[a, b, d]]),
            1 => drawn(&[&[a, b, c, d]]),
            _ => drawn(&[&[a, c, b, d]]),
        }
    }

    /// Four points of which the last, p, is near the line from the first to the second; the third is left of it. None where p isn't
    /// left of the other two sides of that triangle. With them, on which side of the line p is.
    fn near_side(&mut self) -> Option<([[f64; 2]; 4], Side)> {
        let scale = f64::from_bits((1 + self.below(1030)) << 52);
        let wild = self.below(3) == 0;
        let mut point = || if wild { [self.float(), self.float()] } else { self.lattice(9).map(|x| (x - 4.0) * scale) };
        let (a, b, q) = (point(), point(), point());
        let (a, b) = if sound::side(a, b, q) == Side::Right { (b, a) } else { (a, b) };
        let p = self.near_line(a, b);
        let left = [[a, b, q], [b, q, p], [q, a, p]].iter().all(|&[u, v, w]| sound::side(u, v, w) == Side::Left);
        left.then(|| ([a, b, q, p], sound::side(a, b, p)))
    }

    /// Loops on a small lattice: crossing, touching, nested, or none of these.
    fn on_lattice(&mut self) -> Drawing {
        let loops = 1 + self.below(3);
        let outer = self.below(2) == 0;
        let ring = |draw: &mut Draw, k: u64| {
            if k == 0 && outer {
                return vec![[-1.0, -1.0], [9.0, -1.0], [9.0, 9.0], [-1.0, 9.0]];
            }
            let (points, n) = (3 + draw.below(3), 3 + draw.below(6));
            (0..points).map(|_| draw.lattice(n)).collect::<Vec<_>>()
        };
        Drawing::of_loops(&(0..loops).map(|k| ring(self, k)).collect::<Vec<_>>())
    }
}

/// How many outlines of each kind: `SITJORBE_OUTLINES`, or this.
fn outlines(usual: usize) -> usize {
    std::env::var("SITJORBE_OUTLINES").map_or(usual, |count| count.parse().expect("a number"))
}

fn compare(kind: &str, count: usize, mut next: impl FnMut() -> Drawing) {
    let mut found = [0, 0];
    for _ in 0..count {
        let drawing = next();
        let expected = sound::is_sound(&drawing.loops());
        assert_eq!(is_sound(&drawing.outline()), Ok(expected), "{kind}: {drawing:?}");
        found[usize::from(expected)] += 1;
    }
    println!("{kind}: {} unsound, {} sound, no difference", found[0], found[1]);
    assert!(found.iter().all(|&n| n > 0), "{kind}: both answers must occur");
}

#[test]
fn outlines_on_a_lattice_beside_the_model() {
    let mut draw = Draw(0x5eed_0004);
    compare("on a lattice", outlines(20_000), || draw.on_lattice());
}

#[test]
fn near_degenerate_outlines_beside_the_model() {
    let mut draw = Draw(0x5eed_0005);
    compare("near degenerate", outlines(50_000), || draw.near_degenerate());
}

/// The loop a, b, q, p, with p near the line from a to b, is sound exactly if p is left of it: the sign of one orientation, at any
/// exponent, beside whole numbers of any size.
#[test]
fn near_degenerate_sides_beside_whole_numbers() {
    let (mut draw, mut found) = (Draw(0x5eed_0006), [0; 3]);
    let count = outlines(1_000_000);
    while found.iter().sum::<usize>() < count {
        let Some((points, side)) = draw.near_side() else { continue };
        let drawing = drawn(&[&points]);
        assert_eq!(is_sound(&drawing.outline()), Ok(side == Side::Left), "{points:?}");
        found[side as usize] += 1;
    }
    let [left, on, right] = found;
    println!("sides: {left} to the left, {on} on the line, {right} to the right, no difference");
    assert!(found.iter().all(|&n| n > count / 20), "each side must occur: {found:?}");
}
