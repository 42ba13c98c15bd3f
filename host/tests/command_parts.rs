//! Two parts of the command beside other answers: exact sums beside whole numbers, and what it finds unsound beside the library's judgement.

#[path = "../src/bin/sitjorbe/csv.rs"]
#[allow(dead_code)]
mod csv;
#[path = "../src/bin/sitjorbe/exact.rs"]
#[allow(dead_code)]
mod exact;
#[path = "../src/bin/sitjorbe/naming.rs"]
#[allow(dead_code)]
mod naming;
#[path = "../src/bin/sitjorbe/sound.rs"]
mod sound;

mod common;

use std::cmp::Ordering;

use common::rng::Rng;
use csv::{Field, Point};
use exact::Exact;
use naming::Naming;
use sitjorbe::raw::{is_sound, Outline};
use sound::Fault;

/// Products of whole numbers times a power of two are summed as the whole numbers are.
#[test]
fn sums_are_exact() {
    let mut rng = Rng(30);
    for _ in 0..20_000 {
        let power = rng.between(0, 1_060) as i32 - 1_070;
        let unit = 2f64.powi(power.max(-1_022)) * 2f64.powi((power + 1_022).min(0));
        let (mut sum, mut whole) = (Exact::ZERO, 0i128);
        let mut other = Exact::ZERO;
        for _ in 0..rng.between(1, 6) {
            let factor = |rng: &mut Rng| rng.below(1 << 21) as i64 - (1 << 20);
            let (a, b) = (factor(&mut rng), factor(&mut rng));
            // Up to 2^20 units below 2^-10: no coordinate is larger.
            sum.add(a as f64 * unit, b as f64 * unit);
            other.add(b as f64 * unit, -(a as f64) * unit);
            whole += i128::from(a) * i128::from(b);
        }
        assert_eq!(sum.sign(), whole.cmp(&0));
        assert_eq!(sum.plus(&other).sign(), Ordering::Equal);
        assert_eq!(sum.negated(), other);
        let mut one = Exact::ZERO;
        one.add(unit, unit);
        assert_eq!(sum.over(&one), whole as f64);
        assert_eq!(sum.magnitude().compared(&one), whole.unsigned_abs().cmp(&1));
    }
}

#[test]
fn areas_of_the_smallest_and_largest() {
    let (tiny, most) = (5e-324, 1_001.0);
    let area = Exact::doubled_area(&[[0.0, 0.0], [tiny, 0.0], [0.0, tiny]]);
    assert_eq!(area.sign(), Ordering::Greater);
    let large = Exact::doubled_area(&[[-most, -most], [most, -most], [most, most], [-most, most]]);
    let mut one = Exact::ZERO;
    one.add(1.0, 1.0);
    assert_eq!(large.over(&one), 2.0 * 2002.0 * 2002.0);
    assert_eq!(large.plus(&area).compared(&large), Ordering::Greater, "nothing is rounded");
    assert_eq!(Exact::turn([0.0, 0.0], [1.0, 1.0], [0.5, 0.5f64.next_up()]), Ordering::Greater);
}

fn field(loops: Vec<Vec<[f64; 2]>>) -> Field {
    let mut line = 0;
    let mut point = |[x, y]: [f64; 2]| {
        line += 1;
        Point { x, y, line }
    };
    let loops: Vec<Vec<Point>> = loops.into_iter().map(|points| points.into_iter().map(&mut point).collect()).collect();
    Field { names: (0..loops.len()).map(|k| format!("loop {k}")).collect(), loops, notes: vec![] }
}

fn library_finds_sound(field: &Field) -> bool {
    let flat = |points: &Vec<Point>| points.iter().flat_map(|p| [p.x, p.y]).collect::<Vec<f64>>();
    let holes: Vec<f64> = field.loops[1..].iter().flat_map(flat).collect();
    let lengths: Vec<usize> = field.loops[1..].iter().map(Vec::len).collect();
    is_sound(&Outline { outer: &flat(&field.loops[0]), holes: &holes, hole_lengths: &lengths })
        .expect("it isn't refused")
}

/// Both wordings name the segments that a fault is about, or the hole that they are all of.
fn names_its_segments(field: &Field, fault: &Fault) {
    let [by_line, by_point] = [Naming::Line, Naming::Point].map(|naming| fault.in_words(field, naming));
    let spots = fault.segments(field);
    let line = |[k, place]: [usize; 2]| field.loops[k][place].line;
    match fault {
        Fault::Doubled([k, place]) => {
            let after = (place + 1) % field.loops[*k].len();
            assert_eq!((spots.as_slice(), field.loops[*k][*place].x), (&[[*k, *place]][..], field.loops[*k][after].x));
            assert!(by_line.starts_with(&format!("line {} repeats ", line([*k, after]))), "{by_line}");
            assert!(
                by_point.starts_with(&format!("point {} of “{}” repeats ", after + 1, field.names[*k])),
                "{by_point}"
            );
        }
        Fault::Folded(_) | Fault::Meet(_) => {
            let [one, other] = spots[..] else { panic!("two segments: {spots:?}") };
            for spot in [one, other] {
                assert!(by_line.contains(&format!("from line {} to line ", line(spot))), "{by_line}");
                assert!(by_point.contains(&format!("from point {} to point ", spot[1] + 1)), "{by_point}");
                assert!(by_point.contains(&format!(" of “{}”", field.names[spot[0]])), "{by_point}");
            }
            assert_eq!(one[0] != other[0], by_line.contains("of two loops"));
        }
        Fault::Outside(k) | Fault::Within(k, _) => {
            assert_eq!(spots, (0..field.loops[*k].len()).map(|place| [*k, place]).collect::<Vec<_>>());
            assert!(by_line.starts_with(&format!("the blind spot at line {} ", line(spots[0]))), "{by_line}");
            assert!(by_point.starts_with(&format!("“{}” ", field.names[*k])), "{by_point}");
        }
        Fault::More => assert!(spots.is_empty() && by_line == by_point),
    }
}

/// Faults are found where the library finds an outline unsound, and only there: on a lattice, where much touches, and a hair off it.
#[test]
fn faults_are_found_where_the_library_finds_one() {
    let mut rng = Rng(4);
    let mut sound = 0;
    for round in 0..30_000 {
        let side = rng.between(2, 6);
        let coordinate = |rng: &mut Rng, from: usize, side: usize| {
            let x = (from + rng.below(side + 1)) as f64 / 10.0;
            if round % 3 == 0 && rng.once_in(4) {
                x.next_up()
            } else {
                x
            }
        };
        let ring = |rng: &mut Rng, points: usize, from: usize, side: usize| {
            (0..points).map(|_| [coordinate(rng, from, side), coordinate(rng, from, side)]).collect::<Vec<_>>()
        };
        let points = rng.between(3, 6);
        let outer = if round % 2 == 0 {
            vec![[-1.0, -1.0], [2.0, -1.0], [2.0, 2.0], [-1.0, 2.0]]
        } else {
            ring(&mut rng, points, 0, side)
        };
        let mut loops = vec![outer];
        for _ in 0..rng.below(3) {
            let (from, side) = (rng.below(12), rng.between(1, 4));
            loops.push(ring(&mut rng, 3, from, side));
        }
        let field = field(loops);
        let found = sound::faults(&field);
        assert_eq!(found.is_empty(), library_finds_sound(&field), "{field:?}: {found:?}");
        assert!(found.len() <= 6);
        found.iter().for_each(|fault| names_its_segments(&field, fault));
        sound += usize::from(found.is_empty());
    }
    assert!((2_000..28_000).contains(&sound), "{sound}");
}
