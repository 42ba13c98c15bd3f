//! Every small quad beside a model of its own, written from SCOPE: in floats as the paving's test is described, and in integers.

mod common;

use common::{filled, Guarded};
use sitjorbe::{ffi, small_quads, Refusal};

/// The numbers in the list: 3,736 fours.
const NUMBERS: usize = 4 * 3_736;

fn column(number: u32) -> i32 {
    (number % 4) as i32
}

fn row(number: u32) -> i32 {
    (number / 4) as i32
}

/// The step from a point to another.
fn step(from: u32, to: u32) -> [i32; 2] {
    [column(to) - column(from), row(to) - row(from)]
}

/// The steps into and out of each corner of the four, as it is run.
fn corners(four: [u32; 4]) -> impl Iterator<Item = [[i32; 2]; 2]> {
    (0..4).map(move |k| [step(four[(k + 3) % 4], four[k]), step(four[k], four[(k + 1) % 4])])
}

/// The paving's test in floats: an area above 1e-12, sides longer than that, and at every corner a sine above that of 20 degrees.
fn in_floats(four: [u32; 4]) -> bool {
    let least = 20_f64.to_radians().sin();
    let [x, y] = [four.map(column), four.map(row)].map(|axis| axis.map(f64::from));
    let area: f64 = (0..4).map(|k| x[k] * y[(k + 1) % 4] - x[(k + 1) % 4] * y[k]).sum::<f64>() / 2.0;
    let corner = |[u, v]: [[i32; 2]; 2]| {
        let [[ux, uy], [vx, vy]] = [u, v].map(|step| step.map(f64::from));
        let [long, wide] = [(ux * ux + uy * uy).sqrt(), (vx * vx + vy * vy).sqrt()];
        long > 1e-12 && wide > 1e-12 && (ux * vy - uy * vx) / (long * wide) > least
    };
    area > 1e-12 && corners(four).all(corner)
}

/// A left turn at every corner, with a sine above 1/3, in integers.
fn in_integers(four: [u32; 4]) -> bool {
    corners(four).all(|[[ux, uy], [vx, vy]]| {
        let turn = ux * vy - uy * vx;
        turn > 0 && 9 * turn * turn > (ux * ux + uy * uy) * (vx * vx + vy * vy)
    })
}

/// The fours that pass, in dictionary order.
fn fours(test: impl Fn([u32; 4]) -> bool) -> Vec<[u32; 4]> {
    let points = || 0..16;
    let pairs = points().flat_map(|a| points().map(move |b| [a, b]));
    let all = pairs.flat_map(|[a, b]| points().flat_map(move |d| points().map(move |c| [a, b, d, c])));
    all.filter(|four| test(*four)).collect()
}

#[test]
fn the_list_is_the_models_in_floats_and_in_integers() {
    let mut list = filled(NUMBERS);
    let quads = small_quads(list.list_mut()).unwrap().to_vec();
    assert_eq!((quads.len(), quads[0], quads[3_735]), (3_736, [0, 1, 5, 4], [15, 14, 10, 11]));
    assert_eq!(quads, fours(in_floats));
    assert_eq!(quads, fours(in_integers));
    assert_eq!(list.list(), quads.as_flattened());
    assert!(list.kept_from(NUMBERS));
}

#[test]
fn each_stands_once_from_all_four_corners() {
    let mut list = vec![0; NUMBERS];
    let quads = small_quads(&mut list).unwrap();
    assert!(quads.is_sorted_by(|four, next| four < next), "in dictionary order, each once");
    for &[a, b, d, c] in quads {
        assert!(quads.binary_search(&[b, d, c, a]).is_ok(), "{a} {b} {d} {c} from its second corner");
    }
}

#[test]
fn a_four_is_run_as_it_stands_by_column_and_row() {
    let mut list = vec![0; NUMBERS];
    let quads = small_quads(&mut list).unwrap();
    let has = |four: [u32; 4]| quads.contains(&four);
    assert!(has([0, 1, 5, 4]) && !has([0, 1, 4, 5]), "run a, b, d, c");
    assert!(has([0, 2, 6, 4]) && !has([0, 8, 9, 1]), "2 is in column 2, 8 in row 2");
    assert!(has([0, 1, 15, 4]), "a sine of 5/13, above that of 20 degrees");
    assert!(!has([0, 1, 6, 15]), "a sine of 1/√10, below 1/3");
}

#[test]
fn a_list_too_short_is_refused_and_nothing_written() {
    for places in [0, 1, 3, 4, 7_000, NUMBERS - 2, NUMBERS - 1] {
        let mut list: Guarded<u32> = filled(places);
        let (pointer, length) = list.parts();
        // SAFETY: the pointer comes with the list's length, and may be written through.
        let answer = unsafe { ffi::sitjorbe_small_quads(pointer.cast_mut(), length) };
        assert_eq!((answer.refusal, answer.count), (26, 0), "{places} places");
        assert_eq!(small_quads(list.list_mut()), Err(Refusal::FoursNeedSpace), "{places} places");
        assert!(list.kept(), "{places} places: written");
    }
}

#[test]
fn the_list_is_the_same_whatever_is_lent() {
    let mut exact = vec![0; NUMBERS];
    let expected = small_quads(&mut exact).unwrap().to_vec();
    for places in [NUMBERS, NUMBERS + 1, NUMBERS + 2, NUMBERS + 3, NUMBERS + 4, 2 * NUMBERS, 4 * 65_536 + 1] {
        for junk in [0, 1, 16, 0x8000_0000, u32::MAX] {
            let mut list = Guarded::new(&vec![junk; places]);
            assert_eq!(small_quads(list.list_mut()), Ok(&expected[..]), "{places} places of {junk}");
            assert!(list.kept_from(NUMBERS), "{places} places of {junk}: written past the list");
        }
    }
}
