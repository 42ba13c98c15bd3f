//! The field and its directions through the wrappers: answers that can be worked out by hand, every refusal, and guards.

mod common;

use common::blocks::{listed, Block};
use common::{bits, refused, Drawing, FieldPlaces, Guarded, Lent};
use sitjorbe::raw::{contains, direction};
use sitjorbe::{ffi, FieldRecord, Refusal};

/// The field of a square of side 2 for size 1: nodes half a unit apart, from one column and row outside on.
const SQUARE: FieldRecord = FieldRecord { xmin: -0.5, ymin: -0.5, h: 0.5, nx: 7, ny: 7 };

#[test]
fn a_square_has_level_and_upright_directions() {
    let square = Drawing::square(2.0);
    for sweeps in [0, 1, 400, 1_000] {
        let mut places = FieldPlaces::new(98, 49, 8);
        assert_eq!(places.field(&square.outline(), 1.0, sweeps), Ok(SQUARE));
        // Four times any side's angle is a whole number of turns.
        assert!(places.values.list().chunks(2).all(|value| value == [1.0, 0.0]));
        // Inside are the nodes at 0, 0.5, 1 and 1.5 either way, and of these the centre alone is beyond 0.75 from every side.
        let fixed = |id: usize| (1..5).contains(&(id % 7)) && (1..5).contains(&(id / 7)) && (id % 7, id / 7) != (3, 3);
        let marks: Vec<u8> = (0..49).map(|id| u8::from(fixed(id))).collect();
        assert_eq!(places.marks.list(), marks);
    }
}

#[test]
fn a_square_on_its_corner_has_diagonal_directions() {
    let diamond = Drawing::of_loops(&[vec![[2.0, 0.0], [0.0, 2.0], [-2.0, 0.0], [0.0, -2.0]]]);
    let mut places = FieldPlaces::new(2 * 121, 121, 8);
    let record = places.field(&diamond.outline(), 1.0, 400).unwrap();
    assert_eq!(record, FieldRecord { xmin: -2.5, ymin: -2.5, h: 0.5, nx: 11, ny: 11 });
    let toward = |target| direction(&record, places.values.list(), places.marks.list(), [0.3, -0.2], target).unwrap();
    for target in [[1.0, 0.9], [-0.9, 1.0], [-0.9, -1.0], [1.0, -0.9]] {
        let [x, y] = toward(target);
        let half = f64::sqrt(0.5);
        assert!((x - half * target[0].signum()).abs() < 1e-9 && (y - half * target[1].signum()).abs() < 1e-9);
    }
}

/// What is wrong, the drawing, size, sweeps, places for values and marks, and the number.
type RefusedField = (&'static str, Drawing, f64, usize, usize, usize, u32);

fn refused_fields() -> Vec<RefusedField> {
    let square = || Drawing::square(2.0);
    let level = || Drawing::of_loops(&[vec![[0.0, 1.0], [1.0, 1.0], [2.0, 1.0]]]);
    let upright = || Drawing::of_loops(&[vec![[0.5, 0.0], [0.5, 1.0], [0.5, 2.0]]]);
    let not_finite = || Drawing { outer: vec![f64::NAN; 8], ..Drawing::default() };
    let of_outline = refused().into_iter().filter(|(_, drawing, ..)| contains(&drawing.outline(), [0.0, 0.0]).is_err());
    let mut all: Vec<RefusedField> =
        of_outline.map(|(what, drawing, _, number)| (what, drawing, 1.0, 400, 2_000, 1_000, number)).collect();
    all.extend([
        ("3 before 5", not_finite(), f64::NAN, 1_001, 0, 0, 3),
        ("a size not a number", square(), f64::NAN, 400, 98, 49, 5),
        ("an infinite size", square(), f64::INFINITY, 400, 98, 49, 5),
        ("no size", square(), 0.0, 400, 98, 49, 5),
        ("a size of -0", square(), -0.0, 400, 98, 49, 5),
        ("a size below 0", square(), -1.0, 400, 98, 49, 5),
        ("5 before 7", level(), 0.0, 400, 98, 49, 5),
        ("a size below 0.01", square(), 0.01f64.next_down(), 400, 500_000, 250_000, 6),
        ("a size above 100", square(), 100f64.next_up(), 400, 98, 49, 6),
        ("6 before 7", upright(), 101.0, 1_001, 98, 49, 6),
        ("no height", level(), 1.0, 400, 98, 49, 7),
        ("no width", upright(), 1.0, 400, 98, 49, 7),
        ("7 before 8", upright(), 1.0, 1_001, 0, 0, 7),
        ("too many sweeps", square(), 1.0, 1_001, 98, 49, 8),
        ("as many sweeps as there can be", square(), 1.0, usize::MAX, 98, 49, 8),
        ("8 before 9", square(), 1.0, 1_001, 0, 0, 8),
        ("a float too few", square(), 1.0, 400, 97, 49, 9),
        ("a mark too few", square(), 1.0, 400, 98, 48, 9),
        ("no floats", square(), 1.0, 400, 0, 49, 9),
        ("no marks", square(), 1.0, 400, 98, 0, 9),
        ("no places", square(), 1.0, 0, 0, 0, 9),
    ]);
    all
}

#[test]
fn refused_fields_write_nothing() {
    for (what, drawing, size, sweeps, values, marks, number) in refused_fields() {
        let lent = Lent::new(&drawing);
        let mut places = FieldPlaces::new(values, marks, 64);
        assert_eq!(places.field(&lent.outline(), size, sweeps), Err(Refusal::of_number(number).unwrap()), "{what}");
        assert!(places.kept() && lent.kept(), "{what}: written");
    }
}

#[test]
fn a_refused_fields_numbers_are_zero() {
    for (what, drawing, size, sweeps, values, marks, number) in refused_fields() {
        let mut lent = Lent::new(&drawing);
        let mut places = FieldPlaces::new(values, marks, 64);
        let ((outer, outer_len), (holes, holes_len)) = (lent.outer.parts(), lent.holes.parts());
        let (lens, lens_len) = lent.hole_lengths.parts();
        let (to, bytes) = (places.values.list_mut().as_mut_ptr(), places.marks.list_mut().as_mut_ptr());
        let blocks = places.blocks.list_mut().as_mut_ptr();
        // SAFETY: each pointer comes with its list's length.
        let answer = unsafe {
            ffi::sitjorbe_field(
                outer, outer_len, holes, holes_len, lens, lens_len, size, sweeps, to, values, bytes, marks, blocks, 64,
            )
        };
        let ffi::FieldRecordAnswer { refusal, xmin, ymin, h, nx, ny } = answer;
        assert_eq!((refusal, [xmin, ymin, h].map(f64::to_bits), nx, ny), (number, [0; 3], 0, 0), "{what}");
    }
}

#[test]
fn places_past_the_nodes_keep_their_contents() {
    let square = Drawing::square(2.0);
    let mut exact = FieldPlaces::new(98, 49, 8);
    exact.field(&square.outline(), 1.0, 400).unwrap();
    for (values, marks) in [(98, 49), (99, 49), (100, 49), (98, 50), (300, 200), (99, 1_000)] {
        let lent = Lent::new(&square);
        let mut places = FieldPlaces::new(values, marks, 8);
        assert_eq!(places.field(&lent.outline(), 1.0, 400), Ok(SQUARE));
        assert!(places.kept_past(49) && lent.kept());
        assert_eq!(&places.values.list()[..98], exact.values.list());
        assert_eq!(&places.marks.list()[..49], exact.marks.list());
    }
}

/// Loops of one block and of several; some points are level with nodes of the field.
fn of_blocks() -> [Drawing; 3] {
    let hole = |x: f64, y: f64| vec![[x, y], [x + 1.0, y + 2.0], [x + 2.0, y], [x + 1.0, y - 1.0]];
    let outer = vec![[0.0, 0.0], [12.0, -1.0], [14.0, 5.0], [9.0, 9.5], [2.0, 8.0]];
    let drawing = Drawing::of_loops(&[outer, hole(2.0, 3.0), hole(7.0, 2.0), hole(12.0, 4.0)]);
    [drawing.cut(1), drawing.cut(4), drawing.cut(13)]
}

/// Lists without a block, with some of them, with all, and longer ones.
#[test]
fn a_field_does_not_depend_on_the_blocks() {
    for drawing in of_blocks() {
        let (needed, all) = (Block::needed(&drawing), Block::all(&drawing).len());
        let mut found = vec![];
        for length in [0, 3, 4, 7, 8, needed / 2, needed - 4, needed - 1, needed, 2 * drawing.points(), 1_000] {
            let (lent, mut places) = (Lent::new(&drawing), FieldPlaces::new(2_000, 1_000, length));
            let record = places.field(&lent.outline(), 1.0, 10).unwrap();
            assert!(lent.kept() && places.kept_past(record.nodes()), "{length} numbers: written");
            let [count, wrong] = listed(&drawing, places.blocks.list());
            assert_eq!((count > 0, count == all, wrong), (length >= 4, length >= needed, 0), "{length} numbers");
            found.push((format!("{record:?}"), bits(places.values.list()), bits(places.marks.list())));
        }
        assert!(found.iter().all(|field| *field == found[0]), "{} points", drawing.points());
        let ones = found[0].2.iter().filter(|&&mark| mark == 1).count();
        assert!(ones > 100 && found[0].2.contains(&0), "{ones} marks");
    }
}

#[test]
fn two_numbers_a_point_hold_every_block() {
    let loops = |lengths: &[usize]| Drawing::of_loops(&lengths.iter().map(|&n| vec![[0.0; 2]; n]).collect::<Vec<_>>());
    let mut lengths: Vec<Vec<usize>> = (3..100).map(|n| vec![n]).collect();
    lengths.extend((1..40).flat_map(|count| [3, 4, 15, 16, 17, 33].map(|n| vec![n; count])));
    lengths.extend((3..40).flat_map(|n| (3..40).map(move |m| vec![n, m, 3])));
    for lengths in lengths {
        let drawing = loops(&lengths);
        let (points, needed, all) = (drawing.points(), Block::needed(&drawing), Block::all(&drawing));
        assert!(needed <= 4 * (points / 16 + lengths.len()) && needed <= 2 * points, "{lengths:?}");
        assert!(all.windows(2).all(|pair| pair[0].number < pair[1].number), "{lengths:?}");
    }
}

#[test]
fn the_bounds_themselves_are_accepted() {
    let small = Drawing::square(0.02);
    let large = Drawing::square(1e3);
    let mut places = FieldPlaces::new(500_000, 250_000, 8);
    assert_eq!(places.field(&small.outline(), 0.01, 1_000).map(|record| (record.nx, record.ny)), Ok((7, 7)));
    assert_eq!(places.field(&large.outline(), 100.0, 1_000).map(|record| (record.nx, record.ny)), Ok((23, 23)));
    let most = places.field(&large.outline(), 0.01, 0).unwrap();
    assert!((200_000..=250_000).contains(&most.nodes()), "{most:?}");
}

/// The square's field, with what is wrong with the record lent in its place, its values and marks.
fn broken_records() -> Vec<(&'static str, FieldRecord, Vec<f64>, Vec<u8>)> {
    let lists = |values: usize, marks: usize| (vec![0.5; values], vec![1; marks]);
    let mut all = Vec::new();
    let mut add = |what, record, (values, marks)| all.push((what, record, values, marks));
    add("a row of one node", FieldRecord { nx: 1, ny: 49, ..SQUARE }, lists(98, 49));
    add("one row", FieldRecord { nx: 49, ny: 1, ..SQUARE }, lists(98, 49));
    add("no nodes", FieldRecord { nx: 0, ny: 0, ..SQUARE }, lists(0, 0));
    add("more than 250,000 nodes", FieldRecord { nx: 501, ny: 500, ..SQUARE }, lists(501_000, 250_500));
    add("a product that wraps round to 0", FieldRecord { nx: 1 << 63, ny: 2, ..SQUARE }, lists(0, 0));
    add("a product that wraps round to 4", FieldRecord { nx: (1 << 63) + 2, ny: 2, ..SQUARE }, lists(8, 4));
    add("a float too many", SQUARE, lists(99, 49));
    add("a float too few", SQUARE, lists(97, 49));
    add("a mark too many", SQUARE, lists(98, 50));
    add("a mark too few", SQUARE, lists(98, 48));
    for h in [f64::NAN, f64::INFINITY, -0.5, 0.0, 0.001f64.next_down(), 1_000f64.next_up()] {
        add("the distance of neighbours", FieldRecord { h, ..SQUARE }, lists(98, 49));
    }
    for far in [f64::NAN, f64::INFINITY, f64::NEG_INFINITY, 2_000f64.next_up(), -(2_000f64.next_up())] {
        add("the left column", FieldRecord { xmin: far, ..SQUARE }, lists(98, 49));
        add("the lowest row", FieldRecord { ymin: far, ..SQUARE }, lists(98, 49));
    }
    for (place, value) in [(0, f64::NAN), (97, f64::INFINITY), (48, 4f64.next_up()), (49, -(4f64.next_up()))] {
        let (mut values, marks) = lists(98, 49);
        values[place] = value;
        add("a value", SQUARE, (values, marks));
    }
    all
}

#[test]
fn records_that_are_none_are_refused() {
    for (what, record, values, marks) in broken_records() {
        for point in [[1.0, 1.0], [f64::NAN, 2e3]] {
            let (values, marks) = (Guarded::new(&values), Guarded::new(&marks));
            let answer = direction(&record, values.list(), marks.list(), point, [1.0, 0.0]);
            assert_eq!(answer, Err(Refusal::NoFieldRecord), "{what}: {record:?}");
            assert!(values.kept() && marks.kept(), "{what}: written");
        }
    }
}

#[test]
fn the_bounds_of_a_record_are_accepted() {
    let ends = [
        FieldRecord { h: 0.001, ..SQUARE },
        FieldRecord { h: 1e3, ..SQUARE },
        FieldRecord { xmin: 2e3, ymin: -2e3, ..SQUARE },
        FieldRecord { xmin: -2e3, ymin: 2e3, ..SQUARE },
    ];
    for record in ends {
        assert!(direction(&record, &[4.0; 98], &[255; 49], [0.0, 0.0], [1.0, 0.0]).is_ok(), "{record:?}");
    }
    let most = FieldRecord { nx: 500, ny: 500, ..SQUARE };
    assert!(direction(&most, &vec![-4.0; 500_000], &vec![0; 250_000], [0.0, 0.0], [1.0, 0.0]).is_ok());
    let least = FieldRecord { nx: 2, ny: 2, ..SQUARE };
    assert_eq!(direction(&least, &[0.0; 8], &[0; 4], [0.0, 0.0], [0.0, -2.0]), Ok([0.0, -1.0]));
}

#[test]
fn a_directions_point_is_refused_and_its_target_is_not() {
    let (values, marks) = (Guarded::new(&[1.0, 0.0].repeat(49)), Guarded::new(&[1; 49]));
    let ask = |point, target| direction(&SQUARE, values.list(), marks.list(), point, target);
    assert_eq!(ask([f64::NAN, 2e3], [1.0, 0.0]), Err(Refusal::NotFinite));
    assert_eq!(ask([0.0, f64::INFINITY], [1.0, 0.0]), Err(Refusal::NotFinite));
    assert_eq!(ask([1e3f64.next_up(), 0.0], [1.0, 0.0]), Err(Refusal::TooFar));
    // No dot product with what isn't a number is greater, so the first direction stays.
    assert_eq!(ask([1.0, 1.0], [f64::NAN, 1.0]), Ok([1.0, 0.0]));
    assert_eq!(ask([1e3, -1e3], [f64::MAX, f64::MIN]), Ok([1.0, 0.0]));
    assert_eq!(ask([1.0, 1.0], [-3.0, 1.0]), Ok([-1.0, 0.0]));
    assert_eq!(ask([1.0, 1.0], [0.0, 0.0]), Ok([1.0, 0.0]), "the first of equals");
    assert!(values.kept() && marks.kept());
}
