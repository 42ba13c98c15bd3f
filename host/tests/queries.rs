//! The wrappers: answers that can be worked out by hand, and every refusal of a query.

mod common;

use common::{refused, Drawing, Lent, Raw};
use sitjorbe::raw::{contains, distance_to_boundary, nearest_segment};
use sitjorbe::{Refusal, Segment};

/// A square of side 8 with a square hole from (2, 2) to (4, 4).
fn square_with_hole() -> Drawing {
    Drawing::of_loops(&[
        vec![[0.0, 0.0], [8.0, 0.0], [8.0, 8.0], [0.0, 8.0]],
        vec![[2.0, 2.0], [2.0, 4.0], [4.0, 4.0], [4.0, 2.0]],
    ])
}

#[test]
fn corners_of_the_unit_square() {
    let square = Drawing::square(1.0);
    assert_eq!(contains(&square.outline(), [0.0, 0.0]), Ok(true));
    assert_eq!(contains(&square.outline(), [1.0, 1.0]), Ok(false));
}

#[test]
fn inside_is_outside_every_hole() {
    let drawing = square_with_hole();
    for (point, inside) in [([1.0, 3.0], true), ([3.0, 3.0], false), ([5.0, 3.0], true), ([9.0, 3.0], false)] {
        assert_eq!(contains(&drawing.outline(), point), Ok(inside), "{point:?}");
    }
}

#[test]
fn a_loop_through_itself_counts_even_and_odd() {
    // The outer loop is run twice, so every ray leaves it an even number of times.
    let once = Drawing::square(4.0);
    let twice = Drawing { outer: [once.outer.clone(), once.outer.clone()].concat(), ..Drawing::default() };
    assert_eq!(contains(&once.outline(), [1.0, 1.0]), Ok(true));
    assert_eq!(contains(&twice.outline(), [1.0, 1.0]), Ok(false));
}

#[test]
fn the_nearest_segment_is_the_first_of_equals() {
    let drawing = square_with_hole();
    let nearest = |point| nearest_segment(&drawing.outline(), point);
    let segment = |[loop_index, segment_index]: [usize; 2], a, b, distance| {
        Ok(Segment { loop_index, segment_index, a, b, distance })
    };
    assert_eq!(nearest([7.0, 5.0]), segment([0, 1], [8.0, 0.0], [8.0, 8.0], 1.0));
    assert_eq!(nearest([6.0, 2.0]), segment([0, 0], [0.0, 0.0], [8.0, 0.0], 2.0), "before the right side and the hole");
    assert_eq!(nearest([3.0, 3.5]), segment([1, 1], [2.0, 4.0], [4.0, 4.0], 0.5));
    assert_eq!(
        nearest([11.0, 12.0]),
        segment([0, 1], [8.0, 0.0], [8.0, 8.0], 5.0),
        "to the corner, by the first side at it"
    );
}

#[test]
fn distances_are_the_nearest_segments() {
    let drawing = square_with_hole();
    for point in [[7.0, 5.0], [0.0, 0.0], [-3.0, -4.0], [3.0, 3.0], [5.5, 3.0], [0.1, 7.3]] {
        let nearest = nearest_segment(&drawing.outline(), point).unwrap();
        assert_eq!(distance_to_boundary(&drawing.outline(), point), Ok(nearest.distance), "{point:?}");
    }
    assert_eq!(distance_to_boundary(&drawing.outline(), [-3.0, -4.0]), Ok(5.0));
    assert_eq!(distance_to_boundary(&drawing.outline(), [3.0, 3.0]), Ok(1.0));
}

#[test]
fn the_bounds_themselves_are_accepted() {
    let far = Drawing::of_loops(&[vec![[-1e3, -1e3], [1e3, -1e3], [1e3, 1e3], [-1e3, 1e3]]]);
    assert_eq!(contains(&far.outline(), [-1e3, -1e3]), Ok(true));
    assert_eq!(contains(&far.outline(), [1e3, 1e3]), Ok(false));
    assert_eq!(distance_to_boundary(&far.outline(), [1e3, -1e3]), Ok(0.0));

    let most = Drawing { outer: vec![0.5; 2 * 4_096], ..Drawing::default() };
    assert_eq!(contains(&most.outline(), [0.0, 0.0]), Ok(false));
    assert_eq!(distance_to_boundary(&most.outline(), [0.5, 1.5]), Ok(1.0));

    let loops = Drawing::of_loops(&vec![vec![[0.0, 0.0], [4.0, 0.0], [0.0, 4.0]]; 1_365]);
    assert_eq!((loops.points(), contains(&loops.outline(), [1.0, 1.0])), (4_095, Ok(false)));
    assert_eq!(distance_to_boundary(&loops.outline(), [1.0, 1.0]), Ok(1.0));
}

#[test]
fn refusals_are_document_01s() {
    for (what, drawing, point, number) in refused() {
        let outline = drawing.outline();
        let refusal = Refusal::of_number(number).unwrap();
        assert_eq!(contains(&outline, point), Err(refusal), "{what}");
        assert_eq!(nearest_segment(&outline, point), Err(refusal), "{what}");
        assert_eq!(distance_to_boundary(&outline, point), Err(refusal), "{what}");
    }
}

#[test]
fn a_refusals_values_are_zero() {
    for (what, drawing, point, number) in refused() {
        let mut lent = Lent::new(&drawing);
        // SAFETY: each pointer comes with its list's length.
        let raw = unsafe { Raw::ask(lent.outer.parts(), lent.holes.parts(), lent.hole_lengths.parts(), point) };
        assert_eq!(raw.refusals(), [number; 3], "{what}");
        assert_eq!(raw.values(), [0; 9], "{what}");
    }
}
