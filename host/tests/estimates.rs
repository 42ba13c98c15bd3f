//! Estimates: readings by hand, and estimates in Rust, written from SCOPE's words, beside the entry; on every answer also what SCOPE says of it.

mod common;

use common::exam::{blended, hostile, ExamLists};
use common::rng::Rng;
use sitjorbe::raw::LentMesh;
use sitjorbe::{Exam, Refusal, MOST_WEIGHT, NO_THRESHOLD};

/// A quad of four nodes with these thresholds.
fn square(corners: [u16; 4]) -> ExamLists {
    ExamLists::new(4, [4, 4], 1, &[0, 1, 2, 3], &corners, [0, 0])
}

fn ask(lent: &ExamLists, quad: u32, u: u32, v: u32) -> Result<u32, u32> {
    lent.reader().estimate(quad, u, v).map_err(Refusal::number)
}

/// Weights at the ends and beside them, in the middle and beside it, and others.
const WEIGHTS: [u32; 17] = [0, 1, 2, 3, 31, 64, 85, 127, 128, 129, 171, 192, 200, 253, 254, 255, 256];

// ---- by hand

/// What is read into the rule where it is silent, each on its smallest input: nodes, quads, list, the request, the answer.
#[test]
fn readings() {
    type Reading<'a> = (&'a str, u32, &'a [u32], &'a [u16], (u32, u32, u32), Result<u32, u32>);
    let all: [Reading<'_>; 14] = [
        ("the fourth number is c", 4, &[0, 1, 2, 3], &[0, 0, 0, 65], (0, 0, 256), Ok(65)),
        ("and not the third", 4, &[0, 1, 2, 3], &[0, 0, 65, 0], (0, 0, 256), Ok(0)),
        ("the third is across from a", 4, &[0, 1, 2, 3], &[0, 0, 65, 0], (0, 256, 256), Ok(65)),
        ("u goes from a to b", 4, &[0, 1, 2, 3], &[0, 65, 0, 0], (0, 256, 0), Ok(65)),
        ("one floor, at the end", 4, &[0, 1, 2, 3], &[1, 1, 1, 1], (0, 128, 128), Ok(1)),
        ("rounded down", 4, &[0, 1, 2, 3], &[0, 1, 0, 0], (0, 255, 0), Ok(0)),
        ("the quad before the weight", 0, &[], &[], (0, 257, 0), Err(18)),
        ("256 is a weight", 1, &[0, 0, 0, 0], &[7], (0, 256, 256), Ok(7)),
        ("257 is none", 1, &[0, 0, 0, 0], &[7], (0, 0, 257), Err(19)),
        ("the greatest number is no weight", 1, &[0, 0, 0, 0], &[7], (0, u32::MAX, 0), Err(19)),
        ("no threshold", 1, &[0, 0, 0, 0], &[NO_THRESHOLD], (0, 0, 0), Err(18)),
        ("501 is none", 1, &[0, 0, 0, 0], &[501], (0, 0, 0), Err(18)),
        ("an id that is no node", 1, &[0, 0, 0, 1], &[7, 7], (0, 0, 0), Err(18)),
        ("no such quad", 1, &[0, 0, 0, 0, 0, 0, 0], &[7], (1, 0, 0), Err(18)),
    ];
    for (what, nodes, quads, list, (quad, u, v), answer) in all {
        let lent = ExamLists::new(nodes, [nodes as usize; 2], quads.len(), quads, list, [0, 0]);
        assert_eq!(ask(&lent, quad, u, v), answer, "{what}");
        assert_eq!(lent.model().estimate(quad, u, v), answer, "{what}: the model");
        assert!(lent.thresholds.kept() && lent.kept(), "{what}");
    }
}

// ---- exhaustively

/// Four corners of 0 to 3 tenths, or 500, and all pairs of 17 weights: the model's estimate, between the corners; and with one corner moved by a
/// tenth or to 500, no farther.
#[test]
fn small_thresholds_on_a_grid_of_weights() {
    let values = [0, 1, 2, 3, 500];
    let mut asked = 0;
    for k in 0..625usize {
        let corners = [k % 5, k / 5 % 5, k / 25 % 5, k / 125].map(|place| values[place]);
        let (lent, moved) = (square(corners), moved(corners));
        let others: Vec<(u32, ExamLists)> = moved.into_iter().map(|(by, corners)| (by, square(corners))).collect();
        let (least, greatest) = (*corners.iter().min().unwrap(), *corners.iter().max().unwrap());
        for (u, v) in WEIGHTS.into_iter().flat_map(|u| WEIGHTS.map(|v| (u, v))) {
            let found = ask(&lent, 0, u, v).unwrap();
            assert_eq!(found, blended(u.into(), v.into(), corners.map(i64::from)), "{corners:?} {u} {v}");
            assert!((u32::from(least)..=u32::from(greatest)).contains(&found), "{corners:?} {u} {v}");
            for (by, other) in &others {
                let there = ask(other, 0, u, v).unwrap();
                assert!(found.abs_diff(there) <= *by, "{corners:?} {:?} {u} {v}", other.thresholds.list());
                asked += 1;
            }
            asked += 1;
        }
    }
    assert_eq!(asked, 939_250);
}

/// Each corner a tenth more, and the first at 500: by how much, and the corners then.
fn moved(corners: [u16; 4]) -> Vec<(u32, [u16; 4])> {
    let with = |k: usize, value: u16| {
        let mut other = corners;
        other[k] = value;
        (u32::from(corners[k].abs_diff(value)), other)
    };
    (0..4).filter(|&k| corners[k] < 500).map(|k| with(k, corners[k] + 1)).chain([with(0, 500)]).collect()
}

/// All 66,049 pairs of weights, on corners that differ much, and with one node at several corners.
#[test]
fn all_weights() {
    for (quad, list) in
        [([0, 1, 2, 3], [0, 500, 17, 333]), ([0, 1, 0, 1], [499, 3, 0, 0]), ([0, 0, 0, 1], [500, 0, 0, 0])]
    {
        let lent = ExamLists::new(4, [4, 4], 1, &quad, &list, [0, 0]);
        let corners = quad.map(|id| i64::from(list[id as usize]));
        for (u, v) in (0..=MOST_WEIGHT).flat_map(|u| (0..=MOST_WEIGHT).map(move |v| (u, v))) {
            assert_eq!(ask(&lent, 0, u, v), Ok(blended(u.into(), v.into(), corners)), "{quad:?} {u} {v}");
        }
        assert!(lent.thresholds.kept() && lent.kept());
    }
}

// ---- at random

fn weight(rng: &mut Rng) -> u32 {
    match rng.below(8) {
        0 => rng.pick(&[257, 258, 512, 1 << 16, 1 << 31, u32::MAX]),
        1 => rng.pick(&[0, 256]),
        _ => rng.below(257) as u32,
    }
}

/// 20,000 hostile meshes, ten requests each.
#[test]
fn requests_on_hostile_meshes_are_the_models() {
    let mut rng = Rng(7);
    let mut counts = [0; 3];
    for _ in 0..20_000 {
        let lent = hostile(&mut rng);
        let model = lent.model();
        for _ in 0..10 {
            let quad = if rng.once_in(20) {
                rng.pick(&[u32::MAX, 1 << 31, 250_000])
            } else {
                rng.below(model.quads.len() + 1) as u32
            };
            let (u, v) = (weight(&mut rng), weight(&mut rng));
            let answer = ask(&lent, quad, u, v);
            assert_eq!(answer, model.estimate(quad, u, v), "{quad} {u} {v} {model:?}");
            counts[match answer {
                Ok(_) => 0,
                Err(number) => number as usize - 17,
            }] += 1;
        }
        assert!(lent.thresholds.kept() && lent.kept(), "{model:?}");
    }
    println!("answered {}, 18: {}, 19: {}", counts[0], counts[1], counts[2]);
    assert!(counts.into_iter().all(|times| times > 3_000), "{counts:?}");
}

/// An exam on a grid: after each threshold that is replaced, every estimate of the mesh has moved by no more than it, and only in quads that have the
/// node; a withdrawal turns the estimates of these into 18, and no other.
#[test]
fn one_threshold_moves_no_estimate_by_more() {
    let (wide, mut rng) = (5u32, Rng(77));
    let quads: Vec<u32> = (0..wide * wide)
        .map(|k| k / wide * (wide + 1) + k % wide)
        .flat_map(|a| [a, a + 1, a + wide + 2, a + wide + 1])
        .collect();
    let (coordinates, origins) = (vec![0.0; 36], vec![0; 36]);
    let (xs, ys, origins) = (&coordinates[..], &coordinates[..], &origins[..]);
    let mut exam =
        Exam::begin(LentMesh { nodes: 36, xs, ys, quad_count: 25, quads: &quads, origins, ..LentMesh::default() });
    for node in 0..36 {
        exam.desk().enter(node, rng.below(501) as u32).unwrap();
    }
    for _ in 0..300 {
        let (node, threshold) = (rng.below(36) as u32, rng.below(501) as u32);
        let by = threshold.abs_diff(exam.reader().threshold(node).unwrap());
        let (mut entered, mut withdrawn) = (exam.clone(), exam.clone());
        entered.desk().enter(node, threshold).unwrap();
        withdrawn.desk().withdraw(node).unwrap();
        for quad in 0..25u32 {
            let (u, v) = (rng.below(257) as u32, rng.below(257) as u32);
            let [before, after] = [&exam, &entered].map(|exam| exam.reader().estimate(quad, u, v).unwrap());
            let named = quads[4 * quad as usize..][..4].contains(&node);
            assert!(before.abs_diff(after) <= if named { by } else { 0 }, "{quad} {u} {v}");
            let left = withdrawn.reader().estimate(quad, u, v);
            assert_eq!(left, if named { Err(Refusal::NoQuad) } else { Ok(before) });
        }
        exam = entered;
    }
}
