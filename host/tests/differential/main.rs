//! The library beside the oracle: the same queries to both, every bit of the answers compared.
//!
//! The oracle is the reference's own text, so this runs only where it is at hand; `host/test` says which.

extern crate oracle;

mod blocks;
mod cases;
#[path = "../common/mod.rs"]
mod common;
mod fields;
mod paving;
mod steps;

use std::collections::BTreeMap;

use cases::Rng;
use common::{Drawing, Lent};
use oracle::generate::Case;
use oracle::patched::Region;
use oracle::terms;
use sitjorbe::raw::{contains, distance_to_boundary, nearest_segment, Outline};
use sitjorbe::{Refusal, Segment};

/// What a query is answered by all three entries: refusals as numbers, floats as bits.
#[derive(Debug, PartialEq)]
struct Answers {
    contains: Result<bool, u32>,
    nearest: Result<[u64; 5], u32>,
    distance: Result<u64, u32>,
}

impl Answers {
    fn of_library(outline: &Outline<'_>, point: [f64; 2]) -> Answers {
        let bits = |Segment { a, b, distance, .. }| [a[0], a[1], b[0], b[1], distance].map(f64::to_bits);
        Answers {
            contains: contains(outline, point).map_err(Refusal::number),
            nearest: nearest_segment(outline, point).map(bits).map_err(Refusal::number),
            distance: distance_to_boundary(outline, point).map(f64::to_bits).map_err(Refusal::number),
        }
    }

    fn of_oracle(region: &Result<Region, terms::Refusal>, point: [f64; 2]) -> Answers {
        let region = region.as_ref().map_err(|refusal| *refusal);
        let number = |refusal: terms::Refusal| u32::from(refusal.0);
        let bits = |(a, b, d): ([f64; 2], [f64; 2], f64)| [a[0], a[1], b[0], b[1], d].map(f64::to_bits);
        Answers {
            contains: region.and_then(|region| region.contains(point)).map_err(number),
            nearest: region.and_then(|region| region.nearest_segment(point)).map(bits).map_err(number),
            distance: region.and_then(|region| region.distance_to_boundary(point)).map(f64::to_bits).map_err(number),
        }
    }
}

/// What was asked, and how it was answered.
#[derive(Default)]
struct Tally {
    queries: usize,
    inside: usize,
    outside: usize,
    refused: BTreeMap<u32, usize>,
    differences: Vec<String>,
}

impl Tally {
    /// Puts an outline and points to both.
    fn compare(&mut self, drawing: &Drawing, points: impl IntoIterator<Item = [f64; 2]>) {
        let Drawing { outer, holes, hole_lengths } = drawing;
        let region = Region::new(terms::Outline { outer, holes, hole_lengths });
        let lent = Lent::new(drawing);
        for point in points {
            let library = Answers::of_library(&lent.outline(), point);
            let reference = Answers::of_oracle(&region, point);
            self.queries += 1;
            match library.contains {
                Ok(true) => self.inside += 1,
                Ok(false) => self.outside += 1,
                Err(number) => *self.refused.entry(number).or_default() += 1,
            }
            if library != reference {
                self.differences
                    .push(format!("{drawing:?} {point:?}:\n library {library:x?}\n oracle  {reference:x?}"));
            }
            assert!(lent.kept(), "written: {drawing:?} {point:?}");
        }
    }

    /// Prints the figures; fails on a difference, or if some kind of answer is rare.
    fn finish(self, what: &str, fewest: usize) {
        let Tally { queries, inside, outside, refused, differences } = self;
        let refused_text: Vec<String> = refused.iter().map(|(number, count)| format!("{number}: {count}")).collect();
        println!(
            "{what}: {queries} queries, each to three entries; inside {inside}, outside {outside}, refused {}; {} differences",
            refused_text.join(", "),
            differences.len()
        );
        assert!(differences.is_empty(), "{}", differences[..differences.len().min(5)].join("\n"));
        let counts =
            [inside, outside].into_iter().chain((1..=4).map(|number| refused.get(&number).copied().unwrap_or(0)));
        assert!(counts.min() >= Some(fewest), "a kind of answer is rare");
    }
}

#[test]
fn hostile_queries() {
    let mut rng = Rng(1);
    let mut tally = Tally::default();
    for _ in 0..15_000 {
        let drawing = cases::drawing(&mut rng);
        let points: Vec<[f64; 2]> = (0..12).map(|_| cases::point(&mut rng, &drawing)).collect();
        tally.compare(&drawing, points);
    }
    tally.finish("hostile outlines", 1_000);
}

#[test]
fn fields_as_drawn() {
    let mut tally = Tally::default();
    for place in 0..4_000 {
        let Some(Case::Queries { drawing, points }) = Case::new("queries", 1, place) else {
            panic!("the oracle generates queries");
        };
        let terms::Drawing { outer, holes, hole_lengths } = drawing;
        tally.compare(&Drawing { outer, holes, hole_lengths }, points);
    }
    tally.finish("visual fields and other drawings", 100);
}

#[test]
fn outlines_of_many_points() {
    let mut rng = Rng(2);
    let mut tally = Tally::default();
    let many = [4_098, 65_535, 200_000].map(|points| cases::large(&mut rng, points));
    for drawing in cases::about_most_points(&mut rng).into_iter().chain(many) {
        let asked: Vec<[f64; 2]> = (0..200).map(|_| cases::point(&mut rng, &drawing)).collect();
        tally.compare(&drawing, asked);
    }
    assert_eq!(tally.refused.get(&1), Some(&1_200), "of 4,097 points and more");
    tally.finish("outlines of about 4,096 points", 0);
}
