//! Fields and their directions: every bit of record, values, marks and directions.

use std::collections::BTreeMap;
use std::iter;

use oracle::generate::Case;
use oracle::patched::Field;
use oracle::terms;
use sitjorbe::raw::direction;
use sitjorbe::{FieldRecord, Refusal};

use crate::blocks::{Blocks, Counts};
use crate::cases::{self, Record, Rng, Setting};
use crate::common::{Drawing, FieldPlaces, Guarded, Lent};

/// What was asked, and how it was answered.
#[derive(Default)]
struct Tally {
    answered: usize,
    refused: BTreeMap<u32, usize>,
    differences: Vec<String>,
}

impl Tally {
    fn note<T>(&mut self, answer: &Result<T, u32>, same: bool, what: impl FnOnce() -> String) {
        match answer {
            Ok(_) => self.answered += 1,
            Err(number) => *self.refused.entry(*number).or_default() += 1,
        }
        if !same {
            self.differences.push(what());
        }
    }

    /// Prints the figures; fails on a difference, or if some kind of answer is rare, 0 for those not refused.
    fn finish(self, what: &str, kinds: &[u32], fewest: usize) {
        let Tally { answered, refused, differences } = self;
        let asked = answered + refused.values().sum::<usize>();
        let numbers: Vec<String> = refused.iter().map(|(number, count)| format!("{number}: {count}")).collect();
        let (refused_text, different) = (numbers.join(", "), differences.len());
        println!("{what}: {asked}; answered {answered}, refused {refused_text}; {different} differences");
        assert!(differences.is_empty(), "{}", differences[..different.min(5)].join("\n"));
        for kind in kinds {
            let count = if *kind == 0 { answered } else { refused.get(kind).copied().unwrap_or(0) };
            assert!(count >= fewest, "{what}: {count} answers of kind {kind} are few");
        }
    }
}

fn number(refusal: terms::Refusal) -> u32 {
    u32::from(refusal.0)
}

fn bits(list: &[f64]) -> impl Iterator<Item = u64> + '_ {
    list.iter().map(|x| x.to_bits())
}

/// The fields asked for, and the directions asked of them.
#[derive(Default)]
struct Fields {
    fields: Tally,
    directions: Tally,
    nodes: usize,
    blocks: Counts,
}

impl Fields {
    /// Puts an outline and a setting to both, with a list of any kind for the blocks; then, where there is a field, points and targets.
    fn compare(&mut self, rng: &mut Rng, drawing: &Drawing, setting: Setting) {
        let kind = rng.pick(&Blocks::ALL);
        self.compare_with(rng, drawing, setting, kind);
    }

    fn compare_with(&mut self, rng: &mut Rng, drawing: &Drawing, setting: Setting, kind: Blocks) {
        let Setting { size, sweeps, values, marks } = setting;
        let Drawing { outer, holes, hole_lengths } = drawing;
        let outline = terms::Outline { outer, holes, hole_lengths };
        let reference = Field::new(outline, size, sweeps as u64, marks.min(values / 2) as u64).map_err(number);
        let blocks = kind.length(rng, drawing, reference.is_ok());

        let (lent, mut places) = (Lent::new(drawing), FieldPlaces::new(values, marks, blocks));
        let library = places.field(&lent.outline(), size, sweeps).map_err(Refusal::number);
        let nodes = library.map_or(0, |record| record.nodes());
        let kept = if library.is_ok() { places.kept_past(nodes) } else { places.kept() };
        assert!(lent.kept() && kept, "written: {drawing:?} {setting:?} {blocks}");
        let same = match (&library, &reference) {
            (Ok(record), Ok(field)) => same_field(record, &places, field),
            (Err(refused), Err(expected)) => refused == expected,
            _ => false,
        };
        self.nodes += nodes;
        self.fields.note(&library, same, || {
            let reference = reference.as_ref().map(Field::record);
            format!("{drawing:?} {setting:?} {blocks}:\n library {library:?}\n oracle  {reference:?}")
        });
        if let (Ok(record), Ok(field)) = (library, reference) {
            let wrong = self.blocks.note(kind, drawing, &record, places.blocks.list());
            assert_eq!(wrong, None, "{drawing:?} {setting:?} {blocks}");
            let (values, marks) = (&places.values.list()[..2 * nodes], &places.marks.list()[..nodes]);
            for _ in 0..4 {
                let (point, target) = (cases::point(rng, drawing), cases::target(rng));
                let answer = direction(&record, values, marks, point, target);
                compare_directions(&mut self.directions, answer, field.direction(point, target), || {
                    format!("{drawing:?} {setting:?} at {point:?} toward {target:?}")
                });
            }
        }
    }

    /// Prints the figures; fails as those of the fields, the directions and the blocks do.
    fn finish(self, what: &str, kinds: &[u32], fewest: usize, [fewest_lists, fewest_matter]: [usize; 2]) {
        let Fields { fields, directions, nodes, blocks } = self;
        assert_eq!(directions.refused.get(&11), None, "a field that was made is no record");
        fields.finish(&format!("{what}, fields with {nodes} nodes"), kinds, fewest);
        blocks.finish(what, fewest_lists, fewest_matter);
        directions.finish(&format!("{what}, directions of these fields"), &[0], fewest);
    }
}

/// Whether every bit of the record, the values and the marks is the same.
fn same_field(record: &FieldRecord, places: &FieldPlaces, field: &Field) -> bool {
    let FieldRecord { xmin, ymin, h, nx, ny } = *record;
    let expected = field.record();
    let nodes = field.marks().len();
    bits(&[xmin, ymin, h]).eq(bits(&[expected.xmin, expected.ymin, expected.h]))
        && (nx as u64, ny as u64) == (expected.nx, expected.ny)
        && bits(&places.values.list()[..2 * nodes]).eq(bits(field.values().as_flattened()))
        && places.marks.list()[..nodes].iter().copied().eq(field.marks().iter().map(|&mark| u8::from(mark)))
}

fn compare_directions(
    tally: &mut Tally,
    library: Result<[f64; 2], Refusal>,
    reference: Result<[f64; 2], terms::Refusal>,
    what: impl FnOnce() -> String,
) {
    let library = library.map(|floats| floats.map(f64::to_bits)).map_err(Refusal::number);
    let reference = reference.map(|floats| floats.map(f64::to_bits)).map_err(number);
    tally.note(&library, library == reference, || {
        format!("{}:\n library {library:x?}\n oracle  {reference:x?}", what())
    });
}

#[test]
fn fields_of_hostile_outlines() {
    let mut rng = Rng(3);
    let mut fields = Fields::default();
    for _ in 0..5_000 {
        let drawing = cases::field_drawing(&mut rng);
        let setting = cases::setting(&mut rng, &drawing);
        fields.compare(&mut rng, &drawing, setting);
    }
    fields.finish("hostile outlines", &[0, 1, 2, 3, 4, 5, 6, 7, 8, 9], 20, [100, 0]);
}

/// A generated outline of a kind, and what is lent for its field.
fn generated(kind: &str, place: u64) -> (Drawing, Setting) {
    let Some(Case::Pave { drawing, settings, lent }) = Case::new(kind, 1, place) else {
        panic!("the oracle generates outlines");
    };
    let terms::Drawing { outer, holes, hole_lengths } = drawing;
    let nodes = lent.field_nodes.min(2_500) as usize;
    let setting = Setting { size: settings.size, sweeps: settings.sweeps as usize, values: 2 * nodes, marks: nodes };
    (Drawing { outer, holes, hole_lengths }, setting)
}

#[test]
fn fields_of_drawings() {
    let kinds =
        ["visual", "lattice", "concave", "crossing", "holes", "degenerate", "sizes", "settings", "lists", "tight"];
    let mut rng = Rng(4);
    let mut fields = Fields::default();
    for (kind, place) in kinds.into_iter().flat_map(|kind| iter::repeat(kind).zip(0..400)) {
        let (drawing, setting) = generated(kind, place);
        fields.compare(&mut rng, &drawing, setting);
    }
    fields.finish("visual fields and other drawings", &[0, 1, 2, 3, 4, 5, 6, 7, 8, 9], 1, [100, 0]);
}

#[test]
fn fields_of_several_blocks() {
    let mut rng = Rng(11);
    let mut fields = Fields::default();
    for _ in 0..500 {
        let (drawing, size) = (cases::several_blocks(&mut rng), cases::several_blocks_size(&mut rng));
        let setting = Setting { size, sweeps: rng.pick(&[0, 1, 3, 20]), values: 5_000, marks: 2_500 };
        for kind in Blocks::ALL {
            fields.compare_with(&mut rng, &drawing, setting, kind);
        }
    }
    fields.finish("outlines of several blocks", &[0], 1_900, [200, 500]);
}

/// The greatest difference of a value from the plain Rust's; none where both refuse. All but the values must be the same.
fn from_plain(drawing: &Drawing, setting: Setting) -> Option<f64> {
    let Setting { size, sweeps, values, marks } = setting;
    let Drawing { outer, holes, hole_lengths } = drawing;
    let mut places = FieldPlaces::new(values, marks, 2 * drawing.points());
    let library = places.field(&drawing.outline(), size, sweeps).map_err(Refusal::number);
    let outline = terms::Outline { outer, holes, hole_lengths };
    let plain = oracle::plain::Field::new(outline, size, sweeps as u64, marks as u64).map_err(number);
    let (record, field) = match (library, plain) {
        (Ok(record), Ok(field)) => (record, field),
        (library, plain) => {
            assert_eq!(library.err(), plain.err(), "{drawing:?} {setting:?}");
            return None;
        }
    };
    let marks = places.marks.list()[..record.nodes()].iter().map(|&mark| mark == 1);
    assert!(marks.eq(field.marks().iter().copied()), "{drawing:?} {setting:?}");
    assert_eq!([record.xmin, record.ymin, record.h], [field.record().xmin, field.record().ymin, field.record().h]);
    let pairs = places.values.list().iter().zip(field.values().as_flattened());
    Some(pairs.map(|(ours, theirs)| (ours - theirs).abs()).fold(0.0, f64::max))
}

#[test]
fn fields_of_the_plain_rust() {
    for kind in ["visual", "lattice", "concave", "crossing", "holes", "degenerate"] {
        let found = (0..400).map(|place| generated(kind, place));
        let differences: Vec<f64> = found.filter_map(|(drawing, setting)| from_plain(&drawing, setting)).collect();
        let count = |most: f64| differences.iter().filter(|&&difference| difference <= most).count();
        let near = differences.iter().copied().filter(|&difference| difference <= 1e-6).fold(0.0, f64::max);
        println!(
            "the plain Rust's fields, {kind}: {} made, {} with equal values, {} within {near:.1e}, {} further",
            differences.len(),
            count(0.0),
            count(1e-6) - count(0.0),
            differences.len() - count(1e-6)
        );
        assert!(differences.len() >= 200, "few fields of kind {kind} are made");
    }
}

#[test]
fn fields_of_many_nodes() {
    let mut rng = Rng(5);
    let mut fields = Fields::default();
    for (place, (size, sweeps)) in [(0.01, 2), (0.1, 0), (0.5, 5), (1.0, 30)].into_iter().enumerate() {
        let Some(Case::Pave { drawing, .. }) = Case::new("visual", 2, place as u64) else {
            panic!("the oracle generates outlines");
        };
        let terms::Drawing { outer, holes, hole_lengths } = drawing;
        let setting = Setting { size, sweeps, values: 500_000, marks: 250_000 };
        fields.compare(&mut rng, &Drawing { outer, holes, hole_lengths }, setting);
    }
    for drawing in cases::about_most_points(&mut rng) {
        for (size, sweeps) in [(100.0, 1_000), (20.0, 3)] {
            fields.compare(&mut rng, &drawing, Setting { size, sweeps, values: 40_000, marks: 20_000 });
        }
    }
    fields.finish("many nodes or points", &[0, 1], 6, [0, 0]);
}

/// Puts sixteen points and targets to both, of a record in guarded lists.
fn compare_record(tally: &mut Tally, rng: &mut Rng, lent: &Record) {
    let Record { record, values, marks } = lent;
    let FieldRecord { xmin, ymin, h, nx, ny } = *record;
    let fixed: Vec<bool> = marks.iter().map(|&mark| mark != 0).collect();
    let terms_record = terms::FieldRecord { xmin, ymin, h, nx: nx as u64, ny: ny as u64 };
    let reference = Field::lent(terms_record, values, &fixed);
    let (guarded_values, guarded_marks) = (Guarded::new(values), Guarded::new(marks));
    for _ in 0..16 {
        let (point, target) = (cases::grid_point(rng, record), cases::target(rng));
        let answer = direction(record, guarded_values.list(), guarded_marks.list(), point, target);
        let expected = reference.as_ref().map_err(|refusal| *refusal).and_then(|field| field.direction(point, target));
        compare_directions(tally, answer, expected, || format!("{record:?} {values:?} at {point:?} toward {target:?}"));
    }
    assert!(guarded_values.kept() && guarded_marks.kept(), "written: {record:?}");
}

#[test]
fn directions_of_records() {
    let mut rng = Rng(6);
    let mut tally = Tally::default();
    for _ in 0..6_500 {
        let record = cases::record(&mut rng);
        compare_record(&mut tally, &mut rng, &record);
    }
    assert_eq!(tally.refused.get(&11), None, "a record is refused");
    tally.finish("directions of records", &[0, 3, 4], 1_000);
}

#[test]
fn directions_of_broken_records() {
    let mut rng = Rng(7);
    let mut tally = Tally::default();
    let each = 120;
    for condition in 0..cases::CONDITIONS {
        for _ in 0..each {
            let mut record = cases::record(&mut rng);
            cases::break_condition(&mut rng, &mut record, condition);
            compare_record(&mut tally, &mut rng, &record);
        }
        assert_eq!(tally.refused.get(&11), Some(&(16 * each * (condition + 1))), "condition {condition} isn't broken");
    }
    tally.finish("directions of records with one condition broken", &[11], 20_000);
}
