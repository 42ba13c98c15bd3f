//! Directions for a whole list beside a model of its own, written from SCOPE: three floats a point, and what refuses the list.

mod common;

use common::rng::Rng;
use common::{bits, Guarded};
use sitjorbe::raw::{direction, directions, directions_in};
use sitjorbe::{ffi, FieldRecord, Refusal};

/// What is lent: the record with its lists, and the three lists of the call.
#[derive(Clone, Debug)]
struct Asked {
    record: FieldRecord,
    values: Vec<f64>,
    marks: Vec<u8>,
    points: Vec<f64>,
    targets: Vec<f64>,
    answers: Vec<f64>,
}

// ---- the model

/// Both of a pair divided by its norm.
fn unit([a, b]: [f64; 2]) -> [f64; 2] {
    let norm = (a * a + b * b).sqrt();
    [a / norm, b / norm]
}

/// Half a pair's angle.
fn half([a, b]: [f64; 2]) -> [f64; 2] {
    let norm = (a * a + b * b).sqrt();
    let up = norm - a;
    match a >= 0.0 {
        true => unit([a + norm, b]),
        false => unit([b.abs(), if b < 0.0 { -up } else { up }]),
    }
}

impl Asked {
    /// The number of what refuses the whole list, and the answer list as it is left.
    fn model(&self) -> (u32, Vec<f64>) {
        let Asked { points, targets, answers, .. } = self;
        let half_a_point = points.len() % 2 == 1 || targets.len() % 2 == 1;
        if points.len() != targets.len() || half_a_point || answers.len() < points.len() / 2 * 3 {
            return (14, answers.clone());
        }
        if !self.is_record() {
            return (11, answers.clone());
        }
        let mut left = answers.clone();
        for (k, (point, target)) in points.chunks(2).zip(targets.chunks(2)).enumerate() {
            let number = match () {
                () if point.iter().any(|x| !x.is_finite()) => 3.0,
                () if point.iter().any(|x| x.abs() > 1_000.0) => 4.0,
                () => 0.0,
            };
            let [x, y] =
                if number == 0.0 { self.toward([point[0], point[1]], [target[0], target[1]]) } else { [0.0; 2] };
            left.splice(3 * k..3 * k + 3, [number, x, y]);
        }
        (0, left)
    }

    fn is_record(&self) -> bool {
        let FieldRecord { xmin, ymin, h, nx, ny } = self.record;
        let nodes = nx.checked_mul(ny).filter(|nodes| nx >= 2 && ny >= 2 && *nodes <= 250_000);
        nodes == Some(self.marks.len())
            && self.values.len() == 2 * self.marks.len()
            && (0.001..=1_000.0).contains(&h)
            && [xmin, ymin].iter().all(|x| x.abs() <= 2_000.0)
            && self.values.iter().all(|x| x.abs() <= 4.0)
    }

    fn toward(&self, [x, y]: [f64; 2], target: [f64; 2]) -> [f64; 2] {
        let FieldRecord { xmin, ymin, h, nx, ny } = self.record;
        let cell = |across: f64, n: usize| (across.floor() as isize).clamp(0, n as isize - 2) as usize;
        let (across, up) = ((x - xmin) / h, (y - ymin) / h);
        let (i, j) = (cell(across, nx), cell(up, ny));
        let (s, t) = ((across - i as f64).clamp(0.0, 1.0), (up - j as f64).clamp(0.0, 1.0));
        let value = |i: usize, j: usize, axis: usize| self.values[2 * (j * nx + i) + axis];
        let weights = [(1.0 - s) * (1.0 - t), s * (1.0 - t), (1.0 - s) * t, s * t];
        let [a, b] = [0, 1].map(|axis| {
            weights[0] * value(i, j, axis)
                + weights[1] * value(i + 1, j, axis)
                + weights[2] * value(i, j + 1, axis)
                + weights[3] * value(i + 1, j + 1, axis)
        });
        let [c, s] = if (a * a + b * b).sqrt() <= 1e-12 { [1.0, 0.0] } else { half(half([a, b])) };
        let dot = |[x, y]: [f64; 2]| x * target[0] + y * target[1];
        let mut best = [c, s];
        for other in [[-s, c], [-c, -s], [s, -c]] {
            if dot(other) > dot(best) {
                best = other;
            }
        }
        best
    }
}

// ---- the library

/// The entry's number and the answer list as it is left, with every list between guards.
fn asked(lent: &Asked) -> (u32, Vec<f64>) {
    let FieldRecord { xmin, ymin, h, nx, ny } = lent.record;
    let [mut values, mut points, mut targets] =
        [&lent.values, &lent.points, &lent.targets].map(|list| Guarded::new(list));
    let (mut marks, mut answers) = (Guarded::new(&lent.marks), Guarded::new(&lent.answers));
    let [(values_at, values_len), (points_at, points_len), (targets_at, targets_len)] =
        [values.parts(), points.parts(), targets.parts()];
    let ((marks_at, marks_len), (answers_at, answers_len)) = (marks.parts(), answers.parts());
    // SAFETY: each pointer comes with its list's length, and those of the answers may be written through.
    let number = unsafe {
        ffi::sitjorbe_directions(
            xmin,
            ymin,
            h,
            nx,
            ny,
            values_at,
            values_len,
            marks_at,
            marks_len,
            points_at,
            points_len,
            targets_at,
            targets_len,
            answers_at.cast_mut(),
            answers_len,
        )
    };
    assert!(values.kept() && marks.kept() && points.kept() && targets.kept(), "{lent:?}: a list that is only read");
    let written = if number == 0 { 3 * (lent.points.len() / 2) } else { 0 };
    assert!(answers.kept_from(written), "{lent:?}: written past the answers, or on a refusal");
    (number, answers.list().to_vec())
}

fn agrees(lent: &Asked) -> u32 {
    let ((number, left), (expected, model)) = (asked(lent), lent.model());
    assert_eq!((number, bits(&left)), (expected, bits(&model)), "{lent:?}\nanswered {left:?}\nmodel {model:?}");
    number
}

/// Two by two nodes a unit apart from (0, 0) on, all with the value (1, 0).
fn along_x(points: &[[f64; 2]], targets: &[[f64; 2]]) -> Asked {
    Asked {
        record: FieldRecord { xmin: 0.0, ymin: 0.0, h: 1.0, nx: 2, ny: 2 },
        values: [1.0, 0.0].repeat(4),
        marks: vec![1; 4],
        points: points.concat(),
        targets: targets.concat(),
        answers: vec![7.5; 3 * points.len()],
    }
}

/// Each way in which a record isn't one.
fn broken(lent: &Asked) -> Vec<Asked> {
    let of = |record: FieldRecord| Asked { record, ..lent.clone() };
    let FieldRecord { nx, ny, .. } = lent.record;
    let mut all = vec![
        of(FieldRecord { nx: 1, ny: nx * ny, ..lent.record }),
        of(FieldRecord { nx: nx * ny, ny: 1, ..lent.record }),
        of(FieldRecord { nx: 0, ..lent.record }),
        of(FieldRecord { ny: usize::MAX, ..lent.record }),
        of(FieldRecord { nx: 1 << 63, ny: 2, ..lent.record }),
        of(FieldRecord { h: 0.0, ..lent.record }),
        of(FieldRecord { h: f64::NAN, ..lent.record }),
        of(FieldRecord { xmin: 2_000f64.next_up(), ..lent.record }),
        of(FieldRecord { ymin: f64::INFINITY, ..lent.record }),
        Asked { marks: vec![], ..lent.clone() },
        Asked { values: lent.values[1..].to_vec(), ..lent.clone() },
    ];
    for value in [f64::NAN, f64::INFINITY, 4f64.next_up(), -(4f64.next_up())] {
        let mut values = lent.values.clone();
        *values.last_mut().unwrap() = value;
        all.push(Asked { values, ..lent.clone() });
    }
    all
}

/// A coordinate: mostly within the grid, else any.
fn coordinate(rng: &mut Rng) -> f64 {
    match rng.below(12) {
        0 => rng.pick(&[f64::NAN, f64::INFINITY, f64::NEG_INFINITY]),
        1 => rng.pick(&[1e3, -1e3, 1e3f64.next_up(), -(1e3f64.next_up()), f64::MAX]),
        2 => rng.pick(&[0.0, -0.0, f64::MIN_POSITIVE, 5e-324, -5e-324]),
        3 => f64::from_bits(rng.next()),
        4 => rng.below(7) as f64 - 1.0,
        _ => 4.0 * rng.unit() + 2.0,
    }
}

/// A target's: any float.
fn target(rng: &mut Rng) -> f64 {
    match rng.below(6) {
        0 => rng.pick(&[f64::NAN, f64::INFINITY, f64::NEG_INFINITY, f64::MAX, f64::MIN]),
        1 => rng.pick(&[0.0, -0.0, 1.0, -1.0, 5e-324]),
        2 => f64::from_bits(rng.next()),
        _ => rng.unit(),
    }
}

fn value(rng: &mut Rng) -> f64 {
    match rng.below(8) {
        0 => rng.pick(&[0.0, -0.0, 1.0, -1.0, 4.0, -4.0, 1e-13, -5e-324]),
        _ => 1.2 * rng.unit(),
    }
}

/// Those of so many nodes; a fourth of the fields lie along the axes throughout.
fn values(rng: &mut Rng, nodes: usize) -> Vec<f64> {
    match rng.once_in(4) {
        true => rng.pick(&[[1.0, 0.0], [-1.0, 0.0], [1.0, -0.0], [0.0, 0.0]]).repeat(nodes),
        false => (0..2 * nodes).map(|_| value(rng)).collect(),
    }
}

/// A list of up to six points on a record, with some places past the answers and anything in them.
fn at_random(rng: &mut Rng) -> Asked {
    let (nx, ny, count) = (rng.between(2, 6), rng.between(2, 6), rng.below(7));
    let places = 3 * count + rng.below(5);
    Asked {
        record: FieldRecord { xmin: rng.unit(), ymin: rng.unit(), h: 0.3 + rng.unit().abs(), nx, ny },
        values: values(rng, nx * ny),
        marks: (0..nx * ny).map(|_| rng.next() as u8).collect(),
        points: (0..2 * count).map(|_| coordinate(rng)).collect(),
        targets: (0..2 * count).map(|_| target(rng)).collect(),
        answers: (0..places).map(|_| f64::from_bits(rng.next())).collect(),
    }
}

#[test]
fn each_answer_is_the_models_and_the_single_querys() {
    let mut rng = Rng(1);
    let mut seen = [0; 4];
    for _ in 0..20_000 {
        let lent = at_random(&mut rng);
        assert_eq!(agrees(&lent), 0);
        let (points, targets) = (lent.points.as_chunks().0, lent.targets.as_chunks().0);
        let all = directions(&lent.record, &lent.values, &lent.marks, points, targets).unwrap();
        let single: Vec<_> = (points.iter().zip(targets))
            .map(|(point, target)| direction(&lent.record, &lent.values, &lent.marks, *point, *target))
            .collect();
        assert_eq!(all.len(), points.len());
        for (one, other) in all.iter().zip(&single) {
            assert_eq!(one.map(|d| d.map(f64::to_bits)), other.map(|d| d.map(f64::to_bits)), "{lent:?}");
            let kind = match one {
                Err(Refusal::NotFinite) => 0,
                Err(Refusal::TooFar) => 1,
                Err(other) => panic!("{other}"),
                Ok(d) if d.iter().any(|x| *x == 0.0 && x.is_sign_negative()) => 2,
                Ok(_) => 3,
            };
            seen[kind] += 1;
        }
    }
    assert!(seen.iter().all(|times| *times > 500), "refused with 3 and 4, with a -0.0, and others: {seen:?}");
}

#[test]
fn lists_that_do_not_fit_go_before_the_record() {
    let mut rng = Rng(2);
    let mut seen = [0; 15];
    for _ in 0..4_000 {
        let mut lent = at_random(&mut rng);
        let count = lent.points.len() / 2;
        lent.points.resize(rng.pick(&[2 * count, 2 * count + 1, 2 * count + 2]), 0.5);
        lent.targets.resize(rng.pick(&[2 * count, 2 * count, 2 * count + 1, lent.points.len()]), 0.5);
        lent.answers.resize(rng.pick(&[3 * count, (3 * count).saturating_sub(1), 2 * count, 3 * count + 3]), 7.5);
        seen[agrees(&lent) as usize] += 1;
        for lent in broken(&lent) {
            let number = agrees(&lent);
            assert!(number == 11 || number == 14, "{lent:?}");
            seen[number as usize] += 1;
        }
    }
    assert!([0, 11, 14].iter().all(|number| seen[*number] > 500), "{seen:?}");
}

/// What is wrong, the lengths of points, targets and answers, and the number on a sound record.
const LENGTHS: [(&str, usize, usize, usize, u32); 14] = [
    ("no points", 0, 0, 0, 0),
    ("no points, and places", 0, 0, 4, 0),
    ("half a point", 1, 1, 0, 14),
    ("half a point, and places", 1, 1, 6, 14),
    ("a point and a half", 3, 3, 6, 14),
    ("a target more", 2, 4, 6, 14),
    ("a target less", 4, 2, 6, 14),
    ("half a target more", 2, 3, 6, 14),
    ("no target", 2, 0, 6, 14),
    ("no places", 2, 2, 0, 14),
    ("two places a point", 4, 4, 4, 14),
    ("a place too few", 4, 4, 5, 14),
    ("enough", 4, 4, 6, 0),
    ("a place too many", 4, 4, 7, 0),
];

#[test]
fn lengths_decide_before_the_record_does() {
    for (what, points, targets, answers, number) in LENGTHS {
        let [points, targets, answers] = [points, targets, answers].map(|length| vec![0.5; length]);
        let lent = Asked { points, targets, answers, ..along_x(&[], &[]) };
        assert_eq!(agrees(&lent), number, "{what}");
        for lent in broken(&lent) {
            assert_eq!(agrees(&lent), if number == 14 { 14 } else { 11 }, "{what}, and {:?}", lent.record);
        }
    }
}

#[test]
fn zeros_keep_their_signs_and_targets_may_be_any_floats() {
    let toward = |target: [f64; 2]| {
        let lent = along_x(&[[0.5, 0.5]], &[target]);
        agrees(&lent);
        asked(&lent).1
    };
    assert_eq!(bits(&toward([-1.0, 0.0])), bits(&[0.0, -1.0, -0.0]));
    assert_eq!(bits(&toward([0.0, 1.0])), bits(&[0.0, -0.0, 1.0]));
    assert_eq!(bits(&toward([0.0, -1.0])), bits(&[0.0, 0.0, -1.0]));
    // A dot product that isn't a number never wins: (1, 0) is the first.
    for x in [f64::NAN, f64::INFINITY, f64::NEG_INFINITY] {
        assert_eq!(bits(&toward([x, f64::NAN])), bits(&[0.0, 1.0, 0.0]));
        // Infinity times 0 is none, so of one infinite coordinate every product is.
        assert_eq!(bits(&toward([x, 0.0])), bits(&toward([x, 1.0])));
    }
    assert_eq!(bits(&toward([0.0, 0.0])), bits(&[0.0, 1.0, 0.0]), "the first of equals");
}

#[test]
fn a_refused_point_stands_among_the_answers() {
    let points = [[0.5, 0.5], [f64::NAN, 2e3], [0.5, 1e3f64.next_up()], [1e3, -1e3], [0.0, f64::INFINITY]];
    let lent = Asked { answers: vec![f64::NAN; 17], ..along_x(&points, &[[0.0, 1.0]; 5]) };
    assert_eq!(agrees(&lent), 0);
    let left = asked(&lent).1;
    let numbers: Vec<f64> = left.chunks_exact(3).map(|answer| answer[0]).collect();
    assert_eq!(numbers, [0.0, 3.0, 4.0, 0.0, 3.0]);
    assert!([1, 2, 4].iter().all(|k| bits(&left[3 * k + 1..3 * k + 3]) == [0, 0]), "two zeros: {left:?}");
    assert!(left[15..].iter().all(|place| place.is_nan()), "the places past the answers: {left:?}");

    let all = directions(&lent.record, &lent.values, &lent.marks, &points, &[[0.0, 1.0]; 5]).unwrap();
    let up = Ok([0.0, 1.0]);
    assert_eq!(all, [up, Err(Refusal::NotFinite), Err(Refusal::TooFar), up, Err(Refusal::NotFinite)]);
}

#[test]
fn the_wrapper_has_a_place_for_each_answer() {
    let lent = along_x(&[], &[]);
    let (points, targets) = ([[0.25, 0.5]; 3], [[-1.0, 0.1]; 3]);
    for places in 0..6 {
        let mut answers = vec![[7.5; 3]; places];
        let found = directions_in(&lent.record, &lent.values, &lent.marks, &points, &targets, &mut answers)
            .map(Iterator::collect::<Vec<_>>);
        let expected = if places < 3 { Err(Refusal::AnswerLists) } else { Ok(vec![Ok([-1.0, 0.0]); 3]) };
        assert_eq!(found, expected, "{places} places");
        let written = if places < 3 { 0 } else { 3 };
        assert!(answers[written..].iter().all(|place| *place == [7.5; 3]), "{places} places");
    }
    let ask = |targets: &[[f64; 2]], record| directions(record, &lent.values, &lent.marks, &points, targets);
    let none = FieldRecord { nx: 1, ..lent.record };
    assert_eq!(ask(&targets[..2], &lent.record), Err(Refusal::AnswerLists));
    assert_eq!(ask(&targets[..2], &none), Err(Refusal::AnswerLists));
    assert_eq!(ask(&targets, &none), Err(Refusal::NoFieldRecord));
    assert_eq!(directions(&none, &lent.values, &lent.marks, &[], &[]), Err(Refusal::NoFieldRecord));
    assert_eq!(directions(&lent.record, &lent.values, &lent.marks, &[], &[]), Ok(vec![]));
}
