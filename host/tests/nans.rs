//! The bits of NaNs that are lent. A contract has one NaN, and can't see its bits: here no call changes those of any list, of a refused call nowhere, and of one
//! that ends nowhere past what it answers.

mod common;

use common::{list_lengths, Drawing, RunPlaces};
use sitjorbe::raw::{
    contains, distance_to_boundary, field, nearest_segment, pave_numbers, preview_numbers, step_numbers, steps_numbers,
    Ground, Lists, MeshCounts, MeshLists, MeshRead, Settings,
};
use sitjorbe::{ffi, FieldRecord, Places};

/// NaNs of either sign, quiet and signalling, each with bits of its own.
fn payload(k: usize) -> f64 {
    let head = [0x7ff8_0000_0000_0000, 0xfff8_0000_0000_0000, 0x7ff0_0000_0000_0000, 0xfff0_0000_0000_0000];
    f64::from_bits(head[k % 4] | (0x0001_2345_0000_0000 + k as u64 + 1))
}

fn payloads(n: usize) -> Vec<f64> {
    (0..n).map(payload).collect()
}

/// From which place on a list has the bits that `payloads` gave it.
fn kept_from(list: &[f64]) -> usize {
    list.iter().enumerate().rposition(|(k, x)| x.to_bits() != payload(k).to_bits()).map_or(0, |k| k + 1)
}

/// The settings of a run, its outline, and the number that refuses it.
fn runs() -> Vec<(Drawing, Settings, Places, u32)> {
    let set = Settings { size: 1.0, sweeps: 400, passes: 600 };
    let enough = Places { field_nodes: 100, nodes: 40, quads: 20, edges: 90, points: 8 };
    let square = Drawing::square(2.0);
    let with = |k: usize, x: f64| {
        let mut drawing = square.clone();
        drawing.outer[k] = x;
        drawing
    };
    vec![
        (square.clone(), set, enough, 0),
        (square.clone(), Settings { passes: 0, ..set }, enough, 0),
        (square.clone(), set, Places { nodes: 8, ..enough }, 0),
        (with(3, payload(3)), set, enough, 3),
        (with(0, 1e4), set, enough, 4),
        (square.clone(), Settings { size: payload(1), ..set }, enough, 5),
        (square.clone(), Settings { sweeps: 1_001, ..set }, enough, 8),
        (square.clone(), set, Places { field_nodes: 3, ..enough }, 9),
        (square, set, Places { nodes: 3, ..enough }, 10),
    ]
}

fn fill(lists: &mut Lists<'_>) {
    for list in [&mut *lists.values, &mut *lists.xs, &mut *lists.ys] {
        list.iter_mut().enumerate().for_each(|(k, x)| *x = payload(k));
    }
}

#[test]
fn a_run_keeps_them() {
    for (drawing, settings, places, refusal) in runs() {
        let mut memory = RunPlaces::new(list_lengths(places));
        let mut lists = memory.lists();
        fill(&mut lists);
        let bits: Vec<u64> = drawing.outer.iter().map(|x| x.to_bits()).collect();
        let answer = pave_numbers(&drawing.outline(), &settings, &mut lists);
        let Lists { values, xs, ys, .. } = lists;
        assert_eq!(answer.refusal, refusal, "{drawing:?}");
        let (floats, nodes) = (2 * answer.nx * answer.ny, answer.nodes as usize);
        assert_eq!([values, xs, ys].map(|list| kept_from(list)), [floats, nodes, nodes], "{drawing:?}");
        assert_eq!(drawing.outer.iter().map(|x| x.to_bits()).collect::<Vec<_>>(), bits);
    }
}

#[test]
fn a_field_and_queries_keep_them() {
    for (drawing, settings, places, _) in runs() {
        let (mut values, mut marks) = (payloads(2 * places.field_nodes), vec![7; places.field_nodes]);
        let bits: Vec<u64> = drawing.outer.iter().map(|x| x.to_bits()).collect();
        let outline = drawing.outline();
        let made = field(&outline, settings.size, settings.sweeps, &mut values, &mut marks, &mut []);
        assert_eq!(kept_from(&values), made.map_or(0, |record| 2 * record.nodes()), "{drawing:?}");
        for point in [[0.5, 0.5], [payload(0), 0.0], [0.0, payload(2)]] {
            let _ =
                (contains(&outline, point), nearest_segment(&outline, point), distance_to_boundary(&outline, point));
        }
        assert_eq!(drawing.outer.iter().map(|x| x.to_bits()).collect::<Vec<_>>(), bits);
    }
}

/// The numbers of a list of directions, in lists of floats.
fn directions_numbers(record: &FieldRecord, lists: [&[f64]; 3], marks: &[u8], answers: &mut [f64]) -> u32 {
    let FieldRecord { xmin, ymin, h, nx, ny } = *record;
    let [(values, values_len), (points, points_len), (targets, targets_len)] =
        lists.map(|list| (list.as_ptr(), list.len()));
    let (marks, marks_len, to, to_len) = (marks.as_ptr(), marks.len(), answers.as_mut_ptr(), answers.len());
    // SAFETY: each pointer comes with the length of its slice, and the answers' is borrowed for writing.
    unsafe {
        ffi::sitjorbe_directions(
            xmin,
            ymin,
            h,
            nx,
            ny,
            values,
            values_len,
            marks,
            marks_len,
            points,
            points_len,
            targets,
            targets_len,
            to,
            to_len,
        )
    }
}

#[test]
fn directions_keep_them() {
    let record = FieldRecord { xmin: 0.0, ymin: 0.0, h: 1.0, nx: 2, ny: 2 };
    let (good, marks) = ([1.0, 0.0].repeat(4), [1; 4]);
    let bad = payloads(8);
    let (points, targets) = ([0.5, 0.5, payload(0), 0.5, 0.5, 1.5], payloads(6));
    for (values, points, places, number) in [
        (&good, &points[..], 12, 0),
        (&good, &points[..], 8, 14),
        (&good, &points[..4], 12, 14),
        (&bad, &points[..], 12, 11),
    ] {
        let mut answers = payloads(places);
        let lists = [&values[..], points, &targets];
        assert_eq!(directions_numbers(&record, lists, &marks, &mut answers), number);
        assert_eq!(kept_from(&answers), if number == 0 { 9 } else { 0 });
        assert_eq!((kept_from(&bad), kept_from(&targets)), (0, 0));
        assert_eq!(points[2].to_bits(), payload(0).to_bits());
    }
}

/// A mesh with payloads past its nodes, stepped, looked at and shown in the bowl's steps: sound, and with a payload for a coordinate.
#[test]
fn steps_keep_them() {
    let drawing = Drawing::square(2.0);
    let settings = Settings { size: 1.0, sweeps: 400, passes: 0 };
    let enough = Places { field_nodes: 100, nodes: 40, quads: 20, edges: 90, points: 8 };
    for unsound in [false, true] {
        let mut memory = RunPlaces::new(list_lengths(enough));
        let mut lists = memory.lists();
        fill(&mut lists);
        let paved = pave_numbers(&drawing.outline(), &settings, &mut lists);
        let Lists { values, marks, xs, ys, next, prev, origins, quads, edges, .. } = lists;
        if unsound {
            xs[0] = payload(0);
        }
        let record = FieldRecord { xmin: paved.xmin, ymin: paved.ymin, h: paved.h, nx: paved.nx, ny: paved.ny };
        let (values, marks) = (&values[..2 * record.nodes()], &marks[..record.nodes()]);
        let ground = Ground { outline: drawing.outline(), size: 1.0, record, values, marks };
        let counts = MeshCounts { nodes: paved.nodes, quads: paved.quads, edges: paved.edges, front: paved.front };
        let read = MeshRead { xs, ys, next, prev, origins, quads, edges };
        let shown = preview_numbers(&ground, &read, counts, [0, 1], &mut [0; 60]);
        let stepped = steps_numbers(&read, counts, &mut [0; 80]);
        assert_eq!([kept_from(xs), kept_from(ys)], [8, 8]);
        let mut lent = MeshLists { xs, ys, next, prev, origins, quads, edges };
        let step = step_numbers(&ground, &mut lent, counts, [0, 1]);
        let refusal = if unsound { 23 } else { 0 };
        assert_eq!([shown.refusal, stepped.refusal, step.refusal], [refusal; 3]);
        let nodes = if unsound { 8 } else { step.nodes as usize };
        assert_eq!([kept_from(lent.xs), kept_from(lent.ys)], [nodes; 2]);
        assert_eq!(lent.xs[0].to_bits() == payload(0).to_bits(), unsound);
    }
}
