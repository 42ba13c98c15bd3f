//! Nothing that is lent for reading is written, and nothing beside it is read. A field and a run are written within their lists alone.

mod common;

use common::blocks::Block;
use common::exam::ExamLists;
use common::{by_kind, list_lengths, refused, said, used, Drawing, FieldPlaces, Lengths, Lent, Raw, RunPlaces, LISTS};
use sitjorbe::raw::{
    check_order_in, direction, directions_in, least_places, pave, preview_numbers, step_numbers, steps, Asked, Ground,
    Lists, MeshCounts, MeshLists, MeshRead, Outline, Settings,
};
use sitjorbe::{ffi, small_quads, FieldRecord, Memory, NotAccepted, Places, Refusal, OFF};

/// Drawings and points that are accepted and refused.
fn queries() -> Vec<(Drawing, [f64; 2])> {
    let hole = vec![[1.0, 1.0], [1.0, 2.0], [2.0, 2.0]];
    let field = Drawing::of_loops(&[vec![[0.0, 0.0], [4.0, 0.5], [5.0, 4.0], [-1.0, 3.0]], hole.clone(), hole]);
    let accepted = [[1.5, 1.7], [3.0, 3.0], [-0.0, 0.0], [1e3, -1e3], [2.0, 2.0]].map(|point| (field.clone(), point));
    let refused = refused().into_iter().map(|(_, drawing, point, _)| (drawing, point));
    accepted.into_iter().chain(refused).collect()
}

#[test]
fn guards_and_lists_keep_every_bit() {
    for (drawing, point) in queries() {
        let mut lent = Lent::new(&drawing);
        // SAFETY: each pointer comes with its list's length.
        unsafe { Raw::ask(lent.outer.parts(), lent.holes.parts(), lent.hole_lengths.parts(), point) };
        assert!(lent.kept(), "{drawing:?} {point:?}");
    }
}

#[test]
fn the_guards_show_a_write() {
    for place in [-1isize, 0, 3, 8] {
        let mut lent = Lent::new(&Drawing::square(1.0));
        let (outer, _) = lent.outer.parts();
        // SAFETY: eight guards stand before and after the eight coordinates.
        unsafe { outer.cast_mut().offset(place).write(7.0) };
        assert!(!lent.kept());
    }
}

/// Each list alone in read-only memory, at its very end and at its very start, with memory beside it that can't be touched:
/// a write, or a read past the list, would end the test by a signal. The answers must be those of ordinary memory.
#[cfg(target_os = "linux")]
#[test]
fn lists_are_read_within_their_bounds() {
    for (drawing, point) in queries() {
        let mut lent = Lent::new(&drawing);
        // SAFETY: each pointer comes with its list's length.
        let usual = unsafe { Raw::ask(lent.outer.parts(), lent.holes.parts(), lent.hole_lengths.parts(), point) };
        for side in [pages::Side::Start, pages::Side::End] {
            let outer = pages::Pages::read_only(&drawing.outer, side);
            let holes = pages::Pages::read_only(&drawing.holes, side);
            let lengths = pages::Pages::read_only(&drawing.hole_lengths, side);
            // SAFETY: as above.
            let raw = unsafe { Raw::ask(outer.parts(), holes.parts(), lengths.parts(), point) };
            assert_eq!((raw.refusals(), raw.values()), (usual.refusals(), usual.values()), "{drawing:?} {point:?}");
        }
    }
}

/// The same for the counts of what to lend.
#[cfg(target_os = "linux")]
#[test]
fn places_are_counted_within_their_lists() {
    for (drawing, [size, _]) in queries() {
        let usual = least_places(&drawing.outline(), size);
        for side in [pages::Side::Start, pages::Side::End] {
            let outline = [&drawing.outer, &drawing.holes].map(|list| pages::Pages::read_only(list, side));
            let lengths = pages::Pages::read_only(&drawing.hole_lengths, side);
            let outline = Outline { outer: outline[0].list(), holes: outline[1].list(), hole_lengths: lengths.list() };
            assert_eq!(least_places(&outline, size), usual, "{size} {drawing:?}");
        }
    }
}

/// Of several blocks: more points a loop.
fn finer() -> Drawing {
    queries()[0].0.cut(9)
}

/// The outline in read-only memory, and values, marks and blocks, of just the length that is needed, in memory of their own, each with
/// memory beside it that can't be touched; then the direction, of the field in read-only memory.
#[cfg(target_os = "linux")]
#[test]
fn a_field_is_written_and_read_within_its_lists() {
    let drawing = finer();
    let mut usual = FieldPlaces::new(2 * 2_500, 2_500, 0);
    let record = usual.field(&drawing.outline(), 0.3, 400).unwrap();
    let nodes = record.nodes();
    let (values, marks) = (&usual.values.list()[..2 * nodes], &usual.marks.list()[..nodes]);
    for (side, numbers) in [pages::Side::Start, pages::Side::End].into_iter().flat_map(|side| {
        let needed = Block::needed(&drawing);
        [0, 3, 6, needed / 2, needed - 1, needed].map(|numbers| (side, numbers))
    }) {
        let outline = [&drawing.outer, &drawing.holes].map(|list| pages::Pages::read_only(list, side));
        let [(outer, outer_len), (holes, holes_len)] = [outline[0].parts(), outline[1].parts()];
        let lengths = pages::Pages::read_only(&drawing.hole_lengths, side);
        let (lens, lens_len) = lengths.parts();
        let mut written = pages::Pages::writable(&vec![0.0; 2 * nodes], side);
        let mut marked = pages::Pages::writable(&vec![7; nodes], side);
        let mut filed = pages::Pages::writable(&vec![7; numbers], side);
        let (to, bytes, blocks) = (written.list_mut(), marked.list_mut(), filed.list_mut().as_mut_ptr());
        let (to, to_len, bytes, bytes_len) = (to.as_mut_ptr(), to.len(), bytes.as_mut_ptr(), bytes.len());
        // SAFETY: each pointer comes with its list's length.
        let answer = unsafe {
            ffi::sitjorbe_field(
                outer, outer_len, holes, holes_len, lens, lens_len, 0.3, 400, to, to_len, bytes, bytes_len, blocks,
                numbers,
            )
        };
        assert_eq!((answer.refusal, answer.nx, answer.ny), (0, record.nx, record.ny));
        assert_eq!((written.list(), marked.list()), (values, marks));

        let (lent_values, lent_marks) = (pages::Pages::read_only(values, side), pages::Pages::read_only(marks, side));
        for point in [[1.5, 1.7], [-1e3, -1e3], [1e3, 1e3], [record.xmin, record.ymin]] {
            let of_pages = direction(&record, lent_values.list(), lent_marks.list(), point, [0.3, -1.0]);
            assert_eq!(of_pages, direction(&record, values, marks, point, [0.3, -1.0]), "{point:?}");
        }
    }
}

/// The record's lists, points and targets in read-only memory, and the answers, as many as there are points or a float's place fewer, in memory of
/// their own, each with memory beside it that can't be touched.
#[cfg(target_os = "linux")]
#[test]
fn directions_are_read_and_written_within_their_lists() {
    let (values, marks) = ([0.5, -1.0].repeat(12), [1; 12]);
    let (points, targets) = ([[0.3, 2.5], [-1e3, 1e3], [f64::NAN, 0.0], [2e3, 0.0], [2.0, 1.0]], [[0.3, -1.0]; 5]);
    let record = FieldRecord { xmin: 0.0, ymin: 0.0, h: 1.0, nx: 4, ny: 3 };
    let single = |k: usize| direction(&record, &values, &marks, points[k], targets[k]);
    for side in [pages::Side::Start, pages::Side::End] {
        let (values, marks) = (pages::Pages::read_only(&values, side), pages::Pages::read_only(&marks, side));
        for count in 0..=5 {
            let [points, targets] = [&points, &targets].map(|list| pages::Pages::read_only(&list[..count], side));
            let mut enough = pages::Pages::writable(&vec![[7.5; 3]; count], side);
            let answers = enough.list_mut();
            let found = directions_in(&record, values.list(), marks.list(), points.list(), targets.list(), answers);
            assert_eq!(found.unwrap().collect::<Vec<_>>(), (0..count).map(single).collect::<Vec<_>>());

            let short = (3 * count).saturating_sub(1);
            let mut places = pages::Pages::writable(&vec![7.5; short], side);
            let FieldRecord { xmin, ymin, h, nx, ny } = record;
            let ((values, values_len), (marks, marks_len)) = (values.parts(), marks.parts());
            let [points, targets] = [points.parts().0, targets.parts().0].map(<*const [f64; 2]>::cast);
            let to = places.list_mut().as_mut_ptr();
            // SAFETY: each pointer comes with its list's length, of points and targets twice as many floats.
            let number = unsafe {
                let (two, lists) = (2 * count, (values, values_len, marks, marks_len));
                ffi::sitjorbe_directions(
                    xmin, ymin, h, nx, ny, lists.0, lists.1, lists.2, lists.3, points, two, targets, two, to, short,
                )
            };
            assert_eq!(number, if count == 0 { 0 } else { 14 });
            assert!(places.list().iter().all(|place| *place == 7.5));
        }
    }
}

/// The list in memory of its own, just long enough and one place too short, with memory beside it that can't be touched.
#[cfg(target_os = "linux")]
#[test]
fn small_quads_are_written_within_their_list() {
    for side in [pages::Side::Start, pages::Side::End] {
        let mut enough = pages::Pages::writable(&vec![7; 14_944], side);
        assert_eq!(small_quads(enough.list_mut()).map(<[_]>::len), Ok(3_736));
        let mut short = pages::Pages::writable(&vec![7; 14_943], side);
        assert_eq!(small_quads(short.list_mut()), Err(Refusal::FoursNeedSpace));
        assert!(short.list().iter().all(|place| *place == 7));
    }
}

#[test]
fn the_guards_of_a_run_show_a_write() {
    let lengths = list_lengths(Places { field_nodes: 4, nodes: 20, quads: 6, edges: 7, points: 8 });
    let nothing = RunPlaces::new(lengths);
    assert_eq!(nothing.written_past([0; LISTS.len()]), [""; 0]);
    let mut places = RunPlaces::new(lengths);
    let Lists { values, marks, origins, loop_lengths: last, blocks, tried, .. } = places.lists();
    (values[7], marks[0], origins[19], last[4], blocks[15], tried[59]) = (1.0, 1, 1, 1, 1, 1);
    assert_eq!(places.written_past([0; LISTS.len()]), ["values", "marks", "origins", "lengths", "blocks", "tried"]);
    assert_eq!(places.written_past([8, 0, 0, 0, 0, 0, 0, 20, 0, 0, 0, 4, 0, 0, 16, 60]), ["marks", "lengths"]);
    assert_eq!(
        places.written_past([7, 1, 0, 0, 0, 0, 0, 19, 0, 0, 0, 5, 0, 0, 15, 59]),
        ["values", "origins", "blocks", "tried"]
    );
}

/// The outline in read-only memory, and each of the sixteen lists of a run, just as long as the run needs, in memory of its own
/// between pages that can't be touched: a run that ends still, runs that are full where a list is shorter, and refused ones.
#[cfg(target_os = "linux")]
#[test]
fn a_run_is_written_and_read_within_its_lists() {
    let drawing = finer();
    let settings = Settings { size: 0.5, sweeps: 400, passes: 600 };
    let mut memory =
        Memory::new(Places { field_nodes: 1_600, nodes: 800, quads: 800, edges: 2_400, points: 0 }).unwrap();
    let mesh = memory.pave(&drawing.outline(), &settings).unwrap();
    let (field_nodes, nodes) = (mesh.record().nodes(), mesh.node_count());
    let points = Block::needed(&drawing) / 2;
    let enough = Places { field_nodes, nodes, quads: mesh.quad_count(), edges: mesh.edge_count(), points };
    assert!(mesh.quad_count() > 10 && !mesh.is_whole(), "{mesh:?}");

    for (places, refusal) in [
        (enough, None),
        (Places { nodes: nodes - 3, ..enough }, None),
        (Places { quads: enough.quads - 3, ..enough }, None),
        (Places { edges: enough.edges - 3, ..enough }, None),
        (Places { points: points / 2, ..enough }, None),
        (Places { points: 1, ..enough }, None),
        (Places { field_nodes: field_nodes - 1, ..enough }, Some(Refusal::FieldNeedsSpace)),
        (Places { nodes: 3, ..enough }, Some(Refusal::FrontNeedsSpace)),
        (Places { edges: 0, ..enough }, Some(Refusal::FrontNeedsSpace)),
    ] {
        let mut usual = RunPlaces::new(list_lengths(places));
        let expected = usual.pave(&drawing.outline(), &settings).map(|mesh| (said(&mesh), used(&mesh)));
        assert_eq!(expected.as_ref().err(), refusal.as_ref(), "{places:?}");
        for side in [pages::Side::Start, pages::Side::End] {
            let outline = [&drawing.outer, &drawing.holes].map(|list| pages::Pages::read_only(list, side));
            let lengths = pages::Pages::read_only(&drawing.hole_lengths, side);
            let outline = Outline { outer: outline[0].list(), holes: outline[1].list(), hole_lengths: lengths.list() };
            let mut pages = RunPages::new(list_lengths(places), side);
            let found = pave(&outline, &settings, pages.lists()).map(|mesh| (said(&mesh), used(&mesh)));
            assert_eq!(found, expected, "{places:?}");
        }
    }
}

/// The mesh in read-only memory, and the thresholds, each figure and the reply list in memory of their own: every role by every operation, with ids that are
/// no nodes in the quads and a quad that isn't whole. For the roles that only read the results are read-only too. The answers must be those of ordinary
/// memory.
#[cfg(target_os = "linux")]
#[test]
fn an_exam_is_read_and_written_within_its_lists() {
    let quads = [0, 1, 2, 3, 3, 3, 2, 0, 4, u32::MAX, 1, 0, 1 << 31, 2];
    let calls = || (0..=10).flat_map(|operation| [0, 1, 2, 3, 4, 1 << 16, u32::MAX].map(|item| (operation, item)));
    for (side, places, role) in [pages::Side::Start, pages::Side::End]
        .into_iter()
        .flat_map(|side| [0, 3, 4, 9].map(|places| (side, places)))
        .flat_map(|(side, places)| (0..=4).map(move |role| (side, places, role)))
    {
        let mut usual = ExamLists::new(u32::MAX, [4; 2], usize::MAX, &quads, &vec![7; places], [2, 700])
            .with_links(&[1, 2, 0, OFF], &[2, 0, 1])
            .with_reply(&vec![7; places]);
        let [xs, ys] = [&usual.xs, &usual.ys].map(|list| pages::Pages::read_only(list.list(), side));
        let [quads, next, prev] =
            [&usual.quads, &usual.next, &usual.prev].map(|list| pages::Pages::read_only(list.list(), side));
        let origins = pages::Pages::read_only(usual.origins.list(), side);
        let (thresholds, figures) = (vec![7; places], [2, 700]);
        let desk = role == 1;
        let results =
            if desk { pages::Pages::writable(&thresholds, side) } else { pages::Pages::read_only(&thresholds, side) };
        let [count, sum] = figures.map(|figure| {
            if desk {
                pages::Pages::writable(&[figure], side)
            } else {
                pages::Pages::read_only(&[figure], side)
            }
        });
        let mut reply = pages::Pages::writable(&vec![7; places], side);
        for (operation, item) in calls() {
            let asked = Asked { role, operation, item, value: 100, u: 128, v: 256 };
            let [quads, next, prev] = [&quads, &next, &prev].map(pages::Pages::parts);
            let [xs, ys] = [&xs, &ys].map(pages::Pages::parts);
            let (origins, (list, length)) = (origins.parts(), results.parts());
            let [count, sum] = [&count, &sum].map(|figure| figure.parts().0.cast_mut());
            let reply = reply.list_mut();
            // SAFETY: each pointer comes with its list's length. What the desk changes can be written; the other roles write nothing but the
            // reply list.
            let answer = unsafe {
                ffi::sitjorbe_exam(
                    asked.role,
                    asked.operation,
                    asked.item,
                    asked.value,
                    asked.u,
                    asked.v,
                    u32::MAX,
                    xs.0,
                    xs.1,
                    ys.0,
                    ys.1,
                    usize::MAX,
                    quads.0,
                    quads.1,
                    next.0,
                    next.1,
                    prev.0,
                    prev.1,
                    origins.0,
                    origins.1,
                    list.cast_mut(),
                    length,
                    count,
                    sum,
                    reply.as_mut_ptr(),
                    reply.len(),
                )
            };
            assert_eq!(answer, usual.ask(asked), "{asked:?} {places}");
            assert_eq!(reply, usual.reply.list(), "{asked:?} {places}");
        }
        assert_eq!(results.list(), usual.thresholds.list());
        assert_eq!([count.list()[0], sum.list()[0]], usual.figures());
        assert!(usual.kept());
    }
}

/// Quads and order in read-only memory, and scratch of several lengths in memory of its own, each between pages that can't be touched:
/// orders that are accepted and refused, with counts that fit and counts beyond the list.
#[cfg(target_os = "linux")]
#[test]
fn an_order_is_read_and_written_within_its_lists() {
    let quads = [0, 1, 2, 3, 3, 2, 4, 5, 5, 4, 6, 7, 1, 0, 9];
    for (order, expected) in [
        (&[0, 1, 2][..], Ok(())),
        (&[0, 2, 1], Err(NotAccepted::TooEarly { place: 1 })),
        (&[0, 1, 1], Err(NotAccepted::NotEachOnce)),
        (&[0, 1, 2, u32::MAX], Err(NotAccepted::NotEachOnce)),
        (&[], Err(NotAccepted::NotEachOnce)),
    ] {
        for (side, count) in [pages::Side::Start, pages::Side::End]
            .into_iter()
            .flat_map(|side| [(side, 3), (side, 4), (side, usize::MAX)])
        {
            let [quads, order] = [&quads[..], order].map(|list| pages::Pages::read_only(list, side));
            for (places, pool) in (0..5).flat_map(|places| (0..28).map(move |pool| (places, pool))) {
                let mut places = pages::Pages::writable(&vec![7usize; places], side);
                let mut pool = pages::Pages::writable(&vec![7; pool], side);
                let found = check_order_in(count, quads.list(), order.list(), places.list_mut(), pool.list_mut());
                assert_eq!(found, expected, "{count} {:?}", order.list());
            }
        }
    }
}

/// A mesh in read-only memory, and step buffers of several lengths in memory of their own, each between pages that can't be touched: meshes
/// that can be shown and can't, with counts that fit and counts beyond the lists. The answers must be those of ordinary memory.
#[cfg(target_os = "linux")]
#[test]
fn steps_are_read_and_written_within_their_lists() {
    let (xs, ys) = ([0.0, 1.0, 1.0, 0.0, 2.0], [0.0, 0.0, 1.0, 1.0, 0.5]);
    let (next, prev, origins) = ([u32::MAX, u32::MAX, 3, 4, 2], [u32::MAX, u32::MAX, 4, 2, 3], [0u16; 5]);
    let (quads, edges) = ([0, 1, 2, 3, 0, 3, 2, 1, 9], [0, 1, 2, 3, 4]);
    let counts = |nodes, quads, edges, front| MeshCounts { nodes, quads, edges, front };
    for counts in [
        counts(5, 1, 2, 3),
        counts(5, 0, 0, 3),
        counts(5, 2, 2, 3),
        counts(5, 3, 2, 3),
        counts(5, 1, 3, 3),
        counts(6, 1, 2, 3),
        counts(0, 0, 0, 0),
        counts(u32::MAX, usize::MAX, usize::MAX, usize::MAX),
    ] {
        for (places, side) in (0..12).flat_map(|places| [(places, pages::Side::Start), (places, pages::Side::End)]) {
            let mesh = MeshRead {
                xs: &xs,
                ys: &ys,
                next: &next,
                prev: &prev,
                origins: &origins,
                quads: &quads,
                edges: &edges,
            };
            let mut usual = vec![7; places];
            let expected = steps(&mesh, counts, &mut usual);
            let [xs, ys] = [xs, ys].map(|list| pages::Pages::read_only(&list, side));
            let [next, prev] = [next, prev].map(|list| pages::Pages::read_only(&list, side));
            let origins = pages::Pages::read_only(&origins, side);
            let (quads, edges) = (pages::Pages::read_only(&quads, side), pages::Pages::read_only(&edges, side));
            let mesh = MeshRead {
                xs: xs.list(),
                ys: ys.list(),
                next: next.list(),
                prev: prev.list(),
                origins: origins.list(),
                quads: quads.list(),
                edges: edges.list(),
            };
            let mut lent = pages::Pages::writable(&vec![7; places], side);
            assert_eq!(steps(&mesh, counts, lent.list_mut()), expected, "{counts:?} {places}");
            assert_eq!(lent.list(), usual, "{counts:?} {places}");
        }
    }
}

/// Every list that a step reads in read-only memory, and each that it writes just as long as the step needs, between pages that can't be touched: quads placed,
/// none, full and refused. A preview's mesh is in read-only memory whole.
#[cfg(target_os = "linux")]
#[test]
fn a_step_is_taken_within_its_lists() {
    let drawing = queries()[0].0.clone();
    let mut memory =
        Memory::new(Places { field_nodes: 1_600, nodes: 800, quads: 800, edges: 2_400, points: 0 }).unwrap();
    let mesh = memory.pave(&drawing.outline(), &Settings { size: 0.5, sweeps: 400, passes: 1 }).unwrap();
    let ((values, marks), record) = (mesh.field(), mesh.record());
    let counts = MeshCounts {
        nodes: mesh.node_count() as u32,
        quads: mesh.quad_count(),
        edges: mesh.edge_count(),
        front: mesh.front_count(),
    };
    let n = mesh.node_count();
    let (xs, ys): (Vec<f64>, Vec<f64>) = mesh.nodes().map(|[x, y]| (x, y)).unzip();
    let (next, prev) = mesh.links();
    let (quads, edges): (Vec<u32>, Vec<u32>) = (mesh.quads().flatten().collect(), mesh.edges().flatten().collect());
    let front: Vec<[u32; 2]> = mesh.front().chain([[0, u32::MAX], [u32::MAX, 0], [n as u32, 0]]).collect();
    let mut found = [0; 5];
    for (side, more) in
        [pages::Side::Start, pages::Side::End].into_iter().flat_map(|side| [0, 1, 2].map(|more| (side, more)))
    {
        let lent = [&drawing.outer[..], &drawing.holes, values].map(|list| pages::Pages::read_only(list, side));
        let (lengths, marks) =
            (pages::Pages::read_only(&drawing.hole_lengths, side), pages::Pages::read_only(marks, side));
        let outline = Outline { outer: lent[0].list(), holes: lent[1].list(), hole_lengths: lengths.list() };
        let ground = Ground { outline, size: 0.5, record, values: lent[2].list(), marks: marks.list() };
        for &edge in front.iter().step_by(3).chain(&front[front.len() - 3..]) {
            let floats = [&xs, &ys].map(|list| [&list[..], &vec![0.0; more]].concat());
            let links = [next, prev].map(|list| [list, &vec![7; more]].concat());
            let longer = |list: &[u32], places: usize| [list, &vec![7; places]].concat();
            let (origins, quads, edges) = (vec![3u16; n + more], longer(&quads, 4), longer(&edges, 4 * more));

            let [xs, ys] = [0, 1].map(|k| pages::Pages::read_only(&floats[k], side));
            let [next, prev] = [0, 1].map(|k| pages::Pages::read_only(&links[k], side));
            let (read_quads, read_edges) =
                (pages::Pages::read_only(&quads, side), pages::Pages::read_only(&edges, side));
            let read_origins = pages::Pages::read_only(&origins, side);
            let read = MeshRead {
                xs: xs.list(),
                ys: ys.list(),
                next: next.list(),
                prev: prev.list(),
                origins: read_origins.list(),
                quads: read_quads.list(),
                edges: read_edges.list(),
            };
            let mut list = pages::Pages::writable(&vec![7; 2 * counts.front + 4], side);
            let preview = preview_numbers(&ground, &read, counts, edge, list.list_mut());

            let [mut xs, mut ys] = [0, 1].map(|k| pages::Pages::writable(&floats[k], side));
            let [mut next, mut prev] = [0, 1].map(|k| pages::Pages::writable(&links[k], side));
            let [mut quads, mut edges] = [&quads, &edges].map(|list| pages::Pages::writable(list, side));
            let mut origins = pages::Pages::writable(&origins, side);
            let mut lists = MeshLists {
                xs: xs.list_mut(),
                ys: ys.list_mut(),
                next: next.list_mut(),
                prev: prev.list_mut(),
                origins: origins.list_mut(),
                quads: quads.list_mut(),
                edges: edges.list_mut(),
            };
            let step = step_numbers(&ground, &mut lists, counts, edge);
            assert_eq!(
                (step.refusal, step.outcome, step.front),
                (preview.refusal, preview.outcome, preview.front),
                "{edge:?}"
            );
            found[if step.refusal == 0 { step.outcome as usize } else { 4 }] += 1;
        }
    }
    let [placed, none, full, _, refused] = found;
    assert!(placed > 5 && none > 5 && full > 5 && refused > 5, "{found:?}");
}

/// A run's lists, each in pages of its own.
#[cfg(target_os = "linux")]
struct RunPages {
    floats: [pages::Pages<f64>; 3],
    marks: pages::Pages<u8>,
    origins: pages::Pages<u16>,
    numbers: [pages::Pages<u32>; 11],
}

#[cfg(target_os = "linux")]
impl RunPages {
    fn new(lengths: Lengths, side: pages::Side) -> RunPages {
        let (floats, marks, origins, numbers) = by_kind(lengths);
        RunPages {
            floats: floats.map(|length| pages::Pages::writable(&vec![-7.5; length], side)),
            marks: pages::Pages::writable(&vec![7; marks], side),
            origins: pages::Pages::writable(&vec![7; origins], side),
            numbers: numbers.map(|length| pages::Pages::writable(&vec![7; length], side)),
        }
    }

    fn lists(&mut self) -> Lists<'_> {
        let RunPages { floats, marks, origins, numbers } = self;
        let (floats, numbers) =
            (floats.each_mut().map(pages::Pages::list_mut), numbers.each_mut().map(pages::Pages::list_mut));
        common::lists_by_kind(floats, marks.list_mut(), origins.list_mut(), numbers)
    }
}

#[cfg(target_os = "linux")]
mod pages {
    use std::ffi::{c_int, c_long, c_void};
    use std::{mem, ptr, slice};

    extern "C" {
        fn mmap(at: *mut c_void, size: usize, access: c_int, flags: c_int, file: c_int, offset: c_long) -> *mut c_void;
        fn mprotect(at: *mut c_void, size: usize, access: c_int) -> c_int;
        fn munmap(at: *mut c_void, size: usize) -> c_int;
    }

    const PAGE: usize = 4096;
    const NO_ACCESS: c_int = 0;
    const READ: c_int = 1;
    const READ_WRITE: c_int = 3;
    const PRIVATE_ANONYMOUS: c_int = 0x22;

    /// Which end of the list touches the memory that can't be touched.
    #[derive(Clone, Copy)]
    pub enum Side {
        Start,
        End,
    }

    /// A copy of a list in pages of its own, between two pages without access.
    pub struct Pages<T> {
        first: *mut c_void,
        size: usize,
        list: *mut T,
        length: usize,
        writable: bool,
    }

    impl<T: Copy> Pages<T> {
        pub fn read_only(list: &[T], side: Side) -> Pages<T> {
            Pages::new(list, side, false)
        }

        pub fn writable(list: &[T], side: Side) -> Pages<T> {
            Pages::new(list, side, true)
        }

        fn new(list: &[T], side: Side, writable: bool) -> Pages<T> {
            let bytes = mem::size_of_val(list);
            let inner = bytes.div_ceil(PAGE).max(1) * PAGE;
            let size = inner + 2 * PAGE;
            let offset = match side {
                Side::Start => PAGE,
                Side::End => PAGE + inner - bytes,
            };
            // SAFETY: the pages are new, the list fits between the outer two, and nothing else refers to them.
            unsafe {
                let first = mmap(ptr::null_mut(), size, READ_WRITE, PRIVATE_ANONYMOUS, -1, 0);
                assert_ne!(first as isize, -1, "no memory");
                let copy = first.byte_add(offset).cast::<T>();
                copy.copy_from_nonoverlapping(list.as_ptr(), list.len());
                assert_eq!(mprotect(first, size, NO_ACCESS), 0);
                let access = if writable { READ_WRITE } else { READ };
                assert_eq!(mprotect(first.byte_add(PAGE), inner, access), 0);
                Pages { first, size, list: copy, length: list.len(), writable }
            }
        }

        pub fn list(&self) -> &[T] {
            // SAFETY: the list is in pages that can be read.
            unsafe { slice::from_raw_parts(self.list, self.length) }
        }

        pub fn list_mut(&mut self) -> &mut [T] {
            assert!(self.writable);
            // SAFETY: the list is in pages that can be written.
            unsafe { slice::from_raw_parts_mut(self.list, self.length) }
        }

        pub fn parts(&self) -> (*const T, usize) {
            (self.list, self.length)
        }
    }

    impl<T> Drop for Pages<T> {
        fn drop(&mut self) {
            // SAFETY: the pages are those that `new` mapped.
            unsafe { munmap(self.first, self.size) };
        }
    }
}
