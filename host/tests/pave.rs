//! Whole runs through the wrappers: the worked examples, each end that small places can reach, every refusal, and guards.

mod common;

use std::fmt::Write;
use std::fs;

use common::blocks::{listed, Block};
use common::{list_lengths, refused, said, used, Drawing, Lengths, Lent, RunPlaces, LISTS};
use sitjorbe::raw::{contains, field, is_sound, pave_numbers, Mesh, Outline, Settings};
use sitjorbe::{ffi, End, Memory, Places, Refusal, TooManyPlaces};

/// The places that the program lends; a file has at most 248 points.
const PROGRAM: Places = Places { field_nodes: 1_600, nodes: 800, quads: 800, edges: 2_400, points: 248 };

/// SCOPE's settings for its worked square.
const USUAL: Settings = Settings { size: 1.0, sweeps: 400, passes: 600 };

/// Just what the worked square needs.
const SQUARE: Places = Places { field_nodes: 49, nodes: 9, quads: 4, edges: 12, points: 4 };

/// A mesh as SCOPE lists it.
fn listing(mesh: &Mesh<'_>) -> String {
    let counts = [mesh.node_count(), mesh.quad_count(), mesh.front_count()].map(|n| n.to_string()).join(" ");
    let mut text = format!("mesh {counts} {} {}\n", mesh.end(), if mesh.is_whole() { "whole" } else { "open" });
    let ids = |ids: &[u32]| ids.iter().map(|id| format!(" {id}")).collect::<String>();
    mesh.nodes().for_each(|[x, y]| writeln!(text, "n {:016x} {:016x}", x.to_bits(), y.to_bits()).unwrap());
    mesh.quads().for_each(|quad| writeln!(text, "q{}", ids(&quad)).unwrap());
    mesh.front_loops().for_each(|front| writeln!(text, "l{}", ids(front)).unwrap());
    text
}

#[test]
fn the_worked_square_is_document_01s() {
    let mut memory = Memory::new(PROGRAM).unwrap();
    let mesh = memory.pave(&Drawing::square(2.0).outline(), &USUAL).unwrap();
    // What the program must print for it.
    let expected = include_str!("../../crates/pave/stdout");
    assert_eq!(listing(&mesh), expected);
    // Twelve distinct edges: eight of the outline, and four to the node in the middle.
    assert!(mesh.edges().skip(8).eq([[1, 8], [7, 8], [3, 8], [5, 8]]));
    // Of the front a loop of two is left, which isn't listed.
    assert!(mesh.front().eq([[7, 8], [8, 7]]));
    assert_eq!((mesh.links().0[7], mesh.links().1[7], mesh.links().0[0]), (8, 8, sitjorbe::OFF));
}

#[test]
fn a_triangle_gets_the_midpoint_of_its_last_longest_edge() {
    let triangle = Drawing::of_loops(&[vec![[0.0, 0.0], [2.0, 0.0], [1.0, 2.0]]]);
    let mut memory = Memory::new(PROGRAM).unwrap();
    let mesh = memory.pave(&triangle.outline(), &Settings { size: 3.0, ..USUAL }).unwrap();
    assert!(mesh.nodes().eq([[0.0, 0.0], [2.0, 0.0], [1.0, 2.0], [0.5, 1.0]]));
    assert_eq!((mesh.quad_count(), mesh.front_count(), mesh.end(), mesh.is_whole()), (0, 4, End::Still, false));
    assert!(mesh.front_loops().eq([[0, 1, 2, 3]]));
}

#[test]
fn a_square_of_side_four_gets_its_25_nodes() {
    let mut memory = Memory::new(PROGRAM).unwrap();
    let mesh = memory.pave(&Drawing::square(4.0).outline(), &USUAL).unwrap();
    assert_eq!((mesh.node_count(), mesh.quad_count(), mesh.front_count()), (25, 16, 2));
    assert_eq!((mesh.end(), mesh.is_whole(), mesh.loop_count()), (End::Still, true, 0));
    // Each point of whole coordinates once, and each unit square once, turning left.
    let nodes: Vec<[f64; 2]> = mesh.nodes().collect();
    let mut corners: Vec<[f64; 2]> = mesh.quads().map(|quad| lowest(&nodes, quad)).collect();
    let grid = |n: u32| (0..n * n).map(move |k| [f64::from(k / n), f64::from(k % n)]);
    corners.sort_by(|a, b| a.partial_cmp(b).unwrap());
    assert!(corners.into_iter().eq(grid(4)));
    let mut sorted = nodes.clone();
    sorted.sort_by(|a, b| a.partial_cmp(b).unwrap());
    assert!(sorted.into_iter().eq(grid(5)));
}

#[test]
fn slits_are_paved_alike_and_whole_only_if_sound() {
    const LEAST: f64 = f64::from_bits(1);
    let (mut memory, mut quads) = (Memory::new(PROGRAM).unwrap(), Vec::new());
    for (e, f, whole) in [
        (-LEAST, LEAST, true),
        (0.0, 0.0, false),
        (LEAST, LEAST, false),
        (LEAST, 0.0, false),
        (-0.001, 0.001, true),
        (0.001, 0.001, false),
        (0.001, 0.0, false),
    ] {
        let slit = Drawing::slit(e, f);
        let mesh = memory.pave(&slit.outline(), &USUAL).unwrap();
        assert_eq!((mesh.node_count(), mesh.quad_count(), mesh.front_count()), (10, 4, 2), "{e} {f}");
        assert_eq!((mesh.end(), mesh.loop_count(), mesh.is_whole()), (End::Still, 0, whole), "{e} {f}");
        assert_eq!(is_sound(&slit.outline()), Ok(whole), "{e} {f}");
        quads.push(mesh.quads().collect::<Vec<_>>());
    }
    assert!(quads.iter().all(|same| *same == quads[0]));
}

/// The lower left corner of a unit square that is run to the left, from whichever corner.
fn lowest(nodes: &[[f64; 2]], quad: [u32; 4]) -> [f64; 2] {
    let at = |k: usize| nodes[quad[k % 4] as usize];
    let steps = [0, 1, 2, 3].map(|k| [at(k + 1)[0] - at(k)[0], at(k + 1)[1] - at(k)[1]]);
    let right = steps.iter().position(|step| *step == [1.0, 0.0]).expect("a side to the right");
    assert_eq!([1, 2, 3].map(|k| steps[(right + k) % 4]), [[0.0, 1.0], [-1.0, 0.0], [0.0, -1.0]]);
    at(right)
}

/// A square of side 6 with a square of side 2 in the middle.
fn ring() -> Drawing {
    let square = |low: f64, high: f64| vec![[low, low], [high, low], [high, high], [low, high]];
    Drawing::of_loops(&[square(0.0, 6.0), square(2.0, 4.0)])
}

#[test]
fn what_stays_open_is_listed() {
    let (ring, mut memory) = (ring(), Memory::new(PROGRAM).unwrap());
    // A row of quads along the outer loop; the hole's loop and the row's inner side stay, a size apart.
    let mesh = memory.pave(&ring.outline(), &USUAL).unwrap();
    assert_eq!((mesh.node_count(), mesh.quad_count(), mesh.front_count()), (24 + 8 + 16, 20, 8 + 16));
    assert_eq!((mesh.end(), mesh.is_whole(), mesh.loop_count()), (End::Still, false, 2));
    let loops: Vec<Vec<u32>> = mesh.front_loops().map(<[u32]>::to_vec).collect();
    assert_eq!(loops[0], [24, 31, 30, 29, 28, 27, 26, 25], "a hole runs to the right");
    assert_eq!(loops[1], (32..48).collect::<Vec<u32>>());
    // Each front edge is in a loop, from a node to the next.
    let mut edges: Vec<[u32; 2]> =
        loops.iter().flat_map(|ids| (0..ids.len()).map(|k| [ids[k], ids[(k + 1) % ids.len()]])).collect();
    edges.sort();
    assert!(mesh.front().eq(edges));
}

#[test]
fn a_runs_field_is_the_fields_own() {
    let (ring, mut memory) = (ring(), Memory::new(PROGRAM).unwrap());
    let (mut values, mut marks, mut blocks) = (vec![0.0; 3_200], vec![0; 1_600], vec![0; 16]);
    let record = field(&ring.outline(), 1.0, 400, &mut values, &mut marks, &mut blocks).unwrap();
    let mesh = memory.pave(&ring.outline(), &USUAL).unwrap();
    assert_eq!(mesh.record(), record);
    assert_eq!(mesh.field(), (&values[..2 * record.nodes()], &marks[..record.nodes()]));
}

#[test]
fn a_run_ends_by_its_passes() {
    let (square, mut memory) = (Drawing::square(2.0), Memory::new(PROGRAM).unwrap());
    let mut ends = |passes| {
        let mesh = memory.pave(&square.outline(), &Settings { passes, ..USUAL }).unwrap();
        (mesh.end(), mesh.node_count(), mesh.quad_count(), mesh.front_count(), mesh.loop_count())
    };
    assert_eq!(ends(0), (End::Passes, 8, 0, 8, 1), "none is allowed");
    assert_eq!(ends(1), (End::Passes, 9, 4, 2, 0), "the only one placed something");
    for passes in [2, 600, 601, usize::MAX] {
        assert_eq!(ends(passes), (End::Still, 9, 4, 2, 0), "the second of {passes} placed nothing");
    }
}

#[test]
fn a_run_ends_where_the_lists_are_full() {
    let square = Drawing::square(2.0);
    let mut memory = Memory::new(PROGRAM).unwrap();
    let all: Vec<[u32; 4]> = memory.pave(&square.outline(), &USUAL).unwrap().quads().collect();
    let ends = |lengths: Lengths, quads: usize, end: End, what: &str| {
        let mut places = RunPlaces::new(lengths);
        let mesh = places.pave(&square.outline(), &USUAL).unwrap();
        assert_eq!((mesh.end(), mesh.quad_count()), (end, quads), "{what}");
        assert!(mesh.quads().eq(all[..quads].iter().copied()), "{what}: the first quads of the run");
        let used = used(&mesh);
        assert_eq!(places.written_past(used), [""; 0], "{what}");
    };
    let shorter = |list: &str, by: usize| {
        let mut lengths = list_lengths(SQUARE);
        lengths[LISTS.iter().position(|name| *name == list).unwrap()] -= by;
        lengths
    };
    ends(list_lengths(SQUARE), 4, End::Still, "just enough");
    // The first quad needs node 8, each has a place, and the new edges are 1 8 and 7 8, then 3 8, then 5 8, then none.
    for list in ["xs", "ys", "next", "prev", "snapshot", "origins", "loops"] {
        ends(shorter(list, 1), 0, End::Full, list);
    }
    for (by, quads) in [(1, 3), (4, 3), (5, 2), (8, 2), (9, 1), (13, 0), (16, 0)] {
        ends(shorter("quads", by), quads, End::Full, "quads");
    }
    for (by, quads) in [(1, 2), (2, 2), (3, 1), (4, 1), (5, 0), (8, 0)] {
        ends(shorter("edges", by), quads, End::Full, "edges");
    }
    ends(
        list_lengths(Places { quads: 1, edges: 8, ..SQUARE }),
        0,
        End::Full,
        "a place for a quad, and none for its edges",
    );
}

#[test]
fn no_run_writes_past_what_it_counts() {
    let askew = Drawing::of_loops(&[vec![[-3.0, 0.5], [4.0, -1.0], [2.5, 5.0], [0.0, 6.5]]]);
    let mut ends = Vec::new();
    for drawing in [Drawing::square(2.0), ring(), askew] {
        for (size, passes, nodes) in [(1.0, 600, 800), (0.7, 1, 800), (0.5, 600, 85), (1.3, 600, 800), (2.0, 0, 800)] {
            let (settings, room) = (Settings { size, passes, ..USUAL }, Places { nodes, ..PROGRAM });
            let (lent, mut places, mut memory) =
                (Lent::new(&drawing), RunPlaces::new(list_lengths(room)), Memory::new(room).unwrap());
            let mesh = places.pave(&lent.outline(), &settings).unwrap();
            let usual = memory.pave(&drawing.outline(), &settings).unwrap();
            assert_eq!(said(&mesh), said(&usual), "the lists' old contents don't count");
            ends.push(mesh.end());
            let used = used(&mesh);
            assert_eq!(places.written_past(used), [""; 0], "{drawing:?} {settings:?} {nodes}");
            assert!(lent.kept());
        }
    }
    assert!([End::Still, End::Passes, End::Full].iter().all(|end| ends.contains(end)), "{ends:?}");
}

#[test]
fn memory_serves_one_run_after_the_other() {
    let (square, ring) = (Drawing::square(2.0), ring());
    let mut memory = Memory::new(PROGRAM).unwrap();
    let first = said(&memory.pave(&ring.outline(), &USUAL).unwrap());
    memory.pave(&square.outline(), &USUAL).unwrap();
    assert!(memory.pave(&square.outline(), &Settings { size: 0.0, ..USUAL }).is_err());
    assert_eq!(said(&memory.pave(&ring.outline(), &USUAL).unwrap()), first);
}

/// Pools that are too short, that run out in the midst of a run, and that hold everything.
#[test]
fn a_mesh_does_not_depend_on_the_pools() {
    let settings = Settings { size: 0.4, ..USUAL };
    let expected = said(&Memory::new(PROGRAM).unwrap().pave(&ring().outline(), &settings).unwrap());
    for (node_pool, edge_pool) in [(0, 0), (3, 3), (4, 4), (100, 40), (40, 100), (500, 9_000), (4_000, 1_000)] {
        let mut lengths = list_lengths(PROGRAM);
        [lengths[12], lengths[13]] = [node_pool, edge_pool];
        let mut places = RunPlaces::new(lengths);
        let mesh = places.pave(&ring().outline(), &settings).unwrap();
        assert_eq!(said(&mesh), expected, "pools of {node_pool} and {edge_pool}");
        let unfiled = mesh.unfiled();
        assert_eq!(unfiled.map(|count| count == 0), [node_pool > 2_000, edge_pool > 5_000], "{unfiled:?} unfiled");
        let used = used(&mesh);
        assert_eq!(places.written_past(used), [""; 0], "pools of {node_pool} and {edge_pool}");
    }
}

/// Lists for tries that are empty, too short for a node, for some nodes, for all, and longer; of zeros, of ids, of marks, of stretches past the last node, and as
/// another run left them. The snapshot, which is copied by stretches, is the same too.
#[test]
fn a_mesh_does_not_depend_on_the_tries() {
    let settings = Settings { size: 0.4, ..USUAL };
    let drawing = ring();
    let mut memory = Memory::new(PROGRAM).unwrap();
    let mesh = memory.pave(&drawing.outline(), &settings).unwrap();
    let (expected, nodes) = (said(&mesh), mesh.node_count());
    let snapshot = memory.lists().snapshot[..nodes].to_vec();
    let mut left = RunPlaces::new(list_lengths(PROGRAM));
    left.pave(&drawing.outline(), &Settings { size: 0.5, ..USUAL }).unwrap();
    let left = left.lists().tried.to_vec();
    let junk: [fn(usize, &[u32]) -> u32; 7] = [
        |_, _| 0,
        |i, _| (i % 40) as u32,
        |i, _| (i / 3 + 1) as u32,
        |i, _| (i / 3) as u32,
        |_, _| u32::MAX,
        |i, _| if i % 3 == 0 { u32::MAX } else { 1_000_000 },
        |i, left| left[i],
    ];
    for length in [0, 2, 3, 7, 90, nodes, 3 * nodes - 1, 3 * nodes, 2_400] {
        for fill in junk {
            let mut lengths = list_lengths(PROGRAM);
            lengths[15] = length;
            let mut places = RunPlaces::new(lengths);
            for (i, place) in places.lists().tried.iter_mut().enumerate() {
                *place = fill(i, &left);
            }
            let mesh = places.pave(&drawing.outline(), &settings).unwrap();
            assert_eq!(said(&mesh), expected, "{length} numbers");
            let used = used(&mesh);
            assert_eq!(places.written_past(used), [""; 0], "{length} numbers");
            assert_eq!(places.lists().snapshot[..nodes], snapshot, "{length} numbers");
        }
    }
    assert_eq!([0, 7, usize::MAX].map(|nodes| Places { nodes, ..PROGRAM }.tried()), [0, 21, usize::MAX]);
}

/// Lists without a block, with some of them, with all, and longer ones.
#[test]
fn a_mesh_does_not_depend_on_the_blocks() {
    let drawing = ring().cut(12);
    let (needed, all) = (Block::needed(&drawing), Block::all(&drawing).len());
    let mut memory = Memory::new(Places { points: 0, ..PROGRAM }).unwrap();
    let mesh = memory.pave(&drawing.outline(), &USUAL).unwrap();
    assert!(mesh.quad_count() > 20, "{} quads are few", mesh.quad_count());
    let expected = said(&mesh);
    for length in [0, 3, 4, 7, 8, needed / 2, needed - 4, needed - 1, needed, 2 * drawing.points(), 1_000] {
        let mut lengths = list_lengths(PROGRAM);
        lengths[14] = length;
        let mut places = RunPlaces::new(lengths);
        let mesh = places.pave(&drawing.outline(), &USUAL).unwrap();
        assert_eq!(said(&mesh), expected, "{length} numbers");
        let used = used(&mesh);
        assert_eq!(places.written_past(used), [""; 0], "{length} numbers");
        let [count, wrong] = listed(&drawing, places.blocks());
        assert_eq!((count > 0, count == all, wrong), (length >= 4, length >= needed, 0), "{length} numbers");
    }
}

/// What is asked of a run.
#[derive(Clone)]
struct Asked {
    drawing: Drawing,
    settings: Settings,
    lengths: Lengths,
}

/// A run of the ring that is refused for nothing.
fn accepted() -> Asked {
    Asked { drawing: ring(), settings: USUAL, lengths: list_lengths(PROGRAM) }
}

impl Asked {
    /// The answer as it crosses, with the outline's lists and those that are written between guards.
    fn raw(&self) -> (ffi::PaveAnswer, Lent, RunPlaces) {
        let (lent, mut places) = (Lent::new(&self.drawing), RunPlaces::new(self.lengths));
        let answer = pave_numbers(&lent.outline(), &self.settings, &mut places.lists());
        (answer, lent, places)
    }

    /// Sees to it that this is refused with the number, that all else is 0, and that nothing lent is written.
    fn assert_refused(&self, number: u32, what: &str) {
        let (answer, lent, places) = self.raw();
        let ffi::PaveAnswer { refusal, end, whole, xmin, ymin, h, nx, ny, nodes, quads, edges, front, loops, ids } =
            answer;
        assert_eq!(refusal, number, "{what}");
        assert_eq!((end, whole, [xmin, ymin, h].map(f64::to_bits), nodes), (0, false, [0; 3], 0), "{what}");
        assert_eq!([nx, ny, quads, edges, front, loops, ids], [0; 7], "{what}");
        assert!(lent.kept(), "{what}: the outline is written");
        assert_eq!(places.written_past([0; LISTS.len()]), [""; 0], "{what}");
        let mut places = RunPlaces::new(self.lengths);
        let refusal = places.pave(&self.drawing.outline(), &self.settings).err();
        assert_eq!(refusal, Refusal::of_number(number), "{what}: through the wrapper");
    }
}

/// A cause of each refusal, in the order of the numbers. Each may be given to a run that has any of those after it.
const CAUSES: [fn(&mut Asked); 10] = [
    |asked| asked.drawing.holes.push(1.0),
    |asked| asked.drawing.outer.truncate(4),
    |asked| asked.drawing.holes[2] = f64::NAN,
    |asked| asked.drawing.holes[1] = -1_001.0,
    |asked| asked.settings.size = 0.0,
    |asked| asked.settings.size = 101.0,
    |asked| asked.drawing.outer.chunks_mut(2).chain(asked.drawing.holes.chunks_mut(2)).for_each(|point| point[0] = 3.0),
    |asked| asked.settings.sweeps = 1_001,
    |asked| asked.lengths[1] = 1,
    |asked| asked.lengths[9] = 0,
];

#[test]
fn of_any_causes_the_least_number_is_answered() {
    assert_eq!(accepted().raw().0.refusal, 0);
    for causes in 1u32..1 << 10 {
        let mut asked = accepted();
        let given = |k: &usize| causes >> k & 1 == 1;
        (0..10).rev().filter(given).for_each(|k| CAUSES[k](&mut asked));
        asked.assert_refused(
            1 + causes.trailing_zeros(),
            &format!("causes {:?}", (0..10).filter(given).collect::<Vec<_>>()),
        );
    }
}

/// A run of so many points, some of them in a hole, that is refused for nothing but their number.
fn of_points(points: usize) -> Asked {
    let outer =
        (0..points - 8).map(|k| (k as f64 / (points - 8) as f64, k % 2)).map(|(t, up)| match (4.0 * t) as usize {
            0 => [40.0 * t, 0.0],
            1 => [10.0, 40.0 * t - 10.0],
            2 => [30.0 - 40.0 * t, 10.0 - 0.001 * up as f64],
            _ => [0.0, 40.0 - 40.0 * t],
        });
    let hole = (0..8).map(|k| [4.0 + (k % 4) as f64 / 2.0, 4.0 + (k / 4) as f64]);
    let places = Places { field_nodes: 1_600, nodes: 4_200, quads: 10, edges: 4_200, points };
    let drawing = Drawing::of_loops(&[outer.collect(), hole.collect()]);
    Asked { drawing, settings: Settings { passes: 0, ..USUAL }, lengths: list_lengths(places) }
}

#[test]
fn too_many_points_go_before_each_later_refusal() {
    assert_eq!((of_points(4_096).drawing.points(), of_points(4_096).raw().0.refusal), (4_096, 0));
    of_points(4_097).assert_refused(1, "4,097 points");
    let short: fn(&mut Asked) = |asked| asked.drawing.hole_lengths = vec![6, 2];
    for (number, cause) in (2..).zip([&[short], &CAUSES[2..]].concat()) {
        for (points, answer) in [(4_096, number), (4_097, 1)] {
            let mut asked = of_points(points);
            cause(&mut asked);
            asked.assert_refused(answer, &format!("{points} points and a cause of {number}"));
        }
    }
}

/// The host's bound is the one in the source of the library, whose contract has it.
#[test]
fn the_most_points_are_those_of_the_source() {
    let source = fs::read_to_string(concat!(env!("CARGO_MANIFEST_DIR"), "/../crates/outline/src/lib.rt")).unwrap();
    let text = source.split("pub const MOST_POINTS: usize = ").nth(1).unwrap();
    assert_eq!(text.split(';').next().unwrap().parse(), Ok(Outline::MOST_POINTS));
    let blocks = |points| Places { points, ..PROGRAM }.blocks();
    assert_eq!([0, 4_095, 4_096, 4_097, usize::MAX].map(blocks), [0, 8_190, 8_192, 8_192, 8_192]);
}

#[test]
fn every_cause_is_refused_alone() {
    let of_outline = refused().into_iter().filter(|(_, drawing, ..)| contains(&drawing.outline(), [0.0, 0.0]).is_err());
    for (what, drawing, _, number) in of_outline {
        Asked { drawing, ..accepted() }.assert_refused(number, what);
    }
    let sizes =
        [(f64::NAN, 5), (f64::INFINITY, 5), (-0.0, 5), (-1.0, 5), (0.01f64.next_down(), 6), (100f64.next_up(), 6)];
    for (size, number) in sizes {
        Asked { settings: Settings { size, ..USUAL }, ..accepted() }.assert_refused(number, &format!("size {size}"));
    }
    let level = Drawing::of_loops(&[vec![[0.0, 1.0], [1.0, 1.0], [2.0, 1.0]]]);
    Asked { drawing: level, ..accepted() }.assert_refused(7, "no height");
    Asked { settings: Settings { sweeps: usize::MAX, ..USUAL }, ..accepted() }
        .assert_refused(8, "as many sweeps as there can be");
}

/// With just the places that the field and the sampled outline need a run isn't refused; with one fewer in any list it is.
#[test]
fn the_shortest_list_counts() {
    let square = || Drawing::square(2.0);
    let mut needed = list_lengths(Places { nodes: 8, quads: 0, edges: 8, ..SQUARE });
    needed[11] = 1;
    let just = Asked { drawing: square(), settings: USUAL, lengths: needed };
    assert_eq!((just.raw().0.refusal, just.raw().0.end), (0, End::Full as u32));
    let numbers = [9, 9, 10, 10, 10, 10, 10, 10, 0, 10, 10, 10, 0, 0, 0, 0];
    for (k, number) in numbers.into_iter().enumerate().filter(|(_, number)| *number != 0) {
        for length in [needed[k] - 1, 0] {
            let mut lengths = list_lengths(PROGRAM);
            lengths[k] = length;
            Asked { drawing: square(), settings: USUAL, lengths }.assert_refused(number, LISTS[k]);
        }
    }
}

/// `lengths` needs a place for each loop of the outline and no more: with so many the mesh is that of ample lists, with fewer it is refused.
#[test]
fn lengths_has_a_place_for_each_loop() {
    for (drawing, loops) in [(Drawing::square(2.0), 1), (ring(), 2)] {
        let asked = |places| {
            let mut lengths = list_lengths(PROGRAM);
            lengths[11] = places;
            Asked { drawing: drawing.clone(), settings: USUAL, lengths }
        };
        let ample = said(&RunPlaces::new(list_lengths(PROGRAM)).pave(&drawing.outline(), &USUAL).unwrap());
        for places in [loops, loops + 1, 7, 800] {
            let mut lists = RunPlaces::new(asked(places).lengths);
            assert_eq!(said(&lists.pave(&drawing.outline(), &USUAL).unwrap()), ample, "{places} places, {loops} loops");
        }
        (0..loops).for_each(|places| asked(places).assert_refused(10, &format!("{places} places, {loops} loops")));
    }
    // Nothing paved: every loop is listed, and each has its length.
    let mut lengths = list_lengths(PROGRAM);
    lengths[11] = 2;
    let mut lists = RunPlaces::new(lengths);
    let mesh = lists.pave(&ring().outline(), &Settings { passes: 0, ..USUAL }).unwrap();
    assert_eq!((mesh.loop_count(), mesh.is_whole()), (2, false));
    assert!(mesh.front_loops().all(|ids| ids.len() % 2 == 0 && ids.iter().all(|id| *id >= ids[0])));
}

#[test]
fn more_places_than_there_can_be_are_an_error() {
    let none = Places { field_nodes: 0, nodes: 0, quads: 0, edges: 0, points: 0 };
    assert!(Memory::new(none).is_ok());
    // Lengths wrap to 0 or few for most of these: 4 times 2^62 is 0, and 16 times 2^60 + 1 is 16.
    for count in [1 << 60, (1 << 60) + 1, 1 << 62, (1 << 62) + 1, 1 << 63, (1 << 63) + 1, usize::MAX] {
        let each = [
            Places { field_nodes: count, ..none },
            Places { nodes: count, ..none },
            Places { quads: count, ..none },
            Places { edges: count, ..none },
        ];
        for places in each {
            assert_eq!(Memory::new(places).err(), Some(TooManyPlaces), "{places:?}");
        }
        assert!(Memory::new(Places { points: count, ..none }).is_ok(), "no outline has so many points");
    }
    assert_eq!(TooManyPlaces.to_string(), "there isn't memory for so many places: ask for fewer");
}
