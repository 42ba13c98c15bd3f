//! How much to lend, beside a model of its own, written from SCOPE, and beside the refusals 9 and 10 of the library itself; and the copy of the counts in
//! the tools.

mod common;

use std::io::Write;
use std::process::{Command, Stdio};

use common::rng::Rng;
use common::{refused, Drawing, FieldPlaces, Lent, RunPlaces};
use sitjorbe::raw::{least_places, LeastPlaces, Settings};
use sitjorbe::{ffi, End, Memory, Places, Refusal};

// ---- the model

/// What 9 and 10 count, or the number that refuses the outline or the size.
fn model(drawing: &Drawing, size: f64) -> Result<LeastPlaces, u32> {
    let Drawing { outer, holes, hole_lengths } = drawing;
    let told: Option<usize> = hole_lengths.iter().try_fold(0, |sum: usize, length| sum.checked_add(*length));
    let halves = outer.len() % 2 == 1 || holes.len() % 2 == 1;
    if halves || told != Some(holes.len() / 2) || drawing.points() > 4_096 {
        return Err(1);
    }
    let loops = drawing.loops();
    for points in &loops {
        match () {
            () if points.len() < 6 => return Err(2),
            () if points.iter().any(|x| !x.is_finite()) => return Err(3),
            () => {}
        }
    }
    let all = || loops.iter().flat_map(|points| points.chunks(2));
    match () {
        () if all().flatten().any(|x| x.abs() > 1_000.0) => return Err(4),
        () if !size.is_finite() || size <= 0.0 => return Err(5),
        () if !(0.01..=100.0).contains(&size) => return Err(6),
        () => {}
    }
    let [width, height] = [0, 1].map(|axis| {
        let greatest = all().map(|point| point[axis]).fold(f64::NEG_INFINITY, f64::max);
        greatest - all().map(|point| point[axis]).fold(f64::INFINITY, f64::min)
    });
    if width <= 0.0 || height <= 0.0 {
        return Err(7);
    }
    let nodes = |h: f64| [width, height].map(|side| ((side / h).ceil() as usize).max(2) + 3).iter().product();
    let mut h = 0.5 * size;
    while nodes(h) > 250_000usize {
        h *= 1.25;
    }
    let sampled = |points: &&[f64]| {
        let ends = points.chunks(2).zip(points.chunks(2).cycle().skip(1));
        let parts = ends.map(|(a, b)| {
            let (dx, dy) = (a[0] - b[0], a[1] - b[1]);
            (((dx * dx + dy * dy).sqrt() / (1.05 * size)).ceil() as usize).max(1)
        });
        parts.sum::<usize>().next_multiple_of(2)
    };
    Ok(LeastPlaces { field_nodes: nodes(h), sampled_nodes: loops.iter().map(sampled).sum() })
}

// ---- drawings

/// A star of some points round a middle.
fn star(rng: &mut Rng, [x, y]: [f64; 2], radius: f64) -> Vec<[f64; 2]> {
    let count = rng.between(3, 40);
    let point = |k: usize, far: f64| {
        let angle = std::f64::consts::TAU * k as f64 / count as f64;
        [x + far * angle.cos(), y + far * angle.sin()]
    };
    (0..count).map(|k| point(k, radius * (0.7 + 0.3 * rng.unit().abs()))).collect()
}

/// A field with up to three blind spots, which may touch each other, and an element size.
fn drawn(rng: &mut Rng) -> (Drawing, f64) {
    let radius = rng.pick(&[0.5, 3.0, 20.0, 90.0]) * (1.0 + rng.unit().abs());
    let mut loops = vec![star(rng, [0.0, 0.0], radius)];
    for _ in 0..rng.below(4) {
        let middle = [0.5 * radius * rng.unit(), 0.5 * radius * rng.unit()];
        loops.push(star(rng, middle, 0.2 * radius));
    }
    (Drawing::of_loops(&loops), (radius * (0.05 + 0.6 * rng.unit().abs())).clamp(0.01, 100.0))
}

/// The same with something wrong, or at a bound.
fn spoilt(rng: &mut Rng) -> (Drawing, f64) {
    let (mut drawing, mut size) = drawn(rng);
    for _ in 0..rng.between(1, 2) {
        let [place, hole] = [&drawing.outer, &drawing.holes].map(|list| rng.below(list.len().max(1)));
        match rng.below(10) {
            0 if !drawing.outer.is_empty() => {
                drawing.outer[place] = rng.pick(&[f64::NAN, f64::INFINITY, 1e3, -1e3, 1e3f64.next_up()]);
            }
            1 => drawing.outer.truncate(place),
            2 => drawing.holes.truncate(hole),
            3 => drawing.hole_lengths.push(rng.pick(&[0, 1, 3, usize::MAX])),
            4 => size = rng.pick(&[0.0, -0.0, -1.0, f64::NAN, f64::INFINITY, 5e-324]),
            5 => size = rng.pick(&[0.01, 0.01f64.next_down(), 100.0, 100f64.next_up(), f64::MAX]),
            6 => drawing.outer.iter_mut().step_by(2).for_each(|x| *x = 0.5),
            7 => drawing.holes.iter_mut().for_each(|x| *x *= 1e3),
            8 => drawing.outer = drawing.outer.repeat(1 + 4_200 / drawing.points().max(1)),
            _ => drawing.outer.iter_mut().for_each(|x| *x *= 1e-300),
        }
    }
    (drawing, size)
}

/// The library's answer, with every list between guards.
fn asked(drawing: &Drawing, size: f64) -> Result<LeastPlaces, u32> {
    let mut lent = Lent::new(drawing);
    let ((outer, outer_len), (holes, holes_len)) = (lent.outer.parts(), lent.holes.parts());
    let (lens, lens_len) = lent.hole_lengths.parts();
    // SAFETY: each pointer comes with its list's length.
    let answer = unsafe { ffi::sitjorbe_places(outer, outer_len, holes, holes_len, lens, lens_len, size) };
    assert!(lent.kept(), "{drawing:?}");
    let ffi::PlacesAnswer { refusal, field_nodes, sampled_nodes } = answer;
    let wrapped = least_places(&lent.outline(), size);
    match refusal {
        0 => {
            assert_eq!(wrapped, Ok(LeastPlaces { field_nodes, sampled_nodes }));
            Ok(LeastPlaces { field_nodes, sampled_nodes })
        }
        number => {
            assert_eq!((field_nodes, sampled_nodes), (0, 0), "{drawing:?}");
            assert_eq!(wrapped, Err(Refusal::of_number(number).unwrap()));
            Err(number)
        }
    }
}

#[test]
fn the_counts_are_the_models() {
    let mut rng = Rng(1);
    let mut grown = 0;
    for _ in 0..4_000 {
        let (drawing, size) = drawn(&mut rng);
        let size = if rng.once_in(4) { (size / 60.0).max(0.01) } else { size };
        let found = asked(&drawing, size);
        assert_eq!(found, model(&drawing, size), "{size} {drawing:?}");
        grown += usize::from(found.unwrap().field_nodes > 150_000);
    }
    assert!(grown > 100, "fields of nearly as many nodes as there can be: {grown}");
}

#[test]
fn refusals_are_document_01s_in_its_order() {
    let mut rng = Rng(2);
    let mut seen = [0; 8];
    for _ in 0..20_000 {
        let (drawing, size) = spoilt(&mut rng);
        let found = asked(&drawing, size);
        assert_eq!(found, model(&drawing, size), "{size} {drawing:?}");
        seen[found.err().unwrap_or(0) as usize] += 1;
    }
    assert!(seen.iter().all(|times| *times > 100), "{seen:?}");
    for (what, drawing, ..) in refused() {
        assert_eq!(asked(&drawing, 1.0), model(&drawing, 1.0), "{what}");
        assert_eq!(asked(&drawing, f64::NAN), model(&drawing, f64::NAN), "{what}");
    }
}

/// Just as many places as are answered, and one fewer of each kind: what the library itself refuses then.
#[test]
fn the_library_refuses_one_place_fewer() {
    let mut rng = Rng(3);
    let settings = |size| Settings { size, sweeps: 0, passes: 1 };
    for _ in 0..300 {
        let (drawing, size) = drawn(&mut rng);
        let outline = drawing.outline();
        let LeastPlaces { field_nodes, sampled_nodes } = least_places(&outline, size).unwrap();
        let exact = Places { field_nodes, nodes: sampled_nodes, quads: 0, edges: sampled_nodes, points: 0 };
        for (places, refusal) in [
            (exact, None),
            (Places { field_nodes: field_nodes - 1, ..exact }, Some(Refusal::FieldNeedsSpace)),
            (Places { nodes: sampled_nodes - 1, ..exact }, Some(Refusal::FrontNeedsSpace)),
            (Places { edges: sampled_nodes - 1, ..exact }, Some(Refusal::FrontNeedsSpace)),
        ] {
            let mut lists = RunPlaces::new(common::list_lengths(places));
            let found = lists.pave(&outline, &settings(size)).map(|mesh| mesh.record().nodes());
            assert_eq!(found, refusal.map_or(Ok(field_nodes), Err), "{places:?} {size} {drawing:?}");
        }
        let mut lists = FieldPlaces::new(2 * field_nodes, field_nodes, 0);
        assert_eq!(lists.field(&outline, size, 0).map(|record| record.nodes()), Ok(field_nodes));
        let mut short = FieldPlaces::new(2 * field_nodes - 1, field_nodes, 0);
        assert_eq!(short.field(&outline, size, 0), Err(Refusal::FieldNeedsSpace));
    }
    for _ in 0..300 {
        let (drawing, size) = spoilt(&mut rng);
        if let Err(refusal) = least_places(&drawing.outline(), size) {
            let mut lists = RunPlaces::new([0; common::LISTS.len()]);
            assert_eq!(lists.pave(&drawing.outline(), &settings(size)).err(), Some(refusal), "{size} {drawing:?}");
        }
    }
}

#[test]
fn places_for_an_outline_are_enough_or_the_run_is_full() {
    let mut rng = Rng(4);
    let mut ends = [0; 4];
    for _ in 0..200 {
        let (drawing, size) = drawn(&mut rng);
        let outline = drawing.outline();
        let settings = Settings { size, sweeps: 20, passes: 600 };
        let places = Places::for_outline(&outline, size, 1).unwrap();
        let mut memory = Memory::new(places).unwrap();
        let mesh = memory.pave(&outline, &settings).unwrap();
        ends[mesh.end() as usize] += 1;
        let quads = mesh.quad_count();

        // Where there is a place fewer for quads than are placed, the run is full, by quads alone, and keeps the mesh so far.
        let mut short = Memory::new(Places { quads: quads.saturating_sub(1), ..places }).unwrap();
        let mesh = short.pave(&outline, &settings).unwrap();
        assert_eq!((mesh.end() == End::Full, mesh.quad_count()), (quads > 0, quads.saturating_sub(1)));
        assert!(mesh.node_count() <= places.nodes && mesh.edge_count() <= places.edges);
    }
    assert_eq!(ends[End::Full as usize], 0, "still, passes, cap, full: {ends:?}");

    let square = Drawing::square(2.0);
    let places = |growth| Places::for_outline(&square.outline(), 1.0, growth);
    assert_eq!(places(0), Ok(Places { field_nodes: 49, nodes: 8, quads: 0, edges: 8, points: 4 }));
    assert_eq!(places(1), Ok(Places { field_nodes: 49, nodes: 8 + 40, quads: 20, edges: 8 + 60, points: 4 }));
    assert_eq!(places(usize::MAX).unwrap().quads, Places::MOST_QUADS);
    assert_eq!(Places::for_outline(&square.outline(), 0.0, 1), Err(Refusal::NoSize));
    let mut none = Memory::new(places(0).unwrap()).unwrap();
    let mesh = none.pave(&square.outline(), &Settings { size: 1.0, sweeps: 0, passes: 600 }).unwrap();
    assert_eq!((mesh.end(), mesh.quad_count()), (End::Full, 0));
}

/// tools/outlines.py has these counts too, so that tools/outline needs no library.
#[test]
fn the_tools_count_the_same() {
    const COUNT: &str = "
import struct, sys
sys.path.insert(0, sys.argv[1])
import outlines
for line in sys.stdin:
    size, *loops = line.split(';')
    floats = lambda words: [struct.unpack('>d', bytes.fromhex(word))[0] for word in words.split()]
    points = lambda xs: [outlines.Point(*pair) for pair in zip(xs[::2], xs[1::2])]
    loops = [points(floats(words)) for words in loops]
    print(outlines.field_nodes(loops, *floats(size)), outlines.sampled_nodes(loops, *floats(size)))
";
    let mut rng = Rng(5);
    let drawings: Vec<(Drawing, f64)> = (0..2_000).map(|_| drawn(&mut rng)).collect();
    let hex = |list: &[f64]| list.iter().map(|x| format!("{:016x}", x.to_bits())).collect::<Vec<_>>().join(" ");
    let lines: String = (drawings.iter())
        .map(|(drawing, size)| {
            let loops: Vec<String> = drawing.loops().into_iter().map(hex).collect();
            format!("{};{}\n", hex(&[*size]), loops.join(";"))
        })
        .collect();
    let tools = concat!(env!("CARGO_MANIFEST_DIR"), "/../tools");
    let mut python = Command::new("python3")
        .args(["-c", COUNT, tools])
        .stdin(Stdio::piped())
        .stdout(Stdio::piped())
        .spawn()
        .expect("the tools are in Python");
    let mut input = python.stdin.take().unwrap();
    let writer = std::thread::spawn(move || input.write_all(lines.as_bytes()));
    let output = python.wait_with_output().unwrap();
    writer.join().unwrap().unwrap();
    assert!(output.status.success());
    let text = String::from_utf8(output.stdout).unwrap();
    assert_eq!(text.lines().count(), drawings.len());
    for (line, (drawing, size)) in text.lines().zip(&drawings) {
        let LeastPlaces { field_nodes, sampled_nodes } = least_places(&drawing.outline(), *size).unwrap();
        assert_eq!(line, format!("{field_nodes} {sampled_nodes}"), "{size} {drawing:?}");
    }
}
