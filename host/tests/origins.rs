//! Origins: which loop of the outline a node came from. Its readings, runs beside a model written from SCOPE, and what the model's check finds.

mod common;

use std::f64::consts::TAU;

use common::origins::{fault, origins};
use common::rng::Rng;
use common::{list_lengths, used, Drawing, RunPlaces, LISTS};
use sitjorbe::raw::{Mesh, Settings};
use sitjorbe::{End, Memory, Places};

const AMPLE: Places = Places { field_nodes: 4_000, nodes: 2_000, quads: 2_000, edges: 6_000, points: 100 };

fn ids(mesh: &Mesh<'_>) -> Vec<[usize; 4]> {
    mesh.quads().map(|quad| quad.map(|id| id as usize)).collect()
}

/// The front of a run before its first quad.
fn sampled(drawing: &Drawing, settings: &Settings) -> Vec<(usize, usize)> {
    let mut memory = Memory::new(AMPLE).unwrap();
    let mesh = memory.pave(&drawing.outline(), &Settings { passes: 0, ..*settings }).unwrap();
    mesh.front().map(|[u, v]| (u as usize, v as usize)).collect()
}

/// A square of side 8 with a hole of three points, which gets a midpoint.
fn holed() -> Drawing {
    let square = vec![[0.0, 0.0], [8.0, 0.0], [8.0, 8.0], [0.0, 8.0]];
    Drawing::of_loops(&[square, vec![[3.0, 3.0], [3.0, 5.0], [5.0, 3.0]]])
}

#[test]
fn the_papers_readings() {
    let triangle = Drawing::of_loops(&[vec![[0.0, 0.0], [2.0, 0.0], [1.0, 2.0]]]);
    let samples = [vec![0; 16], vec![1; 4]].concat();
    let paved = [samples.clone(), vec![0; 8]].concat();
    for (drawing, size, passes, expected) in [
        (Drawing::square(2.0), 1.0, 600, vec![0; 9]),
        (triangle, 3.0, 600, vec![0; 4]),
        (holed(), 2.0, 600, paved),
        (holed(), 2.0, 0, samples),
    ] {
        let mut memory = Memory::new(AMPLE).unwrap();
        let mesh = memory.pave(&drawing.outline(), &Settings { size, sweeps: 400, passes }).unwrap();
        assert_eq!(mesh.origins(), expected, "{drawing:?}");
        assert_eq!(origins(&drawing, size, &ids(&mesh)), expected, "{drawing:?}");
    }
}

/// Lists of which one is too short: the list of origins counts as any other list of nodes does.
#[test]
fn a_place_too_few() {
    let place = LISTS.iter().position(|name| *name == "origins").unwrap();
    let settings = Settings { size: 2.0, sweeps: 400, passes: 600 };
    for (length, refusal, nodes) in [(28, 0, 28), (27, 0, 27), (20, 0, 20), (19, 10, 0), (0, 10, 0)] {
        let mut lengths = list_lengths(AMPLE);
        lengths[place] = length;
        let mut places = RunPlaces::new(lengths);
        let (found, used) = match places.pave(&holed().outline(), &settings) {
            Ok(mesh) => {
                let end = if length == 28 { End::Still } else { End::Full };
                assert_eq!((mesh.end(), mesh.node_count(), mesh.origins().len()), (end, nodes, nodes));
                assert_eq!(mesh.origins(), origins(&holed(), 2.0, &ids(&mesh)));
                (0, used(&mesh))
            }
            Err(refusal) => (refusal.number(), [0; LISTS.len()]),
        };
        assert_eq!(found, refusal, "{length} places");
        assert_eq!(places.written_past(used), [""; 0], "{length} places");
    }
}

/// As many points round a centre, either way round.
fn ring(rng: &mut Rng, [x, y]: [f64; 2], radius: f64) -> Vec<[f64; 2]> {
    let count = rng.between(3, 11);
    let mut points: Vec<[f64; 2]> = (0..count)
        .map(|k| {
            let (angle, far) = (TAU * k as f64 / count as f64, radius * (0.75 + 0.25 * rng.unit()));
            [x + far * angle.cos(), y + far * angle.sin()]
        })
        .collect();
    if rng.once_in(2) {
        points.reverse();
    }
    points
}

/// An outer loop and up to four holes, which may touch each other and the outer loop.
fn drawing(rng: &mut Rng) -> Drawing {
    let (x, radius) = (rng.pick(&[0.0, 0.0, 100.0, -950.5]), 6.0 + 3.0 * rng.unit());
    let mut loops = vec![ring(rng, [x, 0.0], radius)];
    for _ in 0..rng.below(5) {
        let centre = [x + 0.5 * radius * rng.unit(), 0.5 * radius * rng.unit()];
        let far = radius * (0.2 + 0.12 * rng.unit());
        loops.push(ring(rng, centre, far));
    }
    Drawing::of_loops(&loops)
}

/// Runs with none to four holes, of which many end where a list is full, with whatever the lists held before.
#[test]
fn runs_beside_the_model() {
    let (mut rng, mut memory) = (Rng(9), Memory::new(AMPLE).unwrap());
    let (mut runs, mut with_holes, mut round_holes, mut full) = (0, 0, 0, 0);
    while runs < 6_000 {
        let drawing = drawing(&mut rng);
        let settings = Settings { size: 1.3 + 0.6 * rng.unit(), sweeps: 5, passes: rng.pick(&[0, 1, 2, 5, 600, 600]) };
        let front = sampled(&drawing, &settings);
        let nodes = memory.pave(&drawing.outline(), &settings).unwrap().node_count();
        let mut lengths = list_lengths(AMPLE);
        let place = rng.pick(&[2, 3, 4, 5, 6, 7, 7, 7, 10]);
        lengths[place] = rng.between(front.len(), nodes + 3);
        let mut places = RunPlaces::new(lengths);
        let mesh = places.pave(&drawing.outline(), &settings).unwrap();
        let (quads, used) = (ids(&mesh), used(&mesh));
        let numbers = origins(&drawing, settings.size, &quads);
        assert_eq!(mesh.origins(), numbers, "{drawing:?} {settings:?} {lengths:?}");
        assert_eq!(fault(&numbers, &front, &quads), None, "{drawing:?} {settings:?} {lengths:?}");
        runs += 1;
        with_holes += usize::from(drawing.loop_count() > 1);
        round_holes += usize::from(numbers[front.len()..].iter().any(|number| *number > 0));
        full += usize::from(mesh.end() == End::Full);
        assert_eq!(places.written_past(used), [""; 0], "{drawing:?} {settings:?} {lengths:?}");
    }
    let counts = [with_holes, round_holes, full];
    println!("{runs} runs: {with_holes} with holes, {round_holes} with new nodes round one, {full} full");
    assert!(counts.into_iter().zip([4_000, 1_000, 1_000]).all(|(count, least)| count > least), "{counts:?}");
}

/// What the model's check says of numbers that aren't the run's.
#[test]
fn spoilt_numbers_are_found() {
    let settings = Settings { size: 1.0, sweeps: 400, passes: 600 };
    let (drawing, mut memory) = (holed(), Memory::new(AMPLE).unwrap());
    let mesh = memory.pave(&drawing.outline(), &settings).unwrap();
    let (front, quads, numbers) = (sampled(&drawing, &settings), ids(&mesh), mesh.origins().to_vec());
    assert_eq!(fault(&numbers, &front, &quads), None);
    for node in 0..numbers.len() {
        let mut spoilt = numbers.clone();
        spoilt[node] += 1;
        assert!(fault(&spoilt, &front, &quads).is_some(), "node {node}");
        assert!(fault(&numbers[..node], &front, &quads).is_some(), "{node} numbers");
    }
    assert!(fault(&[numbers.clone(), vec![0]].concat(), &front, &quads).is_some(), "a number too many");
    assert!(fault(&numbers, &front, &quads[1..]).is_some(), "the first quad is missing");
    let one = vec![0; numbers.len()];
    assert_eq!(
        fault(&one, &front, &quads),
        None,
        "one number is no mixture: the samples' numbers are held against the model"
    );
    assert_ne!(one, numbers);
}
