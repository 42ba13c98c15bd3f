//! The owned types beside the lent lists that they are made of: outlines, meshes that grow, steppers, and what becomes of them.

use std::fs;

use sitjorbe::raw;
use sitjorbe::{End, Memory, Mesh, NotAccepted, NotPaved, Outcome, Outline, Paver, Refusal, Stepper};

const EXAMPLES: [(&str, f64); 6] =
    [("right-eye", 3.6), ("left-eye", 3.6), ("24-2", 3.0), ("30-2", 3.0), ("hemianopia", 3.0), ("hand-drawn", 2.0)];

/// An outline of examples/, read without the command's reader.
fn example(name: &str) -> Outline {
    let text =
        fs::read_to_string(format!("{}/../examples/{name}.csv", env!("CARGO_MANIFEST_DIR"))).expect("it is there");
    let point = |line: &str| -> [f64; 2] {
        let (x, y) = line.split_once(',').expect("a comma");
        [x, y].map(|word| word.trim().parse().expect("a number"))
    };
    let loops = text
        .split("\n\n")
        .map(|part| part.lines().filter(|line| !line.starts_with('#') && !line.is_empty()).map(point).collect());
    let mut loops = loops.filter(|points: &Vec<[f64; 2]>| !points.is_empty());
    let outer = Outline::new(loops.next().expect("an outer loop"));
    loops.fold(outer, Outline::hole)
}

fn square(side: f64) -> Outline {
    Outline::new([[0.0, 0.0], [side, 0.0], [side, side], [0.0, side]])
}

/// A comb: far more quads than its box and its samples let guess.
fn tooth(width: f64) -> Outline {
    Outline::new([[0.0, 0.0], [width, 0.0], [width, 1.0], [0.0, 1.0]])
}

fn bits(points: impl IntoIterator<Item = [f64; 2]>) -> Vec<[u64; 2]> {
    points.into_iter().map(|point| point.map(f64::to_bits)).collect()
}

#[test]
fn a_mesh_is_what_the_run_left_in_lent_lists() {
    for (name, size) in EXAMPLES {
        let (outline, paver) = (example(name), Paver::new(size));
        let mesh = paver.pave(&outline).expect("it isn't refused");
        let mut memory = Memory::new(paver.places(&outline, 4).expect("it isn't refused")).expect("memory");
        let lent = raw::pave(&outline.lent(), paver.settings(), memory.lists()).expect("it isn't refused");
        assert_ne!(lent.end(), End::Full);
        assert_eq!(bits(mesh.nodes().iter().copied()), bits(lent.nodes()), "{name}");
        assert_eq!(mesh.quads(), lent.quads().collect::<Vec<_>>());
        assert_eq!(mesh.edges(), lent.edges().collect::<Vec<_>>());
        assert_eq!(mesh.origins(), lent.origins());
        assert_eq!(mesh.front().collect::<Vec<_>>(), lent.front().collect::<Vec<_>>());
        assert_eq!(mesh.loops(), lent.front_loops().map(<[u32]>::to_vec).collect::<Vec<_>>());
        assert_eq!((mesh.is_whole(), mesh.end(), mesh.size()), (lent.is_whole(), Some(lent.end()), size));
        assert_eq!(mesh.field().record(), lent.record());
        assert_eq!(mesh.field().lent(), lent.field());
        assert_eq!(mesh.field(), &paver.field(&outline).expect("it isn't refused"), "the field alone is the run's");
        assert_eq!(mesh.outline(), &outline);
    }
}

#[test]
fn a_run_that_is_full_goes_on_in_more_memory() {
    let mut grown = 0;
    for (outline, size) in
        [(square(40.0), 1.0), (tooth(400.0), 0.25), (square(3.0), 0.01), (example("hand-drawn"), 0.3)]
    {
        let paver = Paver::new(size);
        let mesh = paver.pave(&outline).expect("it isn't refused");
        assert_ne!(mesh.end(), Some(End::Full));
        let mut memory = Memory::new(paver.places(&outline, 1).expect("it isn't refused")).expect("memory");
        let first = paver.pave_in(&outline, &mut memory).expect("it isn't refused");
        grown += usize::from(first.end() == End::Full);
        let quads: Vec<[u32; 4]> = first.quads().collect();
        assert_eq!(mesh.quads()[..quads.len()], quads, "the same quads first");
    }
    println!("{grown} runs were full at first");
}

#[test]
fn few_places_are_full_and_a_refusal_is_an_error() {
    let (outline, paver) = (square(8.0), Paver::new(1.0));
    let mut memory = Memory::new(paver.places(&outline, 0).expect("it isn't refused")).expect("memory");
    let mesh = paver.pave_in(&outline, &mut memory).expect("it isn't refused");
    assert_eq!((mesh.end(), mesh.quad_count()), (End::Full, 0));
    for (outline, paver, refusal) in [
        (Outline::new([[0.0, 0.0], [1.0, 0.0]]), paver, Refusal::ShortLoop),
        (square(f64::NAN), paver, Refusal::NotFinite),
        (square(8.0), Paver::new(0.0), Refusal::NoSize),
        (square(8.0), Paver::new(200.0), Refusal::SizeOutOfRange),
        (square(0.0), paver, Refusal::Flat),
        (square(8.0), paver.sweeps(1_001), Refusal::TooManySweeps),
    ] {
        assert_eq!(paver.pave(&outline), Err(NotPaved::Refused(refusal)));
        assert_eq!(paver.field(&outline), Err(refusal));
    }
}

/// What doesn't say how a mesh came about.
fn compare(mesh: &Mesh, other: &Mesh) {
    assert_eq!(bits(mesh.nodes().iter().copied()), bits(other.nodes().iter().copied()));
    assert_eq!((mesh.quads(), mesh.edges(), mesh.origins()), (other.quads(), other.edges(), other.origins()));
    assert_eq!((mesh.loops(), mesh.is_whole()), (other.loops(), other.is_whole()));
    assert_eq!(mesh.front().collect::<Vec<_>>(), other.front().collect::<Vec<_>>());
    assert_eq!(mesh.bowl_steps(), other.bowl_steps());
    let wish: Vec<u32> = (0..mesh.quads().len() as u32).rev().collect();
    assert_eq!(mesh.order(&wish), other.order(&wish));
}

#[test]
fn a_stepped_mesh_is_like_any_other() {
    for (name, size) in EXAMPLES {
        let outline = example(name);
        let paved = Paver::new(size).pave(&outline).expect("it isn't refused");
        let mut stepper = Stepper::new(&outline, size).expect("it isn't refused");
        let mut passes = 0;
        while stepper.pass().outcome == Outcome::Placed {
            passes += 1;
        }
        let stepped = stepper.mesh();
        compare(&stepped, &paved);
        assert_eq!((stepped.end(), stepper.quads()), (None, paved.quads()));
        assert_eq!(bits(stepper.nodes()), bits(paved.nodes().iter().copied()));
        let half = Paver::new(size).passes(passes / 2).pave(&outline).expect("it isn't refused");
        let mut later = half.stepper();
        while later.pass().outcome == Outcome::Placed {}
        compare(&later.mesh(), &paved);
        let mut exam = stepped.exam();
        for node in stepped.quads()[0] {
            exam.desk().enter(node, 250).expect("it is there");
        }
        assert_eq!(exam.reader().figures(), (1, 1_000));
    }
}

#[test]
fn previews_say_what_steps_do() {
    let mut stepper = Stepper::new(&square(4.0), 1.0).expect("it isn't refused");
    let mut placed = 0;
    while let Some(&edge) = stepper.front().first() {
        let (quad, front): (_, Vec<_>) =
            stepper.preview(edge).map(|look| (look.quad, look.front().collect())).expect("on the front");
        let outcome = stepper.step(edge).expect("on the front");
        assert_eq!(quad.is_some(), outcome == Outcome::Placed);
        assert_eq!(stepper.front(), front);
        let Some(quad) = quad else { break };
        assert_eq!(stepper.quads().last(), Some(&quad));
        placed += 1;
    }
    assert!(placed >= 8, "{placed}");
    assert_eq!(stepper.step([0, 0]), Err(Refusal::NotOnFront));
    assert_eq!(stepper.preview([0, 0]), Err(Refusal::NotOnFront));
}

#[test]
fn outlines_keep_their_loops_and_orders_are_judged() {
    let outline = example("right-eye");
    let holes: Vec<Vec<[f64; 2]>> = outline.holes().map(<[[f64; 2]]>::to_vec).collect();
    assert_eq!(outline.lent().hole_lengths, holes.iter().map(Vec::len).collect::<Vec<_>>());
    assert_eq!(outline.lent().holes, holes.concat().as_flattened());
    assert_eq!(holes.into_iter().fold(Outline::new(outline.outer()), Outline::hole), outline);
    let mesh = Paver::new(1.0).pave(&square(2.0)).expect("it isn't refused");
    assert_eq!(mesh.check_order(&[3, 0, 1, 2]).is_ok(), mesh.order(&[3]) == [3, 0, 1, 2]);
    assert_eq!(mesh.check_order(&[0, 1, 2]), Err(NotAccepted::NotEachOnce));
}
