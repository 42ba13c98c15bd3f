//! Paves a visual field with its blind spot and says what it got; then asks the three queries, and prints the answers in words.
//!
//! Without words after it, it asks about a few points; else about the points given, as in `visual_field 12 -3 0 40`.

use std::env;
use std::process::ExitCode;

use sitjorbe::{Mesh, Outline, Paver, Segment};

/// A right eye's field in degrees, seen from the eye: x to the right, where the temple is, y upwards; the middle is where the
/// eye looks.
const FIELD: [[f64; 2]; 14] = [
    [95.0, 0.0],
    [90.0, 25.0],
    [70.0, 45.0],
    [40.0, 56.0],
    [0.0, 60.0],
    [-35.0, 50.0],
    [-55.0, 30.0],
    [-60.0, 0.0],
    [-52.0, -30.0],
    [-35.0, -52.0],
    [0.0, -70.0],
    [40.0, -68.0],
    [72.0, -55.0],
    [90.0, -30.0],
];

/// Its blind spot.
const BLIND_SPOT: [[f64; 2]; 8] =
    [[18.0, -1.5], [17.0, -4.5], [15.0, -5.5], [13.0, -4.5], [12.0, -1.5], [13.0, 1.5], [15.0, 2.5], [17.0, 1.5]];

/// The length wanted of a quad's side, in degrees.
const SIZE: f64 = 6.0;

const POINTS: [(&str, [f64; 2]); 5] = [
    ("where the eye looks", [0.0, 0.0]),
    ("in the blind spot", [15.0, -1.5]),
    ("just beside the blind spot", [18.5, -1.5]),
    ("behind the nose", [-61.0, 5.0]),
    ("a missing reading", [f64::NAN, 5.0]),
];

fn main() -> ExitCode {
    let numbers: Result<Vec<f64>, _> = env::args().skip(1).map(|word| word.parse()).collect();
    let Some(given) = numbers.ok().filter(|numbers| numbers.len() % 2 == 0) else {
        eprintln!("Give points as pairs of numbers, for example: 12 -3 0 40");
        return ExitCode::FAILURE;
    };
    println!("A visual field of 14 points, in degrees, with a blind spot of 8.");
    let field = Outline::new(FIELD).hole(BLIND_SPOT);
    match Paver::new(SIZE).pave(&field) {
        Ok(mesh) => say(&mesh),
        Err(refused) => println!("\n{refused}"),
    }
    if given.is_empty() {
        POINTS.into_iter().for_each(|(what, point)| ask(&field, what, point));
    } else {
        given.chunks_exact(2).for_each(|point| ask(&field, "as given", [point[0], point[1]]));
    }
    ExitCode::SUCCESS
}

/// Says what a run made.
fn say(mesh: &Mesh) {
    println!("\nPaved with elements of {SIZE} degrees:");
    println!("  {} nodes, {} quads, {} edges", mesh.nodes().len(), mesh.quads().len(), mesh.edges().len());
    if let Some(end) = mesh.end() {
        println!("  ended {end}");
    }
    if mesh.is_whole() {
        println!("  whole: nothing is left to pave");
    } else if mesh.loops().is_empty() {
        println!("  open: the outline is unsound, and nothing is left to pave");
    }
    for front in mesh.loops() {
        println!("  open: the front keeps a loop of {} nodes", front.len());
    }
}

/// Asks the three queries about a point.
fn ask(field: &Outline, what: &str, point: [f64; 2]) {
    let [x, y] = point;
    println!("\n({x}, {y}), {what}:");
    match field.contains(point) {
        Ok(true) => println!("  is in the field"),
        Ok(false) => println!("  isn't in the field"),
        Err(refusal) => return println!("  {refusal}"),
    }
    match field.nearest_segment(point) {
        Ok(Segment { loop_index, segment_index, a, b, .. }) => {
            let of = if loop_index == 0 { "field" } else { "blind spot" };
            println!(
                "  nearest edge: the {of}'s number {segment_index}, from ({}, {}) to ({}, {})",
                a[0], a[1], b[0], b[1]
            );
        }
        Err(refusal) => println!("  {refusal}"),
    }
    match field.distance_to_boundary(point) {
        Ok(distance) => println!("  distance to the outline: {distance:.3} degrees"),
        Err(refusal) => println!("  {refusal}"),
    }
}
