//! Draws the mesh of a small field twice over the bowl's lattice of steps, as it was paved and in steps: an SVG on standard output. At this
//! size an element is four to five steps wide, so the way from a node to its step shows.
//!
//!     cargo run --offline --manifest-path host/Cargo.toml --example bowl_steps > fovea.svg

use std::error::Error;
use std::fmt::Write;

use sitjorbe::{BowlSteps, Outline, Paver, STEPS_PER_DEGREE};

/// A field of less than a degree round the fovea, x and y in degrees.
const OUTER: [[f64; 2]; 12] = [
    [0.41, 0.0],
    [0.36, 0.17],
    [0.21, 0.29],
    [0.0, 0.33],
    [-0.21, 0.29],
    [-0.36, 0.17],
    [-0.41, 0.0],
    [-0.36, -0.17],
    [-0.21, -0.29],
    [0.0, -0.33],
    [0.21, -0.29],
    [0.36, -0.17],
];

const SIZE: f64 = 0.07;

/// Pixels a degree, and from the picture's corner to its middle.
const SCALE: f64 = 768.0;
const HALF: [f64; 2] = [360.0, 300.0];

/// Where a point is in the picture: y runs up, in a picture down.
fn pixel([x, y]: [f64; 2]) -> String {
    format!("{:.2},{:.2}", HALF[0] + SCALE * x, HALF[1] - SCALE * y)
}

/// The quads as one path.
fn path(nodes: &[[f64; 2]], quads: &[[u32; 4]]) -> String {
    quads.iter().fold(String::new(), |mut path, quad| {
        let [a, b, d, c] = quad.map(|id| pixel(nodes[id as usize]));
        write!(path, "M{a} {b} {d} {c}Z").expect("a string takes all");
        path
    })
}

/// The longest way from a node to its step, along x or y, in degrees.
fn longest_way(nodes: &[[f64; 2]], steps: &BowlSteps) -> f64 {
    let ways =
        nodes.iter().zip(steps.degrees()).flat_map(|(node, step)| [0, 1].map(|axis| (node[axis] - step[axis]).abs()));
    ways.fold(0.0, f64::max)
}

fn main() -> Result<(), Box<dyn Error>> {
    let mesh = Paver::new(SIZE).pave(&Outline::new(OUTER))?;
    let (nodes, quads, steps) = (mesh.nodes(), mesh.quads(), mesh.bowl_steps()?);
    let stepped: Vec<[f64; 2]> = steps.degrees().collect();
    let longest = longest_way(nodes, &steps);
    let ([width, height], lattice) = (HALF.map(|half| 2.0 * half), SCALE / f64::from(STEPS_PER_DEGREE));
    println!("<svg xmlns=\"http://www.w3.org/2000/svg\" viewBox=\"0 0 {width} {height}\" font-family=\"sans-serif\">");
    println!("<title>{} quads as paved (orange) and in steps of 1/64 degree (black)</title>", quads.len());
    println!(
        "<pattern id=\"steps\" width=\"{lattice}\" height=\"{lattice}\" patternUnits=\"userSpaceOnUse\"><path \
         d=\"M0,0H{lattice}M0,0V{lattice}\" stroke=\"#ddd\"/></pattern>"
    );
    println!("<rect width=\"{width}\" height=\"{height}\" fill=\"white\"/>");
    println!("<rect width=\"{width}\" height=\"{height}\" fill=\"url(#steps)\"/>");
    println!("<path d=\"{}\" fill=\"none\" stroke=\"#f80\" stroke-width=\"1.5\"/>", path(nodes, quads));
    println!("<path d=\"{}\" fill=\"none\" stroke=\"black\" stroke-width=\"1.5\"/>", path(&stepped, quads));
    let caption = format!(
        "{} nodes; no coordinate moves by more than {:.5} of a degree, of 1/128 = 0.00781",
        nodes.len(),
        longest
    );
    println!("<text x=\"8\" y=\"{}\" font-size=\"13\">{caption}</text>", height - 8.0);
    println!("</svg>");
    Ok(())
}
