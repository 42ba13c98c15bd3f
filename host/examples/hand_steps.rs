//! Steps the front of a small field by hand and draws each stage, a panel a stage, as one SVG on standard output: the quads placed, the front, and the quad
//! that the next step would place, as the preview shows it.
//!
//! Each step is taken on the front edge that is nearest to the middle of the left side: the operator works inwards from there.

use std::error::Error;
use std::fmt::Write;

use sitjorbe::raw::{Outline, Stepper};
use sitjorbe::{Memory, Outcome, Places, Preview};

const FIELD: Outline = Outline {
    outer: &[0.0, 0.0, 6.0, -1.0, 11.0, 1.0, 12.0, 5.0, 9.0, 8.0, 3.0, 8.5, -1.0, 4.0],
    holes: &[],
    hole_lengths: &[],
};

const SIZE: f64 = 1.8;
const PLACES: Places = Places { field_nodes: 1_600, nodes: 200, quads: 200, edges: 600, points: 7 };

/// Panels in a row, and a panel's width and height in the drawing's units.
const COLUMNS: usize = 5;
const PANEL: [f64; 2] = [15.0, 13.5];
const SCALE: f64 = 16.0;
/// Where the operator begins.
const START: [f64; 2] = [-0.5, 2.0];

fn main() -> Result<(), Box<dyn Error>> {
    let mut memory = Memory::new(PLACES)?;
    let mut stepper = Stepper::new(FIELD, SIZE, 400, &mut memory)?;
    let mut panels = Vec::new();
    let mut taken = 0;
    while let Some(edge) = next_edge(&mut stepper)? {
        panels.push(panel(&mut stepper, Some(edge), taken)?);
        assert_eq!(stepper.step(edge)?, Outcome::Placed, "as the preview said");
        taken += 1;
    }
    panels.push(panel(&mut stepper, None, taken)?);
    println!("{}", drawing(&panels));
    Ok(())
}

/// Of the front edges on which a quad would be placed, the one nearest to the start.
fn next_edge(stepper: &mut Stepper<'_>) -> Result<Option<[u32; 2]>, Box<dyn Error>> {
    let nodes = stepper.nodes();
    let mut edges = stepper.front();
    let away = |&[u, v]: &[u32; 2]| {
        let [p, q] = [nodes[u as usize], nodes[v as usize]];
        ((p[0] + q[0]) / 2.0 - START[0]).hypot((p[1] + q[1]) / 2.0 - START[1])
    };
    edges.sort_by(|one, other| away(one).total_cmp(&away(other)));
    for edge in edges {
        if stepper.preview(edge)?.outcome == Outcome::Placed {
            return Ok(Some(edge));
        }
    }
    Ok(None)
}

/// A stage: what stands, and the quad that comes next.
fn panel(stepper: &mut Stepper<'_>, edge: Option<[u32; 2]>, taken: usize) -> Result<String, Box<dyn Error>> {
    let (nodes, quads, front) = (stepper.nodes(), stepper.quads(), stepper.front());
    let place = |[x, y]: [f64; 2]| format!("{:.1},{:.1}", SCALE * (x + 2.0), SCALE * (10.5 - y));
    let node = |id: u32| nodes[id as usize];
    let mut text = String::new();
    for quad in quads {
        let corners = quad.map(|id| place(node(id))).join(" ");
        writeln!(text, r##"<polygon points="{corners}" fill="#dbe7f3" stroke="#5b7fa6" stroke-width="1"/>"##)?;
    }
    for [u, v] in front {
        let ends = [place(node(u)), place(node(v))].join(" ");
        writeln!(text, r##"<polyline points="{ends}" fill="none" stroke="#333333" stroke-width="2"/>"##)?;
    }
    let mut words = format!("{taken} placed; nothing more fits");
    if let Some([a, b]) = edge {
        let Preview { quad, new_c, new_d, .. } = stepper.preview([a, b])?;
        let [_, _, d, c] = quad.expect("a quad would be placed");
        let corners = [node(a), node(b), new_d.unwrap_or_else(|| node(d)), new_c.unwrap_or_else(|| node(c))].map(place);
        writeln!(
            text,
            r##"<polygon points="{}" fill="#f6d9a8" stroke="#c07a12" stroke-dasharray="4 2"/>"##,
            corners.join(" ")
        )?;
        let ends = [place(node(a)), place(node(b))].join(" ");
        writeln!(text, r##"<polyline points="{ends}" fill="none" stroke="#c03312" stroke-width="3"/>"##)?;
        for p in [new_c, new_d].into_iter().flatten() {
            let at = place(p);
            let (x, y) = at.split_once(',').expect("two numbers");
            writeln!(text, r##"<circle cx="{x}" cy="{y}" r="3.5" fill="#c07a12"/>"##)?;
        }
        words = format!("{taken} placed; {a} to {b} is next");
    }
    writeln!(text, r##"<text x="{:.0}" y="{:.0}" font-size="11">{words}</text>"##, SCALE * 1.0, SCALE * 12.9)?;
    Ok(text)
}

fn drawing(panels: &[String]) -> String {
    let rows = panels.len().div_ceil(COLUMNS);
    let [width, height] = [SCALE * PANEL[0] * COLUMNS as f64, SCALE * PANEL[1] * rows as f64];
    let mut text = format!(
        r##"<svg xmlns="http://www.w3.org/2000/svg" viewBox="0 0 {width} {height}" font-family="sans-serif" stroke-linejoin="round">"##
    );
    text.push_str("\n<rect width=\"100%\" height=\"100%\" fill=\"#ffffff\"/>\n");
    for (k, panel) in panels.iter().enumerate() {
        let at = [(k % COLUMNS) as f64 * SCALE * PANEL[0], (k / COLUMNS) as f64 * SCALE * PANEL[1]];
        text.push_str(&format!("<g transform=\"translate({} {})\">\n{panel}</g>\n", at[0], at[1]));
    }
    text.push_str("</svg>");
    text
}
