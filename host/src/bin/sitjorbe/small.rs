//! `sitjorbe small-quads`: the quads that service technicians calibrate with, as a table or as a picture.

use std::collections::BTreeMap;
use std::fmt::Write;

use sitjorbe::{small_quads, Refusal};

use crate::args::{Args, Known};
use crate::files::{self, Failure};
use crate::identity::VERSION;
use crate::{Status, DONE};

const HELP: &str = "\
sitjorbe small-quads -o FILE ..: writes every small quad, the quads that technicians calibrate with

    -o, --output FILE    .csv for a row a quad, .svg for a picture of every shape; - is the table on standard output

A small quad is four points of a 4 by 4 lattice of unit spacing that the paving's own test of a quad accepts, in the order that runs round it.
A point's number is 4 times its row plus its column, both from 0. Each quad comes from all four of its corners.
The exit status is 0 if all went well, 2 if something can't be written.
";

const OPTIONS: [Known; 4] = [("-o", true), ("--output", true), ("--help", false), ("-h", false)];
/// Points along a side of the lattice, and cells of the picture along a row.
const SIDE: u32 = 4;
const ACROSS: usize = 24;
/// A cell's width, and a lattice step within it, in pixels.
const CELL: f64 = 40.0;
const STEP: f64 = 9.0;

pub fn command(words: &[String]) -> Result<Status, Failure> {
    let args = Args::parse(words, &OPTIONS)?;
    if args.has("--help") || args.has("-h") {
        return files::print(HELP).map(|()| DONE);
    }
    let targets: Vec<&str> = args.values("-o").chain(args.values("--output")).collect();
    if targets.is_empty() || !args.files.is_empty() {
        return Err(Failure::Cant(
            "-o FILE is wanted, and nothing else; sitjorbe small-quads --help says how".to_string(),
        ));
    }
    let quads = all().map_err(|refusal| Failure::Refused(refusal.to_string()))?;
    for target in targets {
        let text = match target.to_ascii_lowercase() {
            name if name == "-" || name.ends_with(".csv") => table(&quads),
            name if name.ends_with(".svg") => picture(&quads),
            _ => return Err(Failure::Cant(format!("{target}: it ends in neither of .csv and .svg"))),
        };
        files::write(target, &text)?;
    }
    Ok(DONE)
}

/// Every small quad, in the library's order.
fn all() -> Result<Vec<[u32; 4]>, Refusal> {
    let mut list = vec![0; 4 * 4_000];
    small_quads(&mut list).map(<[_]>::to_vec)
}

/// A point's column and row.
fn at(point: u32) -> [u32; 2] {
    [point % SIDE, point / SIDE]
}

fn table(quads: &[[u32; 4]]) -> String {
    let mut text = String::from("quad,point1,point2,point3,point4,x1,y1,x2,y2,x3,y3,x4,y4\n");
    for (number, quad) in quads.iter().enumerate() {
        let ids = quad.map(|point| point.to_string()).join(",");
        let places = quad.map(|point| at(point).map(|x| x.to_string()).join(",")).join(",");
        writeln!(text, "{number},{ids},{places}").expect("a string takes every line");
    }
    text
}

/// The shapes: quads that are alike but for their place and the corner that they begin at are one. Each with how often it comes.
fn shapes(quads: &[[u32; 4]]) -> Vec<([[u32; 2]; 4], usize)> {
    let mut counts: BTreeMap<[[u32; 2]; 4], usize> = BTreeMap::new();
    for quad in quads {
        let corners = quad.map(at);
        let least = [0, 1].map(|axis| corners.iter().map(|corner| corner[axis]).min().unwrap_or(0));
        let mut moved = corners.map(|[x, y]| [x - least[0], y - least[1]]);
        let first = (0..4).min_by_key(|k| moved[*k]).unwrap_or(0);
        moved.rotate_left(first);
        *counts.entry(moved).or_default() += 1;
    }
    counts.into_iter().collect()
}

fn picture(quads: &[[u32; 4]]) -> String {
    let shapes = shapes(quads);
    let (width, height) = (ACROSS as f64 * CELL + 32.0, shapes.len().div_ceil(ACROSS) as f64 * CELL + 76.0);
    let (mut lattice, mut drawn) = (String::new(), String::new());
    for (place, (corners, _)) in shapes.iter().enumerate() {
        let (left, top) = (16.0 + (place % ACROSS) as f64 * CELL, 60.0 + (place / ACROSS) as f64 * CELL);
        let point = |[x, y]: [u32; 2]| [left + 6.0 + STEP * f64::from(x), top + 6.0 + STEP * f64::from(SIDE - 1 - y)];
        for point in (0..SIDE * SIDE).map(|k| point(at(k))) {
            lattice += &format!("M{:.0},{:.0}h1", point[0] - 0.5, point[1]);
        }
        let ring = corners.map(|corner| point(corner).map(|x| format!("{x:.0}")).join(","));
        drawn += &format!("M{}Z", ring.join(" "));
    }
    format!(
        concat!(
            r#"<svg xmlns="http://www.w3.org/2000/svg" role="img" width="{width:.0}" height="{height:.0}" viewBox="0 0 {width:.0} {height:.0}">"#,
            "\n<title>Small quads</title>\n<style>svg{{forced-color-adjust:none}}text{{font:13px sans-serif;fill:#1a1a1a}}</style>\n",
            r##"<rect width="100%" height="100%" fill="#fff"/>"##,
            "\n",
            r#"<text x="16" y="26" style="font-size:17px;font-weight:bold">Small quads</text>"#,
            "\n",
            r#"<text x="16" y="46">{count} quads, each from all four of its corners: {shapes} shapes, each drawn once at the lower left of the lattice. Sitjorbe {version}.</text>"#,
            "\n",
            r##"<path d="{lattice}" stroke="#999" stroke-width="1.4"/><path d="{drawn}" fill="#d3e5f5" stroke="#2b659e" stroke-width="1.2" stroke-linejoin="round"/>"##,
            "\n</svg>\n"
        ),
        width = width,
        height = height,
        count = crate::words::grouped(quads.len()),
        shapes = shapes.len(),
        version = VERSION,
        lattice = lattice,
        drawn = drawn
    )
}
