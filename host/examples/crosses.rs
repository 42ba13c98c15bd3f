//! Draws the cross field of an outline as an SVG picture: a small cross at each point of a lattice within it, along the field's four directions.
//!
//! `crosses OUTLINE.csv SIZE` reads the outline's points, x and y a line with an empty line between loops, and writes the picture to standard
//! output. Elements of the size would follow the crosses, which are as far apart, or farther where the field has too many nodes. It makes 400
//! sweeps.

use std::fmt::Write;
use std::process::ExitCode;
use std::{env, fs};

use sitjorbe::raw::{contains, directions, field, Outline};
use sitjorbe::Refusal;

/// The field's width and the margin round it, in pixels.
const WIDTH: f64 = 640.0;
const MARGIN: f64 = 48.0;
/// The most nodes of a field, so that none is refused for want of places.
const FIELD_NODES: usize = 250_000;

type Point = [f64; 2];

fn main() -> ExitCode {
    let words: Vec<String> = env::args().skip(1).collect();
    let (name, size) = match &words[..] {
        [name, size] if size.parse::<f64>().is_ok() => (name, size.parse().expect("it was a number")),
        _ => {
            eprintln!("Give an outline and a size, for example: examples/right-eye.csv 3.6");
            return ExitCode::FAILURE;
        }
    };
    match picture(name, size) {
        Ok(svg) => {
            print!("{svg}");
            ExitCode::SUCCESS
        }
        Err(what) => {
            eprintln!("{what}");
            ExitCode::FAILURE
        }
    }
}

fn picture(name: &str, size: f64) -> Result<String, String> {
    let text = fs::read_to_string(name).map_err(|error| format!("{name}: {error}"))?;
    let loops = read_loops(&text).map_err(|line| format!("{name}: line {line} isn't a point"))?;
    let outer = loops.first().ok_or_else(|| format!("{name}: no points"))?.concat();
    let holes = loops[1..].concat().concat();
    let hole_lengths: Vec<usize> = loops[1..].iter().map(Vec::len).collect();
    let outline = Outline { outer: &outer, holes: &holes, hole_lengths: &hole_lengths };
    let (crosses, apart) = crosses(&outline, size).map_err(|refusal| refusal.to_string())?;
    Ok(draw(&loops, &crosses, apart))
}

/// Reads loops of points, the outer one first; the error is the line that can't be read. A `#` begins a comment.
fn read_loops(text: &str) -> Result<Vec<Vec<Point>>, usize> {
    let mut loops: Vec<Vec<Point>> = vec![];
    let mut open = false;
    for (line, row) in (1..).zip(text.lines()) {
        let words = row.split('#').next().unwrap_or("").trim();
        if words.is_empty() {
            open = open && row.trim_start().starts_with('#');
            continue;
        }
        let numbers: Option<Vec<f64>> = words.split(',').map(|word| word.trim().parse().ok()).collect();
        let Some(&[x, y]) = numbers.as_deref() else { return Err(line) };
        if !open {
            loops.push(vec![]);
        }
        open = true;
        loops.last_mut().expect("one is open").push([x, y]);
    }
    Ok(loops)
}

/// The points of the lattice that are inside, with the direction of the field there that is nearest to the right; and how far apart they are.
fn crosses(outline: &Outline<'_>, size: f64) -> Result<(Vec<[Point; 2]>, f64), Refusal> {
    let (mut values, mut marks) = (vec![0.0; 2 * FIELD_NODES], vec![0; FIELD_NODES]);
    let mut blocks = vec![0; outline.outer.len() + outline.holes.len()];
    let record = field(outline, size, 400, &mut values, &mut marks, &mut blocks)?;
    let nodes = record.nodes();
    // At every second node, from the first one within the outline's box on.
    let (columns, rows) = (record.nx / 2, record.ny / 2);
    let lattice = (0..rows).flat_map(|j| (0..columns).map(move |i| [i as f64, j as f64]));
    let mut points = vec![];
    for [i, j] in lattice {
        let point = [record.xmin + record.h * (2.0 * i + 2.0), record.ymin + record.h * (2.0 * j + 2.0)];
        if contains(outline, point)? {
            points.push(point);
        }
    }
    let targets = vec![[1.0, 0.0]; points.len()];
    let found = directions(&record, &values[..2 * nodes], &marks[..nodes], &points, &targets)?;
    let crosses: Result<_, _> = points.into_iter().zip(found).map(|(point, toward)| Ok([point, toward?])).collect();
    Ok((crosses?, 2.0 * record.h))
}

/// Where degrees fall on the sheet.
struct Sheet {
    left: f64,
    right: f64,
    low: f64,
    high: f64,
    /// Pixels to a degree.
    scale: f64,
}

impl Sheet {
    fn of(points: &[Point]) -> Sheet {
        let range = |axis: usize| {
            let all = points.iter().map(|point| point[axis]);
            all.fold([f64::INFINITY, f64::NEG_INFINITY], |[low, high], x| [low.min(x), high.max(x)])
        };
        let ([left, right], [low, high]) = (range(0), range(1));
        Sheet { left, right, low, high, scale: WIDTH / (right - left) }
    }

    fn at(&self, [x, y]: Point) -> String {
        format!("{:.1},{:.1}", MARGIN + self.scale * (x - self.left), MARGIN + self.scale * (self.high - y))
    }

    fn bottom(&self) -> f64 {
        MARGIN + self.scale * (self.high - self.low)
    }

    /// The multiples, from low to high, of the least of 1, 2, 5, 10, .. degrees of which eight or fewer steps go along the wider side.
    fn ticks(&self, low: f64, high: f64) -> Vec<f64> {
        let span = (self.right - self.left).max(self.high - self.low);
        let steps = (-4..4).flat_map(|power| [1.0, 2.0, 5.0].map(|base| base * 10f64.powi(power)));
        let step = steps.into_iter().find(|step| span <= 8.0 * step).unwrap_or(1_000.0);
        let (first, last) = ((low / step).ceil() as i64, (high / step).floor() as i64);
        (first..=last).map(|k| k as f64 * step).collect()
    }
}

/// Lines at whole degrees with their numbers, x below and y on the left.
fn axes(sheet: &Sheet) -> String {
    let (across, up) = (sheet.ticks(sheet.left, sheet.right), sheet.ticks(sheet.low, sheet.high));
    let degrees = |value: f64| format!("{value}°").replace('-', "−");
    let mut lines = String::new();
    let mut words = String::new();
    for x in across {
        lines += &format!("M{}L{}", sheet.at([x, sheet.low]), sheet.at([x, sheet.high]));
        let left = MARGIN + sheet.scale * (x - sheet.left);
        words += &format!(
            "<text x=\"{left:.1}\" y=\"{:.1}\" text-anchor=\"middle\">{}</text>\n",
            sheet.bottom() + 18.0,
            degrees(x)
        );
    }
    for y in up {
        lines += &format!("M{}L{}", sheet.at([sheet.left, y]), sheet.at([sheet.right, y]));
        let top = MARGIN + sheet.scale * (sheet.high - y) + 4.0;
        words += &format!("<text x=\"{:.1}\" y=\"{top:.1}\" text-anchor=\"end\">{}</text>\n", MARGIN - 6.0, degrees(y));
    }
    format!("<path d=\"{lines}\" fill=\"none\" stroke=\"#bbb\" stroke-width=\"1\"/>\n{words}")
}

fn draw(loops: &[Vec<Point>], crosses: &[[Point; 2]], apart: f64) -> String {
    let sheet = Sheet::of(&loops[0]);
    let mut svg = String::new();
    let mut line = |text: String| writeln!(svg, "{text}").expect("a string takes every line");
    let (width, bottom) = (WIDTH + 2.0 * MARGIN, sheet.bottom());
    line(format!(
        r#"<svg xmlns="http://www.w3.org/2000/svg" width="{width:.0}" height="{:.0}" font-family="sans-serif" font-size="13">"#,
        bottom + 62.0
    ));
    line("<style>svg{forced-color-adjust:none}</style>".to_string());
    line(r##"<rect width="100%" height="100%" fill="#ffffff"/>"##.to_string());
    let rings: Vec<String> = (loops.iter())
        .map(|points| format!("M{}Z", points.iter().map(|point| sheet.at(*point)).collect::<Vec<_>>().join(" ")))
        .collect();
    line(format!(r##"<path d="{}" fill="#eef4fb" fill-rule="evenodd"/>"##, rings.join("")));
    line(axes(&sheet).trim_end().to_string());
    line(format!(
        r##"<path d="{}" fill="none" stroke="#1d1d1d" stroke-width="1.8" stroke-linejoin="round"/>"##,
        rings.join("")
    ));
    let arm = 0.36 * apart;
    let arms: Vec<String> = (crosses.iter())
        .flat_map(|&[[x, y], [c, s]]| {
            [[c, s], [-s, c]].map(|[u, v]| [[x - arm * u, y - arm * v], [x + arm * u, y + arm * v]])
        })
        .map(|[from, to]| format!("M{} {}", sheet.at(from), sheet.at(to)))
        .collect();
    line(format!(r##"<path d="{}" fill="none" stroke="#3f6ea8" stroke-width="1.2"/>"##, arms.join("")));
    let words = format!("The field's directions at {} points, {apart}° apart.", crosses.len());
    line(format!(r#"<text x="{MARGIN}" y="{:.1}">{words}</text>"#, bottom + 46.0));
    line("</svg>".to_string());
    svg
}
