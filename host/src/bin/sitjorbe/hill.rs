//! The hill of vision: quads shaded by the library's estimates between thresholds at the nodes, dark where little is seen.

use sitjorbe::raw::LentMesh;
use sitjorbe::{Exam, Reader, Refusal, MOST_WEIGHT};

use crate::files::Failure;
use crate::run::Paved;
use crate::sheet::{path, text, Anchor, Sheet};
use crate::thresholds;
use crate::words::counted;

/// Patches along a side of a quad.
const PATCHES: usize = 4;
/// A patch's side, in weights.
const SIDE: u32 = MOST_WEIGHT / PATCHES as u32;
/// Tenths of a decibel to a shade, and the shades: from 0 dB to 40, which is white.
const STEP: u32 = 20;
pub const SHADES: usize = 21;

/// Each quad's shades, patch by patch, none where it lacks a threshold; and the thresholds.
#[derive(Clone, Debug)]
pub struct Hill {
    shades: Vec<Option<[[usize; PATCHES]; PATCHES]>>,
    /// For each node its threshold in tenths of a decibel, if one stands.
    pub thresholds: Vec<Option<u32>>,
    /// The quads that lack a threshold.
    pub lacking: usize,
    /// The quads that have all four, and the sum of all thresholds of those quads.
    pub figures: (u32, u32),
    pub words: String,
}

/// A mesh's coordinates, each in a list of its own, as an exam takes them.
pub struct Places {
    pub xs: Vec<f64>,
    pub ys: Vec<f64>,
}

impl Places {
    pub fn of(paved: &Paved) -> Places {
        let (xs, ys) = paved.nodes.iter().map(|[x, y]| (*x, *y)).unzip();
        Places { xs, ys }
    }

    /// The mesh as it is lent to an exam. The links of the front aren't read.
    pub fn lent<'a>(&'a self, paved: &'a Paved) -> LentMesh<'a> {
        let (quad_count, quads) = (paved.quads.len(), paved.quads.as_flattened());
        LentMesh {
            nodes: self.xs.len() as u32,
            xs: &self.xs,
            ys: &self.ys,
            quad_count,
            quads,
            origins: &paved.origins,
            ..LentMesh::default()
        }
    }
}

/// The hill of a mesh, from a file of thresholds.
pub fn of(paved: &Paved, text: &str, name: &str) -> Result<Hill, Failure> {
    let places = Places::of(paved);
    let mut exam = Exam::begin(places.lent(paved));
    thresholds::enter(text, paved, &mut exam).map_err(|failure| failure.of(name))?;
    Hill::of(paved, &exam.reader()).map_err(|refusal| Failure::Refused(refusal.to_string()))
}

/// The hill of a mesh, from a threshold a node.
pub fn from(paved: &Paved, thresholds: &[Option<u32>]) -> Result<Hill, Refusal> {
    let places = Places::of(paved);
    let mut exam = Exam::begin(places.lent(paved));
    for (node, tenths) in (0..).zip(thresholds) {
        tenths.map_or(Ok(()), |tenths| exam.desk().enter(node, tenths))?;
    }
    Hill::of(paved, &exam.reader())
}

/// A threshold as reports print it: with no more decimals than it has.
pub fn decibels(tenths: u32) -> String {
    match tenths % 10 {
        0 => (tenths / 10).to_string(),
        part => format!("{}.{part}", tenths / 10),
    }
}

/// The shade of each patch of a quad, row by row.
fn shades_of(exam: &Reader<'_>, quad: u32) -> Result<[[usize; PATCHES]; PATCHES], Refusal> {
    let mut rows = [[0; PATCHES]; PATCHES];
    for (row, v) in rows.iter_mut().zip((SIDE / 2..).step_by(SIDE as usize)) {
        for (shade, u) in row.iter_mut().zip((SIDE / 2..).step_by(SIDE as usize)) {
            *shade = (exam.estimate(quad, u, v)? / STEP).min(SHADES as u32 - 1) as usize;
        }
    }
    Ok(rows)
}

/// A shade's colour.
pub fn grey(shade: usize) -> String {
    format!("#{:02x}{0:02x}{0:02x}", 24 + 231 * shade / (SHADES - 1))
}

/// A quad's point at two weights.
fn between(corners: &[[f64; 2]; 4], u: u32, v: u32) -> [f64; 2] {
    let weight = |u: u32, v: u32| f64::from(u * v) / f64::from(MOST_WEIGHT * MOST_WEIGHT);
    let (s, t) = (MOST_WEIGHT - u, MOST_WEIGHT - v);
    let weights = [weight(s, t), weight(u, t), weight(u, v), weight(s, v)];
    [0, 1].map(|axis| weights.iter().zip(corners).map(|(weight, corner)| weight * corner[axis]).sum())
}

impl Hill {
    /// What a reader of an exam on the mesh gets.
    pub fn of(paved: &Paved, reader: &Reader<'_>) -> Result<Hill, Refusal> {
        let mut shades = vec![];
        for quad in 0..paved.quads.len() as u32 {
            match shades_of(reader, quad) {
                Ok(rows) => shades.push(Some(rows)),
                Err(Refusal::NoQuad) => shades.push(None),
                Err(refusal) => return Err(refusal),
            }
        }
        let thresholds = (0..paved.nodes.len() as u32).map(|node| reader.threshold(node).ok()).collect();
        let lacking = shades.iter().filter(|rows| rows.is_none()).count();
        let figures = reader.figures();
        let quads = counted(shades.len(), "quad");
        let words = format!("Shaded by estimates between thresholds: {} of {quads} have all four.", figures.0);
        Ok(Hill { shades, thresholds, lacking, figures, words })
    }

    /// How many quads there are.
    pub fn quads(&self) -> usize {
        self.shades.len()
    }

    /// Whether a quad has all four thresholds.
    pub fn is_measured(&self, quad: usize) -> bool {
        self.shades[quad].is_some()
    }

    /// The thresholds at their nodes, in text so small that they stand clear of each other where nodes are so many pixels apart.
    pub fn decibels(&self, sheet: &Sheet, paved: &Paved, apart: f64) -> String {
        let longest = self.thresholds.iter().flatten().map(|tenths| decibels(*tenths).len()).max().unwrap_or(1);
        let size = (1.35 * apart / longest as f64).min(0.4 * apart).clamp(5.0, 12.0);
        let sized = format!(r#"<text style="font-size:{size:.1}px""#);
        let words = |(threshold, node): (&Option<u32>, &[f64; 2])| {
            let [x, y] = sheet.at(*node);
            let said = |tenths| text([x, y + 0.35 * size], Anchor::Middle, "decibels", &decibels(tenths));
            threshold.map(|tenths| said(tenths).replace("<text", &sized))
        };
        self.thresholds.iter().zip(&paved.nodes).filter_map(words).collect()
    }

    /// The shaded patches; those alike beside each other are one.
    pub fn shades(&self, sheet: &Sheet, paved: &Paved) -> String {
        let mut parts = vec![String::new(); SHADES];
        let mut lacking = String::new();
        for (quad, rows) in paved.quads.iter().zip(&self.shades) {
            let corners = quad.map(|id| paved.nodes[id as usize]);
            let ring = |[u0, u1]: [u32; 2], [v0, v1]: [u32; 2]| {
                sheet.ring([(u0, v0), (u1, v0), (u1, v1), (u0, v1)].into_iter().map(|(u, v)| between(&corners, u, v)))
            };
            let Some(rows) = rows else {
                lacking += &ring([0, MOST_WEIGHT], [0, MOST_WEIGHT]);
                continue;
            };
            for (row, v) in rows.iter().zip((0..).step_by(SIDE as usize)) {
                let mut u = 0;
                for patches in row.chunk_by(|shade, next| shade == next) {
                    let end = u + SIDE * patches.len() as u32;
                    parts[patches[0]] += &ring([u, end], [v, v + SIDE]);
                    u = end;
                }
            }
        }
        let filled = |(shade, part): (usize, &String)| {
            let style = format!(r#"<path style="fill:{0};stroke:{0};stroke-width:.6""#, grey(shade));
            path("shade", part).replace("<path", &style)
        };
        parts.iter().enumerate().map(filled).collect::<String>() + &path("lacking", &lacking)
    }

    /// What the shades are.
    pub fn scale(&self, [x, y]: [f64; 2], within: f64) -> String {
        let cell = within.min(420.0) / SHADES as f64;
        let mut drawn = String::new();
        for shade in 0..SHADES {
            let left = x + cell * shade as f64;
            drawn += &format!(
                r##"<rect x="{left:.1}" y="{:.1}" width="{cell:.1}" height="13" fill="{}" stroke="#777" stroke-width=".5"/>"##,
                y - 8.0,
                grey(shade)
            );
            drawn += "\n";
            if shade % 5 == 0 {
                drawn += &text([left, y + 20.0], Anchor::Start, "", &format!("{} dB", shade as u32 * STEP / 10));
            }
        }
        drawn
    }
}
