//! Why a field stays open, in an operator's words, and the one thing to try.

use sitjorbe::End;

use crate::csv::{Field, Point};
use crate::figures::Figures;
use crate::run::Paved;
use crate::words::{grouped, short};

/// How the command has fewer points, and how finer quads.
const THIN: &str = "thin them (--thin)";
const FINER: &str = "set a smaller --size, or let sizes be tried (--best)";

/// Points nearer to each other than this many sizes, in the median, are dense: strokes with points one size apart pave best, and those half a size apart worst.
const DENSE: f64 = 0.75;
/// A loop of no more points than this has none to spare.
const TO_SPARE: usize = 8;
/// A field whose narrower side has fewer sizes than this has no room for a quad.
const ROOM: f64 = 2.0;

/// What there is to say of a field that isn't whole.
#[derive(Clone, Copy, Debug, PartialEq)]
pub enum Advice {
    /// No quad fits, and the points of a loop, so many, are this far apart in the median.
    TooDense { points: usize, apart: f64 },
    /// No quad fits, and the field has this width and height.
    TooSmall { width: f64, height: f64 },
    /// Some quads fit, and a loop's points are this far apart in the median, nearer than is good.
    Dense { points: usize, apart: f64 },
    /// Nothing but the size is left to try.
    Finer,
}

impl Advice {
    /// The advice for a field, if there is any: none where it is whole or unsound, or where the mesh ended for want of passes or places.
    pub fn of(field: &Field, paved: &Paved, figures: &Figures) -> Option<Advice> {
        if paved.whole || paved.is_closed() || !paved.sound || paved.end != End::Still {
            return None;
        }
        let size = paved.settings.size;
        let dense = densest(field).filter(|(_, apart)| *apart < DENSE * size);
        let [width, height] = extents(field);
        let narrow = width.min(height) < ROOM * size;
        match (figures.quads, dense) {
            (0, _) if narrow => Some(Advice::TooSmall { width, height }),
            (0, dense) => dense.map(|(points, apart)| Advice::TooDense { points, apart }),
            (_, Some((points, apart))) => Some(Advice::Dense { points, apart }),
            (_, None) => Some(Advice::Finer),
        }
    }

    /// The advice that the command gives, in words.
    pub fn said(field: &Field, paved: &Paved, figures: &Figures) -> Option<String> {
        let advice = Advice::of(field, paved, figures)?;
        Some(advice.in_words(paved.settings.size, THIN, FINER))
    }

    /// In words; `thin` and `finer` say how to have fewer points, and smaller quads.
    pub fn in_words(self, size: f64, thin: &str, finer: &str) -> String {
        let degrees = |value: f64| format!("{}°", short(value));
        match self {
            Advice::TooDense { points, apart } => {
                format!(
                    "{} points {} apart: no quad fits at {}; {thin}.",
                    grouped(points),
                    degrees(apart),
                    degrees(size)
                )
            }
            Advice::TooSmall { width, height } => format!(
                "The field is {} wide and {} high: no quad fits at {}; {finer}.",
                degrees(width),
                degrees(height),
                degrees(size)
            ),
            Advice::Dense { points, apart } => format!(
                "{} points {} apart: points about one size apart, {}, pave best; {thin}.",
                grouped(points),
                degrees(apart),
                degrees(size)
            ),
            Advice::Finer => format!("Smaller quads usually leave less open; {finer}."),
        }
    }
}

/// Of the loops that have points to spare the one whose points are nearest to each other: how many, and how far apart in the median.
fn densest(field: &Field) -> Option<(usize, f64)> {
    let apart = |points: &Vec<Point>| {
        let after = points.iter().cycle().skip(1);
        let mut sides: Vec<f64> = points.iter().zip(after).map(|(a, b)| (b.x - a.x).hypot(b.y - a.y)).collect();
        sides.sort_by(f64::total_cmp);
        (points.len(), sides.get(sides.len() / 2).copied().unwrap_or(f64::INFINITY))
    };
    field
        .loops
        .iter()
        .filter(|points| points.len() > TO_SPARE)
        .map(apart)
        .min_by(|(_, one), (_, other)| one.total_cmp(other))
}

/// The field's width and height.
fn extents(field: &Field) -> [f64; 2] {
    let points = || field.loops.iter().flatten();
    let range = |at: fn(&Point) -> f64| {
        let (least, most) =
            (points().map(at).fold(f64::INFINITY, f64::min), points().map(at).fold(-f64::INFINITY, f64::max));
        most - least
    };
    [range(|point| point.x), range(|point| point.y)]
}
