//! The figures of a mesh: how much of the field is paved, and how good the quads are, in all and loop by loop.

use std::cmp::Ordering;

use sitjorbe::closing::Kind;
use sitjorbe::raw::{is_sound, Outline, Settings};
use sitjorbe::End;

use crate::csv::Field;
use crate::exact::Exact;
use crate::run::{Paved, MOST_PASSES};
use crate::words::{counted, short};

/// How good quads are. A quad's angle is the smallest of its four, its aspect its longest side over its shortest.
#[derive(Clone, Copy, Debug, PartialEq)]
pub struct Quality {
    pub least_angle: f64,
    pub median_angle: f64,
    pub median_aspect: f64,
    pub greatest_aspect: f64,
    pub median_side: f64,
}

/// What belongs to one loop: the nodes and quads of its patch, and their share of the field.
#[derive(Clone, Debug, PartialEq)]
pub struct Patch {
    pub name: String,
    pub nodes: usize,
    pub quads: usize,
    pub share: Option<f64>,
    pub quality: Option<Quality>,
}

/// The figures of a mesh.
#[derive(Clone, Debug, PartialEq)]
pub struct Figures {
    pub nodes: usize,
    pub quads: usize,
    /// The share of the field's area that the paving's quads have; none where the outline is unsound, and so has no area to speak of.
    pub share: Option<f64>,
    /// Where it is closed, the share that the closing's quads have.
    pub closing: Option<f64>,
    pub whole: bool,
    /// Whether what the paving left open is closed.
    pub closed: bool,
    pub sound: bool,
    /// Whether some quads lie on each other, so that less is covered than the share says; none where that isn't known.
    pub overlaps: Option<bool>,
    /// None where there are no quads.
    pub quality: Option<Quality>,
    /// A patch a loop.
    pub patches: Vec<Patch>,
}

/// Twice the area of a sound field: the outer loop's, less those of its holes.
pub fn field_area(field: &Field) -> Exact {
    let area = |points: &Vec<crate::csv::Point>| {
        let ring: Vec<[f64; 2]> = points.iter().map(|point| [point.x, point.y]).collect();
        Exact::doubled_area(&ring).magnitude()
    };
    let mut areas = field.loops.iter().map(area);
    let outer = areas.next().unwrap_or(Exact::ZERO);
    areas.fold(outer, |rest, hole| rest.plus(&hole.negated()))
}

fn corners(paved: &Paved, quad: &[u32; 4]) -> [[f64; 2]; 4] {
    quad.map(|id| paved.nodes[id as usize])
}

/// Twice the area of all quads.
pub fn paved_area(paved: &Paved) -> Exact {
    area_of(paved, paved.quads.iter())
}

fn area_of<'a>(paved: &Paved, quads: impl Iterator<Item = &'a [u32; 4]>) -> Exact {
    let areas = quads.map(|quad| Exact::doubled_area(&corners(paved, quad)));
    areas.fold(Exact::ZERO, |sum, area| sum.plus(&area))
}

/// The share of a sound field's area that quads have.
pub fn share_of<'a>(field: &Field, paved: &Paved, quads: impl Iterator<Item = &'a [u32; 4]>) -> Option<f64> {
    let total = field_area(field);
    (total.sign() == Ordering::Greater).then(|| area_of(paved, quads).over(&total))
}

/// Whether quads lie on each other, which shows in what is left open: then its rings aren't those of an outline, outer and inner ones. Not known where they
/// have more points than an outline may.
fn overlaps(paved: &Paved) -> Option<bool> {
    let mut rings: Vec<&Vec<u32>> = paved.left.iter().collect();
    rings.sort_by_key(|ring| paved.origins[ring[0] as usize]);
    let Some((outer, inner)) = rings.split_first() else {
        return Some(false);
    };
    let flat = |ring: &Vec<u32>| ring.iter().flat_map(|id| paved.nodes[*id as usize]).collect::<Vec<f64>>();
    let holes: Vec<f64> = inner.iter().flat_map(|ring| flat(ring)).collect();
    let lengths: Vec<usize> = inner.iter().map(|ring| ring.len()).collect();
    let sound = is_sound(&Outline { outer: &flat(outer), holes: &holes, hole_lengths: &lengths }).ok()?;
    Some(!sound)
}

/// The figures of a field's mesh.
pub fn of(field: &Field, paved: &Paved) -> Figures {
    let total = field_area(field);
    let share = |area: &Exact| (paved.sound && total.sign() == Ordering::Greater).then(|| area.over(&total));
    let patch = |(k, name): (usize, &String)| {
        let quads = || paved.quads_of(Some(k));
        Patch {
            name: name.clone(),
            nodes: paved.origins.iter().filter(|origin| usize::from(**origin) == k).count(),
            quads: quads().count(),
            share: share(&area_of(paved, quads())),
            quality: quality(quads().map(|quad| corners(paved, quad))),
        }
    };
    let by_the_paving = |quad: &usize| paved.kind(*quad) != Kind::New;
    Figures {
        nodes: paved.nodes.len(),
        quads: paved.quads.len(),
        share: share(&(area_of(paved, (0..paved.quads.len()).filter(by_the_paving).map(|quad| &paved.quads[quad])))),
        closing: share(&area_of(paved, paved.quads_of(None))).filter(|_| paved.is_closed()),
        whole: paved.whole,
        closed: paved.is_closed(),
        sound: paved.sound,
        overlaps: if paved.sound { overlaps(paved) } else { None },
        quality: quality(paved.quads.iter().map(|quad| corners(paved, quad))),
        patches: field.names.iter().enumerate().map(patch).collect(),
    }
}

fn length([ax, ay]: [f64; 2], [bx, by]: [f64; 2]) -> f64 {
    (bx - ax).hypot(by - ay)
}

/// The angle at b between the ways to a and to c, in degrees.
fn angle(a: [f64; 2], b: [f64; 2], c: [f64; 2]) -> f64 {
    let ([ux, uy], [vx, vy]) = ([a[0] - b[0], a[1] - b[1]], [c[0] - b[0], c[1] - b[1]]);
    (ux * vy - uy * vx).abs().atan2(ux * vx + uy * vy).to_degrees()
}

fn least(values: impl Iterator<Item = f64>) -> f64 {
    values.fold(f64::INFINITY, f64::min)
}

/// The value in the middle; of two the lower one.
fn median(mut values: Vec<f64>) -> f64 {
    values.sort_by(f64::total_cmp);
    values[(values.len() - 1) / 2]
}

fn quality(quads: impl Iterator<Item = [[f64; 2]; 4]>) -> Option<Quality> {
    let (mut angles, mut aspects, mut all_sides) = (vec![], vec![], vec![]);
    for quad in quads {
        let at = |k: usize| quad[k % 4];
        angles.push(least((0..4).map(|k| angle(at(k), at(k + 1), at(k + 2)))));
        let sides: Vec<f64> = (0..4).map(|k| length(at(k), at(k + 1))).collect();
        aspects.push(-least(sides.iter().map(|side| -side)) / least(sides.iter().copied()));
        all_sides.extend(sides);
    }
    (!angles.is_empty()).then(|| Quality {
        least_angle: least(angles.iter().copied()),
        greatest_aspect: -least(aspects.iter().map(|aspect| -aspect)),
        median_angle: median(angles),
        median_aspect: median(aspects),
        median_side: median(all_sides),
    })
}

// ---- in words

/// A share in whole percent; where rounding would say all or nothing of what is neither, a bound.
pub fn percent(share: f64) -> String {
    match (100.0 * share).round() {
        rounded if rounded >= 100.0 && share < 1.0 - ROUNDING => "more than 99 %".to_string(),
        rounded if rounded <= 0.0 && share > 0.0 => "less than 1 %".to_string(),
        rounded => format!("{rounded} %"),
    }
}

/// An outline's samples are rounded, so the share of a whole mesh may differ from 1 by less than this.
const ROUNDING: f64 = 1e-9;

/// What is left of a share, so that the two make up 100 %.
pub fn rest(share: f64) -> String {
    match percent(share).as_str() {
        "more than 99 %" => "less than 1 %".to_string(),
        "less than 1 %" => "more than 99 %".to_string(),
        _ => format!("{} %", 100.0 - (100.0 * share).round()),
    }
}

/// What matters most, in a sentence: how much of the field is measured, and how much nowhere. In a picture that part is red.
pub fn verdict(figures: &Figures, is_picture: bool) -> String {
    let Some(share) = figures.share else {
        return "The outline isn't sound, so how much of the field is paved can't be said.".to_string();
    };
    let red = if is_picture { "the red part, " } else { "" };
    let comma = if is_picture { "," } else { "" };
    let words = match () {
        () if figures.whole => "All of the field is paved.".to_string(),
        () if figures.closed => {
            let [paved, closed] = [percent(share), rest(share)];
            format!("All of the field is covered: {paved} by the paving, {closed} by the closing.")
        }
        () if figures.quads == 0 => "None of the field is paved: it is measured nowhere.".to_string(),
        () => format!(
            "{} of the field is paved; {red}{}{comma} is measured nowhere.",
            capital(&percent(share)),
            rest(share)
        ),
    };
    match figures.overlaps {
        Some(true) => words + " Some quads lie on each other, so even less is covered.",
        _ => words,
    }
}

fn capital(words: &str) -> String {
    let mut rest = words.chars();
    rest.next().map_or(String::new(), |first| first.to_uppercase().collect::<String>() + rest.as_str())
}

/// Why a run stopped before nothing more could be placed, if it did.
pub fn stopped(paved: &Paved) -> Option<String> {
    let why = match paved.end {
        End::Still => return None,
        End::Passes if paved.settings.passes >= MOST_PASSES => "600 passes were made, and no run makes more",
        End::Passes => "every pass allowed was used: allow more with --passes",
        End::Cap => "it has 250,000 quads, and no mesh has more: set a larger size",
        End::Full => "there was no place left for another quad",
    };
    Some(format!("The paving stopped early: {why}."))
}

/// The counts and how good the quads are, a sentence a line.
pub fn sentences(figures: &Figures, settings: &Settings) -> Vec<String> {
    let counts = [counted(figures.nodes, "node"), counted(figures.quads, "quad")].join(", ");
    // A listing doesn't have its size.
    let size = if settings.size.is_finite() { format!("; size {}°", short(settings.size)) } else { String::new() };
    let mut lines = vec![format!("{counts}{size}.")];
    if let Some(quality) = figures.quality {
        lines.push(quality_in_words(&quality));
    }
    if figures.patches.len() > 1 {
        lines.extend(figures.patches.iter().enumerate().map(patch_in_words));
    }
    lines
}

fn quality_in_words(quality: &Quality) -> String {
    let times = |aspect: f64| short((aspect * 10.0).round() / 10.0);
    let sides = match times(quality.greatest_aspect) {
        alike if alike == "1" => "all its sides are alike".to_string(),
        most => format!(
            "its longest side is at most {most} times its shortest, in the median {}",
            times(quality.median_aspect)
        ),
    };
    format!(
        "Smallest angle of a quad {:.0}°, in the median {:.0}°; {sides}.",
        quality.least_angle, quality.median_angle
    )
}

fn patch_in_words((k, patch): (usize, &Patch)) -> String {
    let name = if k == 0 { "from the outline".to_string() } else { format!("round “{}”", patch.name) };
    let share = patch.share.map_or(String::new(), |share| format!(", {} of the field", percent(share)));
    let angle = patch.quality.map_or(String::new(), |quality| format!(", smallest angle {:.0}°", quality.least_angle));
    format!("Paved {name}: {}, {}{share}{angle}.", counted(patch.nodes, "node"), counted(patch.quads, "quad"))
}
