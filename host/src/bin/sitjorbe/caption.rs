//! What stands below a picture: what it shows in words, and what its colours are.

use crate::advice::Advice;
use crate::closed;
use crate::csv::Field;
use crate::figures::{sentences, stopped, verdict, Figures};
use crate::identity;
use crate::run::Paved;
use crate::sheet::{path, text, text_width, wrapped, Anchor, Sheet};
use crate::svg::{colour_of, Look, PATCHES};
use crate::words::short;

const LINE: f64 = 19.0;
/// More holes than these aren't named one by one.
const MOST_NAMED: usize = 3;

/// The lines below the picture. All of it is worked out from the mesh that is drawn.
pub fn lines(field: &Field, figures: &Figures, paved: &Paved, look: &Look) -> Vec<String> {
    let mut lines = vec![verdict(figures, true)];
    lines.extend(stopped(paved));
    let thin = "fewer points may pave it";
    let dense = Advice::of(field, paved, figures).filter(|advice| matches!(advice, Advice::TooDense { .. }));
    lines.extend(dense.map(|advice| advice.in_words(paved.settings.size, thin, "")));
    lines.extend(look.hill.iter().map(|hill| hill.words.clone()));
    lines.extend(closed::sentences(paved));
    lines.extend(sentences(figures, &paved.settings));
    lines.extend(look.edge.map(|edge| lit(field, edge)));
    lines.extend(look.notes.iter().cloned());
    let date = look.date.as_ref().map_or(String::new(), |date| format!(", {date}"));
    lines.push(format!("M{}{date}.", &identity::line(paved)[1..]));
    lines
}

/// The edge that is lit, by its name and its ends.
fn lit(field: &Field, [k, place]: [usize; 2]) -> String {
    let points = &field.loops[k];
    let [from, to] =
        [place, (place + 1) % points.len()].map(|place| [points[place].x, points[place].y].map(short).join(", "));
    format!("Edge {k},{place} of {} is lit, from ({from}) to ({to}).", field.names[k])
}

/// Lines of text from a height on, and where they end.
pub fn below(lines: &[String], mut y: f64, within: f64) -> (String, f64) {
    let mut drawn = String::new();
    for (place, words) in lines.iter().enumerate() {
        let (class, size) = if place == 0 { ("verdict", 14.0) } else { ("", 13.0) };
        for line in wrapped(words, size, within) {
            drawn += &text([24.0, y], Anchor::Start, class, &line);
            y += LINE;
        }
    }
    (drawn, y)
}

/// What the holes are called: by their names, where there are few.
fn holes(field: &Field) -> String {
    match &field.names[1..] {
        names if names.len() <= MOST_NAMED => names.join(", "),
        names => format!("{} and {} more", names[..MOST_NAMED - 1].join(", "), names.len() + 1 - MOST_NAMED),
    }
}

/// The rows of a legend: class and words.
fn rows(sheet: &Sheet, field: &Field, paved: &Paved, look: &Look) -> Vec<(String, String)> {
    let used = |k: usize| paved.quads_of(Some(k)).next().is_some();
    let mut shown: Vec<(String, String)> = vec![];
    let patches = field.names.iter().enumerate().take(PATCHES.len());
    for (k, name) in patches.filter(|(k, _)| look.hill.is_none() && used(*k)) {
        let words = if k == 0 { "paved from the outline".to_string() } else { format!("paved round “{name}”") };
        shown.push((format!("patch{}", colour_of(k)), words));
    }
    if look.hill.is_none() && paved.quads_of(None).next().is_some() {
        shown.push(("closing".to_string(), "closed".to_string()));
    }
    let lacking = look.hill.as_ref().is_some_and(|hill| hill.lacking > 0);
    let more = [
        ("open", "measured nowhere".to_string(), !paved.left.is_empty()),
        ("lacking", "no estimate: a threshold is missing".to_string(), lacking),
        ("blind", if field.loops.len() > 1 { holes(field) } else { String::new() }, field.loops.len() > 1),
        ("drawn", "as drawn".to_string(), look.drawn.is_some()),
        ("lit", "the edge asked for".to_string(), look.edge.is_some()),
        ("fixation", "fixation".to_string(), sheet.holds([0.0, 0.0])),
    ];
    shown.extend(more.into_iter().filter(|(.., there)| *there).map(|(class, words, _)| (class.to_string(), words)));
    shown
}

/// What the colours are, and where that ends.
pub fn legend(sheet: &Sheet, field: &Field, paved: &Paved, look: &Look, top: f64) -> (String, f64) {
    let (mut drawn, mut x, mut y) = (String::new(), 24.0, top + 12.0);
    for (class, words) in rows(sheet, field, paved, look) {
        let width = 30.0 + text_width(&words, 13.0) + 18.0;
        if x > 24.0 && x + width > sheet.width() - 12.0 {
            (x, y) = (24.0, y + 22.0);
        }
        let shape = match class.as_str() {
            "fixation" => format!("M{x:.1},{:.1}h14m-7,-7v14", y - 5.0),
            "drawn" | "lit" => format!("M{x:.1},{:.1}h20", y - 5.0),
            _ => format!("M{x:.1},{:.1}h20v12h-20Z", y - 11.0),
        };
        drawn += &(path(&class, &shape) + &text([x + 27.0, y], Anchor::Start, "", &words));
        x += width;
    }
    (drawn, y + 14.0)
}
