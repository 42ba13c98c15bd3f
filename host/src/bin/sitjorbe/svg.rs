//! The picture of a mesh.

use crate::caption;
use crate::csv::{Field, Point};
pub use crate::eye::Eye;
use crate::figures::Figures;
use crate::hill::Hill;
use crate::identity;
use crate::polar;
use crate::run::Paved;
use crate::sheet::{escaped, path, text, wrapped, Anchor, Labels, Sheet, SIDE};

/// What a picture is to show besides the mesh.
#[derive(Clone, Debug)]
pub struct Look {
    pub title: String,
    pub eye: Option<Eye>,
    /// Whether each node's number stands beside it.
    pub numbers: bool,
    /// The hill of vision, if there are thresholds: it takes the place of the quads' colours.
    pub hill: Option<Hill>,
    /// What is said of the day.
    pub date: Option<String>,
    /// The field as it was drawn, where another one is paved.
    pub drawn: Option<Field>,
    /// An edge to light up: its loop and its place there.
    pub edge: Option<[usize; 2]>,
    /// The order in which the quads are to be tested: its places are written in them.
    pub order: Option<Vec<u32>>,
    /// More to be said below the picture.
    pub notes: Vec<String>,
}

/// Nothing but the mesh, and today's date.
impl Default for Look {
    fn default() -> Look {
        let date = Some(identity::today());
        Look {
            title: String::new(),
            eye: None,
            numbers: false,
            hill: None,
            date,
            drawn: None,
            edge: None,
            order: None,
            notes: vec![],
        }
    }
}

/// The colours of patches, fill and line: the outline's, then those of blind spots. Readers who lack a kind of cone tell the fills apart too, and all of
/// them from what is open, blind or blank; tests/command.rs works that out.
pub const PATCHES: [[&str; 2]; 6] = [
    ["#d3e5f5", "#2b659e"],
    ["#fbe084", "#7a5c00"],
    ["#9191fa", "#24248c"],
    ["#64af64", "#12450f"],
    ["#cda0cd", "#5f235f"],
    ["#919182", "#33332a"],
];
const LINE: f64 = 19.0;
/// A quad's lines, and its corners' dots, are drawn where its sides have so many pixels.
const SIDES_SEEN: f64 = 2.5;
const NODES_SEEN: f64 = 9.0;
/// Sides have so many where nodes have their numbers, or their decibels, unless the sheet would be too large.
const NUMBERS_SEEN: f64 = 26.0;
const MOST_ZOOM: f64 = 8.0;
const DECIBELS_SEEN: f64 = 15.0;
const PLACES_SEEN: f64 = 13.0;
/// A figure has so many pixels beside its frame.
const BESIDE: f64 = 58.0;
const MOST_DECIBEL_ZOOM: f64 = 2.0;

const RULES: &str = "\
svg{forced-color-adjust:none}text{font:13px sans-serif;fill:#1a1a1a}.title{font-size:17px;font-weight:bold}.verdict{font-weight:bold;font-size:14px}\
.degrees{font-size:11px;fill:#222;stroke:#fff;stroke-width:3px;stroke-linejoin:round;paint-order:stroke}\
.side{font-size:13px;font-weight:bold;fill:#444;letter-spacing:1px}.number{font-size:7px;fill:#5a1a78}\
.decibels,.place{font-size:9px;fill:#111;stroke:#fff;stroke-width:1.6px;stroke-linejoin:round;paint-order:stroke}\
.drawn{fill:none;stroke:#111;stroke-width:1;stroke-dasharray:4 3}.lit{fill:none;stroke:#00a651;stroke-width:6;stroke-linecap:round}\
.open{fill:url(#hatch);stroke:#b3261e;stroke-width:2.2;stroke-linejoin:round;fill-rule:evenodd}.blind{fill:#3a3a3a}\
.outline{fill:none;stroke:#111;stroke-width:1.8;stroke-linejoin:round}.nodes{fill:#1c2f45}\
.halo{fill:none;stroke:#fff;stroke-width:2;stroke-opacity:.45}.polar{fill:none;stroke:#333;stroke-width:.7;stroke-opacity:.75}\
.closing{fill:#c6c0c6;stroke:#7d7580;stroke-linejoin:round}.cross{fill:none;stroke:#fff;stroke-width:5}.fixation{fill:none;stroke:#111;stroke-width:2}.lacking{fill:url(#dots);stroke:#8a6a00;stroke-width:1}.frame{fill:none;stroke:#999;stroke-width:.8}";

/// What is left open and what has no estimate is told by a pattern too, not by colour alone.
const PATTERNS: &str = r##"<pattern id="dots" width="7" height="7" patternUnits="userSpaceOnUse"><rect width="7" height="7" fill="#fdf0bd"/><circle cx="3.5" cy="3.5" r="1.3" fill="#8a6a00"/></pattern><pattern id="hatch" width="7" height="7" patternUnits="userSpaceOnUse" patternTransform="rotate(45)"><rect width="7" height="7" fill="#f6b5a6"/><path d="M0,0V7" stroke="#b3261e" stroke-width="1.6"/></pattern>"##;

/// The picture as an SVG document.
pub fn draw(field: &Field, paved: &Paved, figures: &Figures, look: &Look) -> String {
    let points = || field.loops.iter().flatten().map(|point| [point.x, point.y]).chain(paved.nodes.iter().copied());
    let usual = Sheet::of(points(), 0.0, 1.0);
    let zoom = zoom(side_in_pixels(&usual, paved), look);
    let within = Sheet::of(points(), 0.0, zoom).width() - 2.0 * 24.0;
    let (head, top) = heading(look, within);
    let sheet = Sheet::of(points(), top, zoom);
    let mut body = head + &mesh(&sheet, field, paved, look) + &scale(&sheet, look);
    body += &beside_nodes(&sheet, paved, look);
    let lines = caption::lines(field, figures, paved, look);
    let (words, mut y) = caption::below(&lines, sheet.bottom() + 62.0, within);
    body += &words;
    if let Some(hill) = &look.hill {
        body += &hill.scale([24.0, y + 4.0], within);
        y += 48.0;
    }
    let (rows, y) = caption::legend(&sheet, field, paved, look, y);
    document(&sheet, y + 4.0, look, &lines, &(body + &rows))
}

/// The field alone, to stand in a page that has [`styles`]: without title, words and legend, and so small that its text can be read on paper.
pub fn figure(field: &Field, paved: &Paved, look: &Look, zoom: f64) -> String {
    let points = || field.loops.iter().flatten().map(|point| [point.x, point.y]).chain(paved.nodes.iter().copied());
    let sheet = Sheet::of(points(), 44.0, zoom);
    let body = mesh(&sheet, field, paved, look) + &scale(&sheet, look) + &beside_nodes(&sheet, paved, look);
    let (left, width, height) = (sheet.x - BESIDE, sheet.frame()[0] + 2.0 * BESIDE, sheet.bottom() + 46.0);
    format!(
        r#"<svg xmlns="http://www.w3.org/2000/svg" role="img" aria-label="{}" viewBox="{left:.1} 0 {width:.1} {height:.1}">{}{body}</svg>"#,
        escaped(&look.title),
        clip(&sheet)
    )
}

/// The rules of style of every picture.
pub fn styles() -> String {
    let colour = |(k, [fill, line]): (usize, &[&str; 2])| {
        format!(".patch{k}{{fill:{fill};stroke:{line};stroke-linejoin:round}}")
    };
    RULES.to_string() + &PATCHES.iter().enumerate().map(colour).collect::<String>()
}

/// The patterns of what isn't measured, and the frame that circles and meridians end at.
fn clip(sheet: &Sheet) -> String {
    let [across, down] = sheet.frame();
    let frame = format!(r#"x="{:.1}" y="{:.1}" width="{across:.1}" height="{down:.1}""#, sheet.x, sheet.y);
    format!(r#"<defs>{PATTERNS}<clipPath id="frame"><rect {frame}/></clipPath></defs>"#)
}

/// How many times as large as usual the sheet is, where a quad's side usually has so many pixels.
fn zoom(side: f64, look: &Look) -> f64 {
    match (look.numbers, &look.hill) {
        (true, _) => (NUMBERS_SEEN / side).clamp(1.0, MOST_ZOOM),
        (false, Some(_)) => (NUMBERS_SEEN / side).clamp(1.0, MOST_DECIBEL_ZOOM),
        (false, None) => 1.0,
    }
}

fn document(sheet: &Sheet, height: f64, look: &Look, lines: &[String], body: &str) -> String {
    let title = if look.title.is_empty() { "Visual field" } else { &look.title };
    format!(
        concat!(
            r#"<svg xmlns="http://www.w3.org/2000/svg" role="img" width="{width:.0}" height="{height:.0}" viewBox="0 0 {width:.1} {height:.1}">"#,
            "\n<title>{title}</title>\n<desc>{about}</desc>\n<style>{styles}</style>\n{clip}\n",
            r##"<rect width="100%" height="100%" fill="#fff"/>"##,
            "\n{body}</svg>\n"
        ),
        width = sheet.width(),
        height = height,
        title = escaped(title),
        about = escaped(&lines.join(" ")),
        styles = styles(),
        clip = clip(sheet),
        body = body
    )
}

/// Title and eye, and where the frame's top is below them.
fn heading(look: &Look, within: f64) -> (String, f64) {
    let (mut drawn, mut y) = (String::new(), 10.0);
    for line in wrapped(&look.title, 17.0, within) {
        y += 21.0;
        drawn += &text([24.0, y], Anchor::Start, "title", &line);
    }
    if let Some(eye) = look.eye {
        y += LINE;
        drawn += &text([24.0, y], Anchor::Start, "", eye.words());
    }
    (drawn, y + 52.0)
}

/// Quads by patch, what is open, blind spots, the outline and the nodes.
fn mesh(sheet: &Sheet, field: &Field, paved: &Paved, look: &Look) -> String {
    let (mut patches, mut closing) = (vec![String::new(); PATCHES.len()], String::new());
    let at = |id: &u32| paved.nodes[*id as usize];
    for (place, quad) in paved.quads.iter().enumerate() {
        let part = paved.loop_of(place).map_or(&mut closing, |number| &mut patches[colour_of(number)]);
        *part += &sheet.ring(quad.iter().map(at));
    }
    let side = side_in_pixels(sheet, paved);
    let line = if side < SIDES_SEEN { 0.0 } else { (side / 14.0).clamp(0.3, 1.0) };
    let hidden = if look.hill.is_some() { ";fill-opacity:0" } else { "" };
    let mut drawn = look.hill.as_ref().map_or(String::new(), |hill| hill.shades(sheet, paved));
    let names = (0..PATCHES.len()).map(|k| format!("patch{k}")).chain(["closing".to_string()]);
    for (name, part) in names.zip(patches.iter().chain([&closing])) {
        drawn += &path(&name, part).replace("<path", &format!(r#"<path style="stroke-width:{line:.2}{hidden}""#));
    }
    let ring = |points: &Vec<Point>| sheet.ring(points.iter().map(|point| [point.x, point.y]));
    let left: String = paved.left.iter().map(|ids| sheet.ring(ids.iter().map(at))).collect();
    drawn += &path("open", &left)
        .replace("<path", &format!(r#"<path style="stroke-width:{:.2}""#, (side / 5.0).clamp(0.3, 2.2)));
    drawn += &path("blind", &field.loops.iter().skip(1).map(ring).collect::<String>());
    drawn += &path("outline", &field.loops.iter().map(ring).collect::<String>());
    drawn += &path("drawn", &look.drawn.iter().flat_map(|field| &field.loops).map(ring).collect::<String>());
    drawn += &path("lit", &look.edge.map_or(String::new(), |edge| lit(sheet, field, edge)));
    if side >= NODES_SEEN && look.hill.is_none() {
        let dot = |node: &[f64; 2]| {
            let [x, y] = sheet.at(*node);
            format!("M{:.2},{y:.2}a1.5,1.5 0 1,0 3,0a1.5,1.5 0 1,0 -3,0", x - 1.5)
        };
        drawn += &path("nodes", &paved.nodes.iter().map(dot).collect::<String>());
    }
    drawn
}

/// A segment of the outline.
fn lit(sheet: &Sheet, field: &Field, [k, place]: [usize; 2]) -> String {
    let points = &field.loops[k];
    let [[ax, ay], [bx, by]] =
        [place, (place + 1) % points.len()].map(|place| sheet.at([points[place].x, points[place].y]));
    format!("M{ax:.2},{ay:.2}L{bx:.2},{by:.2}")
}

/// The colour of the patch of a loop.
pub fn colour_of(origin: usize) -> usize {
    if origin == 0 {
        0
    } else {
        1 + (origin - 1) % (PATCHES.len() - 1)
    }
}

/// About as long is a quad's side on the sheet.
fn side_in_pixels(sheet: &Sheet, paved: &Paved) -> f64 {
    let [width, height] = sheet.frame();
    let count = paved.quads.len().max(paved.nodes.len()).max(1) as f64;
    (width * height / count).sqrt()
}

/// Circles, meridians, sides and fixation.
fn scale(sheet: &Sheet, look: &Look) -> String {
    let [width, height] = sheet.frame();
    let (middle, across) = (sheet.y + height / 2.0, sheet.x + width / 2.0);
    let mut drawn = format!(
        r#"<rect class="frame" x="{:.1}" y="{:.1}" width="{width:.1}" height="{height:.1}"/>"#,
        sheet.x, sheet.y
    ) + "\n";
    drawn += &polar::lines(sheet);
    let mut labels = Labels::default();
    if sheet.holds([0.0, 0.0]) {
        let [x, y] = sheet.at([0.0, 0.0]);
        labels.reserve([x, y], 8.0);
        let cross = format!("M{:.1},{y:.1}h14M{x:.1},{:.1}v14", x - 7.0, y - 7.0);
        drawn += &(path("cross", &cross) + &path("fixation", &cross));
    }
    drawn += &polar::labels(sheet, &mut labels);
    drawn += &text([across, sheet.y - 28.0], Anchor::Middle, "side", "superior");
    drawn += &text([across, sheet.bottom() + 38.0], Anchor::Middle, "side", "inferior");
    if let Some([left, right]) = look.eye.map(Eye::sides) {
        for (x, words) in [(sheet.x - SIDE + 24.0, left), (sheet.x + width + SIDE - 14.0, right)] {
            let turned = format!(r#"<text transform="rotate(-90 {x:.1} {middle:.1})""#);
            drawn += &text([x, middle], Anchor::Middle, "side", words).replace("<text", &turned);
        }
    }
    drawn
}

/// Each node's number, or its threshold where there is one to be read.
fn beside_nodes(sheet: &Sheet, paved: &Paved, look: &Look) -> String {
    let number = |(id, node): (usize, &[f64; 2])| {
        let [x, y] = sheet.at(*node);
        text([x + 2.0, y - 2.0], Anchor::Start, "number", &id.to_string())
    };
    let numbers = || paved.nodes.iter().enumerate().map(number).collect();
    let side = side_in_pixels(sheet, paved);
    match (&look.hill, &look.order) {
        _ if look.numbers => numbers(),
        (Some(hill), _) if side >= DECIBELS_SEEN => hill.decibels(sheet, paved, side),
        (_, Some(order)) if side >= PLACES_SEEN => places(sheet, paved, order, (0.3 * side).clamp(5.0, 11.0)),
        _ => String::new(),
    }
}

/// In each quad its place in the order, counted from 1.
fn places(sheet: &Sheet, paved: &Paved, order: &[u32], size: f64) -> String {
    let place = |(place, quad): (usize, &u32)| {
        let corners = paved.quads[*quad as usize].map(|id| paved.nodes[id as usize]);
        let middle = [0, 1].map(|axis| corners.iter().map(|corner| corner[axis]).sum::<f64>() / 4.0);
        let [x, y] = sheet.at(middle);
        text([x, y + 0.35 * size], Anchor::Middle, "place", &(place + 1).to_string())
            .replace("<text", &format!(r#"<text style="font-size:{size:.1}px""#))
    };
    order.iter().enumerate().map(place).collect()
}
