//! An examination's report: one page that prints to one sheet of A4 or of Letter, without anything set at the printer.

use sitjorbe::raw::is_sound;

use crate::csv::Field;
use crate::figures::{self, percent, Figures};
use crate::hill::{decibels, Hill};
use crate::identity::{self, VERSION};
use crate::run::{Drawing, Paved};
use crate::sheet::escaped;
use crate::svg::{self, Look};
use crate::words::{counted, grouped, short};

/// The sheet's usable part is 188 by 258 mm: A4 and Letter less margins of 10 mm, whichever is narrower or lower.
const RULES: &str = "\
@page{margin:10mm}*{box-sizing:border-box}\
html{background:#fff;color:#1a1a1a;color-scheme:light;-webkit-print-color-adjust:exact;print-color-adjust:exact}\
body{width:188mm;margin:0 auto;font:9.5pt/1.3 sans-serif}\
main{height:257mm;display:flex;flex-direction:column;gap:2.5mm;overflow:hidden}\
header{display:flex;justify-content:space-between;gap:4mm;border-bottom:.5mm solid #1a1a1a;padding-bottom:1.5mm}\
h1{font-size:15pt;margin:0;overflow-wrap:anywhere}h2{font-size:10.5pt;margin:0 0 1mm}p{margin:0}header>p{text-align:right;white-space:nowrap}\
.verdict{font-weight:bold;font-size:11pt}.verdict b{color:#b3261e}\
.row{display:flex;gap:4mm;min-height:0}.row>section{min-width:0}figure{margin:0}figure svg{display:block;width:100%}\
.hill{flex:0 0 128mm}.hill svg{height:110mm}.beside{flex:1}.mesh{flex:0 0 104mm}.mesh svg{height:76mm}.beside table{font-size:8.5pt}\
.lower{flex:1;overflow:hidden}.lower>section:last-child{flex:1}\
table{border-collapse:collapse;width:100%}td{padding:.35mm 0;vertical-align:top;border-bottom:.1mm solid #bbb}td:last-child{text-align:right;padding-left:2mm}\
.key{display:inline-block;width:5mm;height:3mm;border:.2mm solid #777;vertical-align:-.3mm;margin:0 1mm 0 2.5mm;forced-color-adjust:none}.key:first-child{margin-left:0}\
.keys{margin:2mm 0 3mm}.key.red{background:repeating-linear-gradient(135deg,#f6b5a6 0 .8mm,#b3261e .8mm 1.1mm)}.key.dots{background:radial-gradient(#8a6a00 .35mm,#fdf0bd .4mm) 0 0/1.5mm 1.5mm}.key.dark{background:#3a3a3a}\
.key.grey{background:#c6c0c6}.scale{display:flex;font-size:7.5pt}.scale i{flex:1;height:3.5mm;border:.1mm solid #777;forced-color-adjust:none}\
.order{font-size:8pt;overflow-wrap:anywhere}footer{border-top:.2mm solid #777;padding-top:1.2mm;font-size:8pt}\
@media screen{body{padding:6mm 0}}@media screen and (max-width:188mm){body{width:auto;padding:3mm}main{height:auto;overflow:visible}.row{flex-wrap:wrap}.hill,.beside,.mesh,.lower>section{flex:1 1 80mm}}";

/// What is proved of a report, and what isn't.
const PROVED: &str = "Proved: the mesh, the counts and sum of thresholds, every estimate, and that the order is accepted are the library's, which equals its definitions on every \
input. Tested, not proved: shares, drawing. What is red or dotted was not measured.";
/// The same of a closed mesh.
const PROVED_OF_CLOSED: &str = "Proved: the paving, the counts and sum of thresholds, every estimate, and that the order is accepted are the library's, which equals its definitions on every \
input. The closing is plain code, but its mesh passed the library's proved check that each point of the field is in one quad. Tested, not proved: shares, drawing. What is dotted was not measured.";
/// No more loops have a row of their own.
const MOST_PATCHES: usize = 4;
/// Of an order no more numbers are written.
const MOST_LISTED: usize = 120;

/// The report as an HTML document.
pub fn page(field: &Field, paved: &Paved, figures: &Figures, look: &Look) -> String {
    let title = escaped(if look.title.is_empty() { "Visual field" } else { &look.title });
    let body = [header(paved, look), verdict(field, paved, figures, look), pictures(field, paved, figures, look)];
    format!(
        "<!DOCTYPE html>\n<html lang=\"en\"><head><meta charset=\"utf-8\"><title>{title}</title>\n<meta name=\"viewport\" content=\"width=device-width\">\n\
         <style>{RULES}{}</style></head>\n<body><main>\n{}\n<footer>{}</footer>\n</main></body></html>\n",
        svg::styles(),
        body.join("\n"),
        if paved.is_closed() { PROVED_OF_CLOSED } else { PROVED }
    )
}

fn header(paved: &Paved, look: &Look) -> String {
    let eye = look.eye.map_or("Which eye isn't said; as the patient sees it", svg::Eye::words);
    let date = look.date.as_deref().map_or(String::new(), |date| escaped(date) + "<br>");
    let title = escaped(if look.title.is_empty() { "Visual field" } else { &look.title });
    let mesh = identity::digest(paved);
    format!("<header><div><h1>{title}</h1><p>{eye}</p></div><p>{date}mesh {mesh}<br>sitjorbe {VERSION}</p></header>")
}

/// The shares that matter: tested, paved and not tested, open.
fn verdict(field: &Field, paved: &Paved, figures: &Figures, look: &Look) -> String {
    let tested = look.hill.as_ref().and_then(|hill| tested(field, paved, hill));
    let words = match (tested, figures.share) {
        (Some(tested), Some(share)) => {
            let open = figures::rest(share);
            let red = if paved.left.is_empty() {
                String::new()
            } else {
                format!(" <b>The red part, {open}, is measured nowhere.</b>")
            };
            format!("{} of the field is measured.{red}", percent(tested))
        }
        _ => escaped(&figures::verdict(figures, true)),
    };
    format!("<p class=\"verdict\">{words}</p>")
}

/// The share of the field that quads with all four thresholds cover.
pub fn tested(field: &Field, paved: &Paved, hill: &Hill) -> Option<f64> {
    let measured = paved.quads.iter().enumerate().filter(|(quad, _)| hill.is_measured(*quad)).map(|(_, quad)| quad);
    is_sound(&Drawing::of(field).outline()).ok().filter(|sound| *sound)?;
    figures::share_of(field, paved, measured)
}

fn pictures(field: &Field, paved: &Paved, figures: &Figures, look: &Look) -> String {
    let of = |title: &str, hill: Option<Hill>, order: Option<Vec<u32>>, zoom: f64| {
        let look = Look { title: title.to_string(), hill, order, numbers: false, edge: None, ..look.clone() };
        svg::figure(field, paved, &look, zoom)
    };
    let order = look.order.clone().unwrap_or_else(|| (0..paved.quads.len() as u32).collect());
    let hill =
        look.hill.as_ref().map_or("The field as drawn", |_| "Thresholds in decibels, and estimates between them");
    format!(
        "<div class=\"row\"><section class=\"hill\"><h2>{hill}</h2><figure>{}</figure>{}</section>\n<section class=\"beside\">{}{}{}</section></div>\n\
         <div class=\"row lower\"><section class=\"mesh\"><h2>The field as drawn, its mesh, and each quad's place</h2><figure>{}</figure></section>\
         <section>{}</section></div>",
        of(hill, look.hill.clone(), None, 0.8),
        look.hill.as_ref().map_or(String::new(), |_| scale()),
        measured(look),
        keys(field, paved, look),
        settings(field, paved, figures),
        of("The mesh, with each quad's place in the order", None, Some(order), 0.8),
        order_words(look)
    )
}

fn scale() -> String {
    let shade = |k: usize| format!("<i style=\"background:{}\"></i>", crate::hill::grey(k));
    let shades: String = (0..crate::hill::SHADES).map(shade).collect();
    format!("<p class=\"scale\">0 dB&nbsp;{shades}&nbsp;40 dB</p>")
}

/// What the marks mean.
fn keys(field: &Field, paved: &Paved, look: &Look) -> String {
    let names = escaped(&field.names[1..].join(", "));
    let keys = [
        ("red", "measured nowhere", !paved.left.is_empty()),
        ("dots", "no estimate: a threshold is missing", look.hill.as_ref().is_some_and(|hill| hill.lacking > 0)),
        ("dark", names.as_str(), field.loops.len() > 1),
        ("grey", "a quad of the closing", paved.is_closed()),
    ];
    let shown = keys.iter().filter(|(.., there)| *there);
    let shown: String = shown.map(|(class, words, _)| format!("<span class=\"key {class}\"></span>{words}")).collect();
    format!("<p class=\"keys\">{shown}</p>")
}

fn rows(rows: &[(String, String)]) -> String {
    let row =
        |(name, value): &(String, String)| format!("<tr><td>{}</td><td>{}</td></tr>", escaped(name), escaped(value));
    format!("<table>{}</table>", rows.iter().map(row).collect::<String>())
}

/// What was measured: counts and sum as the library has them.
fn measured(look: &Look) -> String {
    let Some(hill) = &look.hill else { return String::new() };
    let mut there: Vec<u32> = hill.thresholds.iter().flatten().copied().collect();
    there.sort_unstable();
    let (count, sum) = hill.figures;
    let mut told = vec![
        (
            "Nodes with a threshold".to_string(),
            format!("{} of {}", grouped(there.len()), grouped(hill.thresholds.len())),
        ),
        ("Quads with all four".to_string(), format!("{} of {}", grouped(count as usize), grouped(hill.quads()))),
        ("Sum over these quads".to_string(), format!("{} dB", decibels(sum))),
    ];
    if let (Some(least), Some(most)) = (there.first(), there.last()) {
        let median = decibels(there[(there.len() - 1) / 2]);
        told.push((
            "Least, median, greatest".to_string(),
            format!("{}, {median}, {} dB", decibels(*least), decibels(*most)),
        ));
    }
    format!("<h2>Measured</h2>{}", rows(&told))
}

fn settings(field: &Field, paved: &Paved, figures: &Figures) -> String {
    let points: usize = field.loops.iter().map(Vec::len).sum();
    let mut told = vec![
        ("Drawn".to_string(), format!("{} in {}", counted(points, "point"), counted(field.loops.len(), "loop"))),
        ("Outline".to_string(), if paved.sound { "sound" } else { "not sound" }.to_string()),
        ("Mesh".to_string(), format!("{}, {}", counted(figures.nodes, "node"), counted(figures.quads, "quad"))),
    ];
    if paved.settings.size.is_finite() {
        told.push(("Size".to_string(), format!("{}°", short(paved.settings.size))));
    }
    told.push((
        "Sweeps, passes, end".to_string(),
        format!("{}, {}, {}", paved.settings.sweeps, paved.settings.passes, paved.end),
    ));
    told.extend(figures.share.map(|share| ("Paved".to_string(), percent(share))));
    told.extend(figures.closing.map(|share| ("Closed".to_string(), percent(share))));
    for patch in figures.patches.iter().take(MOST_PATCHES) {
        told.extend(patch.share.map(|share| (format!("of this round {}", patch.name), percent(share))));
    }
    if let Some(quality) = figures.quality {
        told.push(("Smallest angle of a quad".to_string(), format!("{:.0}°", quality.least_angle)));
    }
    format!("<h2>Field, mesh and settings</h2>{}", rows(&told))
}

fn order_words(look: &Look) -> String {
    let Some(order) = &look.order else {
        return "<h2>Order</h2><p>The quads are tested as they were placed; each has its place in the mesh above.</p>"
            .to_string();
    };
    let listed: Vec<String> = order.iter().take(MOST_LISTED).map(u32::to_string).collect();
    let more = if order.len() > MOST_LISTED {
        format!(", and {} more", grouped(order.len() - MOST_LISTED))
    } else {
        String::new()
    };
    format!("<h2>Order: accepted</h2><p class=\"order\">Quads {}{more}.</p>", listed.join(", "))
}
