//! `sitjorbe order`: whether quads may be tested in an order, and the order that is nearest to a wish.

use std::collections::HashMap;

use sitjorbe::raw::{check_order, nearest_order};
use sitjorbe::NotAccepted;

use crate::args::{Args, Known};
use crate::files::{self, named, Failure};
use crate::identity;
use crate::quality;
use crate::run::Paved;
use crate::words::{counted, short};
use crate::{Status, DONE};

pub const HELP: &str = "\
sitjorbe order MESH.json ORDER.txt [--nearest] [-o FILE]: says whether a mesh's quads may be tested in an order

    --nearest            take the order for a wish, which may leave quads out, and write the accepted order that is nearest to it
    -o, --output FILE    where to write that (default: standard output)

An order is the quads' numbers, counted from 0, with spaces, commas or new lines between; # begins a comment. Every quad comes once, and
after each quad that laid an edge which it used up. - is standard input.
The exit status is 0 if the order is accepted or written, 1 if it is refused, 2 if something can't be read or written.
";

const OPTIONS: [Known; 5] = [("--nearest", false), ("-o", true), ("--output", true), ("--help", false), ("-h", false)];

pub fn command(words: &[String]) -> Result<Status, Failure> {
    let args = Args::parse(words, &OPTIONS)?;
    if args.has("--help") || args.has("-h") {
        return files::print(HELP).map(|()| DONE);
    }
    let [mesh, order] = &args.files[..] else {
        return Err(Failure::Cant("a mesh and an order are wanted; sitjorbe order --help says how".to_string()));
    };
    let paved = quality::read(mesh).map_err(|failure| failure.of(named(mesh)))?.paved;
    let listed = read(&files::read_text(order)?).map_err(|what| Failure::Cant(what).of(named(order)))?;
    if args.has("--nearest") {
        let target = args.value("-o").or(args.value("--output")).unwrap_or("-");
        return files::write(target, &written(&paved, &nearest(&paved, &listed))).map(|()| DONE);
    }
    check(&paved, &listed).map_err(|failure| failure.of(named(order)))?;
    let quads = counted(paved.quads.len(), "quad");
    files::print(&format!("{}: accepted: {quads} may be tested in this order\n", named(order))).map(|()| DONE)
}

/// The numbers of a text, or the line that can't be read.
pub fn read(text: &str) -> Result<Vec<u32>, String> {
    let mut order = vec![];
    for (line, row) in (1..).zip(text.lines()) {
        let told = row.split('#').next().unwrap_or("");
        for word in told.split([' ', '\t', ',', ';']).filter(|word| !word.is_empty()) {
            let shown: String = word.chars().take(40).map(|c| if c.is_control() { '?' } else { c }).collect();
            order.push(word.parse().map_err(|_| format!("line {line}: this isn't a quad's number: {shown}"))?);
        }
    }
    Ok(order)
}

/// An order as a text that is read back.
pub fn written(paved: &Paved, order: &[u32]) -> String {
    let rows = order.iter().map(|quad| format!("{quad}\n"));
    format!("# {}: the order in which its quads are to be tested\n", identity::line(paved)) + &rows.collect::<String>()
}

/// The accepted order that is nearest to a wish.
pub fn nearest(paved: &Paved, wish: &[u32]) -> Vec<u32> {
    nearest_order(paved.quads.len(), paved.quads.as_flattened(), wish)
}

/// Whether the library accepts an order; where it doesn't, the quad that it is about.
pub fn check(paved: &Paved, order: &[u32]) -> Result<(), Failure> {
    check_order(paved.quads.len(), paved.quads.as_flattened(), order).map_err(|why| {
        let place = match why {
            NotAccepted::NotEachOnce => not_once(paved, order),
            NotAccepted::TooEarly { place } => too_early(paved, order, place),
        };
        Failure::Refused(format!("{} ({place})", why.refusal()))
    })
}

/// The first quad that is unknown or named twice, or the first that is missing.
fn not_once(paved: &Paved, order: &[u32]) -> String {
    let count = paved.quads.len();
    let mut places: HashMap<u32, usize> = HashMap::new();
    for (place, quad) in order.iter().enumerate() {
        if *quad as usize >= count {
            return format!("at place {} stands quad {quad}, and the mesh has {count}, counted from 0", place + 1);
        }
        if let Some(before) = places.insert(*quad, place) {
            return format!("quad {quad} stands at place {} and again at place {}", before + 1, place + 1);
        }
    }
    let missing: Vec<u32> = (0..count as u32).filter(|quad| !places.contains_key(quad)).collect();
    match missing[..] {
        [quad] => format!("quad {quad} is missing"),
        [quad, ..] => format!("quad {quad} is missing, the first of {}", counted(missing.len(), "quad")),
        [] => "no quad is missing".to_string(),
    }
}

/// The quad at a place, and the first that it waits for: one placed before it that laid an edge which it used up.
fn too_early(paved: &Paved, order: &[u32], place: usize) -> String {
    let quad = order[place];
    let [a, b, d, c] = paved.quads[quad as usize];
    let used = [[a, b], [b, d], [c, a]];
    let waits_for = (0..quad).find(|before| {
        let [a, b, d, c] = paved.quads[*before as usize];
        let laid = [[d, b], [c, d], [a, c]];
        laid.iter().any(|edge| used.contains(edge)) && !order[..place].contains(before)
    });
    let [x, y] = paved.nodes[a as usize];
    let place = format!("quad {quad}, at {}, {}, stands at place {}", short(x), short(y), place + 1);
    waits_for.map_or(place.clone(), |before| format!("{place}, before quad {before}, which it waits for"))
}
