//! `sitjorbe quality`: the figures of meshes that `sitjorbe pave` wrote as JSON, worked out anew.

use std::cmp::Ordering;

use crate::advice::Advice;
use crate::args::{Args, Known};
use crate::closed;
use crate::exact::Exact;
use crate::figures;
use crate::files::{self, named, Failure};
use crate::identity;
use crate::mesh_json;
use crate::mesh_reading::{self, Read};
use crate::{Status, DONE};

pub const HELP: &str = "\
sitjorbe quality MESH.json .. [--json]: says the figures of meshes that sitjorbe pave wrote, worked out anew from nodes, quads and outline

A quad's angle is the smallest of its four, its aspect its longest side over its shortest. The share is that of the outline's area,
less its blind spots, that quads cover. A mesh whose paved and open parts don't add up to its outline can't be read. - is standard input.
    --json               say them as JSON, a line a mesh
The exit status is 0 if all went well, 2 if something can't be read.
";

const OPTIONS: [Known; 3] = [("--json", false), ("--help", false), ("-h", false)];
/// Samples of an outline are rounded, so its area and that of its mesh may differ by so little of it.
const ROUNDING: f64 = 1e-9;

pub fn command(words: &[String]) -> Result<Status, Failure> {
    let args = Args::parse(words, &OPTIONS)?;
    if args.has("--help") || args.has("-h") {
        return files::print(HELP).map(|()| DONE);
    }
    if args.files.is_empty() {
        return Err(Failure::Cant("no mesh is named; sitjorbe quality --help says how".to_string()));
    }
    let mut status = DONE;
    for file in &args.files {
        let failed = say(file, args.has("--json")).err();
        status = status.max(failed.map_or(DONE, |failure| failure.of(named(file)).said()));
    }
    Ok(status)
}

fn say(file: &str, json: bool) -> Result<(), Failure> {
    let Read { field, paved, .. } = read(file)?;
    let figures = figures::of(&field, &paved);
    if json {
        return files::print(&format!("{}\n", mesh_json::report(file, &paved, &figures)));
    }
    let mut lines = vec![format!("{}: {}", named(file), figures::verdict(&figures, false))];
    lines.extend(figures::stopped(&paved));
    lines.extend(figures::sentences(&figures, &paved.settings));
    lines.extend(Advice::said(&field, &paved, &figures));
    files::print(&(lines.join("\n  ") + "\n"))
}

/// A mesh that pave wrote, as it wrote it.
pub fn read(file: &str) -> Result<Read, Failure> {
    let mesh = mesh_reading::read(&files::read_text(file)?).map_err(Failure::Cant)?;
    check_balance(&mesh)?;
    if mesh.paved.is_closed() && !closed::is_judged(&mesh.field, &mesh.paved) {
        return Err(Failure::Cant("it says that it is closed, and it isn't: it was changed".to_string()));
    }
    let digest = identity::digest(&mesh.paved);
    match &mesh.digest {
        Some(said) if *said != digest => Err(Failure::Cant(format!(
            "its nodes or quads were changed: it says that it is mesh {said}, and they are mesh {digest}"
        ))),
        _ => Ok(mesh),
    }
}

/// Quads and what is left open make up a sound outline's area.
fn check_balance(mesh: &Read) -> Result<(), Failure> {
    let Read { field, paved, .. } = mesh;
    let total = figures::field_area(field);
    if !paved.sound || total.sign() != Ordering::Greater {
        return Ok(());
    }
    let rings = paved.left.iter().map(|ids| ids.iter().map(|id| paved.nodes[*id as usize]).collect::<Vec<_>>());
    let open = rings.fold(Exact::ZERO, |sum, ring| sum.plus(&Exact::doubled_area(&ring)));
    let covered = figures::paved_area(paved).plus(&open).over(&total);
    if (covered - 1.0).abs() > ROUNDING {
        return Err(Failure::Cant(
            "its quads and what is left open don't make up its outline: it was changed, or isn't whole".to_string(),
        ));
    }
    Ok(())
}
