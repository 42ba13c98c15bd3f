//! `sitjorbe check`: what would be refused of a field, and what is unsound about it, by line; and whether a mesh covers each point of its field once.

use sitjorbe::raw::{covers, is_sound};
use sitjorbe::Covered;

use crate::args::{Args, Known};
use crate::files::{self, named, Failure};
use crate::mesh_reading::{self, Read};
use crate::naming::Naming;
use crate::pave::read_field;
use crate::progress::Progress;
use crate::run::Drawing;
use crate::sound::Fault;
use crate::words::counted;
use crate::{refused, sound, Status, DONE, REFUSED};

pub const HELP: &str = "\
sitjorbe check FIELD.csv .. [--size DEGREES]: says what would be refused of fields, and what is unsound about them, by line

Sound is an outline none of whose segments meet, except neighbours at their common end, with every blind spot inside it and none in
another. An unsound one can be paved, but its mesh is never whole, and how much of the field it covers can't be said.
With --size that is checked too. - is standard input.
Of a mesh that pave wrote, whose name ends in .json, it says whether each point of its field is in just one quad, by a proved check, or
which quad, edge or node is wrong.
The exit status is 0 if every field is sound, 1 if one is refused or unsound, 2 if one can't be read.
";

const OPTIONS: [Known; 3] = [("--size", true), ("--help", false), ("-h", false)];

pub fn command(words: &[String]) -> Result<Status, Failure> {
    let args = Args::parse(words, &OPTIONS)?;
    if args.has("--help") || args.has("-h") {
        return files::print(HELP).map(|()| DONE);
    }
    let size = args.number("--size")?;
    if args.files.is_empty() {
        return Err(Failure::Cant("no field is named; sitjorbe check --help says how".to_string()));
    }
    let mut status = DONE;
    for file in &args.files {
        status = status.max(check(file, size).unwrap_or_else(|failure| failure.of(named(file)).said()));
    }
    Ok(status)
}

/// Whether a mesh as pave wrote it has each point of its field in just one quad.
fn check_mesh(file: &str) -> Result<Status, Failure> {
    let Read { field, paved, .. } = mesh_reading::read(&files::read_text(file)?).map_err(Failure::Cant)?;
    let axis = |k: usize| paved.nodes.iter().map(|node| node[k]).collect::<Vec<f64>>();
    let outline = Drawing::of(&field);
    let found = covers(&outline.outline(), paved.settings.size, &axis(0), &axis(1), paved.quads.as_flattened());
    let (said, status) = match found {
        Ok(Covered { sound: true }) => (format!("every point once: {}", counted(paved.quads.len(), "quad")), DONE),
        Ok(_) => ("every point as often as the outline goes round it, but that is unsound".to_string(), REFUSED),
        Err(why) => (format!("not every point once: {why}"), REFUSED),
    };
    files::print(&format!("{}: {said}\n", named(file))).map(|()| status)
}

fn check(file: &str, size: Option<f64>) -> Result<Status, Failure> {
    if file.ends_with(".json") {
        return check_mesh(file);
    }
    let progress = Progress::begin(&format!("{}: checking", named(file)));
    let field = read_field(file)?;
    refused::check(&field, size)?;
    let sound = is_sound(&Drawing::of(&field).outline())
        .map_err(|refusal| Failure::Refused(refused::in_words(&field, refusal, Naming::Line)))?;
    let faults = if sound { vec![] } else { sound::faults(&field) };
    drop(progress);
    if !sound {
        let line = |fault: &Fault| format!("{}: unsound: {}\n", named(file), fault.in_words(&field, Naming::Line));
        let lines: Vec<String> = faults.iter().map(line).collect();
        return files::print(&lines.concat()).map(|()| REFUSED);
    }
    let loops = field
        .names
        .iter()
        .zip(&field.loops)
        .map(|(name, points)| format!("{name} ({})", counted(points.len(), "point")));
    files::print(&format!("{}: sound: {}\n", named(file), loops.collect::<Vec<_>>().join(", "))).map(|()| DONE)
}
