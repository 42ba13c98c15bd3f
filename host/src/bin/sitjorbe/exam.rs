//! `sitjorbe exam`: an examination on a mesh: thresholds entered, counted and estimated by the library, an order checked, and a report.

use crate::args::{Args, Known};
use crate::figures;
use crate::files::{self, named, Failure};
use crate::hill::{decibels, Hill};
use crate::mesh_reading::Read;
use crate::order;
use crate::outputs::{self, Outputs};
use crate::quality;
use crate::words::{counted, grouped};
use crate::{Status, DONE};

const ABOUT: &str = "\
sitjorbe exam MESH.json --thresholds FILE [--order FILE] -o FILE .. [OPTIONS]: says and writes what an examination on a mesh has measured

    --order FILE         the order in which the quads are tested, which is checked (default: as they were placed)
";

const MORE: &str = "
-o report.html writes a report of one page, -o exam.json mesh, thresholds and order, -o hill.svg the hill of vision. MESH.json is what pave
or exam wrote; one with thresholds needs no --thresholds. Quads that lack a threshold are drawn as not measured. - is standard input.
The exit status is 0 if all went well, 1 if something is refused, 2 if something can't be read or written.
";

const OPTIONS: [Known; 3] = [("--order", true), ("--help", false), ("-h", false)];

pub fn command(words: &[String]) -> Result<Status, Failure> {
    let args = Args::parse(words, &[&OPTIONS[..], &outputs::OPTIONS].concat())?;
    if args.has("--help") || args.has("-h") {
        return files::print(&[ABOUT, outputs::HELP, MORE].concat()).map(|()| DONE);
    }
    let [file] = &args.files[..] else {
        return Err(Failure::Cant("one mesh is wanted; sitjorbe exam --help says how".to_string()));
    };
    let outputs = Outputs::of(&args, &args.files)?;
    examine(file, &outputs, args.value("--order")).map_err(|failure| failure.of(named(file)))
}

fn examine(file: &str, outputs: &Outputs, order: Option<&str>) -> Result<Status, Failure> {
    let Read { field, paved, mut brought, .. } = quality::read(file)?;
    let paved = outputs.closed(&field, paved, &|_| ());
    if let Some(name) = order {
        let listed = order::read(&files::read_text(name)?).map_err(|what| named_failure(name, Failure::Cant(what)))?;
        order::check(&paved, &listed).map_err(|failure| named_failure(name, failure))?;
        brought.order = Some(listed);
    }
    let figures = figures::of(&field, &paved);
    let look = outputs.look(file, &field, &paved, brought)?;
    let Some(hill) = &look.hill else {
        let how = "--thresholds is wanted: sitjorbe picture MESH.json -o FILE.csv writes a file to fill in";
        return Err(Failure::Cant(how.to_string()));
    };
    outputs.write(file, (&field, &paved), &figures, &look, &|_| ())?;
    let lines = [lines(hill), vec![figures::verdict(&figures, false)]].concat();
    outputs.say(&format!("{}: {}", named(file), lines.join("\n  "))).map(|()| DONE)
}

/// A failure with the name of another file than the mesh's.
fn named_failure(name: &str, failure: Failure) -> Failure {
    match failure.of(named(name)) {
        Failure::Cant(words) => Failure::Named(words),
        other => other,
    }
}

/// What was measured, a sentence a line; counts and sum are the library's.
pub fn lines(hill: &Hill) -> Vec<String> {
    let (nodes, there) = (hill.thresholds.len(), hill.thresholds.iter().flatten().count());
    let (count, sum) = hill.figures;
    let quads = counted(hill.quads(), "quad");
    vec![
        format!("{} of {} have a threshold.", grouped(there), counted(nodes, "node")),
        format!(
            "{} of {quads} have all four; their thresholds sum up to {} dB.",
            grouped(count as usize),
            decibels(sum)
        ),
    ]
}
