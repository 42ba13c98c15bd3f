//! `sitjorbe picture`: pictures and files of meshes that `sitjorbe pave` wrote as JSON, without paving again.

use crate::args::{Args, Known};
use crate::figures;
use crate::files::{self, named, Failure};
use crate::mesh_reading::Read;
use crate::outputs::{self, Outputs};
use crate::quality;
use crate::{Status, DONE};

const ABOUT: &str = "\
sitjorbe picture MESH.json .. -o FILE .. [OPTIONS]: writes pictures and files of meshes that sitjorbe pave wrote, without paving again

";

const MORE: &str = "
Figures are worked out anew. A mesh that was changed can't be read. - is standard input.
The exit status is 0 if all went well, 1 if something is refused, 2 if something can't be read or written.
";

const OPTIONS: [Known; 2] = [("--help", false), ("-h", false)];

pub fn command(words: &[String]) -> Result<Status, Failure> {
    let args = Args::parse(words, &[&OPTIONS[..], &outputs::OPTIONS].concat())?;
    if args.has("--help") || args.has("-h") {
        return files::print(&[ABOUT, outputs::HELP, MORE].concat()).map(|()| DONE);
    }
    if args.files.is_empty() {
        return Err(Failure::Cant("no mesh is named; sitjorbe picture --help says how".to_string()));
    }
    let outputs = Outputs::of(&args, &args.files)?;
    let mut status = DONE;
    for file in &args.files {
        let failed = draw(file, &outputs).err();
        status = status.max(failed.map_or(DONE, |failure| failure.of(named(file)).said()));
    }
    Ok(status)
}

fn draw(file: &str, outputs: &Outputs) -> Result<(), Failure> {
    let Read { field, paved, brought, .. } = quality::read(file)?;
    let paved = outputs.closed(&field, paved, &|_| ());
    let figures = figures::of(&field, &paved);
    let look = outputs.look(file, &field, &paved, brought)?;
    outputs.write(file, (&field, &paved), &figures, &look, &|_| ())
}
