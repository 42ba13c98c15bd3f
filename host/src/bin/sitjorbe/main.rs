//! `sitjorbe`: visual fields from a file of points to a mesh, its figures and its picture. `sitjorbe --help` says how.
//!
//! Every mesh, estimate and judgement is the proved library's; this program reads, counts, draws and writes.

#![forbid(unsafe_code)]

mod advice;
mod args;
mod best;
mod bowl;
mod caption;
mod check;
mod closed;
mod csv;
mod draw;
mod exact;
mod exam;
mod eye;
mod figures;
mod files;
mod formats;
mod hill;
mod identity;
mod json;
mod mesh_json;
mod mesh_reading;
mod naming;
mod order;
mod outputs;
mod pave;
mod picture;
mod place;
mod polar;
mod progress;
mod quality;
mod refused;
mod report;
mod run;
mod sha256;
mod sheet;
mod small;
mod sound;
mod svg;
mod thin;
mod thresholds;
mod words;

use std::env;
use std::process::ExitCode;

use files::Failure;

/// What a command answers: its exit status.
type Status = u8;

/// All went well.
const DONE: Status = 0;
/// Something is refused, or unsound where that was asked.
const REFUSED: Status = 1;
/// Something can't be read or written, or the call isn't one.
const CANT: Status = 2;

const HELP: &str = "\
sitjorbe: paves the outline of a visual field with quads

    sitjorbe draw                                            serve a page to draw on, to this machine alone
    sitjorbe pave FIELD.csv .. --size DEGREES [-o FILE ..]   pave, say the figures, write meshes and pictures
    sitjorbe check FIELD.csv ..                              say what would be refused or is unsound, by line
    sitjorbe exam MESH.json --thresholds FILE -o FILE ..     say what an examination has measured, write its report
    sitjorbe order MESH.json ORDER.txt [--nearest]           say whether quads may be tested in an order
    sitjorbe quality MESH.json ..                            say the figures of meshes that pave wrote
    sitjorbe picture MESH.json .. -o FILE ..                 write pictures and files of them
    sitjorbe nearest FIELD.csv X,Y ..                        say which edge of the outline is nearest to a place
    sitjorbe contains FIELD.csv X,Y ..                       say whether places are in the field
    sitjorbe small-quads -o FILE ..                          write every quad that technicians calibrate with
    sitjorbe COMMAND --help                                  say more about a command
    sitjorbe --version

The exit status is 0 if all went well, 1 if something is refused (for check: or unsound), 2 if something can't be read or written.
";

fn main() -> ExitCode {
    let words: Result<Vec<String>, _> = env::args_os().skip(1).map(|word| word.into_string()).collect();
    let status = match words {
        Ok(words) => dispatch(&words),
        Err(word) => {
            files::say(&format!("a word of the call isn't UTF-8 text: {}", word.to_string_lossy()));
            CANT
        }
    };
    ExitCode::from(status)
}

fn dispatch(words: &[String]) -> Status {
    let Some((command, rest)) = words.split_first() else {
        files::say("no command is given; sitjorbe --help names them");
        return CANT;
    };
    let answer = match command.as_str() {
        "-h" | "--help" | "help" => files::print(HELP).map(|()| DONE),
        "-V" | "--version" => files::print(&format!("sitjorbe {}\n", env!("CARGO_PKG_VERSION"))).map(|()| DONE),
        "pave" => pave::command(rest),
        "check" => check::command(rest),
        "quality" => quality::command(rest),
        "picture" => picture::command(rest),
        "exam" => exam::command(rest),
        "order" => order::command(rest),
        "nearest" => place::nearest(rest),
        "contains" => place::contain(rest),
        "small-quads" => small::command(rest),
        "draw" => draw::command(rest),
        _ => Err(Failure::Cant(format!("there is no command {command}; sitjorbe --help names them"))),
    };
    answer.unwrap_or_else(|failure| failure.said())
}
