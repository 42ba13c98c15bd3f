//! The oracle's command line.

use std::io::{self, BufWriter, Read, Write};
use std::path::Path;
use std::process::ExitCode;

use oracle::generate::{Case, KINDS};
use oracle::terms::{Lent, Refusal, Run};
use oracle::{compare, fixed, live, patched, plain};

const USAGE: &str =
    "usage: oracle [--plain] pave [FILE]            the listing of a file of 512-byte blocks, or of standard input
       oracle [--plain] run [--echo]          answers to the questions on standard input, line by line
       oracle gen SEED COUNT KIND [FIRST]     generated questions
       oracle compare SEED COUNT KIND         what differs between the patched and the plain build
       oracle steps SEED COUNT KIND           pass by pass against one call of advance
       oracle fixed FOLDER                    writes the fixed list of the program `replay`
       oracle live SEED COUNT PROGRAM ..      the built program's listings beside the oracle's
       oracle file SEED KIND PLACE            one of these files
kinds: mixed";

fn main() -> ExitCode {
    let words: Vec<String> = std::env::args().skip(1).collect();
    let mut words: Vec<&str> = words.iter().map(String::as_str).collect();
    let plain = words.first() == Some(&"--plain");
    if plain {
        words.remove(0);
    }
    match command(&words, plain) {
        Ok(true) => ExitCode::SUCCESS,
        Ok(false) => {
            eprint!("{USAGE}");
            KINDS.iter().for_each(|(kind, _)| eprint!(" {kind}"));
            eprintln!();
            ExitCode::from(2)
        }
        Err(error) => {
            eprintln!("oracle: {error}");
            ExitCode::FAILURE
        }
    }
}

/// Does what the words ask; false if they ask nothing that there is.
fn command(words: &[&str], plain: bool) -> io::Result<bool> {
    let mut output = BufWriter::new(io::stdout().lock());
    match words {
        ["pave", path @ ..] if path.len() <= 1 => {
            let mut bytes = Vec::new();
            match path {
                [path] => bytes = std::fs::read(path)?,
                _ => drop(io::stdin().read_to_end(&mut bytes)?),
            }
            output.write_all(listing(pave(plain, &bytes)).as_bytes())?;
        }
        ["run"] => run(plain, false, &mut output)?,
        ["run", "--echo"] => run(plain, true, &mut output)?,
        ["gen", seed, count, kind] => return generate(seed, count, kind, "0", &mut output),
        ["gen", seed, count, kind, first] => return generate(seed, count, kind, first, &mut output),
        ["compare", seed, count, kind] => match cases(seed, count, kind, "0") {
            Some(cases) => write!(output, "{}", compare::builds(&cases))?,
            None => return Ok(false),
        },
        ["steps", seed, count, kind] => match cases(seed, count, kind, "0") {
            Some(cases) => writeln!(output, "{} runs, pass by pass as in one call", compare::steps(&cases)?)?,
            None => return Ok(false),
        },
        ["fixed", folder] => writeln!(output, "{} files", fixed::write(Path::new(folder))?)?,
        ["file", seed, kind, place] => match (seed.parse(), place.parse()) {
            (Ok(seed), Ok(place)) => match live::file(kind, seed, place) {
                Some(bytes) => output.write_all(&bytes)?,
                None => return Ok(false),
            },
            _ => return Ok(false),
        },
        ["live", seed, count, program @ ..] if !program.is_empty() => match (seed.parse(), count.parse()) {
            (Ok(seed), Ok(count)) => {
                let found = live::compare(program, seed, count)?;
                write!(output, "{found}")?;
                if !found.differences.is_empty() {
                    output.flush()?;
                    return Err(io::Error::other("the program differs"));
                }
            }
            _ => return Ok(false),
        },
        _ => return Ok(false),
    }
    output.flush()?;
    Ok(true)
}

fn pave(plain: bool, bytes: &[u8]) -> Result<Run, Refusal> {
    if plain {
        plain::pave_file(bytes, &Lent::PROGRAM)
    } else {
        patched::pave_file(bytes, &Lent::PROGRAM)
    }
}

fn listing(answer: Result<Run, Refusal>) -> String {
    answer.map_or_else(|refusal| refusal.to_string(), |run| run.to_string())
}

fn run(plain: bool, echo: bool, output: &mut impl Write) -> io::Result<()> {
    let input = io::stdin().lock();
    if plain {
        plain::questions::run(input, output, echo)
    } else {
        patched::questions::run(input, output, echo)
    }
}

/// The cases that the words name, or none if a word isn't well formed.
fn cases(seed: &str, count: &str, kind: &str, first: &str) -> Option<Vec<Case>> {
    let [seed, count, first]: [u64; 3] = [seed.parse().ok()?, count.parse().ok()?, first.parse().ok()?];
    (first..first + count).map(|place| Case::new(kind, seed, place)).collect()
}

fn generate(seed: &str, count: &str, kind: &str, first: &str, output: &mut impl Write) -> io::Result<bool> {
    let Some(cases) = cases(seed, count, kind, first) else {
        return Ok(false);
    };
    for case in cases {
        output.write_all(case.lines().as_bytes())?;
    }
    Ok(true)
}
