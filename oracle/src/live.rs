//! The built program beside the patched build: generated files, each read by a process of its own, listings compared byte for byte.

use std::collections::BTreeMap;
use std::fmt;
use std::io::{self, Write};
use std::process::{Command, Stdio};

use crate::fixed::{file_of, listing, verdict};
use crate::generate::{Case, Rng};

/// The kinds that give files, taken in turn. `damaged` stands twice: of the others few are refused 12 or 13.
const KINDS: [&str; 13] = [
    "files",
    "damaged",
    "visual",
    "lattice",
    "concave",
    "crossing",
    "holes",
    "degenerate",
    "slits",
    "sizes",
    "settings",
    "damaged",
    "bytes",
];

/// What a comparison found.
#[derive(Default)]
pub struct Found {
    pub files: usize,
    /// How many listings of the oracle begin so.
    pub verdicts: BTreeMap<String, usize>,
    /// The files with another listing: kind, place, and the first byte that differs.
    pub differences: Vec<(&'static str, u64, usize)>,
}

impl fmt::Display for Found {
    fn fmt(&self, f: &mut fmt::Formatter<'_>) -> fmt::Result {
        for (verdict, count) in &self.verdicts {
            writeln!(f, "{count:7} {verdict}")?;
        }
        for (kind, place, at) in &self.differences {
            writeln!(f, "DIFFERS at byte {at}: {kind}, place {place}")?;
        }
        writeln!(f, "{} files, {} differences", self.files, self.differences.len())
    }
}

/// Runs the program, given as words, on so many files of a seed.
pub fn compare(program: &[&str], seed: u64, count: usize) -> io::Result<Found> {
    let mut found = Found::default();
    let mut place = 0;
    while found.files < count {
        let kind = KINDS[place as usize % KINDS.len()];
        if let Some(bytes) = file(kind, seed, place) {
            let expected = listing(&bytes);
            let printed = printed(program, &bytes)?;
            if let Some(at) = first_difference(expected.as_bytes(), &printed) {
                found.differences.push((kind, place, at));
            }
            *found.verdicts.entry(verdict(&expected)).or_default() += 1;
            found.files += 1;
        }
        place += 1;
    }
    Ok(found)
}

/// The file of a kind, seed and place; none where the form has no room for the outline.
pub fn file(kind: &str, seed: u64, place: u64) -> Option<Vec<u8>> {
    if kind == "bytes" {
        let mut rng = Rng::new(seed, place);
        let length = rng.pick(&[0, 1, 511, 512, 513, 1_024, 1_536, 4_608, 4_609, 70_000]);
        return Some((0..length).map(|_| rng.next() as u8).collect());
    }
    file_of(&Case::new(kind, seed, place)?)
}

/// What the program prints for a file. It may stop reading before the end.
fn printed(program: &[&str], bytes: &[u8]) -> io::Result<Vec<u8>> {
    let mut child =
        Command::new(program[0]).args(&program[1..]).stdin(Stdio::piped()).stdout(Stdio::piped()).spawn()?;
    let written = child.stdin.take().expect("piped").write_all(bytes);
    if let Err(error) = written {
        if error.kind() != io::ErrorKind::BrokenPipe {
            return Err(error);
        }
    }
    let output = child.wait_with_output()?;
    if !output.status.success() {
        return Err(io::Error::other(format!("{} ended with {}", program.join(" "), output.status)));
    }
    Ok(output.stdout)
}

/// The first place at which two texts differ; one may end there.
fn first_difference(text: &[u8], other: &[u8]) -> Option<usize> {
    let same = text.iter().zip(other).take_while(|(byte, twin)| byte == twin).count();
    (same < text.len().max(other.len())).then_some(same)
}
