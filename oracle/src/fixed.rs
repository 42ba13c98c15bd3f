//! The fixed list: outline files of all kinds with the patched build's listings, which the program `replay` runs.
//!
//! Each entry is a file `NAME.outline` beside `NAME.listing`, and `list` has both, line by line, in the order of cases.rs. A name begins with
//! what the listing's first line says; what it goes on with stands in cases.rs.

use std::path::Path;
use std::{fs, io};

use crate::generate::{Case, Loops};
use crate::terms::{Drawing, Lent, Settings};
use crate::{cases, file, patched};

/// A file and its listing.
pub struct Entry {
    pub name: String,
    pub bytes: Vec<u8>,
    pub listing: String,
}

/// Every entry, in the order of the list.
pub fn entries() -> Vec<Entry> {
    let mut list = List::default();
    cases::all(&mut list);
    list.entries
}

/// Writes the list into a folder that isn't there yet.
pub fn write(folder: &Path) -> io::Result<usize> {
    fs::create_dir(folder)?;
    let entries = entries();
    let mut names = String::new();
    for Entry { name, bytes, listing } in &entries {
        fs::write(folder.join(format!("{name}.outline")), bytes)?;
        fs::write(folder.join(format!("{name}.listing")), listing)?;
        names += &format!("{name}.outline\n{name}.listing\n");
    }
    fs::write(folder.join("list"), names)?;
    Ok(entries.len())
}

/// The listing of a file, as the program prints it.
pub fn listing(bytes: &[u8]) -> String {
    let answer = patched::pave_file(bytes, &Lent::PROGRAM);
    answer.map_or_else(|refusal| refusal.to_string(), |run| run.to_string())
}

/// What the first line of a listing says: `refused` and the number, or the end, and `whole` or `open`.
pub fn verdict(listing: &str) -> String {
    let words: Vec<&str> = listing.lines().next().unwrap_or("").split(' ').collect();
    match words[..] {
        ["mesh", _, _, _, end, whole] => format!("{end} {whole}"),
        _ => words.join(" "),
    }
}

/// The list as it is made.
#[derive(Default)]
pub struct List {
    entries: Vec<Entry>,
}

impl List {
    /// A file of which SCOPE says what the first line says.
    pub fn expect(&mut self, expected: &str, what: &str, bytes: Vec<u8>) {
        let found = verdict(&listing(&bytes));
        assert_eq!(found, expected, "{what}");
        self.add(what, bytes);
    }

    /// A file of which nothing is foretold.
    pub fn add(&mut self, what: &str, bytes: Vec<u8>) {
        let listing = listing(&bytes);
        let name = format!("{} {what}", verdict(&listing)).replace(' ', "-");
        assert!(name.bytes().all(|b| b.is_ascii_lowercase() || b.is_ascii_digit() || b"-.".contains(&b)), "{name}");
        assert!(self.entries.iter().all(|entry| entry.name != name), "{name} stands twice");
        self.entries.push(Entry { name, bytes, listing });
    }

    /// Files of a generated kind, by place, of which the listings are at most `longest` bytes: the first `count`.
    pub fn generated(&mut self, kind: &str, seed: u64, count: usize, longest: usize) {
        let files = (0..).filter_map(|place| Some((place, file_of(&Case::new(kind, seed, place)?)?)));
        let short = files.filter(|(_, bytes)| listing(bytes).len() <= longest);
        for (place, bytes) in short.take(count) {
            self.add(&format!("{kind} {seed} {place}"), bytes);
        }
    }
}

/// A generated case as a file, if it has one.
pub fn file_of(case: &Case) -> Option<Vec<u8>> {
    match case {
        Case::File { bytes } => Some(bytes.clone()),
        Case::Pave { drawing, settings, .. } => file::write(drawing, *settings),
        _ => None,
    }
}

/// An outline with its settings, changed until it is written.
#[derive(Clone)]
pub struct Draft {
    pub loops: Loops,
    pub settings: Settings,
}

impl Draft {
    /// An outer loop at size 1, with 400 sweeps and 600 passes.
    pub fn of(outer: &[[f64; 2]]) -> Draft {
        Draft { loops: vec![outer.to_vec()], settings: Settings { size: 1.0, sweeps: 400, passes: 600 } }
    }

    pub fn hole(mut self, points: &[[f64; 2]]) -> Draft {
        self.loops.push(points.to_vec());
        self
    }

    pub fn size(mut self, size: f64) -> Draft {
        self.settings.size = size;
        self
    }

    pub fn sweeps(mut self, sweeps: u64) -> Draft {
        self.settings.sweeps = sweeps;
        self
    }

    pub fn passes(mut self, passes: u64) -> Draft {
        self.settings.passes = passes;
        self
    }

    /// Every coordinate times a factor.
    pub fn scaled(mut self, factor: f64) -> Draft {
        self.loops.iter_mut().flatten().flatten().for_each(|x| *x *= factor);
        self
    }

    /// One coordinate set: of a loop, a point and an axis.
    pub fn with(mut self, [k, i, axis]: [usize; 3], x: f64) -> Draft {
        self.loops[k][i][axis] = x;
        self
    }

    /// The nodes of the sampled outline.
    pub fn sampled(&self) -> usize {
        let drawing = Drawing::of_loops(&self.loops);
        let room = Lent { field_nodes: 0, nodes: 100_000, quads: 0, edges: 100_000 };
        patched::front(drawing.outline(), self.settings.size, &room).expect("an outline in good order").nodes.len()
    }

    pub fn file(&self) -> Vec<u8> {
        file::write(&Drawing::of_loops(&self.loops), self.settings).expect("at most 8 loops, 248 points and 65,535")
    }
}
