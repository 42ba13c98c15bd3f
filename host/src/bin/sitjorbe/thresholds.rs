//! Files of thresholds: a row a node with its place, so that they are taken for no mesh but their own.
//!
//! A row of column names comes first: `node`, `x`, `y` and `threshold_dB` are read, in any order, and others passed over. Thresholds are decibels with one decimal at
//! most; an empty one is none. Commas, semicolons or tabs stand between the columns; with the last two decimals may have commas. A comment `# mesh DIGEST` names the mesh.

use std::collections::HashMap;

use sitjorbe::{Exam, MOST_THRESHOLD};

use crate::files::Failure;
use crate::identity;
use crate::run::Paved;
use crate::words::short;

/// The columns that are read.
const COLUMNS: [&str; 4] = ["node", "x", "y", "threshold_db"];
/// A node may be so far, in degrees, from where a file has it: sheets round what they write.
const NEAR: f64 = 0.001;
const HOW: &str = "sitjorbe pave -o FILE.csv writes one to fill in";

/// What a file has, line by line.
struct Table<'a> {
    separator: char,
    /// Where each of [`COLUMNS`] stands.
    places: [usize; 4],
    /// The digest in a comment, with its line.
    digest: Option<(usize, &'a str)>,
    /// The rows after the heading, with their lines.
    rows: Vec<(usize, Vec<&'a str>)>,
}

/// A row's words as numbers.
struct Row {
    node: u32,
    at: [f64; 2],
    /// In tenths of a decibel.
    threshold: Option<u32>,
}

/// Enters the thresholds of a file into an exam on a mesh; words with the line where it isn't a file of this mesh's thresholds. A row is refused as the library refuses it.
pub fn enter(text: &str, paved: &Paved, exam: &mut Exam<'_>) -> Result<(), Failure> {
    let table = Table::of(text)?;
    let mut desk = exam.desk();
    let mut lines: HashMap<u32, usize> = HashMap::new();
    for (line, words) in &table.rows {
        let on_line = |failure: Failure| failure.of(&format!("line {line}"));
        let row = table.row(words).map_err(|what| on_line(Failure::Cant(what)))?;
        let node = desk.node(row.node).map_err(|_| on_line(Failure::Refused(no_node(row.node, paved))))?;
        if !near(row.at, [node.x, node.y]) {
            return Err(on_line(Failure::Refused(elsewhere(&row, [node.x, node.y], &table, paved))));
        }
        if let Some(before) = lines.insert(row.node, *line) {
            return Err(on_line(Failure::Cant(format!("node {} stands at line {before} already", row.node))));
        }
        if let Some(tenths) = row.threshold {
            desk.enter(row.node, tenths).map_err(|refusal| on_line(Failure::Refused(refusal.to_string())))?;
        }
    }
    table.check_digest(paved)
}

/// The library's refusal of a node, in an operator's words.
fn no_node(node: u32, paved: &Paved) -> String {
    format!("refused (15): the mesh has no node {node}: it has {}, counted from 0", paved.nodes.len())
}

fn near(one: [f64; 2], other: [f64; 2]) -> bool {
    one.iter().zip(other).all(|(x, y)| (x - y).abs() <= NEAR)
}

/// What is said of a node that the file has elsewhere.
fn elsewhere(row: &Row, here: [f64; 2], table: &Table<'_>, paved: &Paved) -> String {
    let at = |point: [f64; 2]| point.map(short).join(", ");
    let named = table
        .digest
        .map_or(String::new(), |(_, digest)| format!(", {}, where this is {}", digest, identity::digest(paved)));
    format!(
        "refused: node {} lies at {} there and at {} in this mesh: the thresholds are of another mesh{named}",
        row.node,
        at(row.at),
        at(here)
    )
}

impl<'a> Table<'a> {
    fn of(text: &'a str) -> Result<Table<'a>, Failure> {
        let cant = |line: usize, what: String| Failure::Cant(format!("line {line}: {what}"));
        let (mut digest, mut rows) = (None, (1..).zip(text.lines()));
        let heading = rows.by_ref().find_map(|(line, row)| match row.trim().strip_prefix('#') {
            Some(comment) => {
                digest = digest.or(digest_in(comment).map(|digest| (line, digest)));
                None
            }
            None => (!row.trim().is_empty()).then_some((line, row)),
        });
        let Some((line, heading)) = heading else {
            return Err(Failure::Cant(format!("it has no rows: {HOW}")));
        };
        let separator = ['\t', ';'].into_iter().find(|c| heading.contains(*c)).unwrap_or(',');
        let names: Vec<String> = words_of(heading, separator).iter().map(|name| name.to_ascii_lowercase()).collect();
        let mut places = [0; 4];
        for (place, column) in places.iter_mut().zip(COLUMNS) {
            let found = names.iter().position(|name| name == column);
            *place = found.ok_or_else(|| cant(line, no_column(column)))?;
        }
        let is_row = |(_, row): &(usize, &str)| !row.trim().is_empty() && !row.trim().starts_with('#');
        let rows = rows.filter(is_row).map(|(line, row)| (line, words_of(row, separator))).collect();
        Ok(Table { separator, places, digest, rows })
    }

    fn row(&self, words: &[&str]) -> Result<Row, String> {
        let [node, x, y, threshold] = self.places.map(|place| words.get(place).copied().unwrap_or(""));
        let number = |name: &str, word: &str| {
            let told = if self.separator == ',' { word.to_string() } else { word.replace(',', ".") };
            let value: Option<f64> = told.replace('\u{2212}', "-").parse().ok();
            value.filter(|value| value.is_finite()).ok_or(format!("{name} isn't a number: {}", plain(word)))
        };
        let node = node.parse().map_err(|_| format!("node isn't a whole number: {}", plain(node)))?;
        let at = [number("x", x)?, number("y", y)?];
        let threshold = match threshold {
            "" => None,
            word => Some(tenths(number("threshold_dB", word)?).ok_or_else(|| not_decibels(word))?),
        };
        Ok(Row { node, at, threshold })
    }

    /// The rows fit; a mesh with its nodes at the same places, but other quads or last bits, is another.
    fn check_digest(&self, paved: &Paved) -> Result<(), Failure> {
        let here = identity::digest(paved);
        match self.digest {
            Some((line, digest)) if digest != here => Err(Failure::Refused(format!(
                "line {line}: refused: the thresholds are of another mesh, {digest}, where this is {here}"
            ))),
            _ => Ok(()),
        }
    }
}

fn words_of(row: &str, separator: char) -> Vec<&str> {
    row.split(separator).map(|word| word.trim_matches([' ', '\t', '"'])).collect()
}

/// The digest in a comment ` mesh DIGEST, ..`.
fn digest_in(comment: &str) -> Option<&str> {
    let digest = comment.trim().strip_prefix("mesh ")?.split([',', ' ', ';']).next()?;
    (digest.len() == 16 && digest.bytes().all(|byte| byte.is_ascii_hexdigit())).then_some(digest)
}

fn no_column(column: &str) -> String {
    let column = if column == COLUMNS[3] { "threshold_dB" } else { column };
    format!("no column is named {column}; a file of thresholds has node, x, y and threshold_dB: {HOW}")
}

/// Tenths of a decibel, if it is a whole number of them from 0 on.
fn tenths(decibels: f64) -> Option<u32> {
    let tenths = (10.0 * decibels).round();
    (tenths >= 0.0 && tenths <= f64::from(u32::MAX) && (10.0 * decibels - tenths).abs() < 1e-6).then_some(tenths as u32)
}

fn not_decibels(word: &str) -> String {
    let most = MOST_THRESHOLD / 10;
    format!("threshold_dB isn't decibels from 0 to {most} with one decimal at most: {}", plain(word))
}

/// A word as it is shown on a terminal.
fn plain(word: &str) -> String {
    word.chars().take(40).map(|c| if c.is_control() { '?' } else { c }).collect()
}
