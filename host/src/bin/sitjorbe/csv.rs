//! The points of a field as people have them. What is read is the proved library's; here are the words for it, and the writer.

use std::collections::HashMap;

use sitjorbe::{read_points, text_fault, FaultKind, ReadPoints, TextFault};

/// A point of a loop, and the line that it was read from.
#[derive(Clone, Copy, Debug, PartialEq)]
pub struct Point {
    pub x: f64,
    pub y: f64,
    pub line: usize,
}

/// A field as it was read: the loops, the outer one first, a name for each, and what the operator should know of how it was read.
#[derive(Clone, Debug, Default, PartialEq)]
pub struct Field {
    pub loops: Vec<Vec<Point>>,
    pub names: Vec<String>,
    pub notes: Vec<String>,
}

/// Longer names aren't taken from comments.
const LONGEST_NAME: usize = 40;
/// As much of a line is shown where it can't be read.
const LONGEST_SHOWN: usize = 60;
/// So many faults are said.
const MOST_SAID: usize = 20;

/// The field that a text says, or the first lines that can't be read, in words.
pub fn parse(text: &str) -> Result<Field, Vec<String>> {
    // What is told of it counts behind a byte order mark.
    let told = text.strip_prefix('\u{feff}').unwrap_or(text);
    match read_points(text.as_bytes()) {
        Ok(read) => Ok(Field { loops: loops(&read), names: names(named(told, &read)), notes: notes(told, &read) }),
        Err(first) => {
            let faults = (0..first.faults.min(MOST_SAID)).filter_map(|which| text_fault(text.as_bytes(), which));
            Err(said(told, first.faults, faults))
        }
    }
}

/// A field as a text that is read back bit by bit. Names are comments before their loops; a loop without points isn't written.
pub fn write(field: &Field) -> String {
    let mut loops = vec![];
    for (name, points) in field.names.iter().zip(&field.loops) {
        let row = |point: &Point| format!("{:?},{:?}\n", point.x, point.y);
        let plain: String = name.chars().map(|c| if c.is_control() { ' ' } else { c }).collect();
        let mut text = if plain.trim().is_empty() { String::new() } else { format!("# {}\n", plain.trim()) };
        text.extend(points.iter().map(row));
        // A reader leaves out a last point that repeats the first: where this one does, another is written for that.
        if let [first, .., last] = points[..] {
            text += &if (first.x, first.y) == (last.x, last.y) { row(&first) } else { String::new() };
        }
        loops.extend((!points.is_empty()).then_some(text));
    }
    loops.join("\n")
}

// ---- what was read

fn loops(read: &ReadPoints) -> Vec<Vec<Point>> {
    let places = read.coordinates.chunks_exact(2).zip(&read.lines);
    let mut points = places.map(|(place, &line)| Point { x: place[0], y: place[1], line });
    read.loop_lengths.iter().map(|&length| points.by_ref().take(length).collect()).collect()
}

fn named(text: &str, read: &ReadPoints) -> Vec<Option<String>> {
    read.comments.iter().map(|comment| text.get(comment.clone()).and_then(name_in)).collect()
}

fn notes(text: &str, read: &ReadPoints) -> Vec<String> {
    let separator = char::from(read.separator);
    let heading = |line| format!("line {line}: taken for a heading: {}", shown(&row(text, line, separator), separator));
    let mut notes: Vec<String> = read.heading.into_iter().map(heading).collect();
    let mut point = 0;
    for (&length, left_out) in read.loop_lengths.iter().zip(&read.left_out) {
        if let Some(last) = left_out {
            let first = read.lines[point];
            notes.push(format!(
                "line {last}: it repeats the point of line {first}, so it is left out: a loop closes by itself"
            ));
        }
        point += length;
    }
    notes
}

// ---- what is wrong

fn said(text: &str, faults: usize, first: impl Iterator<Item = TextFault>) -> Vec<String> {
    let mut said: Vec<String> = first.map(|fault| in_words(text, &fault)).collect();
    if faults > MOST_SAID {
        said.push(format!("{} more lines can't be read", faults - MOST_SAID));
    }
    said
}

const IN_A_LOOP: &str =
    "put a blank line before it if a new loop begins there, or take the comment out if the loop goes on";

fn in_words(text: &str, fault: &TextFault) -> String {
    if fault.kind == FaultKind::TooLong {
        return "it is larger than 256 MiB, which no field is".to_string();
    }
    let separator = char::from(fault.separator);
    let words = row(text, fault.line, separator);
    let word = |place: usize| words.get(place..place + 1).map_or(String::new(), |word| shown(word, separator));
    let what = match fault.kind {
        FaultKind::NoX => "x is missing".to_string(),
        FaultKind::NoY => "y is missing".to_string(),
        FaultKind::BadX => format!("x isn't a number: {}", word(0)),
        FaultKind::BadY => format!("y isn't a number: {}", word(1)),
        FaultKind::Comment => format!("a comment between two points: {IN_A_LOOP}"),
        _ => not_two(&words, separator),
    };
    let column =
        line_of(text, fault.line).get(..fault.column - 1).map_or(fault.column, |before| before.chars().count() + 1);
    let hint = if fault.leads { "; if it is a heading, put # before it" } else { "" };
    format!("line {}, column {column}: {what}{hint}", fault.line)
}

fn not_two(words: &[&str], separator: char) -> String {
    let count = if words.len() == 1 { "one value".to_string() } else { format!("{} values", words.len()) };
    let between = match separator {
        ';' => "semicolon",
        '\t' => "tab",
        _ => "comma",
    };
    let decimals = words.len() == 4 && separator == ',';
    let hint = if decimals { "; if the decimals have commas, put ; between x and y" } else { "" };
    format!("{count}, where x and y are wanted with a {between} between: {}{hint}", shown(words, separator))
}

// ---- lines as they are shown

/// The line with this number, from 1.
fn line_of(text: &str, line: usize) -> &str {
    let lines = text.split('\n').flat_map(|fed| fed.strip_suffix('\r').unwrap_or(fed).split('\r'));
    { lines }.nth(line - 1).unwrap_or("")
}

/// The words of a row; empty ones after the second are columns that a table has and a point hasn't.
fn row(text: &str, line: usize, separator: char) -> Vec<&str> {
    let told = line_of(text, line).split('#').next().unwrap_or("");
    let mut words: Vec<&str> = told.split(separator).map(|word| word.trim_matches([' ', '\t', '"'])).collect();
    while words.len() > 2 && words.last().is_some_and(|word| word.is_empty()) {
        words.pop();
    }
    words
}

/// A row as it is shown on a terminal: no more than fits, and nothing that a terminal would obey.
fn shown(words: &[&str], separator: char) -> String {
    let row = words.join(&if separator == '\t' { ' ' } else { separator }.to_string());
    let mut plain: String = row.chars().take(LONGEST_SHOWN).map(|c| if c.is_control() { '?' } else { c }).collect();
    if row.chars().count() > LONGEST_SHOWN {
        plain += "..";
    }
    plain
}

// ---- names

/// The name in a comment: its first clause without an article, where that is short.
fn name_in(comment: &str) -> Option<String> {
    let told = comment.trim_start_matches('#');
    let mut clause = told.split([',', ':', ';', '(']).next().unwrap_or("");
    clause = clause.split(". ").next().unwrap_or("");
    let plain = |c: char| if c.is_control() { ' ' } else { c };
    let spaced: String = clause.chars().map(plain).collect();
    let mut words: Vec<&str> = spaced.split([' ', '"']).filter(|word| !word.is_empty()).collect();
    if words.len() > 1 && ["the", "a", "an", "its"].iter().any(|article| words[0].eq_ignore_ascii_case(article)) {
        words.remove(0);
    }
    let name = words.join(" ");
    let name = name.trim_end_matches('.');
    (!name.is_empty() && name.chars().count() <= LONGEST_NAME).then(|| name.to_string())
}

/// A name for each loop; those that would be alike are numbered.
pub fn names(named: Vec<Option<String>>) -> Vec<String> {
    let usual =
        |(k, name): (usize, Option<String>)| name.unwrap_or(if k == 0 { "outline" } else { "blind spot" }.to_string());
    let names: Vec<String> = named.into_iter().enumerate().map(usual).collect();
    let mut counts: HashMap<&str, [usize; 2]> = HashMap::new();
    for name in &names {
        counts.entry(name).or_default()[0] += 1;
    }
    let mut numbered = |name: &String| match counts.get_mut(name.as_str()) {
        Some([count, place]) if *count > 1 => {
            *place += 1;
            format!("{name} {place}")
        }
        _ => name.clone(),
    };
    names.iter().map(&mut numbered).collect()
}
