//! The reader of points that the command had before the library's: in plain Rust, kept to hold that against it.

use std::collections::HashMap;

/// A point of a loop, and the line that it was read from.
#[derive(Clone, Copy, Debug, PartialEq)]
pub struct Point {
    pub x: f64,
    pub y: f64,
    pub line: usize,
}

/// A field as it was read: the loops, the outer one first, a name for each, and what the operator should know of how it was read.
#[derive(Clone, Debug, Default, PartialEq)]
pub struct Field {
    pub loops: Vec<Vec<Point>>,
    pub names: Vec<String>,
    pub notes: Vec<String>,
}

/// Longer names aren't taken from comments.
const LONGEST_NAME: usize = 40;
/// As much of a line is shown where it can't be read.
const LONGEST_SHOWN: usize = 60;

/// The field that a text says, or every line that can't be read, in words.
pub fn parse(text: &str) -> Result<Field, Vec<String>> {
    let rows: Vec<(&str, Option<&str>)> = text.split('\n').map(halves).collect();
    let any = |is: &dyn Fn(&str) -> bool| rows.iter().any(|(told, _)| is(told));
    let separator = if any(&|told| told.contains(';')) {
        ';'
    } else if any(&is_tabbed) {
        '\t'
    } else {
        ','
    };
    let mut reader = Reader { between: true, ..Reader::default() };
    for (line, (told, comment)) in (1..).zip(&rows) {
        let words = words_of(told, separator);
        match comment {
            _ if words.iter().any(|word| !word.is_empty()) => reader.row(line, &words, separator),
            Some(comment) => reader.comment(line, comment),
            None => reader.blank(),
        }
    }
    reader.closed()
}

/// Whether a line has words with a tab between, and no comma beside it.
fn is_tabbed(told: &str) -> bool {
    let words: Vec<&str> = trimmed(told).split('\t').map(trimmed).collect();
    words.len() > 1 && !words.iter().any(|word| word.starts_with(',') || word.ends_with(','))
}

/// What a line tells, and the comment after it.
fn halves(line: &str) -> (&str, Option<&str>) {
    line.split_once('#').map_or((line, None), |(told, comment)| (told, Some(comment)))
}

fn trimmed(word: &str) -> &str {
    word.trim_matches([' ', '\t', '"'])
}

/// A row's words; empty ones after the second are columns that a table has and a point hasn't.
fn words_of(told: &str, separator: char) -> Vec<&str> {
    let mut words: Vec<&str> = told.split(separator).map(trimmed).collect();
    while words.len() > 2 && words.last().is_some_and(|word| word.is_empty()) {
        words.pop();
    }
    words
}

#[derive(Default)]
struct Reader {
    loops: Vec<Vec<Point>>,
    named: Vec<Option<String>>,
    notes: Vec<String>,
    wrong: Vec<String>,
    /// Whether the next point begins a loop.
    between: bool,
    /// The first of the comments right before this line.
    pending: Option<(usize, Option<String>)>,
    heading: bool,
}

impl Reader {
    fn blank(&mut self) {
        self.between = true;
        self.pending = None;
    }

    fn comment(&mut self, line: usize, comment: &str) {
        if self.pending.is_none() {
            self.pending = Some((line, name_in(comment)));
        }
    }

    fn row(&mut self, line: usize, words: &[&str], separator: char) {
        let first = self.loops.is_empty() && self.wrong.is_empty() && !self.heading;
        if first && is_heading(words, separator) {
            self.heading = true;
            self.notes.push(format!("line {line}: taken for a heading: {}", shown(words, separator)));
            return;
        }
        let [x, y] = match point_of(words, separator) {
            Ok(point) => point,
            Err(what) => {
                let hint = if first { "; if it is a heading, put # before it" } else { "" };
                self.wrong.push(format!("line {line}: {what}{hint}"));
                return;
            }
        };
        let named = self.pending.take();
        if self.between {
            self.loops.push(vec![]);
            self.named.push(named.and_then(|(_, name)| name));
            self.between = false;
        } else if let Some((comment, _)) = named {
            self.wrong.push(format!("line {comment}: a comment between two points: {IN_A_LOOP}"));
        }
        self.loops.last_mut().expect("a loop was begun").push(Point { x, y, line });
    }

    fn closed(mut self) -> Result<Field, Vec<String>> {
        if !self.wrong.is_empty() {
            return Err(self.wrong);
        }
        for points in &mut self.loops {
            if let [first, .., last] = points[..] {
                if (first.x, first.y) == (last.x, last.y) {
                    points.pop();
                    self.notes
                        .push(format!("line {}: it repeats the point of line {}, {CLOSES}", last.line, first.line));
                }
            }
        }
        Ok(Field { loops: self.loops, names: names(self.named), notes: self.notes })
    }
}

const IN_A_LOOP: &str =
    "put a blank line before it if a new loop begins there, or take the comment out if the loop goes on";
const CLOSES: &str = "so it is left out: a loop closes by itself";

/// Whether a first row is a heading: two words that begin with a letter and aren't numbers.
fn is_heading(words: &[&str], separator: char) -> bool {
    let letter = |word: &&str| word.starts_with(|c: char| c.is_ascii_alphabetic() || !c.is_ascii());
    words.len() == 2 && words.iter().all(|word| letter(word) && number(word, separator).is_none())
}

/// The point of a row, or what is wrong with it.
fn point_of(words: &[&str], separator: char) -> Result<[f64; 2], String> {
    let [x, y] = words else {
        let count = if words.len() == 1 { "one value".to_string() } else { format!("{} values", words.len()) };
        let between = match separator {
            ';' => "semicolon",
            '\t' => "tab",
            _ => "comma",
        };
        let hint = if words.len() == 4 && separator == ',' {
            "; if the decimals have commas, put ; between x and y"
        } else {
            ""
        };
        return Err(format!(
            "{count}, where x and y are wanted with a {between} between: {}{hint}",
            shown(words, separator)
        ));
    };
    let read = |name: &str, word: &str| match number(word, separator) {
        Some(value) => Ok(value),
        None if word.is_empty() => Err(format!("{name} is missing")),
        None => Err(format!("{name} isn't a number: {}", shown(&[word], separator))),
    };
    Ok([read("x", x)?, read("y", y)?])
}

/// The float that a word says; with semicolons or tabs between x and y it may have a decimal comma.
fn number(word: &str, separator: char) -> Option<f64> {
    let mut word = word.replace('\u{2212}', "-");
    if separator != ',' && word.matches(',').count() == 1 && !word.contains('.') {
        word = word.replace(',', ".");
    }
    let bare = word.strip_prefix(['-', '+']).unwrap_or(&word);
    let wordy = ["inf", "infinity", "nan"].iter().any(|other| bare.eq_ignore_ascii_case(other));
    (wordy || is_decimal(bare)).then(|| word.parse().ok()).flatten()
}

/// Whether this is digits with a point among them or none, then perhaps an exponent.
fn is_decimal(bare: &str) -> bool {
    let all_digits = |word: &str| word.bytes().all(|byte| byte.is_ascii_digit());
    let (told, exponent) = bare.split_once(['e', 'E']).map_or((bare, None), |(told, exponent)| (told, Some(exponent)));
    let (whole, part) = told.split_once('.').unwrap_or((told, ""));
    let right = exponent.is_none_or(|word| {
        let digits = word.strip_prefix(['-', '+']).unwrap_or(word);
        !digits.is_empty() && all_digits(digits)
    });
    right && all_digits(whole) && all_digits(part) && !(whole.is_empty() && part.is_empty())
}

/// A row as it is shown on a terminal: no more than fits, and nothing that a terminal would obey.
fn shown(words: &[&str], separator: char) -> String {
    let row = words.join(&if separator == '\t' { ' ' } else { separator }.to_string());
    let mut plain: String = row.chars().take(LONGEST_SHOWN).map(|c| if c.is_control() { '?' } else { c }).collect();
    if row.chars().count() > LONGEST_SHOWN {
        plain += "..";
    }
    plain
}

/// The name in a comment: its first clause without an article, where that is short.
fn name_in(comment: &str) -> Option<String> {
    let told = comment.trim_start_matches('#');
    let mut clause = told.split([',', ':', ';', '(']).next().unwrap_or("");
    clause = clause.split(". ").next().unwrap_or("");
    let plain = |c: char| if c.is_control() { ' ' } else { c };
    let spaced: String = clause.chars().map(plain).collect();
    let mut words: Vec<&str> = spaced.split([' ', '"']).filter(|word| !word.is_empty()).collect();
    if words.len() > 1 && ["the", "a", "an", "its"].iter().any(|article| words[0].eq_ignore_ascii_case(article)) {
        words.remove(0);
    }
    let name = words.join(" ");
    let name = name.trim_end_matches('.');
    (!name.is_empty() && name.chars().count() <= LONGEST_NAME).then(|| name.to_string())
}

/// A name for each loop; those that would be alike are numbered.
pub fn names(named: Vec<Option<String>>) -> Vec<String> {
    let usual =
        |(k, name): (usize, Option<String>)| name.unwrap_or(if k == 0 { "outline" } else { "blind spot" }.to_string());
    let names: Vec<String> = named.into_iter().enumerate().map(usual).collect();
    let mut counts: HashMap<&str, [usize; 2]> = HashMap::new();
    for name in &names {
        counts.entry(name).or_default()[0] += 1;
    }
    let mut numbered = |name: &String| match counts.get_mut(name.as_str()) {
        Some([count, place]) if *count > 1 => {
            *place += 1;
            format!("{name} {place}")
        }
        _ => name.clone(),
    };
    names.iter().map(&mut numbered).collect()
}
