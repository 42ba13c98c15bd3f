//! Questions line by line, answers line by line (the formats are in oracle/README.md). A child of each build.

use std::io::{self, BufRead, Write};

use super::driver::{front, pave, pave_file, Field, Region};
use crate::terms::{hex, Drawing, FieldRecord, Lent, Refusal, Run, Settings};

/// What the lines so far have set.
struct Setting {
    drawing: Drawing,
    region: Result<Region, Refusal>,
    settings: Settings,
    lent: Lent,
    field: Result<Field, Refusal>,
}

/// Answers every line of the input; with `echo`, each answer follows its question. A line that isn't one is an error.
pub fn run(input: impl BufRead, mut output: impl Write, echo: bool) -> io::Result<()> {
    let drawing = Drawing::default();
    let mut setting = Setting {
        region: Region::new(drawing.outline()),
        drawing,
        settings: Settings { size: 1.0, sweeps: 400, passes: 600 },
        lent: Lent::PROGRAM,
        field: Err(Refusal(11)),
    };
    for (number, line) in input.lines().enumerate() {
        let line = line?;
        if echo {
            writeln!(output, "{line}")?;
        }
        let answer = setting
            .answer(&line)
            .ok_or_else(|| io::Error::other(format!("line {}: not a question: {line}", number + 1)))?;
        output.write_all(answer.as_bytes())?;
    }
    output.flush()
}

impl Setting {
    /// The answer to a line, empty where it only sets something; none if the line isn't well formed.
    fn answer(&mut self, line: &str) -> Option<String> {
        let (word, rest) = line.split_once(' ').unwrap_or((line, ""));
        match word {
            "" | "#" => {}
            "outline" => {
                self.drawing = drawing(rest)?;
                self.region = Region::new(self.drawing.outline());
            }
            "settings" => self.settings = settings(rest)?,
            "lent" => {
                let [field_nodes, nodes, quads, edges] = exactly(counts(rest)?)?;
                self.lent = Lent { field_nodes, nodes, quads, edges };
            }
            "record" => self.field = record(rest)?,
            "pave" => return Some(listing(pave(self.drawing.outline(), self.settings, &self.lent))),
            "front" => return Some(listing(front(self.drawing.outline(), self.settings.size, &self.lent))),
            "file" => return Some(listing(pave_file(&bytes(rest)?, &self.lent))),
            "field" => {
                let Settings { size, sweeps, .. } = self.settings;
                self.field = Field::new(self.drawing.outline(), size, sweeps, self.lent.field_nodes);
                return Some(field_listing(&self.field));
            }
            _ => return self.query(word, rest),
        }
        Some(String::new())
    }

    /// The answer to a query at a point.
    fn query(&self, word: &str, rest: &str) -> Option<String> {
        let numbers = floats(rest)?;
        let region = self.region.as_ref().map_err(|&refusal| refusal);
        let answer = match word {
            "contains" => {
                let p = exactly(numbers)?;
                return Some(line(region.and_then(|r| r.contains(p)).map(|inside| u8::from(inside).to_string())));
            }
            "nearest" => {
                let p = exactly(numbers)?;
                region.and_then(|r| r.nearest_segment(p)).map(|(a, b, d)| vec![a[0], a[1], b[0], b[1], d])
            }
            "distance" => {
                let p = exactly(numbers)?;
                region.and_then(|r| r.distance_to_boundary(p)).map(|d| vec![d])
            }
            "direction" => {
                let [x, y, u, v] = exactly(numbers)?;
                let field = self.field.as_ref().map_err(|&refusal| refusal);
                field.and_then(|f| f.direction([x, y], [u, v])).map(|d| d.to_vec())
            }
            _ => return None,
        };
        Some(line(answer.map(|floats| hex(&floats))))
    }
}

fn line(answer: Result<String, Refusal>) -> String {
    answer.map_or_else(|refusal| refusal.to_string(), |text| text + "\n")
}

/// A listing, or the refusal, and a full stop.
fn listing(answer: Result<Run, Refusal>) -> String {
    answer.map_or_else(|refusal| refusal.to_string(), |run| run.to_string()) + ".\n"
}

/// The record, then each node's two values and mark, and a full stop.
fn field_listing(answer: &Result<Field, Refusal>) -> String {
    let field = match answer {
        Err(refusal) => return format!("{refusal}.\n"),
        Ok(field) => field,
    };
    let FieldRecord { xmin, ymin, h, nx, ny } = field.record();
    let mut text = format!("field {} {nx} {ny}\n", hex(&[xmin, ymin, h]));
    for (value, &mark) in field.values().iter().zip(field.marks()) {
        text += &format!("v {} {}\n", hex(value), u8::from(mark));
    }
    text + ".\n"
}

fn floats(text: &str) -> Option<Vec<f64>> {
    let word = |w: &str| if w.len() == 16 { u64::from_str_radix(w, 16).ok().map(f64::from_bits) } else { None };
    text.split_whitespace().map(word).collect()
}

fn counts(text: &str) -> Option<Vec<u64>> {
    text.split_whitespace().map(|word| word.parse().ok()).collect()
}

fn exactly<T, const N: usize>(list: Vec<T>) -> Option<[T; N]> {
    list.try_into().ok()
}

fn bytes(text: &str) -> Option<Vec<u8>> {
    if text.len() % 2 == 1 || !text.is_ascii() {
        return None;
    }
    (0..text.len()).step_by(2).map(|k| u8::from_str_radix(&text[k..k + 2], 16).ok()).collect()
}

/// `OUTER / HOLES / LENGTHS`
fn drawing(text: &str) -> Option<Drawing> {
    let [outer, holes, lengths] = exactly(text.split('/').collect())?;
    let hole_lengths = lengths.split_whitespace().map(|word| word.parse().ok()).collect::<Option<_>>()?;
    Some(Drawing { outer: floats(outer)?, holes: floats(holes)?, hole_lengths })
}

/// `SIZE SWEEPS PASSES`
fn settings(text: &str) -> Option<Settings> {
    let (size, rest) = text.split_once(' ')?;
    let [size] = exactly(floats(size)?)?;
    let [sweeps, passes] = exactly(counts(rest)?)?;
    Some(Settings { size, sweeps, passes })
}

/// `XMIN YMIN H NX NY / VALUES / MARKS`, where the marks are one word of 0 and 1
fn record(text: &str) -> Option<Result<Field, Refusal>> {
    let [head, values, marks] = exactly(text.split('/').collect())?;
    let words: Vec<&str> = head.split_whitespace().collect();
    let (measures, sides) = words.split_at_checked(3)?;
    let [xmin, ymin, h] = exactly(floats(&measures.join(" "))?)?;
    let [nx, ny] = exactly(counts(&sides.join(" "))?)?;
    let mark = |c: char| c.to_digit(2).map(|digit| digit == 1);
    let marks: Vec<bool> = marks.trim().chars().map(mark).collect::<Option<_>>()?;
    Some(Field::lent(FieldRecord { xmin, ymin, h, nx, ny }, &floats(values)?, &marks))
}
