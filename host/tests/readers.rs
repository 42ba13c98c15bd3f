//! The library's reader of points held against the one that the command had before: on texts as people have them, on damaged ones and made-up ones, and on every short
//! text. What is read, named, noted and refused is compared word by word; a column, which the former reader doesn't say, is left out.

#[path = "../src/bin/sitjorbe/csv.rs"]
#[allow(dead_code)]
mod csv;
#[path = "former/reader.rs"]
#[allow(dead_code)]
mod former;

mod common;

use std::path::Path;

use common::rng::Rng;

/// What a text is read as, in a form that both readers are put into: coordinates by their bits.
macro_rules! told {
    ($read:expr) => {
        match $read {
            Err(lines) => {
                format!("wrong\n{}\n", lines.iter().map(|line| without_column(line)).collect::<Vec<_>>().join("\n"))
            }
            Ok(field) => {
                let mut lines = vec!["field".to_string()];
                for (name, points) in field.names.iter().zip(&field.loops) {
                    lines.push(format!("loop {name}"));
                    let bits = |x: f64| if x.is_nan() { "nan".to_string() } else { format!("{:016x}", x.to_bits()) };
                    lines.extend(points.iter().map(|p| format!("{} {} {}", p.line, bits(p.x), bits(p.y))));
                }
                lines.extend(field.notes.iter().map(|note| format!("note {note}")));
                lines.join("\n") + "\n"
            }
        }
    };
}

/// A line with the words `, column N` taken out.
fn without_column(line: &str) -> String {
    match line.split_once(", column ") {
        Some((before, after)) if before.starts_with("line ") => {
            before.to_string() + after.trim_start_matches(|c: char| c.is_ascii_digit())
        }
        _ => line.to_string(),
    }
}

fn told(text: &str) -> String {
    told!(csv::parse(text))
}

/// The same by the former reader, which was given lines with a line feed each, and no byte order mark. The library says 20 faults.
fn told_before(text: &str) -> String {
    let fed = text.strip_prefix('\u{feff}').unwrap_or(text).replace("\r\n", "\n").replace('\r', "\n");
    let mut read = former::parse(&fed);
    if let Err(lines) = &mut read {
        let more = lines.len().saturating_sub(20);
        lines.truncate(20);
        lines.extend((more > 0).then(|| format!("{more} more lines can't be read")));
    }
    told!(read)
}

fn hold_equal(texts: &[String]) {
    for text in texts {
        assert_eq!(told(text), told_before(text), "of {text:?}");
    }
}

/// Texts as people have them, each with a part of what is read.
const KEPT: [(&str, &str); 28] = [
    ("0,0\n1,0\n1,1\n", "field\nloop outline\n1 0"),
    ("x,y\n0,0\n1,0\n1,1", "note line 1: taken for a heading: x,y\n"),
    ("\"x (deg)\";\"y (deg)\"\n-1,5;2\n1;0\n1;1,25\n", "2 bff8000000000000 4000000000000000\n"),
    ("0;0\n1,0;0\n1.0;1\n", "2 3ff0000000000000 0000000000000000\n"),
    ("0,0\n1,0\n1,1\n0,0\n", "note line 4: it repeats the point of line 1, so it is left out: a loop closes by itself\n"),
    ("0,0\n0,0\n", "field\nloop outline\n1 0000000000000000 0000000000000000\nnote line 2"),
    ("0,0\n1,0\n1,1\n-0,0\n", "note line 4: it repeats"),
    ("# A field, drawn by hand\n0,0\n1,0\n1,1\n\n# The blind spot, 5 by 7\n2,2\n", "loop field\n2"),
    ("0,0\n\n# blind spot\n1,1\n\n# Blind spot\n2,2\n\n# blind spot\n3,3\n", "loop blind spot 1\n4"),
    ("0,0\n\n1,1\n\n2,2\n", "loop blind spot 2\n5"),
    ("0,0\n\n# An arcuate scotoma: from the blind spot\n2,2\n", "loop arcuate scotoma\n"),
    ("0,0\n1,0\n# the blind spot\n2,2\n", "wrong\nline 3: a comment between two points: put a blank line before it"),
    ("0,0\n1,0\n# the end\n\n2,2\n", "loop blind spot\n5"),
    ("0,0\n# a note\n", "loop outline\n1"),
    ("# Only words\n\n0,0\n", "loop outline\n3"),
    ("0,0,\n1,0,,\n1,1\n,\n2,2\n", "loop blind spot\n5"),
    ("1,5,2,5\n", "4 values, where x and y are wanted with a comma between: 1,5,2,5; if the decimals have commas, put ; between x and y; if it"),
    ("0;0\n1,0\n", "wrong\nline 2: one value, where x and y are wanted with a semicolon between: 1,0\n"),
    ("1O,2O\n0,0\n", "wrong\nline 1: x isn't a number: 1O; if it is a heading, put # before it\n"),
    ("0,0\nx,y\n", "wrong\nline 2: x isn't a number: x\n"),
    ("0,\n,0\n", "wrong\nline 1: y is missing; if it is a heading, put # before it\nline 2: x is missing\n"),
    ("\u{2212}1,\u{2212}2\n", "1 bff0000000000000 c000000000000000\n"),
    ("0,0\u{1b}[31m\n", "wrong\nline 1: y isn't a number: 0?[31m"),
    ("x\ty\n-12,5\t30\n1.5\t 2\n3\t-4\t\n", "2 c029000000000000 403e000000000000\n3 3ff8000000000000 4000000000000000\n4 "),
    ("1,\t2\n3\t,4\n", "1 3ff0000000000000 4000000000000000\n2 4008000000000000 4010000000000000\n"),
    ("1\t2\n3,4\n", "wrong\nline 2: one value, where x and y are wanted with a tab between: 3,4\n"),
    ("1\t2\n3\t4\t5\n", "wrong\nline 2: 3 values, where x and y are wanted with a tab between: 3 4 5\n"),
    ("", "field\n"),
];

#[test]
fn texts_as_people_have_them() {
    for (text, part) in KEPT {
        assert!(told(text).contains(part), "{text:?} is read as {}", told(text));
    }
    hold_equal(&KEPT.map(|(text, _)| text.to_string()));
}

#[test]
fn the_examples_are_read_alike() {
    let folder = Path::new(env!("CARGO_MANIFEST_DIR")).join("../examples");
    let names = ["right-eye", "left-eye", "24-2", "30-2", "hemianopia", "hand-drawn"];
    let read = |name: &str| std::fs::read_to_string(folder.join(name).with_extension("csv")).expect("an example");
    let texts = names.map(read);
    hold_equal(&texts);
    hold_equal(&texts.map(|text| "\u{feff}".to_string() + &text.replace('\n', "\r\n")));
}

#[test]
fn the_column_is_the_words() {
    let said = |text: &str| csv::parse(text).unwrap_err().join("|");
    assert_eq!(said("0,0\n1, O\n"), "line 2, column 4: y isn't a number: O");
    assert_eq!(said("0,0\n\t\u{e9}t\u{e9} , 1\n"), "line 2, column 2: x isn't a number: \u{e9}t\u{e9}");
    assert_eq!(said("0,0\n\u{e9},\"?\"\n"), "line 2, column 1: x isn't a number: \u{e9}");
    assert_eq!(said("0,0\n1,2\n  # spot\n3,4\n").split(": ").next(), Some("line 3, column 3"));
    assert!(said(&"?\n".repeat(25)).ends_with("|5 more lines can't be read"));
}

#[test]
fn longer_words_are_no_numbers() {
    let most = format!("0.{}1,0\n", "0".repeat(1_097));
    assert_eq!(told(&most), told_before(&most));
    assert!(told(&most.replacen("0.", "0.0", 1)).starts_with("wrong\nline 1: x isn't a number: 0.0"));
}

/// Pieces that lines are put together from.
const PIECES: [&str; 40] = [
    "0",
    "1",
    "-1.5",
    "+2",
    "3.",
    ".5",
    "1e3",
    "1E-3",
    "1e",
    "e1",
    ".",
    "-",
    "1_0",
    "0x1",
    "inf",
    "-Infinity",
    "NaN",
    "1,5",
    "2,25",
    "",
    " ",
    "\t",
    "\"",
    "x",
    "y (deg)",
    "#",
    "# the blind spot",
    "##a. b",
    ",",
    ",",
    ",",
    ";",
    "\u{2212}3",
    "\u{e9}t\u{e9}",
    "\u{a0}",
    "\u{1f}",
    "9999999999999999999",
    "1e999",
    "4.9e-324",
    "0.1000000000000000055511151231257827",
];

/// Made up from the pieces.
fn made_up(rng: &mut Rng) -> String {
    let mut text = String::new();
    for _ in 0..rng.below(9) {
        if rng.below(3) == 0 {
            let words: Vec<&str> = (0..rng.below(6)).map(|_| PIECES[rng.below(PIECES.len())]).collect();
            text += &words.concat();
        } else {
            let separator = if rng.below(6) == 0 { ";" } else { "," };
            text += &[PIECES[rng.below(8)], separator, PIECES[rng.below(8)]].concat();
        }
        text += ["\n\n", "\r\n", "\r", "\n", "\n", "\n"][rng.below(6)];
    }
    text
}

/// A text as people have it, with a few characters dropped, doubled or put in the place of others.
fn damaged(rng: &mut Rng) -> String {
    let mut chars: Vec<char> = KEPT[rng.below(KEPT.len())].0.chars().collect();
    for _ in 0..=rng.below(3) {
        let at = rng.below(chars.len() + 1);
        match (rng.below(3), chars.get(at).copied()) {
            (0, Some(_)) => drop(chars.remove(at)),
            (1, Some(c)) => chars.insert(at, c),
            _ => chars.insert(
                at,
                [',', ';', '#', '\n', '\r', '.', '-', '"', '\t', '7', '\u{2212}', '\u{feff}'][rng.below(12)],
            ),
        }
    }
    chars.into_iter().collect()
}

#[test]
fn made_up_texts_are_read_alike() {
    let mut rng = Rng(30);
    let texts: Vec<String> = (0..60_000).map(|_| made_up(&mut rng)).collect();
    assert!(texts.iter().filter(|text| told(text).starts_with("field\nloop")).count() > 6_000);
    hold_equal(&texts);
}

#[test]
fn damaged_texts_are_read_alike() {
    let mut rng = Rng(31);
    let texts: Vec<String> = (0..40_000).map(|_| damaged(&mut rng)).collect();
    assert!(texts.iter().filter(|text| told(text).starts_with("wrong")).count() > 4_000);
    hold_equal(&texts);
}

const ALPHABET: [char; 12] = ['0', '7', '.', ',', ';', '\t', '-', '#', '\n', '\r', 'e', 'x'];

/// The text with this number, of so many characters.
fn numbered(mut number: usize, length: usize) -> String {
    let mut next = || {
        let c = ALPHABET[number % 12];
        number /= 12;
        c
    };
    (0..length).map(|_| next()).collect()
}

/// Every text of up to 5 characters of the alphabet; of up to 6 where SITJORBE_ALL_TEXTS is set.
#[test]
fn every_short_text_is_read_alike() {
    let longest = if std::env::var_os("SITJORBE_ALL_TEXTS").is_some() { 6 } else { 5 };
    for length in 0..=longest {
        for number in 0..12usize.pow(length) {
            let text = numbered(number, length as usize);
            assert_eq!(told(&text), told_before(&text), "of {text:?}");
        }
    }
}
