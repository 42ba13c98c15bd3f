//! The words of a call, taken apart.

use crate::files::Failure;

/// An option of a command: its name, and whether a value follows it.
pub type Known = (&'static str, bool);

/// The options whose value may be left out. A number after the first is its own; that of the second stands behind an equals sign.
const MAYBE: [&str; 2] = ["--thin", "--close"];
/// The options that may stand more than once.
const MANY: [&str; 2] = ["-o", "--output"];

/// The words of a call: files, and options with their values in the order in which they stand.
#[derive(Debug, Default)]
pub struct Args {
    pub files: Vec<String>,
    options: Vec<(&'static str, String)>,
}

impl Args {
    /// Takes words apart by the options that a command knows. `--` ends them, and `-` is a file.
    pub fn parse(words: &[String], known: &[Known]) -> Result<Args, Failure> {
        let mut args = Args::default();
        let mut rest = words.iter();
        while let Some(word) = rest.next() {
            if word == "--" {
                args.files.extend(rest.cloned());
                break;
            }
            if word == "-" || !word.starts_with('-') || is_number_like(word) {
                args.files.push(word.clone());
                continue;
            }
            let (name, mut value) = match word.split_once('=') {
                Some((name, value)) if name.starts_with("--") => (name, Some(value.to_string())),
                _ => (word.as_str(), None),
            };
            let Some((name, takes)) = known.iter().find(|(other, _)| *other == name) else {
                return Err(Failure::Cant(format!("there is no option {name}; --help names them")));
            };
            match (takes, &value) {
                (true, None) => value = following(name, &mut rest)?,
                (false, Some(_)) => return Err(Failure::Cant(format!("{name} takes no value"))),
                _ => {}
            }
            if !MANY.contains(name) && args.has(name) {
                return Err(Failure::Cant(format!("{name} is given twice")));
            }
            args.options.push((name, value.unwrap_or_default()));
        }
        Ok(args)
    }

    pub fn has(&self, name: &str) -> bool {
        self.options.iter().any(|(other, _)| *other == name)
    }

    /// An option's value.
    pub fn value<'a>(&'a self, name: &'a str) -> Option<&'a str> {
        self.values(name).last()
    }

    /// Every value of an option.
    pub fn values<'a>(&'a self, name: &'a str) -> impl Iterator<Item = &'a str> {
        self.options.iter().filter(move |(other, _)| *other == name).map(|(_, value)| value.as_str())
    }

    /// An option's value as a number, if it is given.
    pub fn number<T: std::str::FromStr>(&self, name: &str) -> Result<Option<T>, Failure> {
        let read = |word: &str| word.parse().map_err(|_| Failure::Cant(format!("{name} wants a number: {word}")));
        self.value(name).map(read).transpose()
    }

    /// An option's value as a whole number, if it is given; `from_to` says which are taken. What is beyond these is refused by whoever is asked.
    pub fn count(&self, name: &str, from_to: &str) -> Result<Option<usize>, Failure> {
        let wanted = |word: &str| Failure::Cant(format!("{name} wants a whole number from {from_to}: {word}"));
        self.value(name).map(|word| word.parse().map_err(|_| wanted(word))).transpose()
    }
}

/// Whether a word is coordinates rather than an option: `-3,4` or `-.5,0`.
fn is_number_like(word: &str) -> bool {
    word[1..].starts_with(|c: char| c.is_ascii_digit() || c == '.')
}

/// The word after an option that takes one.
fn following(name: &str, rest: &mut std::slice::Iter<'_, String>) -> Result<Option<String>, Failure> {
    let may_lack = MAYBE.contains(&name);
    match rest.as_slice().first() {
        Some(word) if !may_lack || (name == MAYBE[0] && word.parse::<f64>().is_ok()) => Ok(rest.next().cloned()),
        _ if may_lack => Ok(None),
        _ => Err(Failure::Cant(format!("{name} wants a value"))),
    }
}
