//! What commands write of a mesh, and how it is to look: the options that they share.

use std::collections::HashMap;
use std::fs;
use std::path::{Path, PathBuf};

use sitjorbe::closing::Way;

use crate::args::{Args, Known};
use crate::closed;
use crate::csv::Field;
use crate::figures::Figures;
use crate::files::{self, named, Failure};
use crate::formats::Format;
use crate::hill;
use crate::identity;
use crate::order;
use crate::run::Paved;
use crate::svg::{Eye, Look};

/// The options, for a command's own list.
pub const OPTIONS: [Known; 10] = [
    ("--close", true),
    ("-o", true),
    ("--output", true),
    ("--as", true),
    ("--eye", true),
    ("--title", true),
    ("--date", true),
    ("--numbers", false),
    ("--thresholds", true),
    ("--edge", true),
];

/// The lines of a command's help on them.
pub const HELP: &str = "\
    --close              close what the paving leaves open, which may move nodes in three rings of quads next to it; --close=keep
                         moves none
    -o, --output FILE    write FILE, as often as you like; its ending says what: .svg a picture, .vtk for ParaView, .msh for Gmsh,
                         .json all there is, .csv a row a node with its threshold, .quads.csv a row a quad, .steps.csv the bowl's
                         steps, .html a report of one page. {} in FILE stands for the field's name
    --as ENDING          what -o - writes to standard output (default: svg)
    --eye right|left     which eye it is: names the sides in the picture
    --title WORDS        words above the picture (default: the field's name)
    --date WORDS         the date below it (default: today's; none for none)
    --numbers            write each node's number beside it, where its decibels would stand
    --thresholds FILE    shade the picture by estimates between thresholds, from a file of them: -o FILE.csv writes one to fill in
    --edge LOOP,SEGMENT  light up an edge of the outline; both count from 0
";

/// What a call asks to be written.
pub struct Outputs {
    /// How what is left open is closed, if it is.
    close: Option<Way>,
    targets: Vec<(String, Format)>,
    eye: Option<Eye>,
    title: Option<String>,
    date: Option<String>,
    numbers: bool,
    /// A file's name and text.
    thresholds: Option<(String, String)>,
    edge: Option<[usize; 2]>,
}

impl Outputs {
    /// What a call asks for; `fields` are the files that it reads.
    pub fn of(args: &Args, fields: &[String]) -> Result<Outputs, Failure> {
        let eye = match args.value("--eye") {
            Some(word) => Some(Eye::of_name(word).ok_or(Failure::Cant(format!("--eye is right or left, not {word}")))?),
            None => None,
        };
        let date = match args.value("--date") {
            None => Some(identity::today()),
            Some("none") => None,
            Some(words) => Some(words.to_string()),
        };
        let read = |name: &str| files::read_text(name).map(|text| (named(name).to_string(), text));
        let outputs = Outputs {
            close: args.value("--close").map(closed::way).transpose()?,
            targets: targets(args)?,
            eye,
            title: args.value("--title").map(str::to_string),
            date,
            numbers: args.has("--numbers"),
            thresholds: args.value("--thresholds").map(read).transpose()?,
            edge: args.value("--edge").map(edge).transpose()?,
        };
        if fields.iter().filter(|file| *file == "-").count() > 1 {
            return Err(Failure::Cant("standard input can't be read twice".to_string()));
        }
        outputs.check_targets(fields).map(|()| outputs)
    }

    /// Nothing is written twice, nor over a file that is read.
    fn check_targets(&self, fields: &[String]) -> Result<(), Failure> {
        let same = |path: &str| fs::canonicalize(path).unwrap_or_else(|_| path.into());
        let read = fields.iter().filter(|field| *field != "-").map(String::as_str);
        let read = read.chain(self.thresholds.iter().map(|(name, _)| name.as_str()));
        let mut taken: HashMap<PathBuf, String> = read.map(|file| (same(file), file.to_string())).collect();
        for field in fields {
            for target in self.targets.iter().map(|(output, _)| target(output, field)) {
                if let Some(other) = taken.insert(same(&target), field.clone()) {
                    let hint = if fields.len() > 1 { ": with {} in its name each field has its own" } else { "" };
                    return Err(Failure::Cant(format!("{target} would be written over: {other}{hint}")));
                }
            }
        }
        Ok(())
    }

    /// A paving with what it leaves open closed, if that is asked for and can be.
    pub fn closed(&self, field: &Field, paved: Paved, stage: &dyn Fn(&str)) -> Paved {
        match self.close {
            Some(way) => closed::close(field, paved, way, stage),
            None => paved,
        }
    }

    pub fn has_thresholds(&self) -> bool {
        self.thresholds.is_some()
    }

    pub fn eye(&self) -> Option<Eye> {
        self.eye
    }

    /// How the mesh of a file is to look. What the mesh brings along stands where the call says nothing else.
    pub fn look(&self, file: &str, field: &Field, paved: &Paved, brought: Brought) -> Result<Look, Failure> {
        let hill = match (&self.thresholds, &brought.thresholds) {
            (Some((name, text)), _) => Some(hill::of(paved, text, name)?),
            (None, Some(known)) => {
                Some(hill::from(paved, known).map_err(|refusal| Failure::Refused(refusal.to_string()))?)
            }
            (None, None) => None,
        };
        if let Some(edge) = self.edge {
            check_edge(field, edge)?;
        }
        if let Some(order) = &brought.order {
            order::check(paved, order)?;
        }
        let title = self.title.clone().or(brought.title).unwrap_or_else(|| stem(file));
        let (eye, date, order) = (self.eye.or(brought.eye), self.date.clone(), brought.order);
        Ok(Look { title, eye, numbers: self.numbers, hill, date, edge: self.edge, order, ..Look::default() })
    }

    /// Writes all that is asked for of a file's mesh.
    pub fn write(
        &self,
        file: &str,
        (field, paved): (&Field, &Paved),
        figures: &Figures,
        look: &Look,
        stage: &dyn Fn(&str),
    ) -> Result<(), Failure> {
        for (output, format) in &self.targets {
            stage(&format!("writing {output}"));
            files::write(&target(output, file), &format.text(field, paved, figures, look)?)?;
        }
        Ok(())
    }

    /// Says words where they go: beside a mesh that goes to standard output, on standard error.
    pub fn say(&self, words: &str) -> Result<(), Failure> {
        if self.targets.iter().any(|(output, _)| output == "-") {
            files::say(words);
            return Ok(());
        }
        files::print(&(words.to_string() + "\n"))
    }
}

/// What a mesh's own file says of how it looks.
#[derive(Debug, Default)]
pub struct Brought {
    pub title: Option<String>,
    pub eye: Option<Eye>,
    /// A threshold a node.
    pub thresholds: Option<Vec<Option<u32>>>,
    /// The order in which the quads are to be tested.
    pub order: Option<Vec<u32>>,
}

/// The edge that LOOP,SEGMENT names.
fn edge(words: &str) -> Result<[usize; 2], Failure> {
    let numbers: Option<Vec<usize>> = words.split(',').map(|word| word.parse().ok()).collect();
    numbers
        .and_then(|numbers| numbers.try_into().ok())
        .ok_or_else(|| Failure::Cant(format!("an edge is LOOP,SEGMENT, two whole numbers that count from 0: {words}")))
}

fn check_edge(field: &Field, [k, place]: [usize; 2]) -> Result<(), Failure> {
    let Some(points) = field.loops.get(k) else {
        let loops = crate::words::counted(field.loops.len(), "loop");
        return Err(Failure::Cant(format!("there is no loop {k}: the outline has {loops}, counted from 0")));
    };
    if place >= points.len() {
        let segments = crate::words::counted(points.len(), "segment");
        return Err(Failure::Cant(format!("loop {k} has no segment {place}: it has {segments}, counted from 0")));
    }
    Ok(())
}

/// A file's name without its folder and ending.
fn stem(file: &str) -> String {
    match file {
        "-" => "field".to_string(),
        _ => Path::new(file).file_stem().map_or(file.to_string(), |stem| stem.to_string_lossy().into_owned()),
    }
}

/// Where a field's output goes.
fn target(output: &str, file: &str) -> String {
    output.replace("{}", &stem(file))
}

/// The outputs asked for, each with its format.
fn targets(args: &Args) -> Result<Vec<(String, Format)>, Failure> {
    let wanted = args.value("--as").unwrap_or("svg");
    let format = |name: &str| {
        let ending = if name == "-" { format!(".{wanted}") } else { name.to_string() };
        let known = "it ends in none of .svg, .vtk, .msh, .json, .csv, .quads.csv, .steps.csv and .html";
        Format::of_name(&ending)
            .map(|format| (name.to_string(), format))
            .ok_or(Failure::Cant(format!("{ending}: {known}")))
    };
    args.values("-o").chain(args.values("--output")).map(format).collect()
}
