//! `sitjorbe pave`: fields paved, their figures said, meshes and pictures written.

use sitjorbe::raw::Settings;

use crate::advice::Advice;
use crate::args::{Args, Known};
use crate::best;
use crate::closed;
use crate::csv::{self, Field};
use crate::figures::{self, Figures};
use crate::files::{self, named, Failure};
use crate::naming::Naming;
use crate::outputs::{self, Brought, Outputs};
use crate::progress::Progress;
use crate::run::{self, Paved};
use crate::thin::Thinned;
use crate::{mesh_json, refused, sound, Status, DONE, REFUSED};

const ABOUT: &str = "\
sitjorbe pave FIELD.csv .. --size DEGREES [OPTIONS]: paves fields, says their figures, writes meshes and pictures

    --size DEGREES       the length wanted of a quad's side, 0.01 to 100
    --best               try sizes around that one, and keep the one that paves the largest share
    --thin [DEGREES]     pave fewer points, about so far apart (default: the size), and say how far the outline moves
    --strict             answer status 1 where an outline isn't sound
";

const MORE: &str = "\
    --sweeps N           sweeps of the field of directions, at most 1,000 (default: 400)
    --passes N           passes of the paving, at most 600 are made (default: 600)
    --json               say the figures as JSON, a line a field

A field is one point a line, x and y in degrees, x to the right and y up from fixation; a blank line ends a loop. The first loop is the
outline, the others are blind spots. - is standard input. What is said goes to standard output, to standard error where -o - is given.
The exit status is 0 if all went well, 1 if something is refused, 2 if something can't be read or written.
";

const OPTIONS: [Known; 9] = [
    ("--size", true),
    ("--best", false),
    ("--thin", true),
    ("--strict", false),
    ("--sweeps", true),
    ("--passes", true),
    ("--json", false),
    ("--help", false),
    ("-h", false),
];

/// A call: what holds for each of its fields.
struct Call {
    settings: Settings,
    best: bool,
    /// The spacing, in degrees, that points are thinned to.
    thin: Option<f64>,
    strict: bool,
    outputs: Outputs,
    json: bool,
}

pub fn command(words: &[String]) -> Result<Status, Failure> {
    let args = Args::parse(words, &[&OPTIONS[..], &outputs::OPTIONS].concat())?;
    if args.has("--help") || args.has("-h") {
        return files::print(&[ABOUT, outputs::HELP, MORE].concat()).map(|()| DONE);
    }
    let call = Call::of(&args)?;
    let mut status = DONE;
    for file in &args.files {
        status = status.max(call.pave(file).unwrap_or_else(|failure| failure.of(named(file)).said()));
    }
    Ok(status)
}

impl Call {
    fn of(args: &Args) -> Result<Call, Failure> {
        let wrong = |words: &str| Err(Failure::Cant(words.to_string()));
        let Some(size) = args.number("--size")? else {
            return wrong("--size is wanted: the length of a quad's side, in degrees");
        };
        if args.files.is_empty() {
            return wrong("no field is named; sitjorbe pave --help says how");
        }
        let call = Call {
            settings: Settings {
                size,
                sweeps: args.count("--sweeps", "0 to 1,000")?.unwrap_or(run::SWEEPS),
                passes: args.count("--passes", "0 to 600")?.unwrap_or(run::MOST_PASSES),
            },
            best: args.has("--best"),
            thin: spacing(args, size)?,
            strict: args.has("--strict"),
            outputs: Outputs::of(args, &args.files)?,
            json: args.has("--json"),
        };
        if call.best && call.outputs.has_thresholds() {
            return wrong(
                "--best tries other sizes, and thresholds belong to the mesh of one: leave one of the two out",
            );
        }
        Ok(call)
    }

    fn pave(&self, file: &str) -> Result<Status, Failure> {
        let progress = Progress::begin(&format!("{}: reading", named(file)));
        let drawn = read_field(file)?;
        let thinned = self.thin.map(|spacing| Thinned::of(&drawn, spacing));
        let field = thinned.as_ref().map_or(&drawn, |thinned| &thinned.field);
        refused::check(field, Some(self.settings.size))?;
        let stage = |words: &str| progress.stage(&format!("{}: {words}", named(file)));
        let (paved, tried) = self.paved(field, &stage)?;
        let paved = self.outputs.closed(field, paved, &stage);
        stage("counting");
        let figures = figures::of(field, &paved);
        let mut look = self.outputs.look(file, field, &paved, Brought::default())?;
        if let Some(thinned) = thinned.as_ref().filter(|thinned| thinned.kept[0] < thinned.kept[1]) {
            (look.drawn, look.notes) = (Some(drawn.clone()), vec![thinned.in_words()]);
        }
        self.outputs.write(file, (field, &paved), &figures, &look, &stage)?;
        drop(progress);
        if let Some(doubt) = self.outputs.eye().and_then(|eye| eye.doubt(field)) {
            files::say(&format!("{}: {doubt}", named(file)));
        }
        let said: Vec<String> = tried.into_iter().chain(thinned.iter().map(Thinned::in_words)).collect();
        self.report(file, field, &paved, &figures, &said)?;
        Ok(if self.strict && !paved.sound { REFUSED } else { DONE })
    }

    fn paved(&self, field: &Field, stage: &dyn Fn(&str)) -> Result<(Paved, Vec<String>), Failure> {
        if self.best {
            return best::pave(field, &self.settings, stage).map_err(|why| refused::failure(field, why));
        }
        stage("paving");
        let paved = run::pave(field, &self.settings).map_err(|why| refused::failure(field, why))?;
        Ok((paved, vec![]))
    }

    fn report(
        &self,
        file: &str,
        field: &Field,
        paved: &Paved,
        figures: &Figures,
        said: &[String],
    ) -> Result<(), Failure> {
        if self.json {
            return self.outputs.say(&mesh_json::report(file, paved, figures).to_string());
        }
        for fault in if paved.sound { vec![] } else { sound::faults(field) } {
            files::say(&format!("{}: unsound: {}", named(file), fault.in_words(field, Naming::Line)));
        }
        let mut lines = vec![format!("{}: {}", named(file), figures::verdict(figures, false))];
        lines.extend(said.iter().cloned());
        lines.extend(figures::stopped(paved));
        lines.extend(closed::sentences(paved));
        lines.extend(figures::sentences(figures, &paved.settings));
        lines.extend(Advice::said(field, paved, figures));
        self.outputs.say(&lines.join("\n  "))
    }
}

/// The spacing that points are to be thinned to, if they are.
fn spacing(args: &Args, size: f64) -> Result<Option<f64>, Failure> {
    match args.value("--thin") {
        None => Ok(None),
        Some("") => Ok(Some(size)),
        Some(_) => match args.number("--thin")? {
            Some(spacing) if spacing > 0.0 && f64::is_finite(spacing) => Ok(Some(spacing)),
            _ => Err(Failure::Cant("--thin wants degrees above 0, or nothing for the size".to_string())),
        },
    }
}

const NODES: &str = "this is a table of a mesh's nodes, not of an outline's points: --thresholds takes it";

/// A field read from a file, with what is to be known of how it was read said.
pub fn read_field(file: &str) -> Result<Field, Failure> {
    let text = files::read_text(file)?;
    let first = text.lines().find(|line| !line.trim().is_empty() && !line.starts_with('#'));
    if first.is_some_and(|line| line.starts_with("node,x,y,")) {
        return Err(Failure::Cant(NODES.to_string()));
    }
    let field = csv::parse(&text).map_err(|lines| Failure::Cant(lines.join("\n")))?;
    for note in &field.notes {
        files::say(&format!("{}: {note}", named(file)));
    }
    Ok(field)
}
