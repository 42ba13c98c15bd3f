//! `sitjorbe nearest` and `sitjorbe contains`: a place and an outline, by the library's queries.

use sitjorbe::raw::{contains, nearest_segment, Outline};
use sitjorbe::Refusal;

use crate::args::{Args, Known};
use crate::csv::Field;
use crate::files::{self, named, Failure};
use crate::naming::Naming;
use crate::pave::read_field;
use crate::refused;
use crate::run::Drawing;
use crate::words::short;
use crate::{Status, DONE};

const NEAREST: &str = "\
sitjorbe nearest FIELD.csv X,Y ..: says which edge of a field's outline is nearest to a place, how far it is, and what the place is in

The edge is named by its loop and its place there, both counted from 0, and by the lines of its ends. Of equally near edges the first counts.
X and Y are degrees, x to the right and y up. - is standard input.
The exit status is 0 if all went well, 1 if something is refused, 2 if something can't be read.
";

const CONTAINS: &str = "\
sitjorbe contains FIELD.csv X,Y ..: says of places whether they are in the field, in a blind spot of it, or outside its outline

X and Y are degrees, x to the right and y up. On the outline itself some places count as inside and some don't. - is standard input.
The exit status is 0 if all went well, 1 if something is refused, 2 if something can't be read.
";

const OPTIONS: [Known; 2] = [("--help", false), ("-h", false)];

/// `sitjorbe nearest`.
pub fn nearest(words: &[String]) -> Result<Status, Failure> {
    each(words, NEAREST, |field, drawing, at| {
        let found = nearest_segment(&drawing.outline(), at)?;
        let spot = [found.loop_index, found.segment_index];
        Ok(format!(
            "{}: edge {},{} of {}, {}, is {}° away; the place is {}",
            point(at),
            spot[0],
            spot[1],
            field.names[spot[0]],
            Naming::Line.segment(field, spot),
            short(found.distance),
            where_in_words(field, drawing, at)?
        ))
    })
}

/// `sitjorbe contains`.
pub fn contain(words: &[String]) -> Result<Status, Failure> {
    each(words, CONTAINS, |field, drawing, at| Ok(format!("{}: {}", point(at), where_in_words(field, drawing, at)?)))
}

type Answer = fn(&Field, &Drawing, [f64; 2]) -> Result<String, Refusal>;

/// A line for each place that a call names.
fn each(words: &[String], help: &str, answer: Answer) -> Result<Status, Failure> {
    let args = Args::parse(words, &OPTIONS)?;
    if args.has("--help") || args.has("-h") {
        return files::print(help).map(|()| DONE);
    }
    let [file, places @ ..] = &args.files[..] else {
        return Err(Failure::Cant("a field and a place are wanted; --help says how".to_string()));
    };
    let places: Vec<[f64; 2]> = places.iter().map(|word| place(word)).collect::<Result<_, _>>()?;
    if places.is_empty() {
        return Err(Failure::Cant("no place is given: X,Y in degrees".to_string()));
    }
    let of_file = |failure: Failure| failure.of(named(file));
    let field = read_field(file).map_err(of_file)?;
    refused::check(&field, None).map_err(of_file)?;
    let drawing = Drawing::of(&field);
    for at in places {
        let said =
            answer(&field, &drawing, at).map_err(|refusal| Failure::Refused(format!("{}: {refusal}", point(at))))?;
        files::print(&(said + "\n"))?;
    }
    Ok(DONE)
}

/// The place that a word names.
fn place(word: &str) -> Result<[f64; 2], Failure> {
    let numbers: Option<Vec<f64>> = word.split(',').map(|part| part.trim().parse().ok()).collect();
    let place = numbers.and_then(|numbers| numbers.try_into().ok());
    place.ok_or_else(|| Failure::Cant(format!("a place is X,Y, two numbers in degrees: {word}")))
}

fn point(at: [f64; 2]) -> String {
    at.map(short).join(",")
}

/// Where a place is, as the library's test has it: outline and holes first, then each hole as an outline of its own.
pub fn where_in_words(field: &Field, drawing: &Drawing, at: [f64; 2]) -> Result<String, Refusal> {
    if contains(&drawing.outline(), at)? {
        return Ok("in the field".to_string());
    }
    for (points, name) in field.loops.iter().zip(&field.names).skip(1) {
        let flat: Vec<f64> = points.iter().flat_map(|point| [point.x, point.y]).collect();
        if contains(&Outline { outer: &flat, holes: &[], hole_lengths: &[] }, at)? {
            return Ok(format!("in “{name}”"));
        }
    }
    Ok("outside the outline".to_string())
}
