//! Refusals with the place that they concern.

use sitjorbe::raw::least_places;
use sitjorbe::Refusal;

use crate::csv::Field;
use crate::files::Failure;
use crate::naming::{Naming, Spot};
use crate::run::{Drawing, NotPaved};
use crate::words::{counted, grouped};

/// Where in a field a refusal comes from.
#[derive(Clone, Copy, Debug, PartialEq, Eq)]
pub enum Place {
    /// All of its points, so many.
    Points(usize),
    Loop(usize),
    Point(Spot),
}

impl Place {
    /// The place, if it can be said.
    pub fn of(field: &Field, refusal: Refusal) -> Option<Place> {
        let point = |wrong: &dyn Fn(f64) -> bool| {
            let in_loop = |k: usize| {
                let place = field.loops[k].iter().position(|point| wrong(point.x) || wrong(point.y));
                place.map(|place| Place::Point([k, place]))
            };
            (0..field.loops.len()).find_map(in_loop)
        };
        match refusal {
            Refusal::Lists => Some(Place::Points(field.loops.iter().map(Vec::len).sum())),
            Refusal::ShortLoop => field.loops.iter().position(|points| points.len() < 3).map(Place::Loop),
            Refusal::NotFinite => point(&|x| !x.is_finite()),
            Refusal::TooFar => point(&|x| x.abs() > 1_000.0),
            _ => None,
        }
    }

    fn in_words(self, field: &Field, naming: Naming) -> String {
        match self {
            Place::Points(count) => format!("{} points", grouped(count)),
            Place::Loop(k) => naming.loop_of(field, k, &counted(field.loops[k].len(), "point")),
            Place::Point(spot) => naming.point(field, spot),
        }
    }
}

/// A refusal in words, with its place.
pub fn in_words(field: &Field, refusal: Refusal, naming: Naming) -> String {
    let place = Place::of(field, refusal).map(|place| format!(" ({})", place.in_words(field, naming)));
    let words = match refusal {
        // The lists fit together wherever a field is handed over: it has too many points.
        Refusal::Lists => format!("refused (1): {TOO_MANY}"),
        _ => refusal.to_string(),
    };
    words + &place.unwrap_or_default()
}

const TOO_MANY: &str =
    "the outline has too many points: at most 4,096 are taken in all loops together, so draw fewer, or thin it";

pub const NO_MEMORY: &str = "there isn't memory for so many quads: set a larger size";

/// What a field that wasn't paved is said of.
pub fn failure(field: &Field, why: NotPaved) -> Failure {
    match why {
        NotPaved::Refused(refusal) => Failure::Refused(in_words(field, refusal, Naming::Line)),
        NotPaved::NoMemory => Failure::Cant(NO_MEMORY.to_string()),
    }
}

/// What the library would refuse of a field: with a size also of that.
pub fn found(field: &Field, size: Option<f64>) -> Result<(), Refusal> {
    const ANY_SIZE: f64 = 100.0;
    least_places(&Drawing::of(field).outline(), size.unwrap_or(ANY_SIZE)).map(|_| ())
}

/// As [`found`], in words by line.
pub fn check(field: &Field, size: Option<f64>) -> Result<(), Failure> {
    if field.loops.is_empty() {
        return Err(Failure::Cant("there are no points: draw an outline of at least three".to_string()));
    }
    found(field, size).map_err(|refusal| Failure::Refused(in_words(field, refusal, Naming::Line)))
}
