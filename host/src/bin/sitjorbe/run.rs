//! A run of the library over a field, in memory of its own.

use sitjorbe::raw::{is_sound, Outline, Settings};
use sitjorbe::{End, Memory, Places, Refusal};

use crate::closed::Seam;
use crate::csv::Field;

/// Sweeps of a field, unless others are asked for.
pub const SWEEPS: usize = 400;
/// No run makes more passes.
pub const MOST_PASSES: usize = 600;

/// A field's coordinates, as the library takes them.
#[derive(Clone, Debug)]
pub struct Drawing {
    outer: Vec<f64>,
    holes: Vec<f64>,
    lengths: Vec<usize>,
}

impl Drawing {
    pub fn of(field: &Field) -> Drawing {
        let flat =
            |points: &[crate::csv::Point]| points.iter().flat_map(|point| [point.x, point.y]).collect::<Vec<f64>>();
        let (outer, holes) = field.loops.split_first().map_or((&[][..], &[][..]), |(outer, holes)| (&outer[..], holes));
        Drawing {
            outer: flat(outer),
            holes: holes.iter().flat_map(|points| flat(points)).collect(),
            lengths: holes.iter().map(Vec::len).collect(),
        }
    }

    pub fn outline(&self) -> Outline<'_> {
        Outline { outer: &self.outer, holes: &self.holes, hole_lengths: &self.lengths }
    }
}

/// A mesh as it was answered, and what it was asked with.
#[derive(Clone, Debug, PartialEq)]
pub struct Paved {
    pub settings: Settings,
    pub end: End,
    pub whole: bool,
    /// Whether the outline is sound.
    pub sound: bool,
    pub nodes: Vec<[f64; 2]>,
    /// For each node the loop that it came from.
    pub origins: Vec<u16>,
    /// Each quad's nodes, in the order that runs round it.
    pub quads: Vec<[u32; 4]>,
    /// The rings round what is left open.
    pub left: Vec<Vec<u32>>,
    /// What became of what the paving left open.
    pub seam: Seam,
}

/// Why a field isn't paved.
#[derive(Clone, Copy, Debug, PartialEq)]
pub enum NotPaved {
    Refused(Refusal),
    NoMemory,
}

impl From<Refusal> for NotPaved {
    fn from(refusal: Refusal) -> NotPaved {
        NotPaved::Refused(refusal)
    }
}

/// Paves a field. Where the places for quads run out it is paved again with more, so that a run never ends full.
pub fn pave(field: &Field, settings: &Settings) -> Result<Paved, NotPaved> {
    let drawing = Drawing::of(field);
    let outline = drawing.outline();
    let sound = is_sound(&outline)?;
    let mut growth = 1;
    loop {
        let places = Places::for_outline(&outline, settings.size, growth)?;
        let mut memory = Memory::new(places).map_err(|_| NotPaved::NoMemory)?;
        let mesh = memory.pave(&outline, settings)?;
        if mesh.end() == End::Full && places.quads < Places::MOST_QUADS {
            growth *= 2;
            continue;
        }
        return Ok(Paved {
            settings: *settings,
            end: mesh.end(),
            whole: mesh.is_whole(),
            sound,
            origins: mesh.origins().to_vec(),
            nodes: mesh.nodes().collect(),
            quads: mesh.quads().collect(),
            left: mesh.front_loops().map(<[u32]>::to_vec).collect(),
            seam: Seam::AsPaved,
        });
    }
}
