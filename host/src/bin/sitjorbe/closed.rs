//! `--close`: what a paving leaves open, closed by the library's second stage.

use sitjorbe::closing::{self, Closing, Effort, Kind, Place, Stage, Way};

use crate::csv::Field;
use crate::files::Failure;
use crate::run::{Drawing, Paved};
use crate::words::{counted, short};

/// What became of what a paving left open.
#[derive(Clone, Debug, PartialEq)]
pub enum Seam {
    /// Nothing was to be closed.
    AsPaved,
    /// It is closed: where each quad comes from, and how many paved quads were given back.
    Closed { kinds: Vec<Kind>, given_back: usize },
    /// It stays open, at these places at least, for these reasons.
    Open(Vec<([f64; 2], String)>),
}

/// In the place of a loop's number: the node came with the closing.
pub const NO_LOOP: u16 = u16::MAX;
/// No more places than these are said.
const MOST_PLACES: usize = 5;

/// A paving of a field with what it leaves open closed in a way, if it can be. A mesh that leaves nothing open stays as it is.
pub fn close(field: &Field, paved: Paved, way: Way, stage: &dyn Fn(&str)) -> Paved {
    if paved.whole || paved.is_closed() {
        return paved;
    }
    let (drawing, effort) = (Drawing::of(field), Effort::usual(way, paved.nodes.len()));
    let mut told = None;
    let mut progress = |progress: closing::Progress| {
        if told.replace(progress.stage) != Some(progress.stage) {
            stage(in_words(progress.stage));
        }
        true
    };
    let size = paved.settings.size;
    let closing = closing::close(&drawing.outline(), size, &paved.nodes, &paved.quads, effort, &mut progress);
    closed(paved, closing)
}

/// Whether a mesh that was read is closed, by the judge that every closing passes: there is nothing to close in it.
pub fn is_judged(field: &Field, paved: &Paved) -> bool {
    let drawing = Drawing::of(field);
    let effort = Effort { way: Way::Keep, steps: 0 };
    let size = paved.settings.size;
    let same = |closed: &closing::Closed| closed.nodes() == paved.nodes && closed.quads() == paved.quads;
    match closing::close(&drawing.outline(), size, &paved.nodes, &paved.quads, effort, &mut |_| true) {
        Closing::Closed(closed) => same(&closed),
        Closing::Open(_) => false,
    }
}

fn in_words(stage: Stage) -> &'static str {
    match stage {
        Stage::Filling => "closing: filling",
        Stage::Smoothing => "closing: smoothing",
        Stage::Pairing => "closing: pairing",
        Stage::Repairing => "closing: repairing",
    }
}

/// The mesh that a closing leaves of a paving.
fn closed(paved: Paved, closing: Closing) -> Paved {
    let closed = match closing {
        Closing::Closed(closed) => closed,
        Closing::Open(places) => {
            let told = |place: &Place| (place.at, place.why.to_string());
            return Paved { seam: Seam::Open(places.iter().map(told).collect()), ..paved };
        }
    };
    let origin = |node: &u32| paved.origins.get(*node as usize).copied().unwrap_or(NO_LOOP);
    Paved {
        nodes: closed.nodes().to_vec(),
        quads: closed.quads().to_vec(),
        origins: closed.paved_nodes().iter().map(origin).collect(),
        left: vec![],
        seam: Seam::Closed { kinds: closed.kinds().to_vec(), given_back: closed.given_back() },
        ..paved
    }
}

/// The way that a call asks for: `bend`, or `keep` for every paved node in its place.
pub fn way(word: &str) -> Result<Way, Failure> {
    match word {
        "" | "bend" => Ok(Way::Bend),
        "keep" => Ok(Way::Keep),
        _ => Err(Failure::Cant(format!("--close is bend or keep, not {word}"))),
    }
}

/// A kind's word in files.
pub fn kind_word(kind: Kind) -> &'static str {
    match kind {
        Kind::Kept => "kept",
        Kind::Bent => "moved",
        Kind::New => "new",
    }
}

/// The kinds by their words.
pub const KINDS: [Kind; 3] = [Kind::Kept, Kind::Bent, Kind::New];

impl Paved {
    pub fn is_closed(&self) -> bool {
        matches!(self.seam, Seam::Closed { .. })
    }

    /// Where a quad comes from.
    pub fn kind(&self, quad: usize) -> Kind {
        match &self.seam {
            Seam::Closed { kinds, .. } => kinds[quad],
            _ => Kind::Kept,
        }
    }

    /// The loop whose patch a quad belongs to: none for one that came with the closing.
    pub fn loop_of(&self, quad: usize) -> Option<usize> {
        (self.kind(quad) != Kind::New).then(|| self.origins[self.quads[quad][0] as usize].into())
    }

    /// The quads of a loop's patch; of no loop those of the closing.
    pub fn quads_of(&self, number: Option<usize>) -> impl Iterator<Item = &[u32; 4]> + Clone {
        self.quads.iter().enumerate().filter(move |(k, _)| self.loop_of(*k) == number).map(|(_, quad)| quad)
    }

    /// How many quads are of each of [`KINDS`].
    pub fn counts(&self) -> [usize; 3] {
        KINDS.map(|kind| (0..self.quads.len()).filter(|quad| self.kind(*quad) == kind).count())
    }
}

/// What is said of a closing, a sentence a line.
pub fn sentences(paved: &Paved) -> Vec<String> {
    match &paved.seam {
        Seam::AsPaved => vec![],
        Seam::Closed { given_back, .. } => {
            let [kept, moved, new] = paved.counts();
            let paved = counted(kept + moved, "paved quad");
            vec![format!("Closed: {paved} kept, {moved} of them with nodes moved; {given_back} given back, {new} new.")]
        }
        Seam::Open(places) => {
            let place =
                |([x, y], why): &([f64; 2], String)| format!("It stays open at {}, {}: {why}.", short(*x), short(*y));
            let more = places.len().saturating_sub(MOST_PLACES);
            let more = (more > 0).then(|| format!("It stays open at {}.", counted(more, "more place")));
            places.iter().take(MOST_PLACES).map(place).chain(more).collect()
        }
    }
}
