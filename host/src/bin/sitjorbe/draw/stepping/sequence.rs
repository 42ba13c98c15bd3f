//! A sequence of moves on a front: made as far as is asked, and gone on from.

use std::collections::HashMap;
use std::sync::Arc;
use std::time::{Duration, Instant};

use sitjorbe::raw::{least_places, Outline, Settings, Stepper};
use sitjorbe::{End, Memory, Outcome, Places, Preview, Refusal};

use crate::csv::Field;
use crate::json::Value;
use crate::mesh_json::{id_lists, mesh_values};
use crate::refused::NO_MEMORY;
use crate::run::{Drawing, SWEEPS};

use super::super::answers::{refusal_value, refused};
use super::super::books::{Opening, Pages};
use super::super::patience::Ticket;
use super::moves::{Asked, Move};

/// Outlines with more samples aren't stepped by hand.
const MOST_SAMPLED: usize = 20_000;

/// What is known of an outline at a size, whatever moves are made.
#[derive(Default)]
pub struct Ground {
    pub key: Vec<u64>,
    /// How many times the usual places its lists need.
    pub growth: usize,
    opening: Option<Opening>,
    /// The quads after so many passes of a run.
    placed: HashMap<usize, usize>,
    /// The passes after which a run places nothing more, and its quads then.
    still: Option<(usize, usize)>,
}

impl Ground {
    /// Nothing is known yet of the outline and size with this key.
    pub fn of(key: Vec<u64>) -> Ground {
        Ground { key, growth: 1, ..Ground::default() }
    }

    /// The quads after so many passes of a run, if that is known.
    fn placed(&self, passes: usize) -> Option<usize> {
        let still = self.still.filter(|(after, _)| passes >= *after).map(|(_, quads)| quads);
        still.or_else(|| self.placed.get(&passes).copied())
    }
}

/// Why moves weren't all made.
pub enum Stopped {
    Refused(Refusal),
    /// There is no place for a quad in the lists, and they can be longer.
    Full,
    TooMuch(&'static str),
    /// Nobody waits for them any more.
    GivenUp,
}

impl From<Refusal> for Stopped {
    fn from(refusal: Refusal) -> Stopped {
        Stopped::Refused(refusal)
    }
}

/// Moves that take longer than this are given up.
pub const PATIENCE: Duration = Duration::from_secs(60);
const LATE: Stopped = Stopped::TooMuch("this takes too long: ask for fewer passes, or set a larger size");

/// How long moves are made: until a time, and as long as somebody waits for them.
pub struct Limit {
    pub until: Instant,
    pub ticket: Arc<Ticket>,
}

impl Limit {
    fn check(&self) -> Result<(), Stopped> {
        match () {
            () if self.ticket.is_given_up() => Err(Stopped::GivenUp),
            () if Instant::now() < self.until => Ok(()),
            () => Err(LATE),
        }
    }
}

/// Lists for an outline, with so many times the usual places.
pub fn lent(outline: &Outline<'_>, size: f64, growth: usize) -> Result<Lent, Stopped> {
    if least_places(outline, size)?.sampled_nodes > MOST_SAMPLED {
        return Err(Stopped::TooMuch("the outline has too many samples to be stepped by hand: set a larger size"));
    }
    let places = Places::for_outline(outline, size, growth)?;
    let memory = Memory::new(places).map_err(|_| Stopped::TooMuch(NO_MEMORY))?;
    Ok(Lent { memory, quads: places.quads })
}

/// Lists, and how many quads they have places for; of the others there are always enough.
pub struct Lent {
    pub memory: Memory,
    pub quads: usize,
}

impl Lent {
    /// Whether so many quads are all that there are places for, where there could be more.
    fn is_full(&self, quads: usize) -> bool {
        quads == self.quads && quads < Places::MOST_QUADS
    }

    /// The quads that a run of so many passes places.
    fn placed(&mut self, outline: &Outline<'_>, settings: &Settings, ground: &mut Ground) -> Result<usize, Stopped> {
        if let Some(quads) = ground.placed(settings.passes) {
            return Ok(quads);
        }
        let mesh = self.memory.pave(outline, settings)?;
        let (quads, end) = (mesh.quad_count(), mesh.end());
        if self.is_full(quads) {
            return Err(Stopped::Full);
        }
        ground.placed.insert(settings.passes, quads);
        if end == End::Still {
            ground.still = Some((settings.passes, quads));
        }
        Ok(quads)
    }
}

/// A sequence of moves, as far as it was made.
pub struct Sequence<'a> {
    stepper: Stepper<'a>,
    opening: Opening,
    may_grow: bool,
    /// How many of the moves are passes that a run made.
    leading: usize,
    moves: Vec<Move>,
    outcomes: Vec<Value>,
    /// Whether a pass has placed nothing, having tried every edge, or has stopped at the cap: then no step and no pass places anything any more.
    is_still: bool,
}

impl<'a> Sequence<'a> {
    /// The sequence after the passes that it begins with.
    pub fn begin(
        asked: &Asked,
        drawing: &'a Drawing,
        lent: &'a mut Lent,
        ground: &mut Ground,
        limit: &Limit,
    ) -> Result<Sequence<'a>, Stopped> {
        let outline = drawing.outline();
        let opening = match &ground.opening {
            Some(opening) => opening.clone(),
            None => Opening::of(&mut Stepper::new(outline, asked.size, SWEEPS, &mut lent.memory)?),
        };
        ground.opening = Some(opening.clone());
        let leading = asked.leading();
        let mut settings = Settings { size: asked.size, sweeps: SWEEPS, passes: 0 };
        let mut placed = vec![0];
        for next in &asked.moves[..leading] {
            limit.check()?;
            settings.passes += next.passes();
            placed.push(lent.placed(&outline, &settings, ground)?);
        }
        let outcomes = placed.windows(2).map(|pair| Value::count(pair[1] - pair[0])).collect();
        let (may_grow, moves) = (lent.quads < Places::MOST_QUADS, asked.moves[..leading].to_vec());
        let is_still = ground.still.is_some_and(|(after, _)| settings.passes >= after);
        let stepper = Stepper::after(outline, &settings, &mut lent.memory)?;
        Ok(Sequence { stepper, opening, may_grow, leading, moves, outcomes, is_still })
    }

    /// Whether what is asked goes on from here.
    pub fn goes_on(&self, asked: &Asked) -> bool {
        asked.leading() == self.leading && asked.moves.starts_with(&self.moves)
    }

    /// Makes the moves that are missing, and answers the mesh that they leave.
    pub fn advance(&mut self, asked: &Asked, limit: &Limit) -> Result<Value, Stopped> {
        for (place, next) in asked.moves.iter().enumerate().skip(self.moves.len()) {
            limit.check()?;
            let outcome = match next {
                Move::Passes(count) => Value::count(self.passes(*count, limit)?),
                Move::Edge(edge) => match self.stepper.step(*edge) {
                    Ok(Outcome::Full) if self.may_grow => return Err(Stopped::Full),
                    Ok(outcome) => Value::text(&outcome.to_string()),
                    Err(refusal) => return Ok(refused_move(&asked.field, refusal, place)),
                },
            };
            self.moves.push(*next);
            self.outcomes.push(outcome);
        }
        self.value(asked)
    }

    /// Makes passes, until one places nothing; how many quads they placed.
    fn passes(&mut self, count: usize, limit: &Limit) -> Result<usize, Stopped> {
        let mut placed = 0;
        for _ in 0..count {
            if self.is_still {
                break;
            }
            let mut ended = Ok(());
            let go_on = || {
                ended = limit.check();
                ended.is_ok()
            };
            let Some(pass) = self.stepper.pass_while(go_on) else { return Err(ended.err().unwrap_or(LATE)) };
            placed += pass.placed;
            match pass.outcome {
                Outcome::Full if self.may_grow => return Err(Stopped::Full),
                outcome => self.is_still = outcome != Outcome::Placed,
            }
        }
        Ok(placed)
    }

    fn value(&mut self, asked: &Asked) -> Result<Value, Stopped> {
        let preview = match asked.look.map(|edge| self.stepper.preview(edge)) {
            None => Value::Null,
            Some(Ok(Preview { outcome: Outcome::Full, .. })) if self.may_grow => return Err(Stopped::Full),
            Some(Ok(preview)) => preview_value(&preview),
            Some(Err(refusal)) => refused(&asked.field, refusal),
        };
        let (nodes, origins) = (self.stepper.nodes(), self.stepper.origins());
        let (quads, front) = (self.stepper.quads(), self.stepper.front());
        let more = [
            ("outcomes", Value::List(self.outcomes.clone())),
            ("front", edges_value(&front)),
            ("books", self.opening.books(self.stepper.counts(), Pages { nodes: &nodes, quads: &quads, front: &front })),
            ("preview", preview),
        ];
        let mesh = mesh_values(&nodes, &origins, &quads);
        Ok(Value::Map(mesh.into_iter().chain(more).map(|(name, value)| (name.to_string(), value)).collect()))
    }
}

fn edges_value(edges: &[[u32; 2]]) -> Value {
    id_lists(edges.iter().map(<[u32; 2]>::as_slice))
}

/// The refusal of a move, with its place among the moves.
fn refused_move(field: &Field, refusal: Refusal, place: usize) -> Value {
    let mut value = refusal_value(field, refusal);
    if let Value::Map(pairs) = &mut value {
        pairs.push(("move".to_string(), Value::count(place)));
    }
    Value::map([("refusal", value)])
}

fn preview_value(preview: &Preview<'_>) -> Value {
    let ids = |quad: [u32; 4]| Value::list(quad.into_iter().map(|id| Value::count(id as usize)));
    let point = |at: Option<[f64; 2]>| at.map_or(Value::Null, Value::point);
    Value::map([
        ("outcome", Value::text(&preview.outcome.to_string())),
        ("quad", preview.quad.map_or(Value::Null, ids)),
        ("new_c", point(preview.new_c)),
        ("new_d", point(preview.new_d)),
        ("front", edges_value(&preview.front().collect::<Vec<_>>())),
    ])
}
