//! The answers that pave: a field's mesh, its picture and its file, and its outline with fewer points.

use std::time::Instant;

use sitjorbe::closing::Way;
use sitjorbe::raw::{least_places, LeastPlaces, Settings};
use sitjorbe::Refusal;

use crate::advice::Advice;
use crate::closed;
use crate::csv::Field;
use crate::figures::{self, Figures};
use crate::identity;
use crate::json::Value;
use crate::mesh_json::{figures_value, left_value, loops_value, mesh_values};
use crate::refused;
use crate::run::{self, Drawing, NotPaved, Paved, MOST_PASSES, SWEEPS};
use crate::svg::{self, Eye, Look};
use crate::thin::Thinned;

use super::answers::{judgement, refused};
use super::asked;
use super::closing;
use super::saved;
use super::wrong::Wrong;

/// Outlines with more samples aren't paved here, so that no run takes minutes, or memory that several at once haven't got.
const MOST_SAMPLED: usize = 50_000;
const TOO_MANY_SAMPLES: &str =
    "the outline has too many samples to be paved here: set a larger size, or use sitjorbe pave";
/// A field's mesh, unless it is refused. More than there is memory for is wrong.
fn paved(field: &Field, size: f64) -> Result<Result<Paved, Refusal>, Wrong> {
    match least_places(&Drawing::of(field).outline(), size) {
        Err(refusal) => return Ok(Err(refusal)),
        Ok(LeastPlaces { sampled_nodes, .. }) if sampled_nodes > MOST_SAMPLED => {
            return Err(Wrong::too_much(TOO_MANY_SAMPLES));
        }
        Ok(_) => {}
    }
    match run::pave(field, &Settings { size, sweeps: SWEEPS, passes: MOST_PASSES }) {
        Ok(paved) => Ok(Ok(paved)),
        Err(NotPaved::Refused(refusal)) => Ok(Err(refusal)),
        Err(NotPaved::NoMemory) => Err(Wrong::too_much(refused::NO_MEMORY)),
    }
}

/// A field's mesh, closed where that is asked for and can be done.
fn paved_as_asked(field: &Field, size: f64, body: &Value) -> Result<Result<Paved, Refusal>, Wrong> {
    let close = asked::is_asked(body, "close");
    Ok(paved(field, size)?.map(|paved| if close { closed::close(field, paved, Way::Bend, &|_| ()) } else { paved }))
}

pub fn pave(body: &Value) -> Result<Value, Wrong> {
    let (field, size, eye) = (asked::field(body)?, asked::size(body)?, asked::eye(body)?);
    let began = Instant::now();
    let paved = paved_as_asked(&field, size, body)?;
    let seconds = began.elapsed().as_secs_f64();
    let mut answer = judgement(&field, paved.as_ref().map(|paved| paved.sound).map_err(|refusal| *refusal));
    if let Ok(paved) = paved {
        let figures = figures::of(&field, &paved);
        answer.push(("mesh".to_string(), mesh_value(&field, &paved, &figures, eye)));
    }
    answer.push(("seconds".to_string(), Value::Number(seconds)));
    Ok(Value::Map(answer))
}

/// How to have fewer points, and smaller quads.
const THIN: &str = "“Thin the points” leaves fewer of them";
const FINER: &str = "set a smaller size";

fn mesh_value(field: &Field, paved: &Paved, figures: &Figures, eye: Option<Eye>) -> Value {
    let advice = Advice::of(field, paved, figures);
    let is_dense = matches!(advice, Some(Advice::TooDense { .. } | Advice::Dense { .. }));
    let notes =
        closed::sentences(paved).into_iter().chain(figures::stopped(paved)).chain(eye.and_then(|eye| eye.doubt(field)));
    let words = |lines: Vec<String>| Value::list(lines.iter().map(|line| Value::text(line)));
    let head = [
        ("end", Value::text(&paved.end.to_string())),
        ("whole", Value::Bool(paved.whole)),
        ("verdict", Value::text(&figures::verdict(figures, true))),
        ("notes", words(notes.collect())),
        ("sentences", words(figures::sentences(figures, &paved.settings))),
        ("figures", figures_value(figures)),
        ("left", left_value(paved)),
        ("digest", Value::text(&identity::digest(paved))),
        (
            "advice",
            advice.map_or(Value::Null, |advice| Value::text(&advice.in_words(paved.settings.size, THIN, FINER))),
        ),
        ("is_dense", Value::Bool(is_dense)),
    ];
    let mesh = mesh_values(&paved.nodes, &paved.origins, &paved.quads);
    let closing = closing::parts(paved, figures);
    Value::Map(head.into_iter().chain(mesh).chain(closing).map(|(name, value)| (name.to_string(), value)).collect())
}

pub fn picture(body: &Value) -> Result<Value, Wrong> {
    let (field, size) = (asked::field(body)?, asked::size(body)?);
    let look = Look { title: asked::title(body)?, eye: asked::eye(body)?, ..Look::default() };
    Ok(match paved_as_asked(&field, size, body)? {
        Ok(paved) => {
            let figures = figures::of(&field, &paved);
            Value::map([("svg", Value::text(&svg::draw(&field, &paved, &figures, &look)))])
        }
        Err(refusal) => refused(&field, refusal),
    })
}

/// A whole field as a file; its mesh has a digest unless it is refused.
pub fn save(body: &Value) -> Result<Value, Wrong> {
    let (field, size) = (asked::field(body)?, asked::size(body)?);
    let digest = paved_as_asked(&field, size, body)?.ok().map(|paved| identity::digest(&paved));
    let text = saved::write(&field, size, asked::eye(body)?, &asked::title(body)?, digest.as_deref());
    Ok(Value::map([("text", Value::text(&text))]))
}

/// Fewer points, about a size apart, and what that does to the outline.
pub fn thin(body: &Value) -> Result<Value, Wrong> {
    let (field, size) = (asked::field(body)?, asked::size(body)?);
    if let Err(refusal) = refused::found(&field, Some(size)) {
        return Ok(refused(&field, refusal));
    }
    let thinned = Thinned::of(&field, size);
    let [stay, drawn] = thinned.kept;
    Ok(Value::map([
        ("loops", loops_value(&thinned.field)),
        ("stay", Value::count(stay)),
        ("drawn", Value::count(drawn)),
        ("moved", Value::Number(thinned.moved)),
        ("words", Value::text(&thinned.in_words())),
    ]))
}
