//! What an answer says of a mesh that was closed: its quads by kind, and the closing's share.

use sitjorbe::closing::Kind;

use crate::closed;
use crate::figures::Figures;
use crate::json::Value;
use crate::run::Paved;

/// The kind of each quad, 0 for kept, 1 for moved and 2 for new; then what the closing did. Nothing where the mesh isn't closed.
pub fn parts(paved: &Paved, figures: &Figures) -> Vec<(&'static str, Value)> {
    if !paved.is_closed() {
        return vec![];
    }
    let number = |quad: usize| match paved.kind(quad) {
        Kind::Kept => 0,
        Kind::Bent => 1,
        Kind::New => 2,
    };
    let [kept, moved, new] = paved.counts();
    let nodes = paved.origins.iter().filter(|origin| **origin == closed::NO_LOOP).count();
    let closing = [
        ("kept", Value::count(kept)),
        ("moved", Value::count(moved)),
        ("new", Value::count(new)),
        ("nodes", Value::count(nodes)),
        ("share", Value::maybe(figures.closing)),
    ];
    let kinds = Value::list((0..paved.quads.len()).map(|quad| Value::count(number(quad))));
    vec![("kinds", kinds), ("closing", Value::map(closing))]
}
