//! The motor bowl's steps of a mesh, as a table.

use std::fmt::Write;

use sitjorbe::raw::{MeshCounts, MeshRead};
use sitjorbe::{BowlSteps, NotShown, OFF, STEPS_PER_DEGREE};

use crate::files::Failure;
use crate::hill::Places;
use crate::identity;
use crate::run::Paved;
use crate::words::short;

/// A mesh's nodes in steps. The front isn't needed: steps are of nodes and quads alone, so the mesh is lent without one.
pub fn steps(paved: &Paved) -> Result<BowlSteps, NotShown> {
    let (places, off) = (Places::of(paved), vec![OFF; paved.nodes.len()]);
    let mesh = MeshRead {
        xs: &places.xs,
        ys: &places.ys,
        next: &off,
        prev: &off,
        origins: &paved.origins,
        quads: paved.quads.as_flattened(),
        edges: &[],
    };
    let counts = MeshCounts { nodes: paved.nodes.len() as u32, quads: paved.quads.len(), edges: 0, front: 0 };
    BowlSteps::of(&mesh, counts)
}

/// Why the bowl can't show a mesh, with the quad's place.
pub fn refused(paved: &Paved, why: NotShown) -> Failure {
    let place = match why {
        NotShown::Quad { quad } => {
            let [x, y] = paved.nodes[paved.quads[quad][0] as usize];
            format!(" (quad {quad}, at {}, {})", short(x), short(y))
        }
        NotShown::UnsoundMesh => String::new(),
    };
    Failure::Refused(why.refusal().to_string() + &place)
}

/// A row a node: its steps across and up, and the degrees that these are.
pub fn table(paved: &Paved) -> Result<String, Failure> {
    let steps = steps(paved).map_err(|why| refused(paved, why))?;
    let head = format!("# {}; 1 degree is {STEPS_PER_DEGREE} steps\n", identity::line(paved));
    let mut text = head + "node,steps_x,steps_y,x,y\n";
    for (id, ([i, j], [x, y])) in steps.counts().zip(steps.degrees()).enumerate() {
        writeln!(text, "{id},{i},{j},{x:?},{y:?}").expect("a string takes every line");
    }
    Ok(text)
}
