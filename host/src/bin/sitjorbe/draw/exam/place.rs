//! Which quad a place lies in, and by which weights. Not proved: what is estimated there is asked of the library, with these.

use sitjorbe::MOST_WEIGHT;

/// More rounds aren't made; each halves what is off, or better.
const ROUNDS: usize = 24;

/// Twice the signed area of a triangle.
fn turn([ax, ay]: [f64; 2], [bx, by]: [f64; 2], [cx, cy]: [f64; 2]) -> f64 {
    (bx - ax) * (cy - ay) - (by - ay) * (cx - ax)
}

/// Whether a place lies in a quad, which turns left at all its corners.
fn holds(corners: &[[f64; 2]; 4], at: [f64; 2]) -> bool {
    (0..4).all(|k| turn(corners[k], corners[(k + 1) % 4], at) >= 0.0)
}

/// A quad's point at two shares of the way: from a towards b, and towards c. Corners run round it: a, b, d, c.
pub fn between(corners: &[[f64; 2]; 4], [u, v]: [f64; 2]) -> [f64; 2] {
    let weights = [(1.0 - u) * (1.0 - v), u * (1.0 - v), u * v, (1.0 - u) * v];
    [0, 1].map(|axis| weights.iter().zip(corners).map(|(weight, corner)| weight * corner[axis]).sum())
}

/// The shares at which a quad has a place (Newton's method from the middle; the map of a convex quad has one such pair).
fn shares(corners: &[[f64; 2]; 4], at: [f64; 2]) -> [f64; 2] {
    let [a, b, d, c] = *corners;
    let mut share = [0.5, 0.5];
    for _ in 0..ROUNDS {
        let [u, v] = share;
        let here = between(corners, share);
        let off = [at[0] - here[0], at[1] - here[1]];
        let along = [0, 1].map(|k| (1.0 - v) * (b[k] - a[k]) + v * (d[k] - c[k]));
        let across = [0, 1].map(|k| (1.0 - u) * (c[k] - a[k]) + u * (d[k] - b[k]));
        let area = along[0] * across[1] - along[1] * across[0];
        if area.abs() < f64::MIN_POSITIVE {
            break;
        }
        let more = [off[0] * across[1] - off[1] * across[0], along[0] * off[1] - along[1] * off[0]];
        share = [u + more[0] / area, v + more[1] / area].map(|one: f64| one.clamp(0.0, 1.0));
    }
    share
}

/// A place in a mesh: its quad, and its weights there.
#[derive(Clone, Copy, Debug, PartialEq)]
pub struct Found {
    pub quad: u32,
    pub u: u32,
    pub v: u32,
}

/// The first quad that holds a place.
pub fn find(nodes: &[[f64; 2]], quads: &[[u32; 4]], at: [f64; 2]) -> Option<Found> {
    let corners = |quad: &[u32; 4]| quad.map(|id| nodes[id as usize]);
    let quad = quads.iter().position(|quad| holds(&corners(quad), at))?;
    let [u, v] = shares(&corners(&quads[quad]), at).map(|share| (share * f64::from(MOST_WEIGHT)).round() as u32);
    Some(Found { quad: quad as u32, u, v })
}

#[cfg(test)]
mod tests {
    use super::{between, find, Found};

    #[test]
    fn a_place_is_found_by_its_weights() {
        let nodes = [[0.0, 0.0], [4.0, 0.5], [5.0, 3.0], [-0.5, 2.0], [8.0, 0.0], [8.0, 4.0]];
        let quads = [[0, 1, 2, 3], [1, 4, 5, 2]];
        for quad in 0..2u32 {
            let corners = quads[quad as usize].map(|id: u32| nodes[id as usize]);
            for (u, v) in [(128, 128), (10, 250), (200, 3), (64, 192), (255, 255)] {
                let at = between(&corners, [u, v].map(|weight| f64::from(weight) / 256.0));
                assert_eq!(find(&nodes, &quads, at), Some(Found { quad, u, v }));
            }
        }
        assert_eq!(find(&nodes, &quads, [0.0, 5.0]), None);
        assert_eq!(find(&nodes, &quads, [0.0, 0.0]), Some(Found { quad: 0, u: 0, v: 0 }));
    }
}
