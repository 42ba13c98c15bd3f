//! An order that begins near a place.

use crate::order;
use crate::run::Paved;

/// The accepted order that is nearest to testing the quads by their distance from a place.
pub fn near(paved: &Paved, [x, y]: [f64; 2]) -> Vec<u32> {
    let away = |quad: &u32| {
        let corners = paved.quads[*quad as usize].map(|id| paved.nodes[id as usize]);
        let middle = [0, 1].map(|axis| corners.iter().map(|corner| corner[axis]).sum::<f64>() / 4.0);
        (middle[0] - x).hypot(middle[1] - y)
    };
    let mut wish: Vec<u32> = (0..paved.quads.len() as u32).collect();
    wish.sort_by(|one, other| away(one).total_cmp(&away(other)));
    order::nearest(paved, &wish)
}
