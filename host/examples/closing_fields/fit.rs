//! What of an outline no closing could mend.

use sitjorbe::raw::Mesh;

/// Whether the sampled outline, a mesh that nothing is paved of, has no corner of 20 degrees or less, and no gap below a tenth of its spacing.
pub fn is_fit(start: &Mesh<'_>) -> bool {
    let nodes: Vec<[f64; 2]> = start.nodes().collect();
    let (next, prev) = start.links();
    let sampled = nodes.len();
    let at = |id: u32| nodes[id as usize];
    let narrow = (0..sampled as u32).any(|k| {
        let ([ax, ay], [x, y], [bx, by]) = (at(prev[k as usize]), at(k), at(next[k as usize]));
        let turn = (by - y).atan2(bx - x) - (ay - y).atan2(ax - x);
        (-turn).rem_euclid(std::f64::consts::TAU).to_degrees() <= 20.0
    });
    let tight = (0..sampled as u32).any(|a| {
        let b = next[a as usize];
        let spacing = (at(b)[0] - at(a)[0]).hypot(at(b)[1] - at(a)[1]);
        (0..sampled as u32).any(|k| {
            let beside = [k, next[k as usize], prev[k as usize]];
            !beside.contains(&a) && !beside.contains(&b) && from_side(at(k), at(a), at(b)) < 0.1 * spacing
        })
    });
    !narrow && !tight
}

fn from_side(p: [f64; 2], a: [f64; 2], b: [f64; 2]) -> f64 {
    let (side, to) = ([b[0] - a[0], b[1] - a[1]], [p[0] - a[0], p[1] - a[1]]);
    let t = ((to[0] * side[0] + to[1] * side[1]) / (side[0] * side[0] + side[1] * side[1])).clamp(0.0, 1.0);
    (to[0] - t * side[0]).hypot(to[1] - t * side[1])
}
