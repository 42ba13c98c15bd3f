//! Bowl steps in Rust, written from its words: each coordinate as a fraction, the nearest step by comparing distances; and the mesh that
//! refusal 23 lets pass, from that of hand stepping.

use sitjorbe::raw::{MeshCounts, MeshRead};
use sitjorbe::OFF;

/// The nearest step of 1/64, halves to the even one. The float must be finite, and within some thousands.
pub fn nearest_step(x: f64) -> i64 {
    let bits = x.to_bits();
    let (field, digits) = (bits >> 52 & 0x7ff, i128::from(bits & 0x000f_ffff_ffff_ffff));
    // |x| is m·2^e.
    let (m, e) = if field == 0 { (digits, -1074) } else { (digits | 1 << 52, field as i32 - 1075) };
    // 128·x is numerator / 2^d. Where d is above 80 it is far below 1.
    let signed = if x.is_sign_negative() { -m } else { m };
    let (numerator, d) = if e >= -7 { (signed << (e + 7), 0) } else { (signed, -(e + 7)) };
    if d > 80 {
        return 0;
    }
    // k steps are 2·k halves of a step, each 1/128.
    let distance = |k: i128| (numerator - (2 * k << d)).abs();
    let low = numerator.div_euclid(2 << d);
    let nearest = match distance(low).cmp(&distance(low + 1)) {
        std::cmp::Ordering::Less => low,
        std::cmp::Ordering::Greater => low + 1,
        std::cmp::Ordering::Equal => low + low.rem_euclid(2),
    };
    nearest as i64
}

/// x(u)·y(v) − x(v)·y(u)
pub fn cross(u: [i64; 2], v: [i64; 2]) -> i64 {
    u[0] * v[1] - v[0] * u[1]
}

fn way(u: [i64; 2], v: [i64; 2]) -> [i64; 2] {
    [v[0] - u[0], v[1] - u[1]]
}

/// "counts beyond the buffers, an id out of range, front links that aren't inverse to each other or not as many as the count of front
/// edges, a coordinate not finite or beyond 1,001 either way"
pub fn is_sound(mesh: &MeshRead<'_>, counts: MeshCounts) -> bool {
    let MeshRead { xs, ys, next, prev, origins, quads, edges } = *mesh;
    let n = counts.nodes as usize;
    let places = [xs.len(), ys.len(), next.len(), prev.len(), origins.len(), u32::MAX as usize - 1];
    if places.iter().any(|&places| n > places) || counts.quads > quads.len() / 4 || counts.edges > edges.len() / 2 {
        return false;
    }
    let mut ids = quads[..4 * counts.quads].iter().chain(&edges[..2 * counts.edges]);
    let inverse = |links: &[u32], back: &[u32]| {
        (0..n).all(|u| links[u] == OFF || (links[u] as usize) < n && back[links[u] as usize] as usize == u)
    };
    let on_front = next[..n].iter().filter(|&&v| v != OFF).count();
    ids.all(|&id| (id as usize) < n)
        && inverse(next, prev)
        && inverse(prev, next)
        && on_front == counts.front
        && xs[..n].iter().chain(&ys[..n]).all(|x| x.abs() <= 1_001.0)
}

/// The refusal's number, the quad that 25 names, and the buffer as it is left.
pub fn answer(mesh: &MeshRead<'_>, counts: MeshCounts, places: &[i32]) -> (u32, usize, Vec<i32>) {
    let n = counts.nodes as usize;
    if !is_sound(mesh, counts) || places.len() < 2 * n {
        return (23, 0, places.to_vec());
    }
    let at = |id: u32| [mesh.xs, mesh.ys].map(|list| nearest_step(list[id as usize]));
    let turns_left = |quad: &[u32]| {
        let corners = [quad[0], quad[1], quad[2], quad[3]].map(at);
        (0..4).all(|k| {
            let [u, v, w] = [k, k + 1, k + 2].map(|place| corners[place % 4]);
            cross(way(u, v), way(v, w)) > 0
        })
    };
    if let Some(quad) = mesh.quads.chunks_exact(4).take(counts.quads).position(|quad| !turns_left(quad)) {
        return (25, quad, places.to_vec());
    }
    let mut left = places.to_vec();
    for id in 0..n {
        let [x, y] = at(id as u32);
        (left[2 * id], left[2 * id + 1]) = (x as i32, y as i32);
    }
    (0, 0, left)
}
