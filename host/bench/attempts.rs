//! One run of a circle of 90 degrees, to be counted under callgrind: the points, the size, and for how many of the nodes in a hundred the list of tries has places.

use sitjorbe::raw::{pave, Lists, Outline, Settings};
use sitjorbe::{Memory, Places};

fn main() {
    let words: Vec<String> = std::env::args().skip(1).collect();
    let [points, size, percent] = &words[..] else { panic!("points, size and percent are wanted") };
    let (points, percent): (usize, usize) = (points.parse().expect("a count"), percent.parse().expect("a count"));
    let size: f64 = size.parse().expect("a size");
    let angle = |k: usize| std::f64::consts::TAU * k as f64 / points as f64;
    let outer: Vec<f64> = (0..points).flat_map(|k| [90.0 * angle(k).cos(), 90.0 * angle(k).sin()]).collect();
    let outline = Outline { outer: &outer, holes: &[], hole_lengths: &[] };
    let places = Places { field_nodes: 250_000, nodes: 300_000, quads: 250_000, edges: 600_000, points };
    let mut memory = Memory::new(places).expect("memory");
    let lists = memory.lists();
    let tried = lists.tried.len() / 100 * percent;
    let lists = Lists { tried: &mut lists.tried[..tried], ..lists };
    let mesh = pave(&outline, &Settings { size, sweeps: 20, passes: 600 }, lists).expect("it isn't refused");
    println!("{} nodes, {} quads, {}", mesh.node_count(), mesh.quad_count(), mesh.end());
}
