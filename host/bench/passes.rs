//! One run of a square with a corridor one quad wide, to be counted under callgrind: the square's side and the corridor's length in quads, how many passes are
//! asked for, and for how many of the nodes in a hundred the list of tries has places.

use sitjorbe::raw::{pave, Lists, Outline, Settings};
use sitjorbe::{Memory, Places};

fn main() {
    let words: Vec<usize> = std::env::args().skip(1).map(|word| word.parse().expect("a count")).collect();
    let [side, corridor, passes, percent] = words[..] else { panic!("side, corridor, passes and percent are wanted") };
    let (far, end) = (side as f64, (side + corridor) as f64);
    let outer = [0.0, 0.0, end, 0.0, end, 1.0, far, 1.0, far, far, 0.0, far];
    let outline = Outline { outer: &outer, holes: &[], hole_lengths: &[] };
    let places = Places { field_nodes: 250_000, nodes: 300_000, quads: 250_000, edges: 600_000, points: outer.len() / 2 };
    let mut memory = Memory::new(places).expect("memory");
    let lists = memory.lists();
    let tried = lists.tried.len() / 100 * percent;
    let lists = Lists { tried: &mut lists.tried[..tried], ..lists };
    let mesh = pave(&outline, &Settings { size: 1.0, sweeps: 1, passes }, lists).expect("it isn't refused");
    println!("{} nodes, {} quads, {}", mesh.node_count(), mesh.quad_count(), mesh.end());
}
