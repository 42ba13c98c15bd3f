//! The books of a front stepped by hand: counts and areas, exactly, which balance at each moment.

use std::cmp::Ordering;
use std::collections::{HashMap, HashSet};

use sitjorbe::raw::{MeshCounts, Stepper};

use crate::exact::Exact;
use crate::json::Value;
use crate::run::Paved;

/// Twice the signed area that a front runs round, all its loops together: each edge adds its own part, whatever loop it is of.
fn front_area(nodes: &[[f64; 2]], front: &[[u32; 2]]) -> Exact {
    front.iter().fold(Exact::ZERO, |sum, [a, b]| {
        let [a, b] = [a, b].map(|id| nodes[*id as usize]);
        sum.plus(&Exact::doubled_area(&[[0.0, 0.0], a, b]))
    })
}

fn quad_area(nodes: &[[f64; 2]], quads: &[[u32; 4]]) -> Exact {
    let area = |quad: &[u32; 4]| Exact::doubled_area(&quad.map(|id| nodes[id as usize]));
    quads.iter().fold(Exact::ZERO, |sum, quad| sum.plus(&area(quad)))
}

/// How many times each edge is run, by quads and front together: an edge from the smaller id to the larger counts 1, back -1.
fn edge_sums(edges: impl Iterator<Item = [u32; 2]>, sums: &mut HashMap<[u32; 2], i64>, sign: i64) {
    for [a, b] in edges {
        *sums.entry([a.min(b), a.max(b)]).or_default() += if a < b { sign } else { -sign };
    }
}

fn sides(quads: &[[u32; 4]]) -> impl Iterator<Item = [u32; 2]> + '_ {
    quads.iter().flat_map(|[a, b, d, c]| [[*a, *b], [*b, *d], [*d, *c], [*c, *a]])
}

fn ring_edges(ring: &[u32]) -> impl Iterator<Item = [u32; 2]> + '_ {
    ring.iter().zip(ring.iter().cycle().skip(1)).map(|(a, b)| [*a, *b])
}

/// What a sequence of steps began with.
#[derive(Clone, Debug)]
pub struct Opening {
    /// The nodes of the sampled outline.
    sampled: usize,
    /// The front that they make.
    front: Vec<[u32; 2]>,
    /// Twice its area.
    area: Exact,
}

/// A mesh as its books are written: nodes, quads and front.
#[derive(Clone, Copy)]
pub struct Pages<'a> {
    pub nodes: &'a [[f64; 2]],
    pub quads: &'a [[u32; 4]],
    pub front: &'a [[u32; 2]],
}

impl Opening {
    /// Of a front on which nothing has been placed.
    pub fn of(stepper: &mut Stepper<'_>) -> Opening {
        let front = stepper.front();
        Opening { sampled: stepper.counts().nodes as usize, area: front_area(&stepper.nodes(), &front), front }
    }

    /// Of the rings of a front on which nothing has been placed.
    pub fn of_rings(nodes: &[[f64; 2]], rings: &[Vec<u32>]) -> Opening {
        let front: Vec<[u32; 2]> = rings.iter().flat_map(|ring| ring_edges(ring)).collect();
        Opening { sampled: front.len(), area: front_area(nodes, &front), front }
    }

    /// The edges that are wrong: run another number of times by quads and front than by the front at the start.
    fn wrong_edges(&self, pages: Pages<'_>) -> [usize; 2] {
        let mut sums = HashMap::new();
        edge_sums(sides(pages.quads), &mut sums, 1);
        edge_sums(pages.front.iter().copied(), &mut sums, 1);
        edge_sums(self.front.iter().copied(), &mut sums, -1);
        [sums.values().filter(|sum| **sum != 0).count(), sums.len()]
    }

    /// The books of a mesh that was paved.
    pub fn books_of(&self, paved: &Paved, loops: usize) -> Value {
        let front: Vec<[u32; 2]> = paved.left.iter().flat_map(|ring| ring_edges(ring)).collect();
        let mut sums = HashMap::new();
        edge_sums(sides(&paved.quads), &mut sums, 1);
        let edges =
            self.front.iter().map(|[a, b]| [*a.min(b), *a.max(b)]).chain(sums.into_keys()).collect::<HashSet<_>>();
        let counts = MeshCounts {
            nodes: paved.nodes.len() as u32,
            quads: paved.quads.len(),
            edges: edges.len(),
            front: front.len(),
        };
        let pages = Pages { nodes: &paved.nodes, quads: &paved.quads, front: &front };
        self.books_of_shape(counts, pages, Opening::shape(paved, loops))
    }

    /// Euler's number of what the quads of a mesh cover: a ring round each loop that is open yet, a disc where one has closed up, or the whole field.
    fn shape(paved: &Paved, loops: usize) -> i64 {
        let open: HashSet<u16> = paved.left.iter().map(|ring| paved.origins[ring[0] as usize]).collect();
        if open.is_empty() {
            2 - loops as i64
        } else {
            (loops - open.len()) as i64
        }
    }

    /// The books as they stand while steps are taken.
    pub fn books(&self, counts: MeshCounts, pages: Pages<'_>) -> Value {
        self.books_of_shape(counts, pages, 0)
    }

    fn books_of_shape(&self, counts: MeshCounts, pages: Pages<'_>, shape: i64) -> Value {
        let (of_quads, of_front) = (quad_area(pages.nodes, pages.quads), front_area(pages.nodes, pages.front));
        let mut two = Exact::ZERO;
        two.add(2.0, 1.0);
        let number = |area: &Exact| Value::Number(area.over(&two));
        let areas_balance = of_quads.plus(&of_front).compared(&self.area) == Ordering::Equal;
        let counted = (counts.front + 2 * counts.quads + self.sampled) as i64 + 2 * shape;
        let counts_balance = counted == 2 * i64::from(counts.nodes);
        let [wrong_edges, all_edges] = self.wrong_edges(pages);
        Value::map([
            ("nodes", Value::count(counts.nodes as usize)),
            ("quads", Value::count(counts.quads)),
            ("edges", Value::count(counts.edges)),
            ("front", Value::count(counts.front)),
            ("sampled", Value::count(self.sampled)),
            ("shape", Value::Number(shape as f64)),
            ("counts_balance", Value::Bool(counts_balance)),
            ("area_start", number(&self.area)),
            ("area_quads", number(&of_quads)),
            ("area_front", number(&of_front)),
            ("areas_balance", Value::Bool(areas_balance)),
            ("edges_looked_at", Value::count(all_edges)),
            ("wrong_edges", Value::count(wrong_edges)),
            ("edges_balance", Value::Bool(wrong_edges == 0)),
        ])
    }
}

#[cfg(test)]
mod tests {
    use sitjorbe::raw::{MeshCounts, Outline, Stepper};
    use sitjorbe::{Memory, Places};

    use super::{Opening, Pages};
    use crate::json::Value;

    /// What the books of a mesh say of counts, of areas and of edges.
    fn balance(opening: &Opening, counts: MeshCounts, pages: Pages<'_>) -> [bool; 3] {
        let books = opening.books(counts, pages);
        ["counts_balance", "areas_balance", "edges_balance"].map(|name| books.get(name) == Some(&Value::Bool(true)))
    }

    #[test]
    fn spoilt_books_do_not_balance() {
        let outline = Outline { outer: &[0.1, 0.0, 5.3, 0.5, 6.0, 4.1, 2.0, 5.5], holes: &[], hole_lengths: &[] };
        let mut memory = Memory::new(Places::for_outline(&outline, 0.7, 1).unwrap()).unwrap();
        let mut stepper = Stepper::new(outline, 0.7, 400, &mut memory).unwrap();
        let opening = Opening::of(&mut stepper);
        let (sampled, whole) = (stepper.nodes(), stepper.front());
        let start = Pages { nodes: &sampled, quads: &[], front: &whole };
        assert_eq!(balance(&opening, stepper.counts(), start), [true; 3]);
        assert!(stepper.pass().placed > 5);
        let (counts, nodes, quads, front) = (stepper.counts(), stepper.nodes(), stepper.quads(), stepper.front());
        let all = Pages { nodes: &nodes, quads: &quads, front: &front };
        assert_eq!(balance(&opening, counts, all), [true; 3]);
        assert_eq!(
            balance(&opening, counts, Pages { quads: &quads[1..], ..all }),
            [true, false, false],
            "a quad is dropped"
        );
        assert_eq!(
            balance(&opening, counts, Pages { front: &front[1..], ..all }),
            [true, false, false],
            "an edge is skipped"
        );
        let fewer = MeshCounts { quads: counts.quads - 1, ..counts };
        assert_eq!(balance(&opening, fewer, all), [false, true, true], "a count is off");
        // A node of the sampled outline that is moved by a hair: the area that was there at first isn't that of what is left.
        let mut moved = nodes.clone();
        moved[0][0] = moved[0][0].next_up();
        assert_eq!(balance(&opening, counts, Pages { nodes: &moved, ..all }), [true, false, true], "a node is moved");
    }

    /// Two quads of one area, one too many and one too few: areas balance, edges don't.
    #[test]
    fn two_errors_of_one_area_show_in_the_edges() {
        let nodes = [[0.0, 0.0], [1.0, 0.0], [2.0, 0.0], [2.0, 1.0], [1.0, 1.0], [0.0, 1.0]];
        let opening = Opening::of_rings(&nodes, &[vec![0, 1, 2, 3, 4, 5]]);
        let counts = MeshCounts { nodes: 6, quads: 2, edges: 7, front: 2 };
        let (left, right) = ([0, 1, 4, 5], [1, 2, 3, 4]);
        let right_books = opening.books(counts, Pages { nodes: &nodes, quads: &[left, right], front: &[] });
        assert_eq!(right_books.get("edges_balance"), Some(&Value::Bool(true)));
        assert_eq!(
            balance(&opening, counts, Pages { nodes: &nodes, quads: &[left, left], front: &[] }),
            [true, true, false]
        );
    }
}
