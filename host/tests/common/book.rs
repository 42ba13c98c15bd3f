//! The exact books, kept beside a run. They are fed the sampled outline, and the quads and coordinates that the run
//! answers; the run's front, counts and loops are only looked at to close them.
//!
//! A float counts units of a power of two of which every coordinate at hand is a whole multiple. SCOPE takes the smallest
//! float above 0; both sides of each comparison are of one degree in the unit, so that any will do. Where every coordinate is within
//! 1,001 either way, areas are also kept in whole steps of 1/64.

use super::steps;
use super::whole::{unit, Whole};
use std::collections::BTreeMap;

/// What stands for the next node of a node off the front.
const OFF: usize = usize::MAX;

/// The sampled outline: its nodes, the edges of its rings, and the number of its loops.
#[derive(Clone, Debug)]
pub struct Sampled {
    pub nodes: Vec<[f64; 2]>,
    pub edges: Vec<(usize, usize)>,
    pub loops: usize,
}

/// What a run answered: coordinates and quads a, b, d, c, each as many as it counts; for each node the one after it, if it is on
/// the front; the count of front edges; and the loops listed.
#[derive(Clone, Debug, PartialEq)]
pub struct Answered {
    pub nodes: Vec<[f64; 2]>,
    pub quads: Vec<[usize; 4]>,
    pub next: Vec<Option<usize>>,
    pub front: usize,
    pub loops: Vec<Vec<usize>>,
}

/// Goes through the books of a run; an error says what doesn't hold, and where.
pub fn check(sampled: &Sampled, run: &Answered) -> Result<(), String> {
    let mut book = Book::start(sampled, run)?;
    book.start = book.front_areas();
    book.holds(sampled).map_err(|what| format!("before the first quad: {what}"))?;
    for (k, &quad) in run.quads.iter().enumerate() {
        book.quad(quad, run)
            .and_then(|()| book.corners(quad))
            .and_then(|()| book.holds(sampled))
            .map_err(|what| format!("quad {k}, {quad:?}: {what}"))?;
    }
    book.closes(run).map_err(|what| format!("at the end: {what}"))?;
    require(nets(sampled, run), || "at the end: the edges don't net".to_string())?;
    require(balances(sampled, run), || "at the end: the areas don't balance".to_string())
}

/// The figures of the edges: for two nodes u below v the steps from u to v less those from v to u, where that isn't 0.
#[derive(Clone, Debug, Default, PartialEq)]
struct Net(BTreeMap<(usize, usize), i64>);

impl Net {
    fn of(edges: impl Iterator<Item = (usize, usize)>) -> Net {
        let mut net = Net::default();
        edges.for_each(|(u, v)| net.add(u, v));
        net
    }

    fn add(&mut self, u: usize, v: usize) {
        let figure = self.0.entry((u.min(v), u.max(v))).or_default();
        *figure += (v > u) as i64 - (u > v) as i64;
        if *figure == 0 {
            self.0.remove(&(u.min(v), u.max(v)));
        }
    }
}

/// A quad's steps, run a, b, d, c.
fn sides([a, b, d, c]: [usize; 4]) -> [(usize, usize); 4] {
    [(a, b), (b, d), (d, c), (c, a)]
}

/// The front that is answered, as edges.
fn answered_front(run: &Answered) -> impl Iterator<Item = (usize, usize)> + '_ {
    run.next.iter().enumerate().filter_map(|(u, next)| next.map(|v| (u, v)))
}

/// Whether the figures agree in what is answered alone: the start's are the sum of the quads' and of the answered front's.
pub fn nets(sampled: &Sampled, run: &Answered) -> bool {
    let answered = run.quads.iter().flat_map(|&quad| sides(quad)).chain(answered_front(run));
    Net::of(sampled.edges.iter().copied()) == Net::of(answered)
}

/// Whether the areas balance in what is answered alone: the start's is the sum of the quads' and of the answered front's. The ids
/// must be those of nodes, and the coordinates finite.
pub fn balances(sampled: &Sampled, run: &Answered) -> bool {
    let unit = common_unit(sampled, run);
    let sum = |nodes: &[[f64; 2]], edges: &mut dyn Iterator<Item = (usize, usize)>| {
        let places: Vec<Vector> = nodes.iter().map(|node| node.map(|x| Whole::of_float(x, unit))).collect();
        edges.fold(Whole::default(), |sum, (u, v)| &sum + &cross(&places[u], &places[v]))
    };
    let quads = run.quads.iter().flat_map(|&quad| sides(quad));
    sum(&sampled.nodes, &mut sampled.edges.iter().copied()) == sum(&run.nodes, &mut quads.chain(answered_front(run)))
}

/// The greatest power of two of which every coordinate, and 1, is a whole multiple.
fn common_unit(sampled: &Sampled, run: &Answered) -> i32 {
    let coordinates = sampled.nodes.iter().chain(&run.nodes).flatten();
    coordinates.filter_map(|&x| unit(x)).min().unwrap_or(0).min(0)
}

type Vector = [Whole; 2];

fn step(from: &Vector, to: &Vector) -> Vector {
    [&to[0] - &from[0], &to[1] - &from[1]]
}

fn cross(v: &Vector, w: &Vector) -> Whole {
    &(&v[0] * &w[1]) - &(&w[0] * &v[1])
}

fn squared_length(v: &Vector) -> Whole {
    &(&v[0] * &v[0]) + &(&v[1] * &v[1])
}

fn require(holds: bool, what: impl FnOnce() -> String) -> Result<(), String> {
    if holds {
        Ok(())
    } else {
        Err(what())
    }
}

/// Doubled areas, in units and in steps.
#[derive(Clone, Debug, Default, PartialEq)]
struct Areas {
    units: Whole,
    steps: i64,
}

struct Book {
    /// The coordinates, bit for bit, in units, and in steps.
    nodes: Vec<[f64; 2]>,
    places: Vec<Vector>,
    steps: Vec<[i64; 2]>,
    /// For each node the one after it, and x(u)·y(v) − x(v)·y(u) of the edge to it, in units.
    next: Vec<usize>,
    terms: Vec<Whole>,
    /// The number of front edges and of quads; the starting front's areas, and the quads' together; the start's figures less the quads'.
    front: usize,
    quads: usize,
    start: Areas,
    paved: Areas,
    unpaved: Net,
    /// Whether every coordinate is within 1,001 either way.
    near: bool,
    unit: i32,
    /// A squared length in units is below 1e-300 if `ten_to_300` times it is below `one`, which is 1 in squares of the unit.
    one: Whole,
    ten_to_300: Whole,
}

impl Book {
    fn start(sampled: &Sampled, run: &Answered) -> Result<Book, String> {
        let finite = sampled.nodes.iter().chain(&run.nodes).flatten().all(|x| x.is_finite());
        require(finite, || "a coordinate isn't finite".to_string())?;
        let unit = common_unit(sampled, run);
        let mut book = Book {
            nodes: vec![],
            places: vec![],
            steps: vec![],
            next: vec![],
            terms: vec![],
            front: 0,
            quads: 0,
            start: Areas::default(),
            paved: Areas::default(),
            unpaved: Net::of(sampled.edges.iter().copied()),
            near: sampled.nodes.iter().chain(&run.nodes).flatten().all(|x| x.abs() <= 1_001.0),
            unit,
            one: Whole::of_float(1.0, 2 * unit),
            ten_to_300: Whole::power(10, 300),
        };
        for &node in &sampled.nodes {
            book.push(node);
        }
        for &(u, v) in &sampled.edges {
            book.goes_on(u, v)?;
        }
        Ok(book)
    }

    fn push(&mut self, node: [f64; 2]) {
        self.nodes.push(node);
        self.places.push(node.map(|x| Whole::of_float(x, self.unit)));
        self.steps.push(node.map(|x| if self.near { steps::nearest_step(x) } else { 0 }));
        self.next.push(OFF);
        self.terms.push(Whole::default());
    }

    fn is_there(&self, u: usize, v: usize) -> bool {
        v != OFF && self.next.get(u) == Some(&v)
    }

    fn goes_on(&mut self, u: usize, v: usize) -> Result<(), String> {
        require(u.max(v) < self.nodes.len(), || format!("there is no edge {u} to {v}"))?;
        require(self.next[u] == OFF, || format!("node {u} has two edges out"))?;
        self.next[u] = v;
        self.terms[u] = cross(&self.places[u], &self.places[v]);
        self.front += 1;
        Ok(())
    }

    fn comes_off(&mut self, u: usize, v: usize) -> Result<(), String> {
        require(self.is_there(u, v), || format!("the edge {u} to {v} isn't there"))?;
        self.next[u] = OFF;
        self.front -= 1;
        Ok(())
    }

    /// Node `id` takes the next number, with the coordinates answered for it.
    fn new_node(&mut self, id: usize, run: &Answered) -> Result<(), String> {
        require(id == self.nodes.len(), || format!("{id} isn't the number of the next node"))?;
        let node = run.nodes.get(id).ok_or_else(|| format!("node {id} isn't answered"))?;
        self.push(*node);
        Ok(())
    }

    fn quad(&mut self, [a, b, d, c]: [usize; 4], run: &Answered) -> Result<(), String> {
        self.comes_off(a, b)?;
        if self.is_there(c, a) {
            self.comes_off(c, a)?;
        } else {
            self.new_node(c, run)?;
            self.goes_on(a, c)?;
        }
        if self.is_there(b, d) {
            self.comes_off(b, d)?;
        } else {
            self.new_node(d, run)?;
            self.goes_on(d, b)?;
        }
        self.goes_on(c, d)?;
        for (u, v) in sides([a, b, d, c]) {
            self.paved.units += &cross(&self.places[u], &self.places[v]);
            self.paved.steps += steps::cross(self.steps[u], self.steps[v]);
            self.unpaved.add(v, u);
        }
        self.quads += 1;
        Ok(())
    }

    /// The quad turns left at each corner with a sine above 1/3, and none of its sides is shorter than 1e-150.
    fn corners(&self, quad: [usize; 4]) -> Result<(), String> {
        for k in 0..4 {
            let [u, v, w] = [k, k + 1, k + 2].map(|place| &self.places[quad[place % 4]]);
            let (into, out) = (step(u, v), step(v, w));
            let p = cross(&into, &out);
            let squares = &squared_length(&into) * &squared_length(&out);
            let above = p.is_positive() && (&(&Whole::of(9) * &(&p * &p)) - &squares).is_positive();
            require(above, || format!("the sine at {} isn't above 1/3", quad[(k + 1) % 4]))?;
            let side = &squared_length(&into) * &self.ten_to_300;
            require(!(&side - &self.one).is_negative(), || format!("the side from {} is short", quad[k]))?;
        }
        Ok(())
    }

    /// The front's edges.
    fn edges(&self) -> impl Iterator<Item = (usize, usize)> + '_ {
        self.next.iter().copied().enumerate().filter(|&(_, to)| to != OFF)
    }

    /// The front's signed areas, doubled.
    fn front_areas(&self) -> Areas {
        let mut sum = Areas::default();
        for (u, v) in self.edges() {
            sum.units += &self.terms[u];
            sum.steps += steps::cross(self.steps[u], self.steps[v]);
        }
        sum
    }

    /// What holds before the first quad and after each: figures, areas, loops and counts.
    fn holds(&self, sampled: &Sampled) -> Result<(), String> {
        require(self.unpaved == Net::of(self.edges()), || "the edges don't net".to_string())?;
        let front = self.front_areas();
        require(&self.paved.units + &front.units == self.start.units, || "the areas don't balance".to_string())?;
        let in_steps = self.paved.steps + front.steps;
        require(in_steps == self.start.steps, || "the areas in steps don't balance".to_string())?;
        let lengths = self.loops()?;
        let number = lengths.len();
        require(number == sampled.loops, || format!("{number} loops, where the outline has {}", sampled.loops))?;
        require(lengths.iter().all(|ids| ids.len() % 2 == 0), || "a loop is odd".to_string())?;
        let counted = self.front + 2 * self.quads + sampled.nodes.len();
        require(counted == 2 * self.nodes.len(), || format!("{counted} isn't twice the {} nodes", self.nodes.len()))
    }

    /// The loops of the front, each from its smallest id on; each edge is in exactly one.
    fn loops(&self) -> Result<Vec<Vec<usize>>, String> {
        let mut seen = vec![false; self.next.len()];
        let mut loops = vec![];
        for start in (0..self.next.len()).filter(|&u| self.next[u] != OFF) {
            let (mut ids, mut at) = (vec![], start);
            while !seen[at] {
                require(self.next[at] != OFF, || format!("the front stops at {at}"))?;
                seen[at] = true;
                ids.push(at);
                at = self.next[at];
            }
            if !ids.is_empty() {
                require(at == start, || format!("two edges lead to {at}"))?;
                loops.push(ids);
            }
        }
        Ok(loops)
    }

    /// Where the run stopped: nodes bit for bit, the front edge for edge, the counts, and the loops of three or more.
    fn closes(&self, run: &Answered) -> Result<(), String> {
        let bits = |nodes: &[[f64; 2]]| nodes.iter().flatten().map(|x| x.to_bits()).collect::<Vec<_>>();
        require(bits(&self.nodes) == bits(&run.nodes), || "the nodes differ".to_string())?;
        require(self.next.len() == run.next.len(), || "the nodes' links are more or fewer".to_string())?;
        for (u, (&mine, &theirs)) in self.next.iter().zip(&run.next).enumerate() {
            require(mine == theirs.unwrap_or(OFF), || format!("the edge from {u} leads to {mine}, not to {theirs:?}"))?;
        }
        require(self.front == run.front, || format!("{} front edges, not {}", self.front, run.front))?;
        require(self.quads == run.quads.len(), || "the quads are more or fewer".to_string())?;
        let listed: Vec<Vec<usize>> = self.loops()?.into_iter().filter(|ids| ids.len() >= 3).collect();
        require(listed == run.loops, || format!("the loops {listed:?} aren't those listed, {:?}", run.loops))
    }
}
