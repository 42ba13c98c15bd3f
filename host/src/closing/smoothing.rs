//! Smoothing: each node goes where its quads have the best shape, by Newton's steps on a sum over their corners.
//!
//! The corner's term is its condition number, (|e|^2 + |f|^2) / (2 e x f), squared (Freitag and Knupp, "Tetrahedral mesh improvement via optimization of the element
//! condition number", 2002). Where a corner is turned over, the product is replaced by one that is above 0 everywhere and falls with it, which untangles (Escobar,
//! Rodríguez, Montenegro, Montero and González-Yuste, "Simultaneous untangling and smoothing of tetrahedral meshes", 2003).

use super::plane::{along, cross, dot, length, step, Point};
use super::work::{Halt, Work};

/// A node moves at most so far at once, and is left alone once it moves less: in mean distances to its ring.
const FARTHEST: f64 = 0.4;
const NEAREST: f64 = 0.01;
/// A turned-over or flat ring: the least product in it, in squares of the mean distance.
const FLAT: f64 = 0.02;
const HALVINGS: usize = 5;

/// The sum, its slope and its second derivatives (xx, xy, yy).
#[derive(Clone, Copy, Default)]
struct Jet {
    sum: f64,
    slope: Point,
    bend: [f64; 3],
}

/// The cross product of a corner, and what stands for it: d with E(d) = (d + sqrt(d^2 + 4 guard)) / 2 and its derivatives.
fn guarded(product: f64, guard: f64) -> [f64; 3] {
    if guard == 0.0 {
        return [product, 1.0, 0.0];
    }
    let root = super::plane::root(product * product + 4.0 * guard);
    let value = 0.5 * (product + root);
    // For a product far below 0 the sum above cancels.
    let value = if product < 0.0 { 2.0 * guard / (root - product) } else { value };
    [value, value / root, 2.0 * guard / (root * root * root)]
}

impl Jet {
    /// Adds a corner's term: the squared lengths with slope `a` and second derivative `c`, the product with slope `b`.
    fn add(&mut self, squares: f64, a: Point, c: f64, [e, e1, e2]: [f64; 3], b: Point) {
        let over = 1.0 / e;
        let f = 0.5 * squares * over;
        let part = 0.5 * over;
        let less = f * e1 * over;
        let df = [part * a[0] - less * b[0], part * a[1] - less * b[1]];
        let mixed = part * e1 * over;
        let own = f * (2.0 * e1 * e1 * over - e2) * over;
        let second = [
            c * part - 2.0 * mixed * a[0] * b[0] + own * b[0] * b[0],
            -mixed * (a[0] * b[1] + a[1] * b[0]) + own * b[0] * b[1],
            c * part - 2.0 * mixed * a[1] * b[1] + own * b[1] * b[1],
        ];
        self.sum += f * f;
        self.slope = [self.slope[0] + 2.0 * f * df[0], self.slope[1] + 2.0 * f * df[1]];
        let first = [df[0] * df[0], df[0] * df[1], df[1] * df[1]];
        for k in 0..3 {
            self.bend[k] += 2.0 * (first[k] + f * second[k]);
        }
    }

    /// Newton's step; a short one down the slope where the sum doesn't bend upwards.
    fn down(&self, h: f64) -> Point {
        let [xx, xy, yy] = self.bend;
        let [gx, gy] = self.slope;
        let det = xx * yy - xy * xy;
        if xx > 0.0 && det > 1e-12 * xx * yy {
            return [(xy * gy - yy * gx) / det, (xy * gx - xx * gy) / det];
        }
        let norm = length(self.slope);
        if norm > 0.0 {
            [-0.1 * h * gx / norm, -0.1 * h * gy / norm]
        } else {
            [0.0, 0.0]
        }
    }
}

/// The corners of one quad that see the node p: before, after and opposite are a, b, c.
fn products([a, b, c]: [Point; 3], p: Point) -> [f64; 3] {
    [cross(step(p, b), step(p, a)), cross(step(b, c), step(b, p)), cross(step(a, p), step(a, c))]
}

fn squares([a, b, c]: [Point; 3], p: Point) -> [f64; 3] {
    let square = |u: Point, v: Point| {
        let side = step(u, v);
        dot(side, side)
    };
    let (pa, pb) = (square(p, a), square(p, b));
    [pa + pb, pb + square(b, c), pa + square(a, c)]
}

fn energy(corners: &[[Point; 3]], p: Point, guard: f64) -> f64 {
    let mut sum = 0.0;
    for &corner in corners {
        for (squares, product) in squares(corner, p).into_iter().zip(products(corner, p)) {
            let [e, ..] = guarded(product, guard);
            let f = squares / (2.0 * e);
            sum += f * f;
        }
    }
    sum
}

fn jet(corners: &[[Point; 3]], p: Point, guard: f64) -> Jet {
    let mut all = Jet::default();
    for &[a, b, c] in corners {
        let (squares, products) = (squares([a, b, c], p), products([a, b, c], p));
        let (from_a, from_b) = (step(a, p), step(b, p));
        let sum = [2.0 * (from_a[0] + from_b[0]), 2.0 * (from_a[1] + from_b[1])];
        all.add(squares[0], sum, 4.0, guarded(products[0], guard), [b[1] - a[1], a[0] - b[0]]);
        all.add(
            squares[1],
            [2.0 * from_b[0], 2.0 * from_b[1]],
            2.0,
            guarded(products[1], guard),
            [b[1] - c[1], c[0] - b[0]],
        );
        all.add(
            squares[2],
            [2.0 * from_a[0], 2.0 * from_a[1]],
            2.0,
            guarded(products[2], guard),
            [c[1] - a[1], a[0] - c[0]],
        );
    }
    all
}

impl Work<'_> {
    /// Reads the corners round a node and answers its mean distance to its neighbours.
    fn read_corners(&mut self, node: u32) -> f64 {
        let (net, p) = (&self.net, self.net.at(node));
        self.corners.clear();
        let mut sum = 0.0;
        for &q in net.ring(node) {
            let (ids, k) = (net.quads[q as usize], net.place(q, node));
            let [a, b, c] = [ids[(k + 3) % 4], ids[(k + 1) % 4], ids[(k + 2) % 4]].map(|id| net.at(id));
            self.corners.push([a, b, c]);
            sum += length(step(p, b));
        }
        sum / self.corners.len().max(1) as f64
    }

    /// Moves a node to a better place; answers whether it moved by more than a little.
    fn improve(&mut self, node: u32) -> bool {
        let (p, h) = (self.net.at(node), self.read_corners(node));
        let least = self.corners.iter().flat_map(|&corner| products(corner, p)).fold(f64::INFINITY, f64::min);
        if !(h > 0.0 && least.is_finite()) {
            return false;
        }
        let flat = if least < FLAT * h * h { 0.05 * h * h + 0.3 * (-least).max(0.0) } else { 0.0 };
        let (guard, start) = (flat * flat, jet(&self.corners, p, flat * flat));
        let down = start.down(h);
        let far = length(down);
        if !(far > 0.0 && far.is_finite()) {
            return false;
        }
        let mut part = (FARTHEST * h / far).min(1.0);
        for _ in 0..=HALVINGS {
            let q = along(p, part, down);
            // Without a guard the sum means something only where every corner turns left.
            let turned =
                guard == 0.0 && self.corners.iter().any(|&corner| products(corner, q).iter().any(|&d| d <= 0.0));
            if !turned && energy(&self.corners, q, guard) < start.sum {
                self.net.move_to(node, q);
                return part * far > NEAREST * h;
            }
            part *= 0.5;
        }
        false
    }

    /// Smooths some nodes in so many sweeps; a node rests while neither it nor a neighbour has moved.
    pub(super) fn smooth(&mut self, nodes: &[u32], sweeps: usize) -> Result<(), Halt> {
        let count = self.net.points.len();
        self.in_sweeps.begin(count);
        self.awake.resize(count.max(self.awake.len()), false);
        for &node in nodes {
            if self.net.is_free(node) && self.in_sweeps.add(node) {
                self.awake[node as usize] = true;
            }
        }
        for _ in 0..sweeps {
            let moved = self.sweep(nodes)?;
            if !moved {
                break;
            }
        }
        nodes.iter().for_each(|&node| self.awake[node as usize] = false);
        Ok(())
    }

    fn sweep(&mut self, nodes: &[u32]) -> Result<bool, Halt> {
        let mut any = false;
        for &node in nodes {
            if !self.awake[node as usize] {
                continue;
            }
            self.awake[node as usize] = false;
            self.budget.spend(1)?;
            if self.improve(node) {
                self.wake(node);
                any = true;
            }
        }
        Ok(any)
    }

    /// A smoothing's free nodes round a moved one, itself too, are looked at again.
    fn wake(&mut self, node: u32) {
        for &q in &self.net.rings[node as usize] {
            for id in self.net.quads[q as usize] {
                if self.in_sweeps.has(id) {
                    self.awake[id as usize] = true;
                }
            }
        }
    }
}
