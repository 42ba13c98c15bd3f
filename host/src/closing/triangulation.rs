//! A triangulation of points: each point is put into the triangle that has it, and edges are flipped until none is better flipped (Lawson, "Software for C1 surface
//! interpolation", 1977). Which side of a line a point is on is decided exactly, on a grid of whole numbers; whether a point is in a circle by floats, which can make
//! the triangles less good and never wrong.

use alloc::vec::Vec;

use super::plane::{step, Point};
use super::work::Stamps;

pub(super) const NONE: u32 = u32::MAX;
/// The corners of the square round everything are points 0 to 3.
pub(super) const CORNERS: usize = 4;

/// Where a point lies.
#[derive(Clone, Copy, Debug, PartialEq, Eq)]
pub(super) enum Spot {
    Inside(u32),
    /// On the edge of a triangle that is opposite to its corner of this place.
    OnEdge(u32, usize),
    AtPoint,
}

#[derive(Default)]
pub(super) struct Triangulation {
    pub(super) points: Vec<Point>,
    grid: Vec<[i64; 2]>,
    pub(super) corners: Vec<[u32; 3]>,
    /// The triangle across the edge opposite to each corner.
    pub(super) across: Vec<[u32; 3]>,
    /// Whether that edge is given, and may not be flipped.
    pub(super) given: Vec<[bool; 3]>,
    /// Whether a triangle is in the part to be filled.
    pub(super) inside: Vec<bool>,
    /// A triangle of each point.
    pub(super) of: Vec<u32>,
    pub(super) stack: Vec<[u32; 2]>,
    pub(super) seen: Stamps,
    centre: Point,
    scale: f64,
}

/// Half the box of all points in the grid's units.
const HALF: f64 = 72_057_594_037_927_936.0;

impl Triangulation {
    /// Begins with the square round a box; it has no points of its own yet.
    pub(super) fn begin(&mut self, low: Point, high: Point) {
        for list in [&mut self.corners, &mut self.across] {
            list.clear();
        }
        self.points.clear();
        self.grid.clear();
        self.given.clear();
        self.inside.clear();
        self.of.clear();
        self.centre = [(low[0] + high[0]) / 2.0, (low[1] + high[1]) / 2.0];
        let half = ((high[0] - low[0]) / 2.0).max((high[1] - low[1]) / 2.0).max(f64::MIN_POSITIVE * 1e20);
        self.scale = HALF / half;
        for [x, y] in [[-1.5, -1.5], [1.5, -1.5], [1.5, 1.5], [-1.5, 1.5]] {
            self.push([self.centre[0] + x * half, self.centre[1] + y * half]);
        }
        self.corners.extend([[0, 1, 2], [0, 2, 3]]);
        self.across.extend([[NONE, 1, NONE], [NONE, NONE, 0]]);
        self.given.extend([[false; 3]; 2]);
        self.inside.extend([false; 2]);
        self.of.copy_from_slice(&[0, 0, 0, 1]);
    }

    fn push(&mut self, point: Point) -> u32 {
        self.points.push(point);
        // A float's cast to a whole number stops at its bounds.
        self.grid.push([0, 1].map(|axis| ((point[axis] - self.centre[axis]) * self.scale) as i64));
        self.of.push(0);
        self.points.len() as u32 - 1
    }

    /// Takes the points in another order, after the square's corners.
    pub(super) fn renumber(&mut self, points: &[Point]) {
        self.points.truncate(CORNERS);
        self.grid.truncate(CORNERS);
        self.of.truncate(CORNERS);
        points.iter().for_each(|&point| _ = self.push(point));
    }

    pub(super) fn at(&self, point: u32) -> Point {
        self.points[point as usize]
    }

    /// The sign of the area of three points of the grid: 1 if they run to the left.
    fn side_of([a, b, c]: [[i64; 2]; 3]) -> i32 {
        let over = |p: [i64; 2], q: [i64; 2], axis: usize| i128::from(p[axis]) - i128::from(q[axis]);
        let area = over(b, a, 0) * over(c, a, 1) - over(b, a, 1) * over(c, a, 0);
        area.signum() as i32
    }

    pub(super) fn side(&self, a: u32, b: u32, c: u32) -> i32 {
        Triangulation::side_of([a, b, c].map(|point| self.grid[point as usize]))
    }

    /// Whether d is in the circle through a, b, c by more than a rounding.
    fn in_circle(&self, [a, b, c]: [u32; 3], d: u32) -> bool {
        let [a, b, c] = [a, b, c].map(|point| step(self.at(d), self.at(point)));
        let lift = |u: Point| u[0] * u[0] + u[1] * u[1];
        let parts = [(a, b, c), (b, c, a), (c, a, b)].map(|(u, v, w)| [lift(u) * v[0] * w[1], lift(u) * v[1] * w[0]]);
        let det: f64 = parts.iter().map(|[plus, minus]| plus - minus).sum();
        let size: f64 = parts.iter().map(|[plus, minus]| plus.abs() + minus.abs()).sum();
        det > 1e-11 * size
    }

    /// The place of a point in a triangle that has it.
    pub(super) fn place(&self, triangle: u32, point: u32) -> usize {
        self.corners[triangle as usize].iter().position(|&corner| corner == point).unwrap_or(0)
    }

    /// Where a point lies, by a walk from a triangle; the walk goes over given edges too.
    pub(super) fn find(&self, point: Point, from: u32) -> Option<(Spot, usize)> {
        let grid = [0, 1].map(|axis| ((point[axis] - self.centre[axis]) * self.scale) as i64);
        let sides = |t: u32| {
            let corners = self.corners[t as usize].map(|corner| self.grid[corner as usize]);
            [0, 1, 2].map(|k| Triangulation::side_of([corners[(k + 1) % 3], corners[(k + 2) % 3], grid]))
        };
        let (mut t, mut steps) = (from, 0);
        while steps < self.corners.len() {
            steps += 1;
            let found = sides(t);
            // Begin at another edge from step to step, so as not to run in circles.
            let out = (0..3).map(|k| (k + steps) % 3).find(|&k| found[k] < 0);
            match out {
                None => return Some((Triangulation::spot(t, found), steps)),
                Some(k) if self.across[t as usize][k] == NONE => return None,
                Some(k) => t = self.across[t as usize][k],
            }
        }
        let all = (0..self.corners.len() as u32).map(|t| (t, sides(t)));
        let found = all.into_iter().find(|(_, found)| found.iter().all(|&side| side >= 0));
        found.map(|(t, found)| (Triangulation::spot(t, found), 2 * steps))
    }

    fn spot(t: u32, sides: [i32; 3]) -> Spot {
        match sides.map(|side| side == 0) {
            [false, false, false] => Spot::Inside(t),
            [true, false, false] => Spot::OnEdge(t, 0),
            [false, true, false] => Spot::OnEdge(t, 1),
            [false, false, true] => Spot::OnEdge(t, 2),
            _ => Spot::AtPoint,
        }
    }

    /// Puts a point where it was found and flips what is better flipped; answers its number, none if there is a point already or the edge is given.
    pub(super) fn insert(&mut self, point: Point, spot: Spot) -> Option<u32> {
        match spot {
            Spot::AtPoint => return None,
            Spot::OnEdge(t, k) if self.given[t as usize][k] => return None,
            Spot::OnEdge(t, k) if self.across[t as usize][k] == NONE => return None,
            _ => {}
        }
        let new = self.push(point);
        match spot {
            Spot::OnEdge(t, k) => self.split_edge(t, k, new),
            Spot::Inside(t) => self.split(t, new),
            Spot::AtPoint => {}
        }
        self.flip_round(new);
        Some(new)
    }

    fn add_triangle(&mut self, corners: [u32; 3], across: [u32; 3], given: [bool; 3], inside: bool) -> u32 {
        self.corners.push(corners);
        self.across.push(across);
        self.given.push(given);
        self.inside.push(inside);
        let t = self.corners.len() as u32 - 1;
        corners.iter().for_each(|&corner| self.of[corner as usize] = t);
        t
    }

    fn set_triangle(&mut self, t: u32, corners: [u32; 3], across: [u32; 3], given: [bool; 3]) {
        self.corners[t as usize] = corners;
        self.across[t as usize] = across;
        self.given[t as usize] = given;
        corners.iter().for_each(|&corner| self.of[corner as usize] = t);
    }

    /// Says to a triangle that across one of its edges there is another one now.
    fn turn_to(&mut self, triangle: u32, old: u32, new: u32) {
        if triangle != NONE {
            let across = &mut self.across[triangle as usize];
            across.iter_mut().filter(|next| **next == old).for_each(|next| *next = new);
        }
    }

    /// Parts a triangle at a new point within it.
    fn split(&mut self, t: u32, new: u32) {
        let ([a, b, c], [at_a, at_b, at_c], [ga, gb, gc]) =
            (self.corners[t as usize], self.across[t as usize], self.given[t as usize]);
        let inside = self.inside[t as usize];
        let second = self.corners.len() as u32;
        let third = second + 1;
        self.add_triangle([new, c, a], [at_b, third, t], [gb, false, false], inside);
        self.add_triangle([new, a, b], [at_c, t, second], [gc, false, false], inside);
        self.set_triangle(t, [new, b, c], [at_a, second, third], [ga, false, false]);
        self.turn_to(at_b, t, second);
        self.turn_to(at_c, t, third);
        self.stack.extend([[t, new], [second, new], [third, new]]);
    }

    /// Parts two triangles at a new point on the edge between them.
    fn split_edge(&mut self, t: u32, k: usize, new: u32) {
        let u = self.across[t as usize][k];
        let (j, [a, b, c]) = (self.across[u as usize].iter().position(|&next| next == t).unwrap_or(0), self.from(t, k));
        let d = self.corners[u as usize][j];
        let around = |s: u32, k: usize| {
            [1, 2].map(|by| (self.across[s as usize][(k + by) % 3], self.given[s as usize][(k + by) % 3]))
        };
        let [(at_b, gb), (at_c, gc)] = around(t, k);
        let [(at_c_too, gc_too), (at_b_too, gb_too)] = around(u, j);
        let (inside, inside_too) = (self.inside[t as usize], self.inside[u as usize]);
        let second = self.corners.len() as u32;
        let third = second + 1;
        // t: a b new, second: a new c, u: d c new, third: d new b.
        self.add_triangle([a, new, c], [u, at_b, t], [false, gb, false], inside);
        self.add_triangle([d, new, b], [t, at_c_too, u], [false, gc_too, false], inside_too);
        self.set_triangle(t, [a, b, new], [third, second, at_c], [false, false, gc]);
        self.set_triangle(u, [d, c, new], [second, third, at_b_too], [false, false, gb_too]);
        self.turn_to(at_b, t, second);
        self.turn_to(at_c_too, u, third);
        self.stack.extend([[t, new], [second, new], [u, new], [third, new]]);
    }

    /// A triangle's corners, from the one of this place.
    pub(super) fn from(&self, t: u32, k: usize) -> [u32; 3] {
        let corners = self.corners[t as usize];
        [corners[k], corners[(k + 1) % 3], corners[(k + 2) % 3]]
    }

    /// The triangle across an edge and its corner that isn't on it, unless the edge is given or is the square's.
    pub(super) fn opposite(&self, t: u32, k: usize) -> Option<(u32, usize)> {
        let u = self.across[t as usize][k];
        if u == NONE || self.given[t as usize][k] {
            return None;
        }
        self.across[u as usize].iter().position(|&next| next == t).map(|j| (u, j))
    }

    /// Flips the edge between two triangles, where the four points are strictly convex.
    pub(super) fn flip(&mut self, t: u32, k: usize) -> bool {
        let Some((u, j)) = self.opposite(t, k) else { return false };
        let ([a, b, c], d) = (self.from(t, k), self.corners[u as usize][j]);
        if self.side(a, b, d) <= 0 || self.side(a, d, c) <= 0 {
            return false;
        }
        let edge = |s: u32, k: usize| (self.across[s as usize][k % 3], self.given[s as usize][k % 3]);
        let ((at_b, gb), (at_c, gc)) = (edge(t, k + 1), edge(t, k + 2));
        // u runs d, c, b: its edge opposite to c is from b to d.
        let ((bd, gbd), (dc, gdc)) = (edge(u, j + 1), edge(u, j + 2));
        self.set_triangle(t, [a, b, d], [bd, u, at_c], [gbd, false, gc]);
        self.set_triangle(u, [a, d, c], [dc, at_b, t], [gdc, gb, false]);
        self.turn_to(bd, u, t);
        self.turn_to(at_b, t, u);
        true
    }

    /// Flips edges opposite to a new point while that puts no other point into a circle.
    fn flip_round(&mut self, new: u32) {
        while let Some([t, _]) = self.stack.pop() {
            let k = self.place(t, new);
            let Some((u, j)) = self.opposite(t, k) else { continue };
            let far = self.corners[u as usize][j];
            if self.in_circle(self.corners[t as usize], far) && self.flip(t, k) {
                self.stack.extend([[t, new], [u, new]]);
            }
        }
    }
}
