//! Each point once: the check of a mesh's cover beside a model, by counted steps and by exact winding numbers.

mod common;

use std::collections::HashMap;

use common::rng::Rng;
use common::sound::{side, Side};
use common::{Drawing, Guarded};
use sitjorbe::raw::{covers, covers_numbers, is_sound, Settings};
use sitjorbe::{Memory, NotCovered, Places, Refusal};

/// A mesh, and the outline and size that it is checked against.
#[derive(Clone, Debug)]
struct Sheet {
    drawing: Drawing,
    size: f64,
    nodes: Vec<[f64; 2]>,
    quads: Vec<[u32; 4]>,
}

/// The sampled outline, as a run of no pass leaves it: its nodes, and the node after each.
fn sampled(drawing: &Drawing, size: f64) -> (Vec<[f64; 2]>, Vec<u32>) {
    let mut memory = Memory::new(Places::for_outline(&drawing.outline(), size, 1).unwrap()).unwrap();
    let mesh = memory.pave(&drawing.outline(), &Settings { size, sweeps: 0, passes: 0 }).unwrap();
    (mesh.nodes().collect(), mesh.links().0.to_vec())
}

impl Sheet {
    /// The mesh of a run, and whether it is whole.
    fn of_run(drawing: Drawing, size: f64) -> (Sheet, bool) {
        let mut memory = Memory::new(Places::for_outline(&drawing.outline(), size, 2).unwrap()).unwrap();
        let mesh = memory.pave(&drawing.outline(), &Settings { size, sweeps: 400, passes: 600 }).unwrap();
        let (nodes, quads, whole) = (mesh.nodes().collect(), mesh.quads().collect(), mesh.is_whole());
        (Sheet { drawing, size, nodes, quads }, whole)
    }

    /// A lattice of squares over a rectangle, as another mesher would lay it: the outline's nodes first, then those within.
    fn lattice(width: usize, height: usize) -> Sheet {
        let [w, h] = [width as f64, height as f64];
        let drawing = Drawing::of_loops(&[vec![[0.0, 0.0], [w, 0.0], [w, h], [0.0, h]]]);
        let mut nodes = sampled(&drawing, 1.0).0;
        let all = (0..=width).flat_map(|x| (0..=height).map(move |y| [x as f64, y as f64]));
        nodes.extend(all.filter(|p| p[0] > 0.0 && p[0] < w && p[1] > 0.0 && p[1] < h));
        let ids: HashMap<[u64; 2], u32> =
            nodes.iter().enumerate().map(|(id, p)| (p.map(f64::to_bits), id as u32)).collect();
        let id = |x: usize, y: usize| ids[&[x as f64, y as f64].map(f64::to_bits)];
        let square = |x, y| [id(x, y), id(x + 1, y), id(x + 1, y + 1), id(x, y + 1)];
        let quads = (0..width).flat_map(|x| (0..height).map(move |y| (x, y))).map(|(x, y)| square(x, y)).collect();
        Sheet { drawing, size: 1.0, nodes, quads }
    }

    /// What the entry answers, which must be the model's; where nothing is refused, each point tried is in as many quads as the outline goes round it.
    fn compare(&self) -> (u32, usize) {
        let axis = |k: usize| self.nodes.iter().map(|node| node[k]).collect::<Vec<f64>>();
        let (xs, ys) = (Guarded::new(&axis(0)), Guarded::new(&axis(1)));
        let quads = Guarded::new(self.quads.as_flattened());
        let (nodes, next) = sampled(&self.drawing, self.size);
        let answer =
            covers_numbers(&self.drawing.outline(), self.size, xs.list(), ys.list(), quads.list(), nodes.len());
        assert_eq!((answer.refusal, answer.place), self.model(&nodes, &next), "{self:?}");
        assert_eq!(answer.sound, answer.refusal == 0 && is_sound(&self.drawing.outline()).unwrap());
        assert!(xs.kept() && ys.kept() && quads.kept());
        if answer.refusal == 0 {
            self.look_at_points(&nodes, &next);
        }
        (answer.refusal, answer.place)
    }

    /// The first refusal of 23 and 27 to 30, from counted steps.
    fn model(&self, start: &[[f64; 2]], next: &[u32]) -> (u32, usize) {
        let far = |x: &f64| !x.is_finite() || x.abs() > 1_001.0;
        if self.quads.as_flattened().iter().any(|&id| id as usize >= self.nodes.len())
            || self.nodes.as_flattened().iter().any(far)
        {
            return (23, 0);
        }
        let corners = |quad: &[u32; 4]| quad.map(|id| self.nodes[id as usize]);
        if let Some(quad) = self.quads.iter().position(|quad| !turns_left(corners(quad))) {
            return (27, quad);
        }
        let mut counts: HashMap<(u32, u32), usize> = HashMap::new();
        self.quads.iter().flat_map(sides).for_each(|side| *counts.entry(side).or_default() += 1);
        let outer = |u: u32, v: u32| next.get(u as usize) == Some(&v);
        let wrong = |(u, v): (u32, u32)| counts[&(u, v)] > 1 || counts.contains_key(&(v, u)) == outer(u, v);
        if let Some(quad) = self.quads.iter().position(|quad| sides(quad).into_iter().any(wrong)) {
            return (28, quad);
        }
        if let Some(node) = (0..next.len()).find(|&u| !counts.contains_key(&(u as u32, next[u]))) {
            return (29, node);
        }
        let moved = |i: &usize| self.nodes.get(*i).map(|p| p.map(f64::to_bits)) != Some(start[*i].map(f64::to_bits));
        (0..start.len()).find(moved).map_or((0, 0), |node| (30, node))
    }

    /// Of nodes, of midpoints of sides and diagonals, and of points beside them: the outline goes round each as often as there are quads that have it.
    fn look_at_points(&self, start: &[[f64; 2]], next: &[u32]) {
        let mid = |[a, b]: [[f64; 2]; 2]| [(a[0] + b[0]) / 2.0, (a[1] + b[1]) / 2.0];
        let edges: Vec<_> = (0..start.len()).map(|u| [start[u], start[next[u] as usize]]).collect();
        for quad in self.quads.iter().step_by(1 + self.quads.len() / 12) {
            let [a, b, d, c] = quad.map(|id| self.nodes[id as usize]);
            for p in [
                a,
                mid([a, b]),
                mid([b, d]),
                mid([a, d]),
                mid([mid([a, d]), mid([b, c])]),
                [a[0].next_up(), a[1]],
                [b[0], b[1].next_down()],
            ] {
                let round = |edges: &[[[f64; 2]; 2]]| edges.iter().map(|&[u, v]| turn(p, u, v)).sum::<i64>();
                let windings = self
                    .quads
                    .iter()
                    .map(|quad| round(&sides(quad).map(|(u, v)| [u, v].map(|id| self.nodes[id as usize]))));
                let windings: Vec<i64> = windings.collect();
                assert!(windings.iter().all(|&n| n == 0 || n == 1), "{p:?}");
                assert_eq!(windings.iter().sum::<i64>(), round(&edges), "{p:?} {self:?}");
            }
        }
    }
}

fn sides([a, b, d, c]: &[u32; 4]) -> [(u32, u32); 4] {
    [(*a, *b), (*b, *d), (*d, *c), (*c, *a)]
}

/// What a step counts of the way round p, by the half-open rule.
fn turn(p: [f64; 2], u: [f64; 2], v: [f64; 2]) -> i64 {
    match (u[1] > p[1], v[1] > p[1]) {
        (false, true) => i64::from(side(u, v, p) == Side::Left),
        (true, false) => -i64::from(side(u, v, p) == Side::Right),
        _ => 0,
    }
}

/// The paving's test of a quad's corners, as the reference has it.
fn turns_left(corners: [[f64; 2]; 4]) -> bool {
    let least = f64::from_bits(0x3fd5_e3a8_748a_0bf5);
    let after = |k: usize| corners[(k + 1) % 4];
    let area = (0..4).fold(0.0, |sum, k| sum + (corners[k][0] * after(k)[1] - after(k)[0] * corners[k][1]));
    let turns = |k: usize| {
        let ([a, b], c) = ([corners[k], after(k)], after(k + 1));
        let (u, v) = ([b[0] - a[0], b[1] - a[1]], [c[0] - b[0], c[1] - b[1]]);
        let [lu, lv] = [u, v].map(|w: [f64; 2]| (w[0] * w[0] + w[1] * w[1]).sqrt());
        lu > 1e-12 && lv > 1e-12 && (u[0] * v[1] - u[1] * v[0]) / (lu * lv) > least
    };
    area > 1e-12 && (0..4).all(turns)
}

/// A star-shaped outline.
fn star(rng: &mut Rng, points: usize) -> Drawing {
    let at = |k: usize, radius: f64| {
        let angle = std::f64::consts::TAU * k as f64 / points as f64;
        [radius * angle.cos(), radius * angle.sin()]
    };
    let radii: Vec<f64> = (0..points).map(|_| 6.0 + 2.0 * rng.unit()).collect();
    Drawing::of_loops(&[(0..points).map(|k| at(k, radii[k])).collect()])
}

#[test]
fn whole_runs_are_covered_and_open_ones_say_where_not() {
    let mut rng = Rng(45);
    let (mut whole, mut open) = (0, 0);
    for round in 0..60 {
        let (sheet, is_whole) = Sheet::of_run(star(&mut rng, 5 + round % 9), 0.8 + rng.unit().abs());
        let (refusal, _) = sheet.compare();
        assert_eq!(refusal == 0, is_whole, "{refusal}");
        (whole, open) = (whole + usize::from(is_whole), open + usize::from(!is_whole));
    }
    for side in [1.0, 2.0, 3.0] {
        let (sheet, is_whole) = Sheet::of_run(Drawing::square(side), 1.0);
        assert!(is_whole && sheet.compare() == (0, 0));
        whole += 1;
    }
    assert!(whole > 2 && open > 2, "{whole} whole, {open} open");
}

#[test]
fn damage_is_found() {
    let sheet = Sheet::lattice(4, 3);
    assert_eq!(sheet.compare(), (0, 0));
    let damaged = |change: &dyn Fn(&mut Sheet)| {
        let mut sheet = sheet.clone();
        change(&mut sheet);
        sheet.compare()
    };
    // A quad left out, given twice, run the other way, from another corner, folded.
    assert_eq!(
        damaged(&|s| {
            s.quads.remove(4);
        })
        .0,
        28
    );
    assert_eq!(damaged(&|s| s.quads.push(s.quads[4])), (28, 4));
    assert_eq!(damaged(&|s| s.quads[4].reverse()), (27, 4));
    assert_eq!(damaged(&|s| s.quads[4].rotate_left(1)), (0, 0));
    // No quad at all, a node of the outline moved by one unit in the last place, one within moved, the mesh's last node left out.
    assert_eq!(damaged(&|s| s.quads.clear()), (29, 0));
    assert_eq!(damaged(&|s| s.nodes[5][0] = s.nodes[5][0].next_up()), (30, 5));
    let last = sheet.nodes.len() - 1;
    assert_eq!(damaged(&|s| s.nodes[last][0] += 0.25), (0, 0));
    assert_eq!(
        damaged(&|s| {
            s.nodes.pop();
        }),
        (23, 0)
    );
    // Coordinates that are none, ids of no node.
    assert_eq!(damaged(&|s| s.nodes[last][1] = f64::NAN), (23, 0));
    assert_eq!(damaged(&|s| s.nodes[last][1] = 1_001f64.next_up()), (23, 0));
    assert_eq!(damaged(&|s| s.quads[2][3] = u32::MAX), (23, 0));
    // Two quads for two others that have the same areas in all: one is lost, the other counted twice.
    assert_eq!(damaged(&|s| s.quads[7] = s.quads[4]).0, 28);
}

#[test]
fn a_hole_that_is_paved_over_is_found() {
    let mut sheet = Sheet::lattice(3, 3);
    let hole = vec![[1.0, 1.0], [1.0, 2.0], [2.0, 2.0], [2.0, 1.0]];
    sheet.drawing = Drawing::of_loops(&[vec![[0.0, 0.0], [3.0, 0.0], [3.0, 3.0], [0.0, 3.0]], hole]);
    // The nodes within are the hole's now, in the order in which it is sampled.
    let (start, _) = sampled(&sheet.drawing, 1.0);
    let place = |p: [f64; 2]| start.iter().position(|&q| q == p).unwrap() as u32;
    for quad in &mut sheet.quads {
        *quad = quad.map(|id| place(sheet.nodes[id as usize]));
    }
    sheet.nodes = start;
    assert_eq!(sheet.compare().0, 28, "the quad in the hole runs along it the wrong way");
    sheet.quads.remove(4);
    assert_eq!(sheet.compare(), (0, 0));
}

#[test]
fn random_damage_is_judged_as_the_model_does() {
    let mut rng = Rng(46);
    let mut refusals = [0; 31];
    for round in 0..600 {
        let mut sheet = if round % 2 == 0 {
            Sheet::lattice(2 + rng.below(4), 2 + rng.below(3))
        } else {
            Sheet::of_run(star(&mut rng, 6), 2.5).0
        };
        for _ in 0..rng.below(3) {
            let (quad, other) = (rng.below(sheet.quads.len().max(1)), rng.below(sheet.quads.len().max(1)));
            match rng.below(6) {
                _ if sheet.quads.is_empty() => {}
                0 => {
                    sheet.quads.remove(quad);
                }
                1 => sheet.quads.push(sheet.quads[quad]),
                2 => sheet.quads[quad][rng.below(4)] = sheet.quads[other][rng.below(4)],
                3 => sheet.quads.swap(quad, other),
                4 => sheet.quads[quad].rotate_left(rng.below(4)),
                _ => {
                    let node = rng.below(sheet.nodes.len());
                    sheet.nodes[node][rng.below(2)] += 1e-3;
                }
            }
        }
        refusals[sheet.compare().0 as usize] += 1;
    }
    assert!([0, 27, 28].iter().all(|&number: &usize| refusals[number] > 10), "{refusals:?}");
}

#[test]
fn what_is_lent_may_be_too_little() {
    let sheet = Sheet::lattice(2, 2);
    let axis = |k: usize| sheet.nodes.iter().map(|node| node[k]).collect::<Vec<f64>>();
    let (xs, ys, quads) = (axis(0), axis(1), sheet.quads.as_flattened());
    let outline = sheet.drawing.outline();
    let places = sampled(&sheet.drawing, 1.0).0.len();
    assert_eq!(covers_numbers(&outline, 1.0, &xs, &ys, quads, places - 1).refusal, 10);
    assert_eq!(covers_numbers(&outline, 1.0, &xs, &ys[1..], quads, places).refusal, 23);
    assert_eq!(covers_numbers(&outline, f64::NAN, &xs, &ys, quads, places).refusal, 5);
    assert_eq!(covers(&outline, 1.0, &xs[..3], &ys[..3], &[]), Err(NotCovered::FewerNodes { sampled: places }));
    assert_eq!(covers(&outline, 200.0, &xs, &ys, quads), Err(NotCovered::Refused(Refusal::SizeOutOfRange)));
    let many = [0, 1, 2, 3].repeat(250_001);
    assert_eq!(covers(&outline, 1.0, &xs, &ys, &many), Err(NotCovered::Refused(Refusal::UnsoundMesh)));
    assert!(covers(&outline, 1.0, &xs, &ys, quads).unwrap().sound);
}

#[test]
fn the_pages_examples() {
    let drawing = Drawing::square(1.0);
    let nodes = sampled(&drawing, 1.0).0;
    let one =
        |quads: &[[u32; 4]]| Sheet { drawing: drawing.clone(), size: 1.0, nodes: nodes.clone(), quads: quads.to_vec() };
    assert_eq!(one(&[[0, 1, 2, 3]]).compare(), (0, 0));
    assert_eq!(one(&[[0, 3, 2, 1]]).compare(), (27, 0));
    assert_eq!(one(&[[0, 1, 2, 3], [0, 1, 2, 3]]).compare(), (28, 0));
    assert_eq!(one(&[]).compare(), (29, 0));
    let mut moved = one(&[[0, 1, 2, 3]]);
    moved.nodes[2][0] = 1f64.next_up();
    assert_eq!(moved.compare(), (30, 2));
    moved.nodes[2][0] = 1.0;
    moved.nodes[0][0] = -0.0;
    assert_eq!(moved.compare(), (30, 0), "another zero is another node");
    assert_eq!(Sheet { nodes: nodes[..3].to_vec(), ..one(&[]) }.compare(), (29, 0));
}
