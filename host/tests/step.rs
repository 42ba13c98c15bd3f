//! The front stepped by hand: hand stepping on small meshes, its refusals in their order, and the clauses of 23 one by one and in pairs. What 23 asks is
//! written here from SCOPE; steps beside the reference are in differential/steps.rs.

mod common;

use common::rng::Rng;
use common::{bits, Drawing, Guarded};
use sitjorbe::raw::{preview_numbers, step_numbers, Ground, MeshCounts, MeshLists, MeshRead, Settings, Stepper};
use sitjorbe::{End, FieldRecord, Memory, Outcome, Places, Refusal, OFF};

const ROOM: Places = Places { field_nodes: 1_600, nodes: 200, quads: 200, edges: 600, points: 64 };

/// A mesh with its lists owned, as it is lent.
#[derive(Clone, Debug, PartialEq)]
struct Owned {
    xs: Vec<f64>,
    ys: Vec<f64>,
    next: Vec<u32>,
    prev: Vec<u32>,
    origins: Vec<u16>,
    quads: Vec<u32>,
    edges: Vec<u32>,
    counts: MeshCounts,
}

impl Owned {
    fn lists(&mut self) -> MeshLists<'_> {
        let Owned { xs, ys, next, prev, origins, quads, edges, .. } = self;
        MeshLists { xs, ys, next, prev, origins, quads, edges }
    }

    fn read(&self) -> MeshRead<'_> {
        let Owned { xs, ys, next, prev, origins, quads, edges, .. } = self;
        MeshRead { xs, ys, next, prev, origins, quads, edges }
    }

    /// A step, with the counts as they are.
    fn step(&mut self, floor: &Floor, edge: [u32; 2]) -> sitjorbe::ffi::StepAnswer {
        let counts = self.counts;
        step_numbers(&floor.ground(), &mut self.lists(), counts, edge)
    }

    /// Every bit of every list.
    fn bits(&self) -> Vec<Vec<u64>> {
        let Owned { xs, ys, next, prev, origins, quads, edges, .. } = self;
        vec![bits(xs), bits(ys), bits(next), bits(prev), bits(origins), bits(quads), bits(edges)]
    }

    /// Refusal 23, clause by clause.
    fn is_unsound(&self) -> bool {
        let MeshCounts { nodes, quads, edges, front } = self.counts;
        let n = nodes as usize;
        let shortest = [self.xs.len(), self.ys.len(), self.next.len(), self.prev.len(), self.origins.len()];
        if shortest.iter().any(|&length| n > length) || nodes == u32::MAX {
            return true;
        }
        if quads > self.quads.len() / 4 || edges > self.edges.len() / 2 {
            return true;
        }
        let ids = self.quads[..4 * quads].iter().chain(&self.edges[..2 * edges]);
        if ids.clone().any(|&id| id >= nodes) {
            return true;
        }
        let inverse = |there: &[u32], back: &[u32]| {
            (0..n).all(|u| there[u] == OFF || there[u] < nodes && back[there[u] as usize] == u as u32)
        };
        if !inverse(&self.next, &self.prev) || !inverse(&self.prev, &self.next) {
            return true;
        }
        if self.next[..n].iter().filter(|&&link| link != OFF).count() != front {
            return true;
        }
        let coordinates = self.xs[..n].iter().chain(&self.ys[..n]);
        coordinates.clone().any(|x| !(x.abs() <= 1_001.0))
    }

    fn has_edge(&self, [a, b]: [u32; 2]) -> bool {
        b != OFF && a < self.counts.nodes && self.next[a as usize] == b
    }
}

/// What an outline's steps stand on, owned.
struct Floor {
    drawing: Drawing,
    size: f64,
    record: FieldRecord,
    values: Vec<f64>,
    marks: Vec<u8>,
}

impl Floor {
    fn ground(&self) -> Ground<'_> {
        let Floor { drawing, size, record, values, marks } = self;
        Ground { outline: drawing.outline(), size: *size, record: *record, values, marks }
    }
}

/// An outline sampled and paved for so many passes, its mesh and what it stands on. The lists have places to spare, with contents that no mesh has.
fn paved(drawing: &Drawing, size: f64, passes: usize) -> (Floor, Owned) {
    let mut memory = Memory::new(ROOM).unwrap();
    let mesh = memory.pave(&drawing.outline(), &Settings { size, sweeps: 400, passes }).unwrap();
    let (values, marks) = mesh.field();
    let floor =
        Floor { drawing: drawing.clone(), size, record: mesh.record(), values: values.to_vec(), marks: marks.to_vec() };
    let (next, prev) = mesh.links();
    let counts = MeshCounts {
        nodes: mesh.node_count() as u32,
        quads: mesh.quad_count(),
        edges: mesh.edge_count(),
        front: mesh.front_count(),
    };
    let spare = 9;
    let numbers = |list: &[u32]| [list, &[7; 9]].concat();
    let owned = Owned {
        xs: mesh.nodes().map(|[x, _]| x).chain([f64::NAN; 9]).collect(),
        ys: mesh.nodes().map(|[_, y]| y).chain([2e9; 9]).collect(),
        next: numbers(next),
        prev: numbers(prev),
        origins: vec![3; mesh.node_count() + spare],
        quads: mesh.quads().flatten().chain([u32::MAX; 36]).collect(),
        edges: mesh.edges().flatten().chain([u32::MAX; 72]).collect(),
        counts,
    };
    (floor, owned)
}

fn square() -> (Floor, Owned) {
    paved(&Drawing::square(2.0), 1.0, 0)
}

/// The refusals of a step and of a preview, with every list as it was.
fn refusals(floor: &Floor, mesh: &Owned, edge: [u32; 2]) -> [u32; 2] {
    let mut copy = mesh.clone();
    let step = step_numbers(&floor.ground(), &mut copy.lists(), mesh.counts, edge);
    let mut list = Guarded::new(&vec![9; 2 * mesh.counts.front.min(1 << 20) + 4]);
    let preview = preview_numbers(&floor.ground(), &mesh.read(), mesh.counts, edge, list.list_mut());
    if step.refusal != 0 {
        assert_eq!(copy.bits(), mesh.bits(), "written");
        let sitjorbe::ffi::StepAnswer { outcome, nodes, quads, edges, front, .. } = step;
        assert_eq!((outcome, nodes, quads, edges, front), (0, 0, 0, 0, 0));
    }
    if preview.refusal != 0 {
        assert!(list.kept(), "written");
        let zero = sitjorbe::ffi::PreviewAnswer {
            refusal: preview.refusal,
            outcome: 0,
            a: 0,
            b: 0,
            d: 0,
            c: 0,
            new_nodes: 0,
            cx: 0.0,
            cy: 0.0,
            dx: 0.0,
            dy: 0.0,
            front: 0,
        };
        assert_eq!(preview, zero);
    }
    [step.refusal, preview.refusal]
}

#[test]
fn document_01s_square_looked_at_and_stepped() {
    let drawing = Drawing::square(2.0);
    let mut memory = Memory::new(ROOM).unwrap();
    let mut stepper = Stepper::new(drawing.outline(), 1.0, 400, &mut memory).unwrap();
    assert_eq!(stepper.counts(), MeshCounts { nodes: 8, quads: 0, edges: 8, front: 8 });

    let preview = stepper.preview([3, 4]).unwrap();
    assert_eq!((preview.outcome, preview.quad), (Outcome::Placed, Some([3, 4, 5, 8])));
    assert_eq!((preview.new_c, preview.new_d), (Some([1.0, 1.0]), None));
    let front: Vec<[u32; 2]> = preview.front().collect();
    assert_eq!(front, [[0, 1], [1, 2], [2, 3], [3, 8], [5, 6], [6, 7], [7, 0], [8, 5]]);
    assert_eq!(stepper.counts().nodes, 8, "only looked at");

    assert_eq!(stepper.step([3, 4]), Ok(Outcome::Placed));
    assert_eq!(stepper.front(), front);
    assert_eq!((stepper.nodes()[8], stepper.quads()), ([1.0, 1.0], vec![[3, 4, 5, 8]]));
    assert_eq!(stepper.step([3, 4]), Err(Refusal::NotOnFront));
    assert_eq!(stepper.step([4, OFF]), Err(Refusal::NotOnFront), "node 4 is off the front now");
    assert_eq!(stepper.preview([4, OFF]).map(|_| ()), Err(Refusal::NotOnFront));

    // The other three in turn, and the loop of two that is left answers none.
    for edge in [[5, 6], [2, 3], [0, 1]] {
        assert_eq!(stepper.step(edge), Ok(Outcome::Placed), "{edge:?}");
    }
    assert_eq!((stepper.counts().nodes, stepper.counts().quads, stepper.counts().front), (9, 4, 2));
    for edge in stepper.front() {
        let preview = stepper.preview(edge).unwrap();
        assert_eq!((preview.outcome, preview.quad, preview.front().len()), (Outcome::None, None, 2));
        assert_eq!(stepper.step(edge), Ok(Outcome::None));
    }
    assert_eq!(stepper.origins(), [0; 9]);
}

#[test]
fn new_nodes_take_the_number_of_node_a() {
    let hole = vec![[3.0, 3.0], [3.0, 5.0], [5.0, 5.0], [5.0, 3.0]];
    let drawing = Drawing::of_loops(&[vec![[0.0, 0.0], [8.0, 0.0], [8.0, 8.0], [0.0, 8.0]], hole]);
    let mut memory = Memory::new(ROOM).unwrap();
    let mut stepper = Stepper::new(drawing.outline(), 1.0, 400, &mut memory).unwrap();
    assert_eq!(stepper.origins(), [vec![0; 32], vec![1; 8]].concat());
    let mut placed = [0, 0];
    for _ in 0..3 {
        for edge in stepper.front() {
            let (before, number) = (stepper.counts().nodes as usize, stepper.origins()[edge[0] as usize]);
            match stepper.step(edge) {
                Ok(Outcome::Placed) => placed[usize::from(number)] += 1,
                Ok(_) => {}
                Err(refusal) => assert_eq!(refusal, Refusal::NotOnFront),
            }
            assert!(stepper.origins()[before..].iter().all(|&origin| origin == number));
        }
    }
    assert!(placed[0] > 5 && placed[1] > 5, "{placed:?}");

    // Whatever stands there is taken on: the numbers' contents are free.
    let (floor, mut mesh) = square();
    mesh.origins = (0..17).map(|k| 65_535 - k).collect();
    let before = mesh.origins.clone();
    assert_eq!(mesh.step(&floor, [3, 4]).nodes, 9);
    assert_eq!(mesh.origins[8], before[3]);
    assert_eq!((&mesh.origins[..8], &mesh.origins[9..]), (&before[..8], &before[9..]));
}

/// Outlines, each with a size.
fn drawings() -> [(Drawing, f64); 4] {
    let hole = vec![[2.0, 2.0], [2.0, 4.0], [4.0, 4.0], [4.0, 2.0]];
    let slanted = vec![[12.0, -2.0], [11.0, 3.0], [16.0, 1.0]];
    [
        (Drawing::square(4.0), 1.0),
        (Drawing::of_loops(&[vec![[0.0, 0.0], [5.0, 0.5], [6.0, 4.0], [2.0, 5.5], [-1.0, 3.0]]]), 0.7),
        (Drawing::of_loops(&[vec![[0.0, 0.0], [6.0, 0.0], [6.0, 6.0], [0.0, 6.0]], hole]), 0.9),
        (Drawing::of_loops(&[vec![[-30.0, 0.0], [0.0, -25.0], [28.0, 2.0], [1.0, 24.0]], slanted]), 4.0),
    ]
}

/// A stepper's own passes leave what a run's leave, from the sampled outline on and after passes of a run; they stop where the run does.
#[test]
fn passes_of_a_stepper() {
    let mut outcomes = [0; 4];
    for (place, (drawing, size)) in drawings().into_iter().enumerate() {
        for (quads, first) in [(200, 0), (200, 2), (9, 0)] {
            let places = Places { quads, ..ROOM };
            let settings = |passes| Settings { size, sweeps: 400, passes };
            let (mut run, mut memory) = (Memory::new(places).unwrap(), Memory::new(places).unwrap());
            let mut stepper = Stepper::after(drawing.outline(), &settings(first), &mut memory).unwrap();
            for passes in first + 1..12 {
                let (before, pass) = (stepper.counts().quads, stepper.pass());
                let mesh = run.pave(&drawing.outline(), &settings(passes)).unwrap();
                assert_eq!(pass.placed, mesh.quad_count() - before, "drawing {place}, pass {passes}");
                assert_eq!(stepper.quads(), mesh.quads().collect::<Vec<_>>());
                assert_eq!(stepper.front(), mesh.front().collect::<Vec<_>>());
                assert_eq!(stepper.edges(), mesh.edges().collect::<Vec<_>>());
                assert_eq!(stepper.origins(), mesh.origins());
                let at =
                    |nodes: Vec<[f64; 2]>| nodes.into_iter().map(|node| node.map(f64::to_bits)).collect::<Vec<_>>();
                assert_eq!(at(stepper.nodes()), at(mesh.nodes().collect()));
                let expected = match mesh.end() {
                    End::Passes => Outcome::Placed,
                    End::Still => Outcome::None,
                    End::Full => Outcome::Full,
                    End::Cap => Outcome::Cap,
                };
                assert_eq!(pass.outcome, expected);
                outcomes[expected as usize] += 1;
            }
        }
    }
    assert!(outcomes[..3].iter().all(|count| *count > 10), "placed, none, full: {outcomes:?}");
}

/// Steps in the order of the passes leave what the passes leave.
#[test]
fn sorted_steps_are_the_passes() {
    for (drawing, size) in drawings() {
        for passes in 0..4 {
            let (_, expected) = paved(&drawing, size, passes);
            let mut memory = Memory::new(ROOM).unwrap();
            let mut stepper = Stepper::new(drawing.outline(), size, 400, &mut memory).unwrap();
            for _ in 0..passes {
                for edge in stepper.front() {
                    let _gone = stepper.step(edge);
                }
            }
            assert_eq!(stepper.counts(), expected.counts);
            let quads: Vec<u32> = stepper.quads().concat();
            assert_eq!(quads, expected.quads[..quads.len()]);
            // And a stepper after the passes goes on from there.
            let settings = Settings { size, sweeps: 400, passes };
            let mut other = Memory::new(ROOM).unwrap();
            let mut after = Stepper::after(drawing.outline(), &settings, &mut other).unwrap();
            assert_eq!(
                (after.counts(), after.quads(), after.edges()),
                (stepper.counts(), stepper.quads(), stepper.edges())
            );
            assert_eq!(after.origins(), stepper.origins());
        }
    }
}

/// Full is answered with nothing placed, and not by trying the other directions; it comes for want of a node, a quad or an edge alone.
#[test]
fn full_for_want_of_each() {
    let (floor, mesh) = square();
    let lend = |nodes: usize, quads: usize, edges: usize| {
        let mut mesh = mesh.clone();
        mesh.xs.truncate(nodes);
        mesh.quads.truncate(4 * quads);
        mesh.edges.truncate(2 * edges);
        mesh
    };
    // The step 3 4 adds a node, a quad and two edges.
    for (mut lent, outcome) in [
        (lend(9, 1, 10), Outcome::Placed),
        (lend(8, 1, 10), Outcome::Full),
        (lend(9, 0, 10), Outcome::Full),
        (lend(9, 1, 9), Outcome::Full),
    ] {
        let before = lent.bits();
        let mut list = vec![9; 2 * 8 + 4];
        let preview = preview_numbers(&floor.ground(), &lent.read(), lent.counts, [3, 4], &mut list);
        let step = step_numbers(&floor.ground(), &mut lent.lists(), mesh.counts, [3, 4]);
        assert_eq!((step.refusal, step.outcome, preview.outcome), (0, outcome as u32, outcome as u32));
        if outcome == Outcome::Full {
            assert_eq!(lent.bits(), before, "nothing is written");
            assert_eq!((step.nodes, step.quads, step.edges, step.front), (8, 0, 8, 8));
            assert_eq!((preview.a, preview.b, preview.d, preview.c, preview.new_nodes), (0, 0, 0, 0, 0));
        }
        assert_eq!(preview.front, step.front);
    }
    for short in ["ys", "next", "prev", "origins"] {
        let mut lent = mesh.clone();
        match short {
            "ys" => lent.ys.truncate(8),
            "next" => lent.next.truncate(8),
            "prev" => lent.prev.truncate(8),
            _ => lent.origins.truncate(8),
        }
        let step = step_numbers(&floor.ground(), &mut lent.lists(), mesh.counts, [3, 4]);
        assert_eq!((step.refusal, step.outcome), (0, Outcome::Full as u32), "{short}");
    }
}

/// The step that places quad 250,000 answers placed; with as many standing, cap; and an edge off the front is 24 even there.
#[test]
fn the_cap() {
    let (floor, mesh) = square();
    for (quads, outcome) in [(249_999, Outcome::Placed), (250_000, Outcome::Cap), (250_001, Outcome::Cap)] {
        let mut lent = mesh.clone();
        lent.quads = vec![0; 4 * 250_002];
        lent.counts.quads = quads;
        let before = lent.bits();
        let mut list = vec![9; 2 * 8 + 4];
        let preview = preview_numbers(&floor.ground(), &lent.read(), lent.counts, [3, 4], &mut list);
        let off = step_numbers(&floor.ground(), &mut lent.clone().lists(), lent.counts, [4, 3]);
        let counts = lent.counts;
        let step = step_numbers(&floor.ground(), &mut lent.lists(), counts, [3, 4]);
        assert_eq!((step.refusal, step.outcome, preview.outcome, off.refusal), (0, outcome as u32, outcome as u32, 24));
        assert_eq!(step.quads, quads + usize::from(outcome == Outcome::Placed));
        assert_eq!(lent.bits() == before, outcome == Outcome::Cap);
    }
}

/// 1 to 7, 11, 23, 24: each alone, and each before all that come after it.
#[test]
fn refusals_in_their_order() {
    type Damage = (u32, fn(&mut Floor, &mut Owned, &mut [u32; 2]));
    let damages: [Damage; 10] = [
        (1, |floor, _, _| floor.drawing.hole_lengths = vec![1]),
        (2, |floor, _, _| floor.drawing.outer.truncate(4)),
        (3, |floor, _, _| floor.drawing.outer[3] = f64::NAN),
        (4, |floor, _, _| floor.drawing.outer[2] = 1_000.0f64.next_up()),
        (5, |floor, _, _| floor.size = -0.0),
        (6, |floor, _, _| floor.size = 100.0f64.next_up()),
        (7, |floor, _, _| floor.drawing.outer.iter_mut().skip(1).step_by(2).for_each(|y| *y = 0.0)),
        (11, |floor, _, _| floor.marks.push(0)),
        (23, |_, mesh, _| mesh.counts.front += 1),
        (24, |_, _, edge| *edge = [1, 0]),
    ];
    for first in 0..damages.len() {
        for second in first..damages.len() {
            let (mut floor, mut mesh) = square();
            let mut edge = [3, 4];
            // The later one first: 7 flattens what 3 and 4 have damaged, and must not mend it.
            damages[second].1(&mut floor, &mut mesh, &mut edge);
            damages[first].1(&mut floor, &mut mesh, &mut edge);
            let number = damages[first].0;
            assert_eq!(refusals(&floor, &mesh, edge), [number; 2], "{} and {}", number, damages[second].0);
        }
    }
    // 7 is a reading: (0,0) (1,0) (2,0) with a sound mesh and a sound record.
    let (mut floor, mesh) = square();
    floor.drawing = Drawing::of_loops(&[vec![[0.0, 0.0], [1.0, 0.0], [2.0, 0.0]]]);
    assert_eq!(refusals(&floor, &mesh, [3, 4]), [7, 7]);
    // 8, 9 and 10 have no subject: many sweeps, few places for a field.
    let (floor, mesh) = square();
    assert_eq!(refusals(&floor, &mesh, [3, 4]), [0, 0]);
}

/// The meshes of refusal 23: two nodes, and one change for each clause.
#[test]
fn the_smallest_meshes_of_23() {
    let (floor, _) = square();
    let pair = Owned {
        xs: vec![0.0, 1.0],
        ys: vec![0.0, 0.0],
        next: vec![1, 0],
        prev: vec![1, 0],
        origins: vec![0; 2],
        quads: vec![],
        edges: vec![],
        counts: MeshCounts { nodes: 2, quads: 0, edges: 0, front: 2 },
    };
    assert_eq!(refusals(&floor, &pair, [0, 1]), [0, 0]);
    let changes: [(&str, fn(&mut Owned), bool); 22] = [
        ("n = 3", |m| m.counts.nodes = 3, false),
        ("q = 1", |m| m.counts.quads = 1, false),
        ("e = 1", |m| m.counts.edges = 1, false),
        ("q = 2^62", |m| m.counts.quads = 1 << 62, false),
        ("e = 2^63", |m| m.counts.edges = 1 << 63, false),
        ("n = 4,294,967,295", |m| m.counts.nodes = u32::MAX, false),
        ("next 0 = 2", |m| m.next[0] = 2, false),
        ("a quad with id 1", |m| (m.quads, m.counts.quads) = (vec![0, 1, 1, 0], 1), true),
        ("a quad with id 2", |m| (m.quads, m.counts.quads) = (vec![0, 1, 2, 0], 1), false),
        ("an edge with id 1", |m| (m.edges, m.counts.edges) = (vec![1, 1], 1), true),
        ("an edge with id 2", |m| (m.edges, m.counts.edges) = (vec![0, 2], 1), false),
        ("prev 1 = 1", |m| m.prev[1] = 1, false),
        ("next 1 = off", |m| m.next[1] = OFF, false),
        ("prev 1 = off", |m| m.prev[1] = OFF, false),
        ("f = 1", |m| m.counts.front = 1, false),
        ("f = 3", |m| m.counts.front = 3, false),
        ("x = 1,001", |m| m.xs[0] = 1_001.0, true),
        ("x = -1,001", |m| m.xs[0] = -1_001.0, true),
        ("x above 1,001", |m| m.xs[0] = 1_001.0f64.next_up(), false),
        ("y below -1,001", |m| m.ys[1] = -(1_001.0f64.next_up()), false),
        ("x infinite", |m| m.xs[0] = f64::INFINITY, false),
        ("y not a number", |m| m.ys[1] = f64::NAN, false),
    ];
    for (what, change, passes) in changes {
        let mut mesh = pair.clone();
        change(&mut mesh);
        assert_eq!(mesh.is_unsound(), !passes, "{what}");
        let expected = if passes { 0 } else { 23 };
        assert_eq!(refusals(&floor, &mesh, [0, 1]), [expected; 2], "{what}");
        // 24 comes after it.
        assert_eq!(refusals(&floor, &mesh, [1, 1]), [if passes { 24 } else { 23 }; 2], "{what}");
    }
    for list in 0..5 {
        let mut mesh = pair.clone();
        match list {
            0 => mesh.xs.truncate(1),
            1 => mesh.ys.truncate(1),
            2 => mesh.next.truncate(1),
            3 => mesh.prev.truncate(1),
            _ => mesh.origins.truncate(1),
        }
        assert_eq!(refusals(&floor, &mesh, [0, 1]), [23; 2], "list {list}");
    }
    // One place fewer than the front's edges and two; a number more makes no place.
    for (length, expected) in [(8, 0), (9, 0), (7, 23), (6, 23), (0, 23)] {
        let mut list = vec![5; length];
        let preview = preview_numbers(&floor.ground(), &pair.read(), pair.counts, [0, 1], &mut list);
        assert_eq!(preview.refusal, expected, "{length}");
        let short = preview_numbers(&floor.ground(), &pair.read(), pair.counts, [0, 0], &mut list);
        assert_eq!(short.refusal, if expected == 0 { 24 } else { 23 }, "the list's 23 comes before 24");
    }
}

/// What a change does to a mesh: one that 23 is to find, or one that it lets pass.
fn damage(rng: &mut Rng, mesh: &mut Owned) {
    let n = mesh.counts.nodes as usize;
    let (u, v) = (rng.below(n), rng.below(n));
    let edges = mesh.counts.edges.clamp(1, mesh.edges.len() / 2);
    let quads = mesh.counts.quads.clamp(1, mesh.quads.len() / 4);
    let wild = [n as u32, n as u32 + 1, OFF - 1, OFF, 0, v as u32];
    let far = [1_001.0, -1_001.0, 1_001.0f64.next_up(), -(1_001.0f64.next_up()), f64::NAN, f64::INFINITY, 1e300, 0.5];
    match rng.below(18) {
        0 => {
            mesh.counts.nodes = rng.pick(&[0, 1, n as u32 - 1, n as u32 + 1, n as u32 + 9, n as u32 + 10, OFF - 1, OFF])
        }
        1 => mesh.counts.quads = rng.pick(&[0, mesh.quads.len() / 4, mesh.quads.len() / 4 + 1, usize::MAX, 1 << 62]),
        2 => mesh.counts.edges = rng.pick(&[0, mesh.edges.len() / 2, mesh.edges.len() / 2 + 1, usize::MAX, 1 << 63]),
        3 => {
            mesh.counts.front =
                rng.pick(&[0, 1, mesh.counts.front.wrapping_add(1), mesh.counts.front.wrapping_sub(1), usize::MAX])
        }
        4 => mesh.next[u] = rng.pick(&wild),
        5 => mesh.prev[u] = rng.pick(&wild),
        6 => mesh.xs[u] = rng.pick(&far),
        7 => mesh.ys[u] = rng.pick(&far),
        8 => mesh.quads[rng.below(4 * quads)] = rng.pick(&wild),
        9 => mesh.edges[rng.below(2 * edges)] = rng.pick(&wild),
        // The same list of links, turned another way: two front edges exchange their ends. Loops of any length, or of one, come of it.
        10 | 11 => {
            let (a, b) = (mesh.next[u], mesh.next[v]);
            if a != OFF && b != OFF {
                (mesh.next[u], mesh.next[v]) = (b, a);
                (mesh.prev[a as usize], mesh.prev[b as usize]) = (v as u32, u as u32);
            }
        }
        // An edge the wrong way round, or twice.
        12 => {
            let k = rng.below(edges);
            mesh.edges.swap(2 * k, 2 * k + 1);
        }
        13 => {
            let (k, m) = (rng.below(edges), rng.below(edges));
            let pair = [mesh.edges[2 * m], mesh.edges[2 * m + 1]];
            mesh.edges[2 * k..2 * k + 2].copy_from_slice(&pair);
        }
        // A front edge gone, counted as such.
        14 => {
            let a = mesh.next[u];
            if a != OFF {
                (mesh.next[u], mesh.prev[a as usize]) = (OFF, OFF);
                mesh.counts.front = mesh.counts.front.wrapping_sub(1);
            }
        }
        15 => mesh.origins.truncate(rng.pick(&[n, n - 1, n + 1, 0])),
        16 => mesh.xs.truncate(rng.pick(&[n, n + 1])),
        _ => mesh.counts.edges = rng.below(edges + 1),
    }
}

/// Damaged meshes, with one change or two: the refusal is the one that SCOPE names, with nothing written; and a mesh that is stepped passes 23 again.
#[test]
fn damaged_meshes() {
    let drawings = [
        (Drawing::square(4.0), 1.0),
        (Drawing::of_loops(&[vec![[0.0, 0.0], [5.0, 0.5], [6.0, 4.0], [2.0, 5.5], [-1.0, 3.0]]]), 0.7),
    ];
    let mut rng = Rng(11);
    let mut found = [[0usize; 4]; 2];
    for (drawing, size) in drawings {
        for passes in [0, 1, 2] {
            let (floor, mesh) = paved(&drawing, size, passes);
            for round in 0..2_500 {
                let mut lent = mesh.clone();
                let twice = round % 2;
                for _ in 0..=twice {
                    if lent.counts == mesh.counts || lent.counts.nodes == mesh.counts.nodes {
                        damage(&mut rng, &mut lent);
                    }
                }
                let from = rng.below(mesh.counts.nodes as usize + 1) as u32;
                let to = lent.next.get(from as usize).copied().unwrap_or(0);
                let edge = if rng.once_in(3) { [from, rng.below(9) as u32] } else { [from, to] };
                let expected = match (lent.is_unsound(), lent.is_unsound() || lent.has_edge(edge)) {
                    (true, _) => 23,
                    (false, false) => 24,
                    (false, true) => 0,
                };
                assert_eq!(refusals(&floor, &lent, edge), [expected; 2], "{round}: {edge:?} {lent:?}");
                let kind = match expected {
                    23 => 0,
                    24 => 1,
                    _ => {
                        let counts = lent.counts;
                        let mut list = vec![9; 2 * counts.front + 4];
                        let preview = preview_numbers(&floor.ground(), &lent.read(), counts, edge, &mut list);
                        let step = step_numbers(&floor.ground(), &mut lent.lists(), counts, edge);
                        lent.counts =
                            MeshCounts { nodes: step.nodes, quads: step.quads, edges: step.edges, front: step.front };
                        assert!(!lent.is_unsound(), "{round}: a step left {lent:?}");
                        assert_eq!((preview.outcome, preview.front), (step.outcome, step.front));
                        let links = (0u32..).zip(&lent.next[..step.nodes as usize]).filter(|(_, &link)| link != OFF);
                        let front: Vec<u32> = links.flat_map(|(u, &v)| [u, v]).collect();
                        assert_eq!(
                            (&list[..front.len()], &list[front.len()..]),
                            (&front[..], &vec![9; list.len() - front.len()][..])
                        );
                        if step.outcome == 0 {
                            2
                        } else {
                            3
                        }
                    }
                };
                found[twice][kind] += 1;
            }
        }
    }
    println!("23, 24, placed, not placed; with one change {:?}, with two {:?}", found[0], found[1]);
    assert!(found.iter().flatten().all(|&count| count >= 200), "{found:?}");
}

/// The readings of docs/DECISIONS.md: what 23 lets pass is answered by the definitions.
#[test]
fn readings_of_the_mesh_edges() {
    // The edges aren't listed: all four are added, where a run's mesh gets two.
    let (floor, mut mesh) = square();
    mesh.counts.edges = 0;
    let step = mesh.step(&floor, [3, 4]);
    assert_eq!((step.refusal, step.outcome, step.edges), (0, 0, 4));
    assert_eq!(mesh.edges[..8], [3, 4, 4, 5, 5, 8, 3, 8]);
    // The first pair stored the wrong way round isn't found: the edge is added again.
    let (floor, mut mesh) = square();
    mesh.edges.swap(0, 1);
    let step = mesh.step(&floor, [0, 1]);
    assert_eq!((step.refusal, step.outcome, step.edges), (0, 0, 11));
    let (floor, mut mesh) = square();
    assert_eq!(mesh.step(&floor, [0, 1]).edges, 10);
    // A node linked to itself: its edge has no length, so none.
    let (floor, mut mesh) = square();
    (mesh.next[8], mesh.prev[8], mesh.xs[8], mesh.ys[8]) = (8, 8, 1.0, 1.0);
    (mesh.counts.nodes, mesh.counts.front) = (9, 9);
    let step = mesh.step(&floor, [8, 8]);
    assert_eq!((step.refusal, step.outcome), (0, Outcome::None as u32));
}
