//! One exam for three roles: readings by hand, and exam roles in Rust, written from SCOPE's words, beside the entry: every role by every operation, two exams that
//! differ in their results alone, hostile links and counts.

mod common;

use common::exam::{hostile, junk_thresholds, moved, Event, ExamLists, Model};
use common::rng::Rng;
use common::Drawing;
use sitjorbe::raw::{read_numbers, Asked, LentMesh, Settings, SharedResults};
use sitjorbe::{ffi, Exam, Memory, Node, Places, Refusal, NO_THRESHOLD, OFF};

// ---- exam roles

/// "a loop number past those listed, or front links out of range or not inverse to each other, give an empty loop": the loops of three nodes or more, each
/// from its smallest id, found by marking what was passed.
fn loops(nodes: u32, next: &[u32], prev: &[u32]) -> Vec<Vec<u32>> {
    let link = |list: &[u32], node: u32| list.get(node as usize).copied().unwrap_or(OFF);
    let inverse = |there: &[u32], back: &[u32], node: u32| match link(there, node) {
        OFF => true,
        other => other < nodes && link(back, other) == node,
    };
    if !(0..nodes).all(|node| inverse(next, prev, node) && inverse(prev, next, node)) {
        return vec![];
    }
    let mut passed = vec![false; nodes as usize];
    let mut found = vec![];
    for first in 0..nodes {
        let (mut ids, mut node) = (vec![], first);
        while node != OFF && !passed[node as usize] {
            passed[node as usize] = true;
            ids.push(node);
            node = link(next, node);
        }
        if ids.len() >= 3 && node == first {
            found.push(ids);
        }
    }
    found
}

const NOTHING: ffi::ExamAnswer = ffi::ExamAnswer {
    refusal: 0,
    x: 0.0,
    y: 0.0,
    a: 0,
    b: 0,
    d: 0,
    c: 0,
    length: 0,
    threshold: 0,
    count: 0,
    sum: 0,
    estimate: 0,
    origin: 0,
};

fn refused(refusal: u32) -> ffi::ExamAnswer {
    ffi::ExamAnswer { refusal, ..NOTHING }
}

/// An exam as SCOPE has it: what is answered, the figures moved, and the reply list.
struct Rule<'a> {
    mesh: LentMesh<'a>,
    model: Model,
    figures: [u32; 2],
    reply: Vec<u32>,
}

impl<'a> Rule<'a> {
    fn of(lent: &'a ExamLists) -> Rule<'a> {
        Rule { mesh: lent.mesh(), model: lent.model(), figures: lent.figures(), reply: lent.reply.list().to_vec() }
    }

    /// "Role 1, the desk, may begin the exam, enter, withdraw and read. Role 2 reads everything. Role 3 reads nodes, quads and loops only." "20 for an unknown
    /// role or an operation its role lacks, before all other checks."
    fn answer(&mut self, asked: Asked) -> ffi::ExamAnswer {
        let Asked { role, operation, item, value, u, v } = asked;
        match (role, operation) {
            (1, 1) => {
                (self.figures, self.model.list) = ([0, 0], vec![65_535; self.model.list.len()]);
                NOTHING
            }
            (1, 2) => self.take(Event::Enter(item, value)),
            (1, 3) => self.take(Event::Withdraw(item)),
            (1..=3, 4) => self.node(item),
            (1..=3, 5) => self.quad(item),
            (1..=3, 6) => self.read_loop(item),
            (1..=2, 7) => self.threshold(item),
            (1..=2, 8) => ffi::ExamAnswer { count: self.figures[0], sum: self.figures[1], ..NOTHING },
            (1..=2, 9) => match self.model.estimate(item, u, v) {
                Ok(estimate) => ffi::ExamAnswer { estimate, ..NOTHING },
                Err(number) => refused(number),
            },
            _ => refused(20),
        }
    }

    fn take(&mut self, event: Event) -> ffi::ExamAnswer {
        let old = self.model.figures();
        let number = self.model.take(event);
        let new = self.model.figures();
        self.figures = [0, 1].map(|k| moved(self.figures[k], old[k], new[k]));
        refused(number)
    }

    /// "Reading a node gives 15 .. only when it isn't in the mesh"
    fn node(&self, id: u32) -> ffi::ExamAnswer {
        if id >= self.model.nodes {
            return refused(15);
        }
        let k = id as usize;
        ffi::ExamAnswer { x: self.mesh.xs[k], y: self.mesh.ys[k], origin: u32::from(self.mesh.origins[k]), ..NOTHING }
    }

    /// "a quad's corners 18, only when it isn't in the mesh"
    fn quad(&self, k: u32) -> ffi::ExamAnswer {
        match self.model.quads.get(k as usize) {
            Some(&[a, b, d, c]) => ffi::ExamAnswer { a, b, d, c, ..NOTHING },
            None => refused(18),
        }
    }

    /// "a reply list too short for a loop gives 14 and stays unwritten"
    fn read_loop(&mut self, k: u32) -> ffi::ExamAnswer {
        let all = loops(self.model.nodes, self.mesh.next, self.mesh.prev);
        let ids = all.get(k as usize).map_or(&[][..], |ids| ids);
        let Some(places) = self.reply.get_mut(..ids.len()) else {
            return refused(14);
        };
        places.copy_from_slice(ids);
        ffi::ExamAnswer { length: ids.len(), ..NOTHING }
    }

    /// "Reading a threshold gives 15, then 17 where none stands."
    fn threshold(&self, id: u32) -> ffi::ExamAnswer {
        match self.model.standing(id) {
            _ if self.model.is_missing(id) => refused(15),
            Some(threshold) => ffi::ExamAnswer { threshold, ..NOTHING },
            None => refused(17),
        }
    }
}

/// The answer bit by bit, so that a NaN is equal to itself.
fn bits(r: ffi::ExamAnswer) -> ([u64; 3], [u32; 10]) {
    let numbers = [r.refusal, r.a, r.b, r.d, r.c, r.threshold, r.count, r.sum, r.estimate, r.origin];
    ([r.x.to_bits(), r.y.to_bits(), r.length as u64], numbers)
}

/// Asks the library and the model: answer, reply list, thresholds and figures agree, and nothing else is written. The readers' entry is asked the same: it answers
/// roles 2 and 3 as the other does, and refuses all others.
fn agree(lent: &mut ExamLists, asked: Asked) -> u32 {
    let mut rule = Rule::of(lent);
    let expected = rule.answer(asked);
    let Rule { model, figures, reply, .. } = rule;
    let mut read = lent.reply.list().to_vec();
    let numbers = lent.read(asked, &mut read);
    let (by_readers, left) =
        if matches!(asked.role, 2 | 3) { (expected, &reply[..]) } else { (refused(20), lent.reply.list()) };
    assert_eq!((bits(numbers), &read[..]), (bits(by_readers), left), "the readers' entry: {asked:?} {model:?}");
    let answer = lent.ask(asked);
    assert_eq!(bits(answer), bits(expected), "{asked:?} {model:?}");
    assert_eq!((lent.thresholds.list(), lent.figures()), (&model.list[..], figures), "{asked:?} {model:?}");
    assert_eq!(lent.reply.list(), reply, "{asked:?} {model:?}");
    assert!(lent.kept(), "{asked:?} {model:?}");
    answer.refusal
}

fn asked(role: u32, operation: u32, item: u32) -> Asked {
    Asked { role, operation, item, ..Asked::default() }
}

// ---- by hand

/// What is read into the rule where it is silent, each on its smallest input: the exam, what is asked, and the refusal.
#[test]
fn readings() {
    let quad = [0, 0, 0, 9];
    let exam = |nodes, thresholds: &[u16]| ExamLists::new(nodes, [nodes as usize; 2], 1, &quad, thresholds, [3, 4]);
    let no_origin = || ExamLists { origins: common::Guarded::new(&[]), ..exam(1, &[5]) };
    let all: [(&str, ExamLists, Asked, u32); 14] = [
        ("a node past the threshold list", exam(1, &[]), asked(3, 4, 0), 0),
        ("a node that isn't in the mesh", exam(1, &[5, 5]), asked(3, 4, 1), 15),
        ("a node without an origin", no_origin(), asked(3, 4, 0), 15),
        ("and its threshold", no_origin(), asked(1, 7, 0), 15),
        ("a quad that names no node", exam(1, &[]), asked(3, 5, 0), 0),
        ("a quad that isn't in the mesh", exam(1, &[]), asked(3, 5, 1), 18),
        ("an empty loop and no reply list", exam(1, &[]), asked(3, 6, 7), 0),
        ("a threshold past the list", exam(1, &[]), asked(2, 7, 0), 15),
        ("a threshold that doesn't stand", exam(1, &[501]), asked(2, 7, 0), 17),
        ("20 before 15", exam(0, &[]), Asked { value: 501, ..asked(3, 2, 0) }, 20),
        ("20 before 15, and 16 after it", exam(0, &[]), Asked { value: 501, ..asked(1, 2, 0) }, 15),
        ("no role", exam(1, &[]), asked(0, 4, 0), 20),
        ("no operation", exam(1, &[]), asked(1, 0, 0), 20),
        ("nor that", exam(1, &[]), asked(1, 10, 0), 20),
    ];
    for (what, mut lent, asked, refusal) in all {
        assert_eq!(agree(&mut lent, asked), refusal, "{what}");
    }
}

/// Links, and the loops that are read of them.
#[test]
fn loops_of_links() {
    type Links<'a> = (&'a str, u32, &'a [u32], &'a [u32], &'a [&'a [u32]]);
    let all: [Links<'_>; 13] = [
        ("one loop", 3, &[1, 2, 0], &[2, 0, 1], &[&[0, 1, 2]]),
        ("two loops", 7, &[4, 5, 0, 1, 2, 3, OFF], &[2, 3, 4, 5, 0, 1, OFF], &[&[0, 4, 2], &[1, 5, 3]]),
        ("one bad link elsewhere", 4, &[1, 2, 0, OFF], &[2, 0, 1, 0], &[]),
        ("out of range", 3, &[1, 2, 3], &[2, 0, 1], &[]),
        ("out of range by much", 3, &[1, 2, OFF - 1], &[2, 0, 1], &[]),
        ("prev is no inverse", 3, &[1, 2, 0], &[1, 2, 0], &[]),
        ("next leads to one node twice", 4, &[1, 2, 0, 1], &[2, 0, 1, OFF], &[]),
        ("an open chain", 2, &[1, OFF], &[OFF, 0], &[]),
        ("one node", 1, &[0], &[0], &[]),
        ("two nodes", 2, &[1, 0], &[1, 0], &[]),
        ("a list shorter than the nodes", 4, &[1, 2, 0], &[2, 0, 1], &[&[0, 1, 2]]),
        ("junk past the nodes", 3, &[1, 2, 0, 9], &[2, 0, 1, 0], &[&[0, 1, 2]]),
        ("no nodes", 0, &[1, 2, 0], &[2, 0, 1], &[]),
    ];
    for (what, nodes, next, prev, expected) in all {
        assert_eq!(loops(nodes, next, prev), expected, "{what}: the model");
        for role in 1..=3 {
            for (k, places) in (0..4).flat_map(|k| (0..6).map(move |places| (k, places))) {
                let lent = ExamLists::new(nodes, [nodes as usize; 2], 0, &[], &[], [3, 4]);
                let mut lent = lent.with_links(next, prev).with_reply(&vec![7; places]);
                let ids = expected.get(k).copied().unwrap_or(&[]);
                let refusal = if places < ids.len() { 14 } else { 0 };
                assert_eq!(agree(&mut lent, asked(role, 6, k as u32)), refusal, "{what} {k} {places}");
                let start = if refusal == 0 { ids } else { &[] };
                assert!(lent.reply.list().starts_with(start), "{what} {k} {places}");
                assert!(lent.reply.list()[start.len()..].iter().all(|place| *place == 7), "{what} {k} {places}");
            }
        }
    }
}

/// All links of up to three nodes, each a node, off or out of range.
#[test]
fn all_links_of_three_nodes() {
    let mut counts = [0; 2];
    for nodes in 0..=3u32 {
        let choices: Vec<u32> = (0..=nodes).chain([OFF]).collect();
        let all = choices.len().pow(2 * nodes);
        for code in 0..all {
            let at = |k: u32| choices[code / choices.len().pow(k) % choices.len()];
            let next: Vec<u32> = (0..nodes).map(at).collect();
            let prev: Vec<u32> = (nodes..2 * nodes).map(at).collect();
            let lent = ExamLists::new(nodes, [nodes as usize; 2], 0, &[], &[], [3, 4]);
            let mut lent = lent.with_links(&next, &prev).with_reply(&[7; 4]);
            agree(&mut lent, asked(3, 6, 0));
            counts[usize::from(lent.reply.list()[0] != 7)] += 1;
        }
    }
    assert_eq!(counts, [15_889, 2]);
}

// ---- at random

/// Links of some loops and chains over the nodes, in any order, at times with a wrong link.
fn random_links(rng: &mut Rng, nodes: usize) -> [Vec<u32>; 2] {
    let mut order: Vec<u32> = (0..nodes as u32).collect();
    for k in (1..nodes).rev() {
        order.swap(k, rng.below(k + 1));
    }
    let mut links = [vec![OFF; nodes], vec![OFF; nodes]];
    let mut rest = &order[..];
    while !rest.is_empty() {
        let (part, later) = rest.split_at(rng.between(1, rest.len().min(7)));
        rest = later;
        let closed = rng.once_in(4);
        if rng.once_in(5) {
            continue;
        }
        for (k, &from) in part.iter().enumerate() {
            let to = part[(k + 1) % part.len()];
            if k + 1 < part.len() || !closed {
                links[0][from as usize] = to;
                links[1][to as usize] = from;
            }
        }
    }
    for list in &mut links {
        if nodes > 0 && rng.once_in(6) {
            let k = rng.below(nodes);
            list[k] = rng.pick(&[OFF, OFF - 1, nodes as u32, 0, (nodes - 1) as u32]);
        }
        if rng.once_in(8) {
            list.truncate(rng.below(nodes + 1));
        }
        list.extend((0..rng.below(3)).map(|_| rng.next() as u32));
    }
    links
}

/// A hostile exam with links, and a reply list of any length.
fn hostile_exam(rng: &mut Rng) -> ExamLists {
    let lent = hostile(rng);
    let nodes = lent.model().nodes as usize;
    let [next, prev] = random_links(rng, nodes);
    let reply = vec![7; rng.below(nodes + 2)];
    let origins: Vec<u16> = (0..nodes + rng.below(3)).map(|_| rng.next() as u16).collect();
    let cut = if rng.once_in(5) { origins.len().min(1) } else { 0 };
    let origins = common::Guarded::new(&origins[cut..]);
    ExamLists { origins, ..lent }.with_links(&next, &prev).with_reply(&reply)
}

fn random_numbers(rng: &mut Rng, lent: &ExamLists) -> [u32; 4] {
    let most = lent.model().nodes as usize + 2;
    let item = if rng.once_in(12) { rng.pick(&[u32::MAX, 1 << 31, 250_000]) } else { rng.below(most) as u32 };
    let value = rng.pick(&[0, 250, 499, 500, 501, 65_541, u32::MAX]);
    let [u, v] = [(); 2].map(|()| rng.pick(&[0, 1, 128, 200, 255, 256, 257, u32::MAX]));
    [if rng.once_in(3) { rng.below(3) as u32 } else { item }, value, u, v]
}

const ROLES: [u32; 7] = [0, 1, 2, 3, 4, 1 << 31, u32::MAX];
const OPERATIONS: [u32; 13] = [0, 1, 2, 3, 4, 5, 6, 7, 8, 9, 10, 1 << 31, u32::MAX];

/// Every role by every operation, on hostile exams, each call on what the last one left.
#[test]
fn every_role_by_every_operation_is_the_papers() {
    let mut rng = Rng(8);
    let mut answers = [0; 21];
    for _ in 0..2_000 {
        let mut lent = hostile_exam(&mut rng);
        let mut calls: Vec<(u32, u32)> =
            ROLES.into_iter().flat_map(|role| OPERATIONS.map(|operation| (role, operation))).collect();
        calls.extend((0..60).map(|_| (rng.between(1, 3) as u32, rng.pick(&[2, 2, 2, 2, 3, 6, 6, 7, 9, 9]))));
        for k in (1..calls.len()).rev() {
            calls.swap(k, rng.below(k + 1));
        }
        for (role, operation) in calls {
            let [item, value, u, v] = random_numbers(&mut rng, &lent);
            answers[agree(&mut lent, Asked { role, operation, item, value, u, v }) as usize] += 1;
        }
    }
    println!("answers by refusal: {answers:?}");
    assert!([0, 14, 15, 16, 17, 18, 19, 20].iter().all(|&number| answers[number] > 200), "{answers:?}");
}

/// Two exams with the same mesh, whose thresholds, how many of them are lent, and figures differ: the masked reader gets the same of both, bit by bit, and
/// leaves both as they were.
#[test]
fn a_masked_reader_gets_the_same_of_every_result() {
    let mut rng = Rng(88);
    let mut differ = 0;
    for _ in 0..2_000 {
        let mut one = hostile_exam(&mut rng);
        let length = rng.below(16);
        let thresholds = junk_thresholds(&mut rng, length);
        let [count, sum] = [(); 2].map(|()| common::Guarded::new(&[rng.next() as u32]));
        let guarded = |list: &[u32]| common::Guarded::new(list);
        let mut other = ExamLists {
            nodes: one.nodes,
            xs: common::Guarded::new(one.xs.list()),
            ys: common::Guarded::new(one.ys.list()),
            quad_count: one.quad_count,
            quads: guarded(one.quads.list()),
            next: guarded(one.next.list()),
            prev: guarded(one.prev.list()),
            origins: common::Guarded::new(one.origins.list()),
            thresholds: common::Guarded::new(&thresholds),
            count,
            sum,
            reply: guarded(one.reply.list()),
        };
        for operation in OPERATIONS.into_iter().chain([4, 5, 6, 4, 5, 6]) {
            let [item, value, u, v] = random_numbers(&mut rng, &one);
            let asked = Asked { role: 3, operation, item, value, u, v };
            let mut read = one.reply.list().to_vec();
            let nothing = SharedResults { thresholds: &[], count: &0, sum: &0 };
            let lends_none = read_numbers(asked, &one.mesh(), nothing, &mut read);
            let [mine, others] = [&mut one, &mut other].map(|lent| lent.ask(asked));
            assert_eq!(bits(mine), bits(others), "{asked:?}");
            assert_eq!(one.reply.list(), other.reply.list(), "{asked:?}");
            assert_eq!((bits(lends_none), &read[..]), (bits(mine), one.reply.list()), "{asked:?}");
            for lent in [&one, &other] {
                assert!(lent.kept() && lent.thresholds.kept() && lent.count.kept() && lent.sum.kept(), "{asked:?}");
            }
            let reader = Asked { role: 2, ..asked };
            differ += u32::from(bits(one.ask(reader)) != bits(other.ask(reader)));
        }
    }
    assert!(differ > 2_000, "a reader saw {differ} differences");
}

/// Of meshes that runs made, the loops read are those that the run listed, and every node and quad is read as it was answered.
#[test]
fn a_runs_mesh_is_read_as_it_was_answered() {
    let square = |low: f64, high: f64| vec![[low, low], [high, low], [high, high], [low, high]];
    let drawings = [
        Drawing::square(9.0),
        Drawing::of_loops(&[square(0.0, 12.0), square(4.0, 7.0)]),
        Drawing::of_loops(&[vec![[0.0, 0.0], [9.0, 1.0], [4.0, 8.0]]]),
    ];
    let mut listed = 0;
    for (drawing, passes) in drawings.iter().flat_map(|drawing| [0, 1, 2, 600].map(|passes| (drawing, passes))) {
        let mut memory =
            Memory::new(Places { field_nodes: 4_000, nodes: 800, quads: 800, edges: 2_400, points: 8 }).unwrap();
        let mesh = memory.pave(&drawing.outline(), &Settings { size: 1.0, sweeps: 400, passes }).unwrap();
        let exam = Exam::begin(LentMesh::of(&mesh));
        let (masked, mut reply) = (exam.masked_reader(), vec![0; mesh.node_count()]);
        for (k, ids) in (0..).zip(mesh.front_loops()) {
            assert_eq!(masked.loop_in(k, &mut reply), Ok(ids));
            assert_eq!(masked.loop_in(k, &mut vec![0; ids.len() - 1]), Err(Refusal::AnswerLists));
            listed += 1;
        }
        for past in [mesh.loop_count() as u32, u32::MAX] {
            assert_eq!(masked.loop_in(past, &mut []), Ok(&[][..]));
        }
        for ((k, [x, y]), &origin) in (0..).zip(mesh.nodes()).zip(mesh.origins()) {
            let node = Node { x, y, origin: u32::from(origin) };
            assert_eq!(masked.node(k), Ok(node));
        }
        for (k, ids) in (0..).zip(mesh.quads()) {
            assert_eq!(masked.quad(k), Ok(ids));
        }
        assert_eq!(masked.node(mesh.node_count() as u32), Err(Refusal::NoNode));
        assert_eq!(masked.quad(mesh.quad_count() as u32), Err(Refusal::NoQuad));
    }
    assert!(listed >= 12, "{listed}");
}

// ---- the three types

/// Desk, reader and masked reader over one exam give the same of the mesh; what is printed of the latter, and of an exam, has no results.
#[test]
fn three_roles_over_one_exam() {
    let mesh = LentMesh {
        nodes: 4,
        xs: &[0.0, 1.0, 1.0, 0.0],
        ys: &[0.0, 0.0, 1.0, 1.0],
        quad_count: 1,
        quads: &[0, 1, 2, 3],
        next: &[1, 2, 3, 0],
        prev: &[3, 0, 1, 2],
        origins: &[5; 4],
    };
    let mut exam = Exam::begin(mesh);
    let before = format!("{exam:?} {:?}", exam.masked_reader());
    for node in 0..4 {
        exam.desk().enter(node, 100 * node).unwrap();
    }
    assert_eq!(format!("{exam:?} {:?}", exam.masked_reader()), before);
    let desk = exam.desk();
    let of_desk = (desk.node(2), desk.quad(0), desk.loop_in(0, &mut [0; 4]).map(<[u32]>::to_vec));
    let seen = (desk.threshold(3), desk.figures(), desk.estimate(0, 128, 128));
    let (reader, masked) = (exam.reader(), exam.masked_reader());
    assert_eq!(of_desk, (reader.node(2), reader.quad(0), reader.loop_in(0, &mut [0; 4]).map(<[u32]>::to_vec)));
    assert_eq!(of_desk, (masked.node(2), masked.quad(0), masked.loop_in(0, &mut [0; 4]).map(<[u32]>::to_vec)));
    assert_eq!(seen, (reader.threshold(3), reader.figures(), reader.estimate(0, 128, 128)));
    assert_eq!(seen, (Ok(300), (1, 600), Ok(150)));
    exam.desk().begin();
    assert_eq!((exam.reader().threshold(3), exam.reader().figures()), (Err(Refusal::NoThreshold), (0, 0)));
    assert_eq!(NO_THRESHOLD, 65_535);
}
