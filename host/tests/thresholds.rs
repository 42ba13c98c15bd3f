//! Thresholds that come and go: readings by hand, refusals, and thresholds in Rust, written from SCOPE's words, beside the entry. The model keeps
//! no figure: it works both out afresh from the thresholds that stand, after each event.

mod common;

use common::exam::{hostile, moved, Event, ExamLists, Model};
use common::rng::Rng;
use common::Drawing;
use sitjorbe::raw::{LentMesh, Settings};
use sitjorbe::{Desk, Exam, Memory, Places, Refusal, NO_THRESHOLD};

/// Hands the event over; the refusal's number, or 0.
fn hand_over(event: Event, desk: &mut Desk<'_>) -> u32 {
    let answer = match event {
        Event::Enter(node, threshold) => desk.enter(node, threshold),
        Event::Withdraw(node) => desk.withdraw(node),
    };
    answer.map_or_else(Refusal::number, |()| 0)
}

/// Hands an event to the library and to the model: refusal, list and figures agree, and nothing else is written. The figures move by what the
/// model's move, also those that no call left.
fn agree(lent: &mut ExamLists, model: &mut Model, event: Event) -> u32 {
    let ([count, sum], [old_count, old_sum]) = (lent.figures(), model.figures());
    let expected = model.take(event);
    let [new_count, new_sum] = model.figures();
    let number = hand_over(event, &mut lent.desk());
    assert_eq!(number, expected, "{event:?} {model:?}");
    assert_eq!(lent.thresholds.list(), model.list, "{event:?} {model:?}");
    assert_eq!(
        lent.figures(),
        [moved(count, old_count, new_count), moved(sum, old_sum, new_sum)],
        "{event:?} {model:?}"
    );
    assert!(lent.kept(), "{event:?} {model:?}");
    number
}

// ---- by hand

const WRAPPED: [u32; 2] = [u32::MAX, u32::MAX - 4];

/// What is read into the rule where it is silent, each on its smallest input: nodes, quads, list and figures lent, the event, and what is
/// answered and left.
#[test]
fn readings() {
    use Event::{Enter, Withdraw};
    type Reading<'a> = (&'a str, u32, &'a [u32], (&'a [u16], [u32; 2]), Event, u32, (&'a [u16], [u32; 2]));
    let none = NO_THRESHOLD;
    let all: [Reading<'_>; 12] = [
        (
            "a node twice counts once",
            3,
            &[0, 0, 1, 2],
            (&[10, 20, none], [0, 0]),
            Enter(2, 30),
            0,
            (&[10, 20, 30], [1, 60]),
        ),
        (
            "in the list, but no node",
            3,
            &[0, 1, 2, 3],
            (&[1, 2, none, 4], [0, 0]),
            Enter(2, 3),
            0,
            (&[1, 2, 3, 4], [0, 0]),
        ),
        ("501 is none", 1, &[0, 0, 0, 0], (&[501], [0, 0]), Withdraw(0), 17, (&[501], [0, 0])),
        ("65,534 is none", 1, &[0, 0, 0, 0], (&[65_534], [0, 0]), Enter(0, 500), 0, (&[500], [1, 500])),
        ("65,541 isn't cut to 5", 1, &[0, 0, 0, 0], (&[none], [0, 0]), Enter(0, 65_541), 16, (&[none], [0, 0])),
        ("501 is too high", 1, &[0, 0, 0, 0], (&[7], [1, 7]), Enter(0, 501), 16, (&[7], [1, 7])),
        ("figures that no call left wrap", 1, &[0, 0, 0, 0], (&[5], [0, 0]), Withdraw(0), 0, (&[none], WRAPPED)),
        ("the node before the threshold", 0, &[], (&[], [0, 0]), Enter(0, 501), 15, (&[], [0, 0])),
        ("past the list", 2, &[], (&[3], [0, 0]), Enter(1, 3), 15, (&[3], [0, 0])),
        ("in the list, but no node, withdrawn", 1, &[], (&[3, 4], [0, 0]), Withdraw(1), 15, (&[3, 4], [0, 0])),
        ("the same again", 1, &[0, 0, 0, 0], (&[5], [1, 5]), Enter(0, 5), 0, (&[5], [1, 5])),
        ("a replacement", 2, &[0, 1, 0, 1], (&[5, 6], [1, 11]), Enter(1, 0), 0, (&[5, 0], [1, 5])),
    ];
    for (what, nodes, quads, (list, figures), event, refusal, left) in all {
        let mut lent = ExamLists::new(nodes, [nodes as usize; 2], quads.len() / 4, quads, list, figures);
        let mut model = lent.model();
        assert_eq!(agree(&mut lent, &mut model, event), refusal, "{what}");
        assert_eq!((lent.thresholds.list(), lent.figures()), left, "{what}");
    }
}

/// A node that lacks a coordinate is none, and a quad that lacks an id.
#[test]
fn counts_stop_at_whole_nodes_and_quads() {
    for (places, refusal) in [([2, 2], 0), ([2, 1], 15), ([1, 2], 15), ([3, 3], 0)] {
        let mut lent = ExamLists::new(2, places, 1, &[0, 0, 0, 0], &[NO_THRESHOLD; 2], [0, 0]);
        let mut model = lent.model();
        assert_eq!(agree(&mut lent, &mut model, Event::Enter(1, 9)), refusal, "{places:?}");
    }
    for (quad_count, numbers, complete) in [(2, 7, 1), (2, 8, 2), (1, 8, 1), (usize::MAX, 9, 2), (0, 8, 0)] {
        let mut lent = ExamLists::new(1, [1, 1], quad_count, &vec![0; numbers], &[NO_THRESHOLD], [0, 0]);
        let mut model = lent.model();
        assert_eq!(agree(&mut lent, &mut model, Event::Enter(0, 500)), 0);
        assert_eq!(lent.figures(), [complete, 500 * complete], "{quad_count} {numbers}");
    }
}

/// Quads stop at 250,000, and the greatest sum that there can be.
#[test]
fn quads_stop_at_250_000() {
    let quads: Vec<u32> = (0..4 * 250_001).map(|k| if k < 1_000_000 { k % 4 } else { 4 }).collect();
    let mut lent = ExamLists::new(5, [5, 5], 250_001, &quads, &[NO_THRESHOLD; 5], [0, 0]);
    let mut model = lent.model();
    for (node, figures) in [(4, [0, 0]), (0, [0, 0]), (1, [0, 0]), (2, [0, 0]), (3, [250_000, 500_000_000])] {
        assert_eq!(agree(&mut lent, &mut model, Event::Enter(node, 500)), 0);
        assert_eq!(lent.figures(), figures, "{node}");
    }
}

/// Every place is written, past the nodes too, and whatever it held; both figures are 0.
#[test]
fn an_exam_begins() {
    for length in [0, 1, 2, 7, 100] {
        let list: Vec<u16> = (0..length).map(|k| [501, 0, 65_534, 500, NO_THRESHOLD][k % 5]).collect();
        let mut lent = ExamLists::new(1, [1, 1], 1, &[0, 0, 0, 0], &list, [3, u32::MAX]);
        lent.desk().begin();
        assert_eq!((lent.thresholds.list(), lent.figures()), (&vec![65_535; length][..], [0, 0]));
        assert!(lent.kept());
    }
}

/// The guards show a write beside a list, and one in the mesh.
#[test]
fn the_guards_show_a_write() {
    let lent = || ExamLists::new(2, [2, 2], 1, &[0, 1, 0, 1], &[1, 2], [1, 3]);
    assert!(lent().kept());
    let writes: [fn(&mut ExamLists); 4] = [
        |lent| lent.quads.list_mut()[3] = 0,
        |lent| lent.ys.list_mut()[0] = 1.0,
        // SAFETY: eight guards stand after the list.
        |lent| unsafe { lent.thresholds.list_mut().as_mut_ptr().add(2).write(7) },
        // SAFETY: eight guards stand before the figure.
        |lent| unsafe { lent.count.list_mut().as_mut_ptr().sub(1).write(7) },
    ];
    for write in writes {
        let mut lent = lent();
        write(&mut lent);
        assert!(!lent.kept());
    }
}

// ---- at random

fn random_event(rng: &mut Rng, places: usize) -> Event {
    let node = if rng.once_in(40) { rng.pick(&[u32::MAX, 1 << 16, 1 << 31]) } else { rng.below(places + 2) as u32 };
    let threshold = match rng.below(12) {
        0 => rng.pick(&[501, 502, 65_535, 65_536, 65_541, 66_036, u32::MAX]),
        1 => rng.pick(&[0, 499, 500]),
        _ => rng.below(501) as u32,
    };
    if rng.once_in(3) {
        Event::Withdraw(node)
    } else {
        Event::Enter(node, threshold)
    }
}

/// 4,000 hostile meshes, 60 events each: 20 on the list and figures lent, whatever they are, then an exam begins, and after each of the
/// other 40 both figures are those worked out afresh.
#[test]
fn events_on_hostile_meshes_are_the_models() {
    let mut rng = Rng(6);
    let mut answers = [0; 18];
    let mut counted = 0;
    for _ in 0..4_000 {
        let mut lent = hostile(&mut rng);
        let mut model = lent.model();
        let places = model.list.len();
        for _ in 0..20 {
            answers[agree(&mut lent, &mut model, random_event(&mut rng, places)) as usize] += 1;
        }
        lent.desk().begin();
        model.list.fill(65_535);
        for _ in 0..40 {
            answers[agree(&mut lent, &mut model, random_event(&mut rng, places)) as usize] += 1;
            assert_eq!(lent.figures(), model.figures(), "{model:?}");
            counted += u32::from(lent.figures()[0] > 0);
        }
    }
    println!(
        "taken {}, 15: {}, 16: {}, 17: {}; complete quads after {counted}",
        answers[0], answers[15], answers[16], answers[17]
    );
    assert_eq!(answers.iter().sum::<u32>(), 240_000);
    assert!(
        answers[0] > 80_000 && answers[15..].iter().all(|&times| times > 5_000) && counted > 10_000,
        "{answers:?} {counted}"
    );
}

/// On a mesh that a run made: every node entered in some order, replaced, withdrawn.
#[test]
fn events_on_a_run_are_the_models() {
    let drawing = Drawing::square(16.0);
    let mut memory =
        Memory::new(Places { field_nodes: 2_000, nodes: 800, quads: 800, edges: 2_400, points: 4 }).unwrap();
    let mesh = memory.pave(&drawing.outline(), &Settings { size: 1.0, sweeps: 400, passes: 600 }).unwrap();
    let (nodes, quads) = (mesh.node_count() as u32, mesh.quad_count() as u32);
    let mut exam = Exam::begin(LentMesh::of(&mesh));
    let mut model = Model::of(exam.mesh(), &vec![NO_THRESHOLD; nodes as usize]);
    assert_eq!((model.nodes, &model.quads), (nodes, &mesh.quads().collect::<Vec<_>>()));
    let mut rng = Rng(66);
    let mut all: Vec<u32> = (0..nodes).collect();
    for k in (1..all.len()).rev() {
        all.swap(k, rng.below(k + 1));
    }
    let mut take = |exam: &mut Exam<'_>, event: Event| {
        assert_eq!(hand_over(event, &mut exam.desk()), model.take(event));
        let reader = exam.reader();
        assert_eq!(<[u32; 2]>::from(reader.figures()), model.figures());
        for node in all.iter().copied().take(20).chain([0, nodes - 1]) {
            assert_eq!(reader.threshold(node).ok(), model.standing(node));
        }
    };
    let order = all.clone();
    for &node in &order {
        take(&mut exam, Event::Enter(node, rng.below(501) as u32));
    }
    assert_eq!(exam.reader().figures().0, quads);
    for _ in 0..1_000 {
        let node = rng.below(nodes as usize + 1) as u32;
        take(&mut exam, if rng.once_in(2) { Event::Withdraw(node) } else { Event::Enter(node, rng.below(600) as u32) });
    }
    for &node in &order {
        take(&mut exam, Event::Withdraw(node));
    }
    assert_eq!(exam.reader().figures(), (0, 0));
}
