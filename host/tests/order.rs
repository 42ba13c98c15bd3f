//! Presentation orders: presentation order in Rust, written from SCOPE's words, beside the entry; on real runs also the front gone through quad by quad.

mod common;

use std::collections::{BTreeSet, HashMap};

use common::{bits, Drawing, Guarded, Place};
use sitjorbe::raw::{check_order, check_order_in, nearest_order, OrderScratch, Settings};
use sitjorbe::{ffi, Memory, NotAccepted, Places, Refusal};

/// A generator of the usual kind, splitmix64.
struct Random(u64);

impl Random {
    fn next(&mut self) -> u64 {
        self.0 = self.0.wrapping_add(0x9e37_79b9_7f4a_7c15);
        let mixed = (self.0 ^ self.0 >> 30).wrapping_mul(0xbf58_476d_1ce4_e5b9);
        let mixed = (mixed ^ mixed >> 27).wrapping_mul(0x94d0_49bb_1331_11eb);
        mixed ^ mixed >> 31
    }

    fn below(&mut self, bound: usize) -> usize {
        (self.next() % bound as u64) as usize
    }

    fn shuffle<T>(&mut self, list: &mut [T]) {
        for k in (1..list.len()).rev() {
            list.swap(k, self.below(k + 1));
        }
    }

    fn numbers(&mut self, length: usize, bound: usize) -> Vec<u32> {
        (0..length).map(|_| self.below(bound) as u32).collect()
    }
}

// ---- presentation order

/// A quad's steps, run a, b, d, c: a to b, b to d, d to c, c to a.
fn steps(quads: &[u32], quad: usize) -> [[u32; 2]; 4] {
    [0, 1, 2, 3].map(|k| [quads[4 * quad + k], quads[4 * quad + (k + 1) % 4]])
}

/// "each quad placed before it which, run a, b, d, c, has a step v to u that isn't its a to b, where it has itself the step u to v and that
/// isn't its d to c"
fn comes_after(quads: &[u32], quad: usize, other: usize) -> bool {
    let (mine, its) = (steps(quads, quad), steps(quads, other));
    let reversed = |[u, v]: [u32; 2]| [v, u];
    other < quad && [0, 1, 3].iter().any(|&k| [1, 2, 3].iter().any(|&l| its[l] == reversed(mine[k])))
}

/// The refusal's number and the place.
fn answer(quad_count: usize, quads: &[u32], order: &[u32]) -> (u32, usize) {
    let count = [quad_count, quads.len() / 4, 250_000].into_iter().min().unwrap();
    let named: BTreeSet<u32> = order.iter().copied().collect();
    if order.len() != count || !named.iter().copied().eq(0..count as u32) {
        return (21, 0);
    }
    let later_one_needed = |&place: &usize| {
        order[place + 1..].iter().any(|&other| comes_after(quads, order[place] as usize, other as usize))
    };
    (0..count).find(later_one_needed).map_or((0, 0), |place| (22, place))
}

fn said(result: Result<(), NotAccepted>) -> (u32, usize) {
    match result {
        Ok(()) => (0, 0),
        Err(NotAccepted::NotEachOnce) => (21, 0),
        Err(NotAccepted::TooEarly { place }) => (22, place),
    }
}

// ---- runs

/// What an order reads of a run, and how many nodes its outline was sampled to.
struct Run {
    quads: Vec<u32>,
    sampled: usize,
}

fn run(drawing: &Drawing, size: f64) -> Run {
    let places = Places { field_nodes: 20_000, nodes: 6_000, quads: 6_000, edges: 14_000, points: drawing.points() };
    let mut memory = Memory::new(places).unwrap();
    let mesh = memory.pave(&drawing.outline(), &Settings { size, sweeps: 60, passes: 600 }).unwrap();
    // Front edges plus twice the quads plus the points sampled make twice the nodes.
    let sampled = 2 * mesh.node_count() - mesh.front_count() - 2 * mesh.quad_count();
    Run { quads: mesh.quads().flatten().collect(), sampled }
}

fn ellipse(points: usize, [x, y]: [f64; 2], [wide, high]: [f64; 2], turn: f64) -> Vec<[f64; 2]> {
    let angle = |k: usize| turn * std::f64::consts::TAU * k as f64 / points as f64;
    (0..points).map(|k| [x + wide * angle(k).cos(), y + high * angle(k).sin()]).collect()
}

/// Squares, ellipses and one with a blind spot, paved with a few to some hundred quads.
fn runs() -> Vec<Run> {
    let field = ellipse(24, [0.0, 0.0], [30.0, 24.0], 1.0);
    let blind = ellipse(8, [15.0, -2.0], [3.0, 4.0], -1.0);
    let drawings = [
        (Drawing::square(4.0), 1.0),
        (Drawing::square(9.0), 0.7),
        (Drawing::of_loops(&[field.clone()]), 3.0),
        (Drawing::of_loops(&[field, blind]), 2.5),
        (Drawing::of_loops(&[ellipse(40, [3.0, 1.0], [21.0, 27.0], 1.0)]), 1.7),
    ];
    let runs: Vec<Run> = drawings.iter().map(|(drawing, size)| run(drawing, *size)).collect();
    assert!(runs.iter().all(|run| run.quads.len() >= 4 * 4) && runs.iter().any(|run| run.quads.len() > 4 * 300));
    runs
}

fn placing(run: &Run) -> Vec<u32> {
    (0..run.quads.len() as u32 / 4).collect()
}

/// The exact book, its front edges alone: for each quad the quads that laid an edge which it took off.
fn by_the_book(run: &Run) -> Vec<BTreeSet<usize>> {
    let mut nodes = run.sampled as u32;
    let mut layer: HashMap<[u32; 2], usize> = HashMap::new();
    let mut all = Vec::new();
    for (number, quad) in run.quads.chunks_exact(4).enumerate() {
        let [a, b, d, c] = [quad[0], quad[1], quad[2], quad[3]];
        let mut taken = vec![[a, b]];
        let mut laid = Vec::new();
        for (corner, there, back) in [(c, [c, a], [a, c]), (d, [b, d], [d, b])] {
            if corner == nodes {
                nodes += 1;
                laid.push(back);
            } else {
                taken.push(there);
            }
        }
        laid.push([c, d]);
        all.push(taken.iter().filter_map(|edge| layer.remove(edge)).collect());
        for edge in laid {
            assert_eq!(layer.insert(edge, number), None, "{edge:?} is laid twice");
        }
    }
    all
}

#[test]
fn on_runs_the_papers_steps_are_what_happened() {
    for run in runs() {
        let count = run.quads.len() / 4;
        for (quad, layers) in by_the_book(&run).into_iter().enumerate() {
            let needed: BTreeSet<usize> = (0..count).filter(|&other| comes_after(&run.quads, quad, other)).collect();
            assert_eq!(needed, layers, "quad {quad} of {count}");
        }
    }
}

// ---- the entry

#[test]
fn the_order_of_placing_is_accepted() {
    for run in runs() {
        let order = placing(&run);
        assert_eq!(check_order(order.len(), &run.quads, &order), Ok(()));
        // Counts beyond the list stop at its end.
        assert_eq!(check_order(usize::MAX, &run.quads, &order), Ok(()));
        // Of fewer quads the first are the mesh.
        let fewer = order.len() / 2;
        assert_eq!(check_order(fewer, &run.quads, &order[..fewer]), Ok(()));
        assert_eq!(check_order(fewer, &run.quads, &order), Err(NotAccepted::NotEachOnce));
    }
}

#[test]
fn orders_from_wishes_are_accepted_and_near() {
    let (mut random, mut moved) = (Random(1), 0);
    for run in runs() {
        let count = run.quads.len() / 4;
        let needed = |quad| (0..quad).filter(|&other| comes_after(&run.quads, quad, other)).collect::<Vec<usize>>();
        let needed: Vec<Vec<usize>> = (0..count).map(needed).collect();
        for _ in 0..10 {
            let mut wish = placing(&run);
            random.shuffle(&mut wish);
            let order = nearest_order(count, &run.quads, &wish);
            assert_eq!(answer(count, &run.quads, &order), (0, 0));
            assert_eq!(check_order(count, &run.quads, &order), Ok(()));
            // An accepted wish comes back, and each place has the first of the wish that may come there.
            assert_eq!(nearest_order(count, &run.quads, &order), order);
            for place in 0..count.min(40) {
                let out = &order[..place];
                let free = |quad: u32| needed[quad as usize].iter().all(|&other| out.contains(&(other as u32)));
                let first = wish.iter().find(|&&quad| !out.contains(&quad) && free(quad));
                assert_eq!(first, Some(&order[place]));
            }
            moved += usize::from(order != placing(&run));
        }
        // A wish of two quads and junk: the others follow by their numbers.
        let last = count as u32 - 1;
        let order = nearest_order(count, &run.quads, &[last, 1, last, u32::MAX, count as u32]);
        assert_eq!(answer(count, &run.quads, &order), (0, 0));
    }
    assert!(moved > 20, "{moved}");
    assert_eq!(nearest_order(7, &[1, 2, 3], &[0]), []);
}

#[test]
fn orders_of_runs_spoilt_at_two_places() {
    let mut random = Random(2);
    let mut refused = [0; 2];
    for run in runs() {
        let count = run.quads.len() / 4;
        let mut scratch = OrderScratch::new(count);
        for _ in 0..300 {
            let mut wish = placing(&run);
            random.shuffle(&mut wish);
            let mut order = nearest_order(count, &run.quads, &wish);
            let (p, q) = (random.below(count), random.below(count));
            if random.below(4) == 0 {
                order[p] = order[q];
            } else {
                order.swap(p, q);
            }
            let given = answer(count, &run.quads, &order);
            refused[0] += usize::from(given.0 == 21);
            refused[1] += usize::from(given.0 == 22);
            assert_eq!(said(check_order(count, &run.quads, &order)), given);
            let OrderScratch { places, pool } = &mut scratch;
            assert_eq!(said(check_order_in(count, &run.quads, &order, places, pool)), given);
        }
    }
    assert!(refused.iter().all(|&times| times > 100), "{refused:?}");
}

#[test]
fn readings_on_their_smallest_inputs() {
    let two = [0, 1, 2, 3, 3, 2, 4, 5];
    let early = |place| Err(NotAccepted::TooEarly { place });
    assert_eq!(check_order(2, &two, &[0, 1]), Ok(()));
    // The quad that stands too early is named, not the one that it waits for.
    assert_eq!(check_order(2, &two, &[1, 0]), early(0));
    // A step is one of the four places of the run: by place and not by value.
    assert_eq!(check_order(2, &[3, 3, 3, 4, 3, 3, 3, 3], &[1, 0]), early(0));
    // Absent, repeated, unknown, and a list that is too long.
    for order in [&[0][..], &[0, 0], &[0, 2], &[0, 1, 1], &[0, 1, 2], &[], &[u32::MAX, 0]] {
        assert_eq!(check_order(2, &two, order), Err(NotAccepted::NotEachOnce), "{order:?}");
    }
    // 21 comes before 22.
    assert_eq!(check_order(2, &two, &[1, 0, 0]), Err(NotAccepted::NotEachOnce));
    // No quads, and an empty list; seven numbers are one quad.
    assert_eq!(check_order(5, &[], &[]), Ok(()));
    assert_eq!(check_order(2, &two[..7], &[0]), Ok(()));
    assert_eq!(check_order(1, &two, &[0]), Ok(()));
    // Scratch is written on a refusal too.
    let mut places = [7];
    assert_eq!(check_order_in(1, &two[..4], &[1], &mut places, &mut []), Err(NotAccepted::NotEachOnce));
    assert_eq!(places, [1]);
    assert_eq!(early(3).unwrap_err().refusal(), Refusal::TooEarly);
    assert!(early(3).unwrap_err().to_string().ends_with(" (place 3)"));
    assert_eq!(NotAccepted::NotEachOnce.to_string(), Refusal::NotEachOnce.to_string());
}

/// Quad 250,000 and on are unknown, however many are lent.
#[test]
fn no_mesh_has_more_than_250_000_quads() {
    let quads: Vec<u32> = (0..4 * 250_001).collect();
    let order: Vec<u32> = (0..250_001).collect();
    assert_eq!(check_order(usize::MAX, &quads, &order), Err(NotAccepted::NotEachOnce));
    assert_eq!(check_order(usize::MAX, &quads, &order[..250_000]), Ok(()));
    let mut other = order[..250_000].to_vec();
    other[7] = 250_000;
    assert_eq!(check_order(250_001, &quads, &other), Err(NotAccepted::NotEachOnce));
}

/// Junk of any length and contents, among it numbers that a pool in use would hold.
fn junk<T: Place>(random: &mut Random, most: usize, of: impl Fn(u64) -> T) -> Guarded<T> {
    let length = random.below(most + 1);
    let list: Vec<T> = (0..length)
        .map(|_| {
            let number = random.next();
            of(if random.below(2) == 0 { number % 8 } else { number })
        })
        .collect();
    Guarded::new(&list)
}

/// The entry on guarded lists. The two that are read keep their bits, and of the scratch the guards do.
fn guarded(quad_count: usize, quads: &[u32], order: &[u32], random: &mut Random, most: usize) -> (u32, usize) {
    let (mut quads, mut order) = (Guarded::new(quads), Guarded::new(order));
    let mut places = junk(random, most, |number| number as usize);
    let mut pool = junk(random, 9 * most, |number| number as u32);
    let ((quads_at, quads_len), (order_at, order_len)) = (quads.parts(), order.parts());
    let (places_list, pool_list) = (places.list_mut(), pool.list_mut());
    // SAFETY: each pointer comes with its list's length, and the last two may be written through.
    let ffi::OrderAnswer { refusal, place } = unsafe {
        ffi::sitjorbe_order(
            quad_count,
            quads_at,
            quads_len,
            order_at,
            order_len,
            places_list.as_mut_ptr(),
            places_list.len(),
            pool_list.as_mut_ptr(),
            pool_list.len(),
        )
    };
    assert!(quads.kept() && order.kept(), "a list lent for reading was written");
    let ends = (places.list().len(), pool.list().len());
    assert!(places.kept_from(ends.0) && pool.kept_from(ends.1), "written beside the scratch");
    (refusal, place)
}

/// Few distinct ids, so that quads have an id twice and steps stand twice; orders of any length with entries of any size.
#[test]
fn hostile_quads_orders_counts_and_scratch() {
    let mut random = Random(3);
    let mut times: HashMap<u32, usize> = HashMap::new();
    for case in 0..200_000 {
        let ids = 2 + random.below(6);
        let whole = random.below(7);
        let quads = {
            let length = 4 * whole + random.below(4);
            random.numbers(length, ids)
        };
        let mut order: Vec<u32> = (0..whole as u32).collect();
        match random.below(3) {
            0 => {}
            1 => random.shuffle(&mut order),
            _ => {
                let length = random.below(8);
                order = random.numbers(length, whole + 2);
                if let (1, Some(entry)) = (random.below(4), order.first_mut()) {
                    *entry = u32::MAX - random.below(2) as u32;
                }
            }
        }
        let count = match random.below(3) {
            0 => usize::MAX - random.below(3),
            1 => random.below(9),
            _ => whole,
        };
        let given = answer(count, &quads, &order);
        *times.entry(given.0).or_default() += 1;
        let found = guarded(count, &quads, &order, &mut random, 8);
        assert_eq!(found, given, "case {case}: {count} {quads:?} {order:?}");
    }
    assert!([0, 21, 22].iter().all(|number| times[number] > 10_000), "{times:?}");
}

/// On a run, scratch of every length: too little of either kind, and more than enough.
#[test]
fn scratch_of_every_length_gives_the_same() {
    let run = run(&Drawing::square(4.0), 1.0);
    let count = run.quads.len() / 4;
    let mut spoilt = placing(&run);
    spoilt.swap(0, count - 1);
    for order in [placing(&run), spoilt] {
        let given = answer(count, &run.quads, &order);
        for places in 0..count + 3 {
            for pool in 0..8 * count + 6 {
                let mut scratch = (vec![usize::FILL; places], vec![u32::FILL; pool]);
                let found = check_order_in(count, &run.quads, &order, &mut scratch.0, &mut scratch.1);
                assert_eq!(said(found), given, "{places} places, a pool of {pool}");
            }
        }
    }
}

/// The scratch that is suggested is enough: all steps are filed at the end. With one number less the last one isn't.
#[test]
fn the_suggested_scratch_is_just_enough() {
    let run = run(&Drawing::square(9.0), 0.7);
    let count = run.quads.len() / 4;
    let OrderScratch { mut places, pool } = OrderScratch::new(count);
    assert_eq!((places.len(), pool.len()), (count, 8 * count + 2));
    let steps = 3 * count as u32;
    for (length, filed) in [(8 * count + 2, steps), (8 * count + 1, steps - 1)] {
        let mut pool = vec![7; length];
        assert_eq!(check_order_in(count, &run.quads, &placing(&run), &mut places, &mut pool), Ok(()));
        assert_eq!(pool[..2], [filed; 2]);
    }
    assert_eq!(OrderScratch::new(usize::MAX).pool.len(), 2_000_002);
    assert_eq!(bits(&places), (0..count as u64).collect::<Vec<_>>());
}
