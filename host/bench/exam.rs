//! Events of an exam on grids of quads in a random order, at nodes in a random order. Exits with 1 if a figure isn't the one worked out afresh.
//!
//! A round withdraws some thresholds of a grid where all stand, and enters them again; its time is a call's on average. Times are the processor's,
//! so that waiting for it isn't counted. Then estimates at random weights, in the quads one after the other and in quads at random; quads, nodes and
//! thresholds read one after the other; and a loop of 1,000,000 nodes.

use std::ffi::c_long;
use std::process::exit;

use sitjorbe::raw::{LentMesh, Results, SharedResults};
use sitjorbe::{Desk, MaskedReader, Reader, MOST_WEIGHT};

extern "C" {
    /// The processor time used so far, in microseconds.
    fn clock() -> c_long;
}

/// Microseconds of processor time.
fn timed(run: impl FnOnce()) -> f64 {
    // SAFETY: `clock` takes nothing and writes nothing.
    let start = unsafe { clock() };
    run();
    let end = unsafe { clock() };
    (end - start) as f64
}

/// SplitMix64.
struct Rng(u64);

impl Rng {
    fn below(&mut self, n: usize) -> usize {
        self.0 = self.0.wrapping_add(0x9e37_79b9_7f4a_7c15);
        let z = (self.0 ^ (self.0 >> 30)).wrapping_mul(0xbf58_476d_1ce4_e5b9);
        let z = (z ^ (z >> 27)).wrapping_mul(0x94d0_49bb_1331_11eb);
        ((z ^ (z >> 31)) % n as u64) as usize
    }

    fn shuffled<T>(&mut self, mut list: Vec<T>) -> Vec<T> {
        for k in (1..list.len()).rev() {
            list.swap(k, self.below(k + 1));
        }
        list
    }
}

/// The quads of a grid, in a random order.
fn grid(wide: u32, high: u32, rng: &mut Rng) -> Vec<u32> {
    let quad = |k: u32| {
        let a = k / wide * (wide + 1) + k % wide;
        [a, a + 1, a + wide + 2, a + wide + 1]
    };
    rng.shuffled((0..wide * high).map(quad).collect()).concat()
}

/// Both figures, worked out afresh.
fn afresh(quads: &[u32], thresholds: &[u16]) -> (u32, u32) {
    let complete = quads.chunks_exact(4).map(|quad| [0, 1, 2, 3].map(|k| u32::from(thresholds[quad[k] as usize])));
    complete
        .filter(|four| four.iter().all(|&t| t <= 500))
        .fold((0, 0), |(n, sum), four| (n + 1, sum + four.iter().sum::<u32>()))
}

/// The least and the median.
fn least_and_median(mut times: Vec<f64>) -> [f64; 2] {
    times.sort_by(f64::total_cmp);
    [times[0], times[times.len() / 2]]
}

fn main() {
    let rounds: usize = std::env::args().nth(1).map_or(15, |word| word.parse().expect("a number of rounds"));
    let mut rng = Rng(6);
    println!("microseconds, least and median of {rounds} rounds:");
    for (wide, high) in [(40, 20), (250, 100), (1_000, 250)] {
        let (nodes, quads) = ((wide + 1) * (high + 1), grid(wide, high, &mut rng));
        let (coordinates, origins) = (vec![0.0; nodes as usize], vec![0; nodes as usize]);
        let (xs, ys, origins) = (&coordinates[..], &coordinates[..], &origins[..]);
        let quad_count = quads.len() / 4;
        let mesh = LentMesh { nodes, xs, ys, quad_count, quads: &quads, origins, ..LentMesh::default() };
        let all: Vec<u16> = (0..nodes).map(|_| rng.below(501) as u16).collect();
        let figures = afresh(&quads, &all);
        let (mut list, (mut count, mut sum)) = (all.clone(), figures);
        let some = &rng.shuffled((0..nodes).collect())[..(40_000_000 / quads.len()).min(200)];
        let mut times = [vec![], vec![]];
        for _ in 0..rounds {
            let mut desk = Desk::new(mesh, Results { thresholds: &mut list, count: &mut count, sum: &mut sum });
            let withdrawn = timed(|| some.iter().for_each(|&node| desk.withdraw(node).unwrap()));
            let part = afresh(&quads, &list);
            if (count, sum) != part || part == figures {
                eprintln!("the figures differ after the withdrawals");
                exit(1);
            }
            let mut desk = Desk::new(mesh, Results { thresholds: &mut list, count: &mut count, sum: &mut sum });
            let enter = |&node: &u32| desk.enter(node, u32::from(all[node as usize])).unwrap();
            let entered = timed(|| some.iter().for_each(enter));
            if (count, sum) != figures {
                eprintln!("the figures differ after the entries");
                exit(1);
            }
            for (times, time) in times.iter_mut().zip([entered, withdrawn]) {
                times.push(time / some.len() as f64);
            }
        }
        let [entered, withdrawn] = times.map(least_and_median);
        println!("{:>7} quads: enter {entered:.2?}, withdraw {withdrawn:.2?}", quads.len() / 4);
        let reader = Reader::new(mesh, SharedResults { thresholds: &all, count: &figures.0, sum: &figures.1 });
        let in_order: Vec<usize> = (0..100_000).map(|k| k % quad_count).collect();
        let at_random: Vec<usize> = in_order.iter().map(|_| rng.below(quad_count)).collect();
        let [in_order, at_random] = [in_order, at_random].map(|asked| {
            let mut weight = || rng.below(MOST_WEIGHT as usize + 1) as u32;
            let requests: Vec<[u32; 3]> = asked.into_iter().map(|quad| [quad as u32, weight(), weight()]).collect();
            let ask = |&[quad, u, v]: &[u32; 3]| u64::from(reader.estimate(quad, u, v).unwrap());
            let round = |_| timed(|| assert!(requests.iter().map(ask).sum::<u64>() > 0)) / 100.0;
            least_and_median((0..rounds).map(round).collect())
        });
        println!("{quad_count:>7} quads: an estimate takes {in_order:.1?} ns in quads in order, {at_random:.1?} at random");
        let ask = |quad: &usize| u64::from(reader.quad(*quad as u32).unwrap()[0]);
        let requests: Vec<usize> = (0..100_000).map(|k| k % quad_count).collect();
        let round = |_| timed(|| assert!(requests.iter().map(ask).sum::<u64>() > 0)) / 100.0;
        let corners = least_and_median((0..rounds).map(round).collect());
        let ask = |node: &u32| u64::from(reader.threshold(*node).unwrap()) + reader.node(*node).unwrap().x as u64;
        let requests: Vec<u32> = (0..100_000).map(|k| k % nodes).collect();
        let round = |_| timed(|| assert!(requests.iter().map(ask).sum::<u64>() > 0)) / 100.0;
        let both = least_and_median((0..rounds).map(round).collect());
        println!("{quad_count:>7} quads: a quad's corners take {corners:.1?} ns, a node and its threshold {both:.1?}");
    }
    one_long_loop(rounds);
}

/// One loop of 1,000,000 nodes, by rising ids: loop 0, and loop 1, which isn't there.
fn one_long_loop(rounds: usize) {
    let nodes = 1_000_000u32;
    let next: Vec<u32> = (0..nodes).map(|k| (k + 1) % nodes).collect();
    let prev: Vec<u32> = (0..nodes).map(|k| (k + nodes - 1) % nodes).collect();
    let (coordinates, origins) = (vec![0.0; nodes as usize], vec![0; nodes as usize]);
    let (xs, ys) = (&coordinates[..], &coordinates[..]);
    let mesh = LentMesh { nodes, xs, ys, next: &next, prev: &prev, origins: &origins, ..LentMesh::default() };
    let masked = MaskedReader::new(mesh, SharedResults { thresholds: &[], count: &0, sum: &0 });
    let mut reply = vec![0; nodes as usize];
    for (number, length) in [(0, nodes as usize), (1, 0)] {
        let mut round = |_| timed(|| assert_eq!(masked.loop_in(number, &mut reply).unwrap().len(), length)) / 1_000.0;
        let times = least_and_median((0..rounds).map(&mut round).collect());
        println!("one loop of {nodes} nodes: loop {number} takes {times:.2?} ms");
    }
    if reply.iter().zip(0..).any(|(id, k)| *id != k) {
        eprintln!("the loop isn't the one lent");
        exit(1);
    }
}
