//! The cases of the fixed list. `expect` says what SCOPE foretells; `add` takes what the reference answers.

use crate::file::{check_of, seal};
use crate::fixed::{Draft, List};
use crate::generate::Rng;

const SQUARE: [[f64; 2]; 4] = [[0.0, 0.0], [2.0, 0.0], [2.0, 2.0], [0.0, 2.0]];
const SQUARE_4: [[f64; 2]; 4] = [[0.0, 0.0], [4.0, 0.0], [4.0, 4.0], [0.0, 4.0]];
const SQUARE_16: [[f64; 2]; 4] = [[0.0, 0.0], [16.0, 0.0], [16.0, 16.0], [0.0, 16.0]];
const LEANING: [[f64; 2]; 4] = [[0.0, 0.0], [9.0, 1.0], [8.0, 7.0], [1.0, 6.0]];
const TRIANGLE: [[f64; 2]; 3] = [[0.0, 0.0], [5.0, 1.0], [2.0, 4.0]];
const HOLE: [[f64; 2]; 3] = [[1.0, 1.0], [1.0, 2.0], [2.0, 2.0]];
const NAN: f64 = f64::NAN;
const INF: f64 = f64::INFINITY;
const LEAST: f64 = f64::from_bits(1);

pub fn all(list: &mut List) {
    worked_examples(list);
    readings(list);
    unsound(list);
    pairs(list);
    loop_by_loop(list);
    refused_outlines(list);
    refused_settings(list);
    refused_places(list);
    refused_checks(list);
    refused_heads(list);
    refused_lengths(list);
    refused_fills(list);
    blocks(list);
    settings(list);
    passes(list);
    full(list);
    holes(list);
    degenerate(list);
    generated(list);
}

// --- the worked examples, and the inputs of docs/DECISIONS.md ---

fn worked_examples(list: &mut List) {
    list.expect("still whole", "square 2 by 2", Draft::of(&SQUARE).file());
    list.expect("still whole", "square 4 by 4", Draft::of(&SQUARE_4).file());
    list.add("triangle with a midpoint", Draft::of(&[[0.0, 0.0], [2.0, 0.0], [1.0, 2.0]]).size(3.0).file());
    for (side, what) in [(1.0, "1"), (1.05, "1.05"), (1.05f64.next_up(), "above 1.05"), (1.06, "1.06")] {
        list.add(&format!("square of side {what}"), Draft::of(&SQUARE).scaled(side / 2.0).file());
    }
    list.expect("refused 7", "points on a line", Draft::of(&[[0.0, 0.0], [1.0, 0.0], [2.0, 0.0]]).file());
}

fn readings(list: &mut List) {
    list.add("reading 2 tiny segment", Draft::of(&[[0.0, 0.0], [1e-162, 0.0], [3.0, 0.0], [3.0, 3.0]]).file());
    let turned = [[0.0, 0.0], [0.0, 4.0], [4.0, 4.0], [4.0, 0.0]];
    list.add("reading 3 one sweep", Draft::of(&turned).sweeps(1).file());
    let flat = [[0.0, 0.0], [2e-162, 0.0], [0.0, 1.5e-162]];
    list.add("reading 4 half the sum is 0", Draft::of(&flat).file());
    let clockwise = [[0.0, 0.0], [1.0, 2.0], [2.0, 0.0]];
    list.add("reading 5 longest after reversal", Draft::of(&clockwise).size(3.0).file());
    list.add("reading 6 corner at minus 0", Draft::of(&SQUARE).with([0, 0, 0], -0.0).with([0, 0, 1], -0.0).file());
    list.add("reading 7 key of minus the least", Draft::of(&SQUARE).with([0, 0, 0], -LEAST).file());
    list.expect("refused 9", "reading 11 counts beyond 32 bits", Draft::of(&corners(1_000.0)).size(0.01).file());
    let tie = [[0.0, 0.0], [3.0, 0.0], [1.0, 2.0], [0.0, 2.0]];
    list.add("reading 14 branches tie", Draft::of(&tie).size(2.0).file());
}

/// Outlines of which the reference leaves no loop, whatever the width of the slit's mouth. `e` is half of it, `f` its height.
fn unsound(list: &mut List) {
    let slit = |e: f64, f: f64| {
        let points = [[-1.0, -2.0], [1.0, -2.0], [1.0, 0.0], [-e, f], [0.0, -1.0], [e, f], [-1.0, 0.0]];
        Draft::of(&points).file()
    };
    list.expect("still open", "slit shut", slit(0.0, 0.0));
    for (e, what) in [(LEAST, "5e-324"), (0.001, "0.001")] {
        list.expect("still whole", &format!("slit gaping {what}"), slit(-e, e));
        list.expect("still open", &format!("slit crossed {what}"), slit(e, e));
        list.expect("still open", &format!("slit overlapping {what}"), slit(e, 0.0));
    }
    let spike = [[0.0, 0.0], [2.0, 0.0], [2.0, 2.0], [1.0, 2.0], [1.0, 1.0], [1.0, 2.0], [0.0, 2.0]];
    list.expect("still open", "spike to the same point", Draft::of(&spike).file());
}

/// The square that reaches so far either way.
fn corners(reach: f64) -> [[f64; 2]; 4] {
    [[-reach, -reach], [reach, -reach], [reach, reach], [-reach, reach]]
}

// --- two refusals in one file ---

/// One thing wrong with a file: the refusal it causes, in the outline or in the bytes.
struct Defect {
    number: usize,
    draw: fn(&mut Draft),
    spoil: fn(&mut Vec<u8>),
}

/// No two change the same thing, but for the size of 5, 6 and 0.005: a size of 0 is below 0.01 as well.
const DEFECTS: [Defect; 11] = [
    Defect { number: 2, draw: |draft| draft.loops[1].truncate(2), spoil: |_| {} },
    Defect { number: 3, draw: |draft| draft.loops[2][1][1] = NAN, spoil: |_| {} },
    Defect { number: 4, draw: |draft| draft.loops[0][1][0] = 1_000.5, spoil: |_| {} },
    Defect { number: 5, draw: |draft| draft.settings.size = 0.0, spoil: |_| {} },
    Defect { number: 6, draw: |draft| draft.settings.size = 0.005, spoil: |_| {} },
    Defect { number: 7, draw: |draft| draft.loops.iter_mut().flatten().for_each(|p| p[1] = 3.0), spoil: |_| {} },
    Defect { number: 8, draw: |draft| draft.settings.sweeps = 1_001, spoil: |_| {} },
    Defect {
        number: 9,
        draw: |draft| draft.loops.iter_mut().flatten().flatten().for_each(|x| *x *= 12.0),
        spoil: |_| {},
    },
    Defect { number: 10, draw: |draft| draft.loops.push(zigzag(60, [0.0, 16.0], 0.2)), spoil: |_| {} },
    Defect { number: 12, draw: |_| {}, spoil: spoil_last_check },
    Defect { number: 13, draw: |_| {}, spoil: |bytes| bytes.push(0) },
];

/// A square with two holes, and what is wrong with it; the greater numbers first, since 7 flattens what 10 adds and 4 sets what 9 scales.
fn defective(defects: &[&Defect]) -> Vec<u8> {
    let second = [[9.0, 9.0], [9.0, 11.0], [11.0, 11.0]];
    let mut draft = Draft::of(&SQUARE_16).hole(&HOLE).hole(&second);
    defects.iter().rev().for_each(|defect| (defect.draw)(&mut draft));
    let mut bytes = draft.file();
    defects.iter().rev().for_each(|defect| (defect.spoil)(&mut bytes));
    bytes
}

/// Each defect alone, and every two of them together: the lesser number goes first, 12 and 13 before all.
fn pairs(list: &mut List) {
    list.add("no defect", defective(&[]));
    for (k, one) in DEFECTS.iter().enumerate() {
        let number = one.number;
        list.expect(&format!("refused {number}"), "alone", defective(&[one]));
        for other in &DEFECTS[k + 1..] {
            let (first, second) = match other.number {
                12 | 13 if number < 12 => (other.number, number),
                _ => (number, other.number),
            };
            list.expect(&format!("refused {first}"), &format!("and {second}"), defective(&[one, other]));
        }
    }
    list.expect("refused 12", "and all others", defective(&DEFECTS.each_ref()));
    list.expect("refused 2", "and all to 10", defective(&DEFECTS[..9].iter().collect::<Vec<_>>()));
    let late: Vec<&Defect> = DEFECTS[5..9].iter().collect();
    list.expect("refused 7", "and all to 10", defective(&late));
}

fn spoil_last_check(bytes: &mut Vec<u8>) {
    let end = 512 * (bytes.len() / 512);
    bytes[end - 1] ^= 1;
}

/// Points to and fro between two abscissae, each so much higher.
fn zigzag(n: usize, [left, right]: [f64; 2], pitch: f64) -> Vec<[f64; 2]> {
    (0..n).map(|k| [if k % 2 == 0 { left } else { right }, 1.0 + pitch * k as f64]).collect()
}

/// 2 and 3 run loop by loop, the outer loop first.
fn loop_by_loop(list: &mut List) {
    let bad = [[NAN, 1.0], [1.0, 2.0], [2.0, 2.0]];
    let spoilt = [[0.0, 0.0], [4.0, 0.0], [4.0, INF], [0.0, 4.0]];
    list.expect("refused 3", "outer before 2 of a hole", Draft::of(&spoilt).hole(&HOLE[..2]).file());
    list.expect("refused 2", "outer before 3 of a hole", Draft::of(&SQUARE[..2]).hole(&bad).file());
    list.expect(
        "refused 2",
        "first hole before 3 of the second",
        Draft::of(&SQUARE_4).hole(&HOLE[..2]).hole(&bad).file(),
    );
    list.expect(
        "refused 3",
        "first hole before 2 of the second",
        Draft::of(&SQUARE_4).hole(&bad).hole(&HOLE[..2]).file(),
    );
    list.expect("refused 2", "and 3 in one loop", Draft::of(&SQUARE_4).hole(&bad[..2]).file());
    let far = [[0.0, 0.0], [2_000.0, 0.0], [4.0, 4.0]];
    list.expect("refused 3", "hole before 4 of the outer loop", Draft::of(&far).hole(&bad).file());
    list.expect("refused 2", "hole before 4 of the outer loop", Draft::of(&far).hole(&HOLE[..1]).file());
}

// --- one refusal, in many forms ---

fn refused_outlines(list: &mut List) {
    for n in 0..3 {
        list.expect("refused 2", &format!("outer loop of {n} points"), Draft::of(&SQUARE[..n]).file());
        list.expect("refused 2", &format!("hole of {n} points"), Draft::of(&SQUARE_4).hole(&HOLE[..n]).file());
    }
    let mut seven = Draft::of(&SQUARE_4);
    (0..7).for_each(|k| seven.loops.push(HOLE[..if k < 6 { 3 } else { 2 }].to_vec()));
    list.expect("refused 2", "last of seven holes", seven.file());
    let mut empty = Draft::of(&[]);
    empty.loops.resize(8, vec![]);
    list.expect("refused 2", "eight loops of no points", empty.file());
    list.expect("refused 2", "outer loop of no points with a hole", Draft::of(&[]).hole(&HOLE).file());

    let signalling = f64::from_bits(0xfff0_0000_0000_0001);
    for (x, what) in [(NAN, "nan"), (signalling, "nan of another pattern"), (INF, "infinity"), (-INF, "minus infinity")]
    {
        list.expect("refused 3", &format!("{what} as x"), Draft::of(&SQUARE).with([0, 0, 0], x).file());
        list.expect(
            "refused 3",
            &format!("{what} as y of a hole"),
            Draft::of(&SQUARE_4).hole(&HOLE).with([1, 2, 1], x).file(),
        );
    }
    let far = [
        (1_000f64.next_up(), "above 1000"),
        (-1_000f64.next_up(), "below minus 1000"),
        (f64::MAX, "greatest"),
        (1e9, "1e9"),
    ];
    for (x, what) in far {
        list.expect("refused 4", &format!("{what} as y"), Draft::of(&SQUARE).with([0, 3, 1], x).file());
        list.expect(
            "refused 4",
            &format!("{what} as x of a hole"),
            Draft::of(&SQUARE_4).hole(&HOLE).with([1, 0, 0], x).file(),
        );
    }
    let last = Draft::of(&ring(248, 8.0));
    list.expect("refused 3", "last of 248 points", last.clone().with([0, 247, 1], NAN).file());
    list.expect("refused 4", "last of 248 points", last.with([0, 247, 1], -1_001.0).file());
    let flat: [(&str, [[f64; 2]; 3]); 4] = [
        ("no width", [[1.0, 0.0], [1.0, 3.0], [1.0, 2.0]]),
        ("no height", [[0.0, -2.5], [7.0, -2.5], [3.0, -2.5]]),
        ("one point three times", [[1.0, 1.0]; 3]),
        ("height from minus 0 to 0", [[0.0, 0.0], [4.0, -0.0], [2.0, 0.0]]),
    ];
    for (what, points) in flat {
        list.expect("refused 7", what, Draft::of(&points).file());
    }
    let line = [[0.0, 1.0], [5.0, 1.0], [2.0, 1.0]];
    list.expect(
        "refused 7",
        "no height with a hole",
        Draft::of(&line).hole(&[[1.0, 1.0], [2.0, 1.0], [3.0, 1.0]]).file(),
    );
    list.add("height of the hole alone", Draft::of(&line).hole(&HOLE).file());
    list.add("height of the least float", Draft::of(&[[0.0, 0.0], [2.0, 0.0], [1.0, LEAST]]).file());
}

fn refused_settings(list: &mut List) {
    let unusable = [
        (0.0, "0"),
        (-0.0, "minus 0"),
        (-1.0, "minus 1"),
        (-LEAST, "minus the least"),
        (NAN, "nan"),
        (INF, "infinity"),
    ];
    for (size, what) in unusable.into_iter().chain([(-INF, "minus infinity"), (-f64::NAN, "minus nan")]) {
        list.expect("refused 5", &format!("size {what}"), Draft::of(&SQUARE).size(size).file());
    }
    let beyond = [(0.01f64.next_down(), "below 0.01"), (LEAST, "the least"), (f64::MIN_POSITIVE, "the least normal")];
    for (size, what) in beyond.into_iter().chain([(100f64.next_up(), "above 100"), (f64::MAX, "the greatest")]) {
        list.expect("refused 6", &format!("size {what}"), Draft::of(&SQUARE).size(size).file());
    }
    for sweeps in [1_001, 1_024, 32_768, 65_535] {
        list.expect("refused 8", &format!("{sweeps} sweeps"), Draft::of(&SQUARE).sweeps(sweeps).file());
    }
}

/// 9 and 10: what the program lends is just enough, or just not.
fn refused_places(list: &mut List) {
    let box_of = |w: f64, t: f64| Draft::of(&[[0.0, 0.0], [w, 0.0], [w, t], [0.0, t]]);
    list.add("field of 40 by 40 nodes", box_of(18.5, 18.5).passes(1).file());
    list.add("field of 320 by 5 nodes", box_of(158.5, 0.75).passes(2).file());
    list.expect("refused 9", "field of 18 by 89 nodes", box_of(7.5, 43.0).file());
    list.expect("refused 9", "field of 41 by 40 nodes", box_of(18.75, 18.5).file());
    list.expect("refused 9", "field of 321 by 5 nodes", box_of(159.0, 0.75).file());
    list.expect("refused 9", "h grown to 250000 nodes", box_of(100.0, 100.0).size(0.1).file());
    list.expect("refused 9", "width alone", Draft::of(&[[-500.0, 0.0], [500.0, 0.0], [0.0, 0.5]]).size(2.0).file());
    list.expect(
        "refused 9",
        "hole far outside",
        Draft::of(&SQUARE_4).hole(&[[90.0, 90.0], [91.0, 90.0], [90.0, 91.0]]).file(),
    );
    for nodes in [802, 804, 900, 2_000] {
        list.expect("refused 10", &format!("{nodes} nodes sampled"), crowded(nodes).file());
    }
    list.expect("refused 10", "zigzag of 80 points", Draft::of(&SQUARE_16).hole(&zigzag(80, [1.0, 15.0], 0.1)).file());
}

/// A square of side 16 with zigzag holes in its lower part, so that exactly so many nodes are sampled.
fn crowded(nodes: usize) -> Draft {
    let rows = 2 * ((nodes - 100) / 28);
    let draft = Draft::of(&SQUARE_16).hole(&zigzag(rows, [1.0, 15.0], 2.0 / rows as f64));
    let left = nodes - draft.sampled();
    let draft = draft.hole(&zigzag(left, [14.5, 14.75], 0.01));
    assert_eq!(draft.sampled(), nodes, "nodes sampled");
    draft
}

// --- what is wrong with a file ---

/// A file with one byte set, and the check of its block made anew.
fn sealed(mut bytes: Vec<u8>, at: usize, byte: u8) -> Vec<u8> {
    bytes[at] = byte;
    let start = at / 512 * 512;
    seal(&mut bytes[start..start + 512]);
    bytes
}

/// A file with one byte set, and no more.
fn unsealed(mut bytes: Vec<u8>, at: usize, byte: u8) -> Vec<u8> {
    bytes[at] = byte;
    bytes
}

/// A file of nine blocks.
fn longest() -> Vec<u8> {
    Draft::of(&ring(248, 8.0)).passes(0).file()
}

fn ring(n: usize, reach: f64) -> Vec<[f64; 2]> {
    let at = |k: usize| (k as f64 * 8.0 / n as f64).rem_euclid(8.0);
    let ramp = |x: f64| {
        if x < 1.0 {
            x
        } else if x < 3.0 {
            1.0
        } else if x < 5.0 {
            4.0 - x
        } else if x < 7.0 {
            -1.0
        } else {
            x - 8.0
        }
    };
    (0..n).map(|k| [reach * ramp((at(k) + 2.0) % 8.0), reach * ramp(at(k))]).collect()
}

fn refused_checks(list: &mut List) {
    let good = Draft::of(&SQUARE_4).hole(&HOLE).file();
    let expect = &mut |what: &str, bytes: Vec<u8>| list.expect("refused 12", what, bytes);
    for (at, what) in [(510, "low byte of the check of the head"), (511, "high byte of the check of the head")] {
        expect(what, unsealed(good.clone(), at, good[at].wrapping_add(1)));
        expect(&what.replace("head", "points"), unsealed(good.clone(), 512 + at, good[512 + at].wrapping_add(1)));
    }
    for (at, what) in [(0, "first byte"), (8, "sweeps"), (509, "last fill byte")] {
        expect(&format!("{what} of the head changed"), unsealed(good.clone(), at, good[at] ^ 0x10));
    }
    expect("coordinate changed", unsealed(good.clone(), 512 + 31, good[512 + 31] ^ 0x40));
    expect("last fill byte of the points changed", unsealed(good.clone(), 512 + 509, 1));
    let mut swapped = good.clone();
    swapped.swap(8, 9);
    expect("two bytes of the head swapped", swapped);
    for block in [1, 4, 8] {
        let at = 512 * block + 511;
        expect(&format!("check of block {block} of 8"), unsealed(longest(), at, longest()[at].wrapping_add(1)));
    }
    expect("check of block 8 before a byte after the end", [unsealed(longest(), 4_600, 1), vec![0]].concat());
    let short = unsealed(longest(), 512 * 3 + 500, 1)[..512 * 6].to_vec();
    expect("check of block 3 before the missing block 6", short);
    expect("head before its loops", unsealed(good.clone(), 12, 9));
    expect("head before the missing points", unsealed(good[..512].to_vec(), 40, 1));
    expect("points before their fill", unsealed(good.clone(), 512 + 200, 1));
    expect("ones throughout", vec![0xff; 1_024]);
    let mut rng = Rng::new(12, 0);
    expect("bytes at random", (0..1_536).map(|_| rng.next() as u8).collect());
    let text = b"size 1, sweeps 400, passes 600: not a file of blocks\n";
    expect("text", text.iter().copied().cycle().take(600).collect());
    wrapped_checks(list);
}

/// Blocks of points whose check is small: 65,521 more is the same number modulo 65,521, and isn't the check.
fn wrapped_checks(list: &mut List) {
    let draft = Draft::of(&ring(31, 3.0)).size(2.0);
    let x = draft.loops[0][30][0];
    for wanted in [0u16, 14] {
        let mut files =
            (0..1 << 20).map(|k| draft.clone().with([0, 30, 0], f64::from_bits(x.to_bits() + 977 * 65_537 * k)).file());
        let good = files.find(|bytes| check_of(&bytes[512..]) == wanted).expect("some last bits of x give it");
        let mut wrapped = good.clone();
        wrapped[1_022..].copy_from_slice(&(wanted + 65_521).to_le_bytes());
        list.add(&format!("check {wanted}"), good);
        list.expect("refused 12", &format!("check {wanted} and 65521 more"), wrapped);
    }
}

fn refused_heads(list: &mut List) {
    let good = Draft::of(&SQUARE_4).hole(&HOLE).file();
    let head = |numbers: &[u16]| {
        let mut bytes = good.clone();
        bytes[12..512].fill(0);
        numbers.iter().enumerate().for_each(|(k, n)| bytes[12 + 2 * k..14 + 2 * k].copy_from_slice(&n.to_le_bytes()));
        seal(&mut bytes[..512]);
        bytes
    };
    let expect = &mut |what: &str, bytes: Vec<u8>| list.expect("refused 13", what, bytes);
    expect("no loops", head(&[0]));
    expect("no loops but a length", head(&[0, 4]));
    expect("nine loops", head(&[9, 4, 3, 0, 0, 0, 0, 0, 0, 0]));
    expect("256 loops", head(&[256, 4]));
    expect("257 loops", head(&[257, 4]));
    expect("65535 loops", head(&[65_535, 4]));
    expect("249 points", head(&[1, 249]));
    expect("249 points in two loops", head(&[2, 4, 245]));
    expect("points adding up beyond 16 bits", head(&[3, 32_768, 32_768, 4]));
    expect("eight loops of 65535 points", head(&[8, 65_535, 65_535, 65_535, 65_535, 65_535, 65_535, 65_535, 65_535]));
    expect("260 points", head(&[1, 260]));
    expect("length past the loops", head(&[1, 4, 3]));
    expect("zeros throughout", vec![0; 512]);
    expect("first fill byte of the head", sealed(good.clone(), 18, 1));
    expect("fill of the head past eight lengths", sealed(good.clone(), 30, 1));
    expect("last fill byte of the head", sealed(good.clone(), 509, 1));
    expect("loops before the check of the points", unsealed(head(&[0]), 600, 1));
    expect("fill of the head before the check of the points", unsealed(sealed(good.clone(), 100, 1), 600, 1));
    expect("loops before the missing points", head(&[0])[..512].to_vec());
    expect("blocks swapped", [&good[512..], &good[..512]].concat());
    expect("fewer points than blocks", head(&[1, 0]));
    expect("more points than blocks", head(&[1, 32]));
}

fn refused_lengths(list: &mut List) {
    let good = Draft::of(&SQUARE_4).hole(&HOLE).file();
    let expect = &mut |what: &str, bytes: Vec<u8>| list.expect("refused 13", what, bytes);
    for length in [0, 1, 2, 510, 511] {
        expect(&format!("length {length}"), good[..length].to_vec());
    }
    expect("head alone", good[..512].to_vec());
    expect("one byte of the points", good[..513].to_vec());
    expect("one byte short", good[..1_023].to_vec());
    expect("check of the points missing", good[..1_022].to_vec());
    for more in [1, 511, 512, 513] {
        expect(&format!("zeros after the end {more}"), [good.clone(), vec![0; more]].concat());
    }
    expect("the file twice", good.repeat(2));
    expect("the points twice", [&good, &good[512..]].concat());
    expect("a line feed after the end", [&good[..], b"\n"].concat());
    for length in [512, 1_024, 4_096, 4_607] {
        expect(&format!("{length} of 4608 bytes"), longest()[..length].to_vec());
    }
    expect("4609 bytes", [longest(), vec![0]].concat());
    expect("5120 bytes", [longest(), vec![0; 512]].concat());
    expect("block 6 missing before the check of block 7", {
        let mut bytes = longest();
        bytes.drain(512 * 6..512 * 7);
        bytes[512 * 6..512 * 6 + 400].fill(0);
        seal(&mut bytes[512 * 6..512 * 7]);
        bytes
    });
    expect("points of 31 and a block more", [Draft::of(&ring(31, 3.0)).file(), vec![0; 512]].concat());
    expect("points of 32 without the second block", Draft::of(&ring(32, 3.0)).file()[..1_024].to_vec());
    expect("short block before the size 0", Draft::of(&SQUARE).size(0.0).file()[..1_000].to_vec());
}

fn refused_fills(list: &mut List) {
    let good = Draft::of(&SQUARE_4).hole(&HOLE).file();
    let whole = Draft::of(&ring(31, 3.0)).file();
    let two = Draft::of(&ring(32, 3.0)).file();
    let expect = &mut |what: &str, bytes: Vec<u8>| list.expect("refused 13", what, bytes);
    expect("first fill byte of the points", sealed(good.clone(), 512 + 7 * 16, 1));
    expect("last fill byte of the points", sealed(good.clone(), 512 + 509, 255));
    expect("fill that is minus 0", sealed(good.clone(), 512 + 7 * 16 + 7, 0x80));
    expect("fill after 31 points", sealed(whole.clone(), 512 + 496, 1));
    expect("last fill byte after 31 points", sealed(whole, 512 + 509, 1));
    expect("fill of the first of two blocks", sealed(two.clone(), 512 + 500, 1));
    expect("fill of the second of two blocks", sealed(two.clone(), 1_024 + 16, 1));
    expect("fill of block 1 before the check of block 2", unsealed(sealed(two.clone(), 512 + 500, 1), 1_024, 1));
    expect("fill of block 1 before the missing block 2", sealed(two.clone(), 512 + 500, 1)[..1_024].to_vec());
    expect("fill of block 1 before a byte after the end", [sealed(two.clone(), 512 + 500, 1), vec![0]].concat());
    expect("fill of block 8", sealed(longest(), 512 * 8 + 509, 1));
    list.expect("refused 12", "block 1 before the fill of block 2", unsealed(sealed(two, 1_024 + 16, 1), 512, 1));
}

// --- files in good order ---

/// Points that fill blocks just so.
fn blocks(list: &mut List) {
    for n in [3, 30, 31, 32, 61, 62, 63, 93, 94, 247] {
        list.add(&format!("ring of {n} points"), Draft::of(&ring(n, 3.0)).size(2.0).file());
    }
    list.add("248 points in one loop", longest());
    let mut eight = Draft::of(&ring(31, 6.0)).size(2.5);
    (0..7).for_each(|k| eight.loops.push(ring(31, 5.5 - 0.7 * k as f64)));
    list.add("248 points in eight loops", eight.file());
    list.add("247 points in two loops", Draft::of(&ring(244, 3.0)).hole(&HOLE).size(2.0).file());
}

/// Sizes, sweeps and passes at their bounds.
fn settings(list: &mut List) {
    for (size, what) in
        [(0.01, "0.01"), (0.01f64.next_up(), "above 0.01"), (100f64.next_down(), "below 100"), (100.0, "100")]
    {
        list.add(&format!("square at size {what}"), Draft::of(&SQUARE).scaled(1.5 * size).size(size).file());
        list.add(&format!("triangle at size {what}"), Draft::of(&TRIANGLE).scaled(size).size(size).file());
    }
    list.add("small square at size 100", Draft::of(&SQUARE).size(100.0).file());
    for sweeps in [0, 1, 2, 3, 10, 100, 999, 1_000] {
        list.add(
            &format!("{sweeps} sweeps"),
            Draft::of(&LEANING).hole(&[[4.0, 3.0], [4.0, 4.0], [5.0, 4.0]]).sweeps(sweeps).file(),
        );
    }
    for size in [0.7, 0.8, 1.3, 2.0, 3.0, 5.0, 9.0] {
        list.add(&format!("leaning at size {size}"), Draft::of(&LEANING).size(size).file());
    }
}

/// The end `passes`, and the pass after which it is `still`.
fn passes(list: &mut List) {
    list.expect("passes open", "0 of the square", Draft::of(&SQUARE).passes(0).file());
    list.expect("passes whole", "1 of the square", Draft::of(&SQUARE).passes(1).file());
    list.expect("still whole", "2 of the square", Draft::of(&SQUARE).passes(2).file());
    list.expect("passes open", "0 of the leaning field", Draft::of(&LEANING).passes(0).file());
    list.expect("passes open", "1 of the leaning field", Draft::of(&LEANING).passes(1).file());
    for passes in [2, 3, 4, 5, 6, 599, 600, 601, 1_000, 65_535] {
        list.add(&format!("{passes} of the leaning field"), Draft::of(&LEANING).passes(passes).file());
    }
    for passes in [1, 2, 3, 4] {
        list.add(&format!("{passes} of the square of 16"), Draft::of(&SQUARE_16).size(2.0).passes(passes).file());
    }
}

/// The end `full`: only nodes can run out in the program.
fn full(list: &mut List) {
    list.expect("full open", "800 nodes sampled", crowded(800).sweeps(1).file());
    list.expect("passes open", "800 nodes sampled and no pass", crowded(800).sweeps(0).passes(0).file());
    for nodes in [798, 780] {
        list.expect("full open", &format!("{nodes} nodes sampled"), crowded(nodes).sweeps(1).file());
    }
    list.expect("full open", "790 nodes sampled and one pass", crowded(790).sweeps(1).passes(1).file());
    list.expect("full open", "late", crowded(700).sweeps(1).file());
}

/// One hole to seven, in all places.
fn holes(list: &mut List) {
    let square = |x: f64, y: f64, s: f64| [[x, y], [x, y + s], [x + s, y + s], [x + s, y]];
    let field = || Draft::of(&SQUARE_16).size(2.0);
    list.add("one hole", field().hole(&square(6.0, 6.0, 3.0)).file());
    let mut turned = square(6.0, 6.0, 3.0);
    turned.reverse();
    list.add("one hole the other way", field().hole(&turned).file());
    for n in 2..8 {
        let mut draft = field();
        (0..n).for_each(|k| {
            draft.loops.push(square(1.0 + 5.0 * (k % 3) as f64, 1.0 + 5.0 * (k / 3) as f64, 2.0).to_vec())
        });
        list.add(&format!("{n} holes"), draft.file());
    }
    list.add("hole outside", field().hole(&square(18.0, 3.0, 3.0)).file());
    list.add("hole across the outer loop", field().hole(&square(14.0, 7.0, 4.0)).file());
    list.add("hole touching the outer loop", field().hole(&square(0.0, 5.0, 4.0)).file());
    list.add("hole at a corner", field().hole(&square(16.0, 16.0, 4.0)).file());
    list.add("hole that is the outer loop", field().hole(&SQUARE_16).file());
    list.add("hole about the outer loop", field().hole(&square(-1.0, -1.0, 18.0)).file());
    list.add("hole in a hole", field().hole(&square(3.0, 3.0, 10.0)).hole(&square(5.0, 5.0, 6.0)).file());
    list.add("two equal holes", field().hole(&square(5.0, 5.0, 5.0)).hole(&square(5.0, 5.0, 5.0)).file());
    list.add("holes that cross", field().hole(&square(3.0, 3.0, 6.0)).hole(&square(6.0, 6.0, 6.0)).file());
    list.add("holes that share a corner", field().hole(&square(3.0, 3.0, 4.0)).hole(&square(7.0, 7.0, 4.0)).file());
    list.add("hole of no area", field().hole(&[[4.0, 4.0], [8.0, 8.0], [6.0, 6.0]]).file());
    list.add("hole of one point", field().hole(&[[7.0, 7.0]; 3]).file());
    list.add("hole far smaller than the size", field().hole(&square(7.0, 7.0, 1e-6)).file());
    list.add("hole near the least float", field().hole(&square(0.0, 0.0, LEAST)).file());
}

// --- odd outlines ---

fn degenerate(list: &mut List) {
    let odd: [(&str, &[[f64; 2]], f64); 26] = [
        ("outline to and fro", &[[0.0, 0.0], [4.0, 3.0], [8.0, 6.0], [4.0, 3.0]], 1.0),
        (
            "outline round twice",
            &[[0.0, 0.0], [3.0, 0.0], [3.0, 3.0], [0.0, 3.0], [0.0, 0.0], [3.0, 0.0], [3.0, 3.0], [0.0, 3.0]],
            1.0,
        ),
        ("doubled corners", &[[0.0, 0.0], [0.0, 0.0], [4.0, 0.0], [4.0, 0.0], [4.0, 4.0], [0.0, 4.0]], 1.0),
        ("corner three times", &[[0.0, 0.0], [4.0, 0.0], [4.0, 4.0], [4.0, 4.0], [4.0, 4.0], [0.0, 4.0]], 1.0),
        ("last point is the first", &[[0.0, 0.0], [4.0, 0.0], [4.0, 4.0], [0.0, 4.0], [0.0, 0.0]], 1.0),
        (
            "points on the sides",
            &[[0.0, 0.0], [1.0, 0.0], [3.0, 0.0], [4.0, 0.0], [4.0, 4.0], [2.0, 4.0], [0.0, 4.0]],
            1.0,
        ),
        ("spike outwards", &[[0.0, 0.0], [4.0, 0.0], [4.0, 2.0], [7.0, 2.0], [4.0, 2.0], [4.0, 4.0], [0.0, 4.0]], 1.0),
        ("spike inwards", &[[0.0, 0.0], [6.0, 0.0], [6.0, 3.0], [3.0, 3.0], [6.0, 3.0], [6.0, 6.0], [0.0, 6.0]], 1.0),
        ("figure of eight", &[[0.0, 0.0], [6.0, 6.0], [6.0, 0.0], [0.0, 6.0]], 1.0),
        ("figure of eight of one area", &[[0.0, 0.0], [6.0, 0.0], [0.0, 6.0], [6.0, 9.0]], 1.0),
        ("star of five that crosses itself", &[[0.0, 5.0], [3.0, -4.0], [-5.0, 2.0], [5.0, 2.0], [-3.0, -4.0]], 1.0),
        ("clockwise", &[[0.0, 0.0], [0.0, 5.0], [5.0, 5.0], [5.0, 0.0]], 1.0),
        ("diamond at 45 degrees", &[[4.0, 0.0], [8.0, 4.0], [4.0, 8.0], [0.0, 4.0]], 1.0),
        ("nearly flat", &[[0.0, 0.0], [8.0, 0.0], [8.0, 1e-9], [0.0, 1e-9]], 1.0),
        ("sliver", &[[0.0, 0.0], [12.0, 0.3], [12.0, 0.4], [0.0, 0.1]], 1.0),
        ("extent of 1e-162", &[[0.0, 0.0], [1e-162, 0.0], [1e-162, 1e-162], [0.0, 1e-162]], 1.0),
        ("extent of the least float", &[[0.0, 0.0], [LEAST, 0.0], [0.0, LEAST]], 0.01),
        ("extent of 1e-13", &[[0.0, 0.0], [1e-13, 0.0], [1e-13, 1e-13]], 0.01),
        ("corner near 1e-162", &[[1e-162, -1e-162], [3.0, 0.0], [3.0, 3.0], [0.0, 3.0]], 1.0),
        ("zeros of both signs", &[[-0.0, 0.0], [3.0, -0.0], [3.0, 3.0], [-0.0, 3.0]], 1.0),
        ("all negative", &[[-3.0, -3.0], [-1.0, -3.0], [-1.0, -1.0], [-3.0, -1.0]], 1.0),
        ("from 0 to 1000", &[[0.0, 0.0], [1000.0, 0.0], [1000.0, 1000.0], [0.0, 1000.0]], 100.0),
        ("from minus 1000 to 1000", &[[-1000.0, -300.0], [1000.0, -300.0], [1000.0, 1000.0], [-1000.0, 1000.0]], 100.0),
        ("small at 1000", &[[998.0, 998.0], [1000.0, 998.0], [1000.0, 1000.0], [998.0, 1000.0]], 1.0),
        ("small at minus 1000", &[[-1000.0, -1000.0], [-997.5, -1000.0], [-998.0, -997.0]], 1.0),
        ("subnormal corners", &[[1e-310, -1e-310], [3.0, 1e-320], [3.0, 3.0], [-5e-324, 3.0]], 1.0),
    ];
    for (what, points, size) in odd {
        list.add(what, Draft::of(points).size(size).file());
    }
    let same = |n: usize| vec![[2.0, 2.0]; n];
    list.add("loop of 60 equal points as a hole", Draft::of(&SQUARE_4).hole(&same(60)).file());
    list.add("zigzag as the outline", Draft::of(&zigzag(20, [0.0, 6.0], 0.7)).file());
    let bits = |x: f64| f64::from_bits(x.to_bits() + 1);
    let beside = SQUARE_4.map(|[x, y]| [if x == 0.0 { x } else { bits(x) }, y]);
    list.add("width the next float after 4", Draft::of(&beside).file());
    for (x, what) in
        [(0.35, "0.35"), (0.45, "0.45"), (0.35f64.next_up(), "above 0.35"), (0.45f64.next_up(), "above 0.45")]
    {
        let gap =
            [[0.0, 0.0], [3.0, 0.0], [3.0, 2.0], [1.0 + x, 2.0], [1.0 + x, 1.0], [1.0, 1.0], [1.0, 2.0], [0.0, 2.0]];
        list.add(&format!("gap of {what}"), Draft::of(&gap).file());
    }
}

// --- generated ---

fn generated(list: &mut List) {
    for kind in ["visual", "lattice", "concave", "crossing", "holes", "sizes", "settings"] {
        list.generated(kind, 1, 8, 4_000);
    }
    list.generated("degenerate", 1, 20, 4_000);
    list.generated("files", 1, 20, 4_000);
    list.generated("damaged", 1, 24, 4_000);
    for kind in ["visual", "lattice", "holes"] {
        list.generated(kind, 2, 2, 40_000);
    }
}
