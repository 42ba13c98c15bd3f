//! The file of 512-byte blocks: reading with refusals 12 and 13, and writing.

use crate::terms::{Drawing, Refusal, Settings};

const BLOCK: usize = 512;
const POINTS_A_BLOCK: usize = 31;
const MOST_POINTS: usize = 248;

/// The check of a block: the sum of (position + 1) times byte over bytes 0 to 509, modulo 65,521.
pub fn check_of(block: &[u8]) -> u16 {
    let sum: u64 = block[..510].iter().zip(1u64..).map(|(&byte, place)| place * u64::from(byte)).sum();
    (sum % 65_521) as u16
}

/// Writes a block's check into its last two bytes.
pub fn seal(block: &mut [u8]) {
    let check = check_of(block);
    block[510..].copy_from_slice(&check.to_le_bytes());
}

/// Reads a file: the head, then block by block (13 if short, 12 for the check, 13 for the contents), last what follows.
pub fn read(bytes: &[u8]) -> Result<(Drawing, Settings), Refusal> {
    let mut blocks = Blocks { rest: bytes };
    let head = Head::of(blocks.next()?)?;
    let mut coordinates = Vec::new();
    let mut left = head.lengths.iter().sum::<usize>();
    while left > 0 {
        let here = left.min(POINTS_A_BLOCK);
        coordinates.extend(floats(blocks.next()?, 2 * here)?);
        left -= here;
    }
    if !blocks.rest.is_empty() {
        return Err(Refusal(13));
    }
    let holes = coordinates.split_off(2 * head.lengths[0]);
    let drawing = Drawing { outer: coordinates, holes, hole_lengths: head.lengths[1..].to_vec() };
    Ok((drawing, head.settings))
}

struct Blocks<'a> {
    rest: &'a [u8],
}

impl<'a> Blocks<'a> {
    /// The next block, once it is there in full and its check is right.
    fn next(&mut self) -> Result<&'a [u8], Refusal> {
        if self.rest.len() < BLOCK {
            return Err(Refusal(13));
        }
        let (block, rest) = self.rest.split_at(BLOCK);
        self.rest = rest;
        if block[510..] != check_of(block).to_le_bytes() {
            return Err(Refusal(12));
        }
        Ok(block)
    }
}

struct Head {
    settings: Settings,
    lengths: Vec<usize>,
}

impl Head {
    /// A head block's contents: 1 to 8 loops, at most 248 points, zeros after the lengths.
    fn of(block: &[u8]) -> Result<Head, Refusal> {
        let two = |at: usize| u16::from_le_bytes([block[at], block[at + 1]]);
        let loops = usize::from(two(12));
        if !(1..=8).contains(&loops) {
            return Err(Refusal(13));
        }
        let lengths: Vec<usize> = (0..loops).map(|k| usize::from(two(14 + 2 * k))).collect();
        if lengths.iter().sum::<usize>() > MOST_POINTS || block[14 + 2 * loops..510].iter().any(|&byte| byte != 0) {
            return Err(Refusal(13));
        }
        let size = f64::from_le_bytes(block[..8].try_into().unwrap());
        Ok(Head { settings: Settings { size, sweeps: two(8).into(), passes: two(10).into() }, lengths })
    }
}

/// The first floats of a block of points; the rest must be zero.
fn floats(block: &[u8], count: usize) -> Result<Vec<f64>, Refusal> {
    if block[8 * count..510].iter().any(|&byte| byte != 0) {
        return Err(Refusal(13));
    }
    Ok(block[..8 * count].chunks_exact(8).map(|bytes| f64::from_le_bytes(bytes.try_into().unwrap())).collect())
}

/// The file of an outline, or none where the form has no room for it.
pub fn write(drawing: &Drawing, settings: Settings) -> Option<Vec<u8>> {
    let lengths: Vec<usize> =
        std::iter::once(drawing.outer.len() / 2).chain(drawing.hole_lengths.iter().copied()).collect();
    let points = (drawing.outer.len() + drawing.holes.len()) / 2;
    drawing.outline().check_lists().ok()?;
    if lengths.len() > 8 || points > MOST_POINTS {
        return None;
    }
    let mut bytes = vec![0; BLOCK * (1 + points.div_ceil(POINTS_A_BLOCK))];
    bytes[..8].copy_from_slice(&settings.size.to_le_bytes());
    let numbers = [settings.sweeps, settings.passes, lengths.len() as u64];
    for (k, number) in numbers.into_iter().chain(lengths.into_iter().map(|n| n as u64)).enumerate() {
        bytes[8 + 2 * k..10 + 2 * k].copy_from_slice(&u16::try_from(number).ok()?.to_le_bytes());
    }
    for (k, x) in drawing.outer.iter().chain(&drawing.holes).enumerate() {
        let at = BLOCK * (1 + k / (2 * POINTS_A_BLOCK)) + 8 * (k % (2 * POINTS_A_BLOCK));
        bytes[at..at + 8].copy_from_slice(&x.to_le_bytes());
    }
    bytes.chunks_exact_mut(BLOCK).for_each(seal);
    Some(bytes)
}
