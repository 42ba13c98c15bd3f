//! Origins beside the library, written from SCOPE: which loop of the outline each node came from, worked out from the outline, the size and the
//! quads; and whether a front loop or a quad ever has nodes of two numbers.

use std::collections::BTreeMap;

use super::Drawing;

/// The number of each node: 0 where it was sampled from the outer loop, k + 1 from hole k; a new node takes that of its quad's node a.
pub fn origins(drawing: &Drawing, size: f64, quads: &[[usize; 4]]) -> Vec<u16> {
    let mut numbers = vec![];
    for (number, points) in (0..).zip(drawing.loops()) {
        let sampled = samples(points, size);
        numbers.extend(vec![number; sampled + sampled % 2]);
    }
    for &[a, _, d, c] in quads {
        for id in [c, d] {
            if id == numbers.len() {
                numbers.push(numbers[a]);
            }
        }
    }
    numbers
}

/// The points of a loop before it is made even: each segment is cut into as many parts as 1.05 sizes cover it.
fn samples(points: &[f64], size: f64) -> usize {
    let count = points.len() / 2;
    let point = |k: usize| [points[2 * (k % count)], points[2 * (k % count) + 1]];
    let parts = |k: usize| {
        let ([ax, ay], [bx, by]) = (point(k), point(k + 1));
        let length = ((ax - bx) * (ax - bx) + (ay - by) * (ay - by)).sqrt();
        ((length / (1.05 * size)).ceil() as usize).max(1)
    };
    (0..count).map(parts).sum()
}

/// What is wrong with the numbers before the first quad or after one, if anything is. `front` is the front before the first quad.
pub fn fault(numbers: &[u16], front: &[(usize, usize)], quads: &[[usize; 4]]) -> Option<String> {
    let mut next: BTreeMap<usize, usize> = front.iter().copied().collect();
    let mut nodes = front.len();
    let loops = front_numbers(numbers, &next);
    let loops = match loops {
        Ok(loops) => loops,
        Err(what) => return Some(format!("before the first quad: {what}")),
    };
    for (k, &[a, b, d, c]) in quads.iter().enumerate() {
        next.remove(&a);
        for (id, from, to) in [(c, c, a), (d, b, d)] {
            if next.get(&from) == Some(&to) {
                next.remove(&from);
            } else {
                next.insert(to, from);
                nodes += 1;
                if id + 1 != nodes {
                    return Some(format!("quad {k}: {id} isn't the next node"));
                }
            }
        }
        next.insert(c, d);
        let four = [a, b, d, c].map(|id| numbers.get(id));
        if four.iter().any(|number| number.is_none() || *number != four[0]) {
            return Some(format!("quad {k}: its nodes have the numbers {four:?}"));
        }
        match front_numbers(numbers, &next) {
            Ok(found) if found == loops => {}
            Ok(found) => return Some(format!("quad {k}: front loops of {found:?}, which were of {loops:?}")),
            Err(what) => return Some(format!("quad {k}: {what}")),
        }
    }
    (nodes != numbers.len()).then(|| format!("{} numbers for {nodes} nodes", numbers.len()))
}

/// The numbers of the front's loops, in rising order; or which loop has two.
fn front_numbers(numbers: &[u16], next: &BTreeMap<usize, usize>) -> Result<Vec<u16>, String> {
    let (mut left, mut found) = (next.clone(), vec![]);
    while let Some((start, mut at)) = left.pop_first() {
        let number = numbers.get(start).ok_or(format!("node {start} has no number"))?;
        while at != start {
            if numbers.get(at) != Some(number) {
                return Err(format!("the front loop of {start} has also node {at}, which isn't of {number}"));
            }
            at = left.remove(&at).ok_or(format!("the front stops at {at}"))?;
        }
        found.push(*number);
    }
    found.sort_unstable();
    Ok(found)
}
