//! Sums of products of two floats, exactly.

use std::cmp::Ordering;

/// Limbs of a sum: enough for a billion products of coordinates up to 1,001 either way.
const LIMBS: usize = 36;

/// A whole number of units of 2^-2148, in two's complement, the least limb first. The product of any two floats is a whole number of them.
#[derive(Clone, Debug, PartialEq)]
pub struct Exact([u64; LIMBS]);

/// A finite float as a whole number times 2^(shift - 1074).
fn parts(x: f64) -> (u64, usize) {
    let (exponent, fraction) = ((x.to_bits() >> 52 & 0x7ff) as usize, x.to_bits() & ((1 << 52) - 1));
    if exponent == 0 {
        (fraction, 0)
    } else {
        (fraction | 1 << 52, exponent - 1)
    }
}

impl Exact {
    pub const ZERO: Exact = Exact([0; LIMBS]);

    /// Twice the area that a ring of points runs round, above 0 where it runs counter-clockwise.
    pub fn doubled_area(ring: &[[f64; 2]]) -> Exact {
        let mut sum = Exact::ZERO;
        for (&[ax, ay], &[bx, by]) in ring.iter().zip(ring.iter().cycle().skip(1)) {
            sum.add(ax, by);
            sum.add(-ay, bx);
        }
        sum
    }

    /// Above 0 where c is left of the way from a to b, below 0 where it is right of it, 0 where it is on the line.
    pub fn turn(a: [f64; 2], b: [f64; 2], c: [f64; 2]) -> Ordering {
        Exact::doubled_area(&[a, b, c]).sign()
    }

    /// Adds the product of two finite floats.
    pub fn add(&mut self, a: f64, b: f64) {
        let ((m, s), (n, t)) = (parts(a), parts(b));
        let (product, shift) = (u128::from(m) * u128::from(n), s + t);
        let (place, bits) = (shift / 64, shift % 64);
        let (low, high) = ((product & u128::from(u64::MAX)) << bits, (product >> 64) << bits);
        let middle = (low >> 64) + (high & u128::from(u64::MAX));
        let limbs = [low as u64, middle as u64, ((high >> 64) + (middle >> 64)) as u64];
        if a.is_sign_negative() == b.is_sign_negative() {
            self.carry(place, limbs);
        } else {
            self.borrow(place, limbs);
        }
    }

    fn carry(&mut self, place: usize, limbs: [u64; 3]) {
        let mut carried = false;
        for (k, limb) in self.0[place..].iter_mut().enumerate() {
            if k >= limbs.len() && !carried {
                break;
            }
            let (sum, first) = limb.overflowing_add(limbs.get(k).copied().unwrap_or(0));
            let (sum, second) = sum.overflowing_add(u64::from(carried));
            (*limb, carried) = (sum, first || second);
        }
    }

    fn borrow(&mut self, place: usize, limbs: [u64; 3]) {
        let mut borrowed = false;
        for (k, limb) in self.0[place..].iter_mut().enumerate() {
            if k >= limbs.len() && !borrowed {
                break;
            }
            let (rest, first) = limb.overflowing_sub(limbs.get(k).copied().unwrap_or(0));
            let (rest, second) = rest.overflowing_sub(u64::from(borrowed));
            (*limb, borrowed) = (rest, first || second);
        }
    }

    /// The sum of two.
    pub fn plus(&self, other: &Exact) -> Exact {
        let (mut sum, mut carried) = (self.clone(), false);
        for (limb, more) in sum.0.iter_mut().zip(other.0) {
            let (first, over) = limb.overflowing_add(more);
            let (second, again) = first.overflowing_add(u64::from(carried));
            (*limb, carried) = (second, over || again);
        }
        sum
    }

    /// The number with its sign turned.
    pub fn negated(&self) -> Exact {
        let (mut turned, mut carried) = (Exact(self.0.map(|limb| !limb)), true);
        for limb in &mut turned.0 {
            (*limb, carried) = limb.overflowing_add(u64::from(carried));
        }
        turned
    }

    pub fn sign(&self) -> Ordering {
        match self.0 {
            [.., top] if top >> 63 == 1 => Ordering::Less,
            limbs if limbs.iter().all(|limb| *limb == 0) => Ordering::Equal,
            _ => Ordering::Greater,
        }
    }

    /// The number without its sign.
    pub fn magnitude(&self) -> Exact {
        if self.sign() == Ordering::Less {
            self.negated()
        } else {
            self.clone()
        }
    }

    pub fn compared(&self, other: &Exact) -> Ordering {
        self.plus(&other.negated()).sign()
    }

    /// The number over another that is above 0, as a float; its error is a few units in the last place.
    pub fn over(&self, other: &Exact) -> f64 {
        let ((m, s), (n, t)) = (self.magnitude().leading(), other.leading());
        let sign = if self.sign() == Ordering::Less { -1.0 } else { 1.0 };
        sign * (m / n) * 2f64.powi(64 * (s as i32 - t as i32))
    }

    /// The leading limbs as a float, and the place of the first of them.
    fn leading(&self) -> (f64, usize) {
        let top = self.0.iter().rposition(|limb| *limb != 0).unwrap_or(0);
        let below = |k: usize| top.checked_sub(k).map_or(0.0, |place| self.0[place] as f64);
        (self.0[top] as f64 + below(1) * 2f64.powi(-64) + below(2) * 2f64.powi(-128), top)
    }
}
