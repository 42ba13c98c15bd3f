//! Whole numbers of any size, in which the exact books are kept.

use std::iter;
use std::ops::{Add, AddAssign, Mul, Sub};

/// A sign and 64-bit digits, the lowest first; the highest isn't 0, and 0 has no digits and no sign.
#[derive(Clone, Debug, Default, PartialEq, Eq)]
pub struct Whole {
    negative: bool,
    digits: Vec<u64>,
}

/// A finite float is `mantissa` times two to the power `exponent`, with its sign.
fn parts(x: f64) -> (u64, i32) {
    let (bits, field) = (x.to_bits(), (x.to_bits() >> 52 & 0x7ff) as i32);
    assert!(field < 0x7ff, "{x} isn't finite");
    let fraction = bits & ((1 << 52) - 1);
    if field == 0 {
        (fraction, -1074)
    } else {
        (fraction | 1 << 52, field - 1075)
    }
}

/// The greatest power of two of which the float is a whole multiple; none of 0.
pub fn unit(x: f64) -> Option<i32> {
    let (mantissa, exponent) = parts(x);
    (mantissa != 0).then(|| exponent + mantissa.trailing_zeros() as i32)
}

impl Whole {
    fn new(negative: bool, mut digits: Vec<u64>) -> Whole {
        while digits.last() == Some(&0) {
            digits.pop();
        }
        Whole { negative: negative && !digits.is_empty(), digits }
    }

    /// How many units, each two to the power `unit`, a finite float is; it must be a whole number of them.
    pub fn of_float(x: f64, unit: i32) -> Whole {
        let (mantissa, exponent) = parts(x);
        if mantissa == 0 {
            return Whole::default();
        }
        let odd = mantissa >> mantissa.trailing_zeros();
        let shift =
            usize::try_from(exponent + mantissa.trailing_zeros() as i32 - unit).expect("a multiple of the unit");
        let wide = u128::from(odd) << (shift % 64);
        let mut digits = vec![0; shift / 64];
        digits.extend([wide as u64, (wide >> 64) as u64]);
        Whole::new(x.is_sign_negative(), digits)
    }

    pub fn of(n: u64) -> Whole {
        Whole::new(false, vec![n])
    }

    pub fn power(base: u64, exponent: usize) -> Whole {
        iter::repeat_n(Whole::of(base), exponent).fold(Whole::of(1), |product, factor| &product * &factor)
    }

    pub fn is_positive(&self) -> bool {
        !self.negative && !self.digits.is_empty()
    }

    pub fn is_negative(&self) -> bool {
        self.negative
    }

    /// Adds a number of sign `negative` and these digits.
    fn accumulate(&mut self, negative: bool, digits: &[u64]) {
        if self.digits.len() < digits.len() {
            self.digits.resize(digits.len(), 0);
        }
        let others = digits.iter().copied().chain(iter::repeat(0));
        let mut carry = false;
        if self.negative == negative {
            for (mine, other) in self.digits.iter_mut().zip(others) {
                let (sum, first) = mine.overflowing_add(other);
                let (sum, second) = sum.overflowing_add(u64::from(carry));
                (*mine, carry) = (sum, first | second);
            }
            if carry {
                self.digits.push(1);
            }
        } else {
            for (mine, other) in self.digits.iter_mut().zip(others) {
                let (rest, first) = mine.overflowing_sub(other);
                let (rest, second) = rest.overflowing_sub(u64::from(carry));
                (*mine, carry) = (rest, first | second);
            }
            if carry {
                self.turn();
            }
        }
        *self = Whole::new(self.negative, std::mem::take(&mut self.digits));
    }

    /// The digits ran below 0: takes what they lack, and the other sign.
    fn turn(&mut self) {
        let mut carry = true;
        for digit in &mut self.digits {
            (*digit, carry) = (!*digit).overflowing_add(u64::from(carry));
        }
        self.negative = !self.negative;
    }
}

impl AddAssign<&Whole> for Whole {
    fn add_assign(&mut self, other: &Whole) {
        self.accumulate(other.negative, &other.digits);
    }
}

impl Add for &Whole {
    type Output = Whole;
    fn add(self, other: &Whole) -> Whole {
        let mut sum = self.clone();
        sum += other;
        sum
    }
}

impl Sub for &Whole {
    type Output = Whole;
    fn sub(self, other: &Whole) -> Whole {
        let mut rest = self.clone();
        rest.accumulate(!other.negative, &other.digits);
        rest
    }
}

impl Mul for &Whole {
    type Output = Whole;
    fn mul(self, other: &Whole) -> Whole {
        let mut digits = vec![0; self.digits.len() + other.digits.len()];
        for (k, &mine) in self.digits.iter().enumerate() {
            let mut carry = 0;
            for (place, &theirs) in digits[k..].iter_mut().zip(other.digits.iter().chain(&[0])) {
                let wide = u128::from(mine) * u128::from(theirs) + u128::from(*place) + u128::from(carry);
                (*place, carry) = (wide as u64, (wide >> 64) as u64);
            }
        }
        Whole::new(self.negative != other.negative, digits)
    }
}
