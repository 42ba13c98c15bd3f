//! SCOPE's stand-ins for the angle functions, each operation rounded once. The patched build calls these.

/// Seed of a tangent (s, t).
pub fn seed(s: f64, t: f64) -> [f64; 2] {
    let p = s * s - t * t;
    let q = 2.0 * (s * t);
    [p * p - q * q, 2.0 * (p * q)]
}

/// Direction of a field value (a, b).
pub fn direction(a: f64, b: f64) -> [f64; 2] {
    if norm(a, b) <= 1.0e-12 {
        return [1.0, 0.0];
    }
    let [a, b] = half(a, b);
    half(a, b)
}

/// The unit vector at half the angle of (a, b).
fn half(a: f64, b: f64) -> [f64; 2] {
    let n = norm(a, b);
    let (c, s) = if a >= 0.0 {
        (a + n, b)
    } else if b < 0.0 {
        (b.abs(), -(n - a))
    } else {
        (b.abs(), n - a)
    };
    let m = norm(c, s);
    [c / m, s / m]
}

fn norm(a: f64, b: f64) -> f64 {
    (a * a + b * b).sqrt()
}

/// The direction k quarter turns on from (c, s), for k = 1, 2, 3.
pub fn turned([c, s]: [f64; 2], k: usize) -> [f64; 2] {
    match k {
        1 => [-s, c],
        2 => [-c, -s],
        3 => [s, -c],
        _ => unreachable!("a cross has three other directions"),
    }
}

/// The sine of an angle in degrees; the paving asks for that of 20 alone.
pub fn sine(degrees: f64) -> f64 {
    assert_eq!(degrees, 20.0);
    0.3420201433256687
}

/// `powi(2)` is the product with itself.
pub trait Squared {
    fn squared(self) -> Self;
}

impl Squared for f64 {
    fn squared(self) -> f64 {
        self * self
    }
}
