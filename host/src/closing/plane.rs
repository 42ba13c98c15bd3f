//! The plane: products, sines, angles and distances, by additions, products, quotients and roots alone, so that they are the same bits everywhere.

/// A point, or a step from one to another.
pub(super) type Point = [f64; 2];

/// The square root, rounded once to the nearest float, which `core` doesn't have yet. Newton's steps come within a last
/// place, and whole numbers decide it. Of what isn't a normal number above 0, the number itself, or NaN below 0.
pub(super) fn root(x: f64) -> f64 {
    if !x.is_normal() || x < 0.0 {
        return if x < 0.0 { f64::NAN } else { x };
    }
    let mut y = f64::from_bits((x.to_bits() + (1023 << 52)) >> 1);
    for _ in 0..4 {
        y = 0.5 * (y + x / y);
    }
    let parts = |z: f64| ((z.to_bits() & ((1 << 52) - 1)) | (1 << 52), (z.to_bits() >> 52) as i32);
    let ((m, k), (n, e)) = (parts(y), parts(x));
    // x is n · 2^(e − 1075), y is m · 2^(k − 1075): in units of y's last place squared, four times x is
    let four = u128::from(n) << (e + 1075 - 2 * k + 2);
    let near = |m: u64| u128::from(2 * m + 1) * u128::from(2 * m + 1);
    if near(m) < four {
        f64::from_bits(y.to_bits() + 1)
    } else if four < near(m - 1) {
        f64::from_bits(y.to_bits() - 1)
    } else {
        y
    }
}

pub(super) fn step(a: Point, b: Point) -> Point {
    [b[0] - a[0], b[1] - a[1]]
}

pub(super) fn along(a: Point, part: f64, u: Point) -> Point {
    [a[0] + part * u[0], a[1] + part * u[1]]
}

pub(super) fn middle(a: Point, b: Point) -> Point {
    [(a[0] + b[0]) / 2.0, (a[1] + b[1]) / 2.0]
}

pub(super) fn cross(u: Point, v: Point) -> f64 {
    u[0] * v[1] - u[1] * v[0]
}

pub(super) fn dot(u: Point, v: Point) -> f64 {
    u[0] * v[0] + u[1] * v[1]
}

pub(super) fn length(u: Point) -> f64 {
    root(dot(u, u))
}

pub(super) fn distance(a: Point, b: Point) -> f64 {
    length(step(a, b))
}

/// The sine of the turn at b on the way from a to c; 0 where a side has no length.
pub(super) fn sine(a: Point, b: Point, c: Point) -> f64 {
    let (u, v) = (step(a, b), step(b, c));
    let product = root(dot(u, u) * dot(v, v));
    if product > 0.0 {
        cross(u, v) / product
    } else {
        0.0
    }
}

/// The least sine of a quad's four turns: 1 for a rectangle, 0 or less where it isn't convex.
pub(super) fn least_sine(quad: &[Point; 4]) -> f64 {
    (0..4).map(|k| sine(quad[(k + 3) % 4], quad[k], quad[(k + 1) % 4])).fold(f64::INFINITY, f64::min)
}

/// A quad's shortest and longest side.
pub(super) fn shortest_longest(quad: &[Point; 4]) -> [f64; 2] {
    let squares = [0, 1, 2, 3].map(|k| step(quad[k], quad[(k + 1) % 4])).map(|side| dot(side, side));
    [squares.iter().copied().fold(f64::INFINITY, f64::min), squares.iter().copied().fold(0.0, f64::max)].map(root)
}

/// How far p is from the segment from a to b.
pub(super) fn away(p: Point, a: Point, b: Point) -> f64 {
    let (side, to) = (step(a, b), step(a, p));
    let square = dot(side, side);
    let part = if square > 0.0 { (dot(to, side) / square).clamp(0.0, 1.0) } else { 0.0 };
    distance(p, along(a, part, side))
}

/// The angle in degrees, 0 to 360, through which the ray from b to c turns left to become the ray from b to a: a corner's inner angle, where a, b, c run to the left.
/// It is right to a thousandth of a degree.
pub(super) fn angle(a: Point, b: Point, c: Point) -> f64 {
    let (u, v) = (step(b, c), step(b, a));
    let turned = turned_by([dot(u, v), cross(u, v)]);
    if turned < 0.0 {
        turned + 360.0
    } else {
        turned
    }
}

/// The angle of a step from the first axis in degrees, over -180 to 180.
fn turned_by([x, y]: Point) -> f64 {
    let (low, high) = (x.abs().min(y.abs()), x.abs().max(y.abs()));
    let t = if high > 0.0 { low / high } else { 0.0 };
    // Of the arcus tangent up to 1 (Hastings).
    let s = t * t;
    let series = [-0.011_721_20, 0.052_653_32, -0.116_432_87, 0.193_543_46, -0.332_623_47, 0.999_977_26];
    let first = series.into_iter().fold(0.0, |sum, term| sum * s + term) * t * 57.295_779_513_082_32;
    let quarter = if y.abs() > x.abs() { 90.0 - first } else { first };
    let half = if x < 0.0 { 180.0 - quarter } else { quarter };
    if y < 0.0 {
        -half
    } else {
        half
    }
}

/// The sine of an angle of 0 to 180 degrees, right to a hundred thousandth.
pub(super) fn sine_of(degrees: f64) -> f64 {
    let x = (degrees.min(180.0 - degrees)) / 57.295_779_513_082_32;
    let series = [1.0 / 362_880.0, -1.0 / 5_040.0, 1.0 / 120.0, -1.0 / 6.0, 1.0];
    series.into_iter().fold(0.0, |sum, term| sum * x * x + term) * x
}

/// The step of length 1 in the same direction; none from a step of no length.
pub(super) fn unit(u: Point) -> Option<Point> {
    let norm = length(u);
    (norm > 0.0).then(|| [u[0] / norm, u[1] / norm])
}

/// The product of two steps as complex numbers: their angles added.
pub(super) fn turned(u: Point, v: Point) -> Point {
    [u[0] * v[0] - u[1] * v[1], u[0] * v[1] + u[1] * v[0]]
}

/// The unit step at half the angle of a unit step, which is taken from -90 to 90 degrees.
pub(super) fn halved([x, y]: Point) -> Point {
    if x >= 0.0 {
        unit([x + 1.0, y]).unwrap_or([1.0, 0.0])
    } else {
        let side = if y < 0.0 { -1.0 } else { 1.0 };
        unit([y.abs(), side * (1.0 - x)]).unwrap_or([1.0, 0.0])
    }
}

/// A whole number at random, the same sequence from a seed (Marsaglia's xorshift).
#[derive(Clone, Debug)]
pub(super) struct Random(pub(super) u64);

impl Random {
    pub(super) fn next(&mut self) -> u64 {
        self.0 ^= self.0 << 13;
        self.0 ^= self.0 >> 7;
        self.0 ^= self.0 << 17;
        self.0
    }

    /// From 0 up to 1.
    pub(super) fn part(&mut self) -> f64 {
        (self.next() >> 11) as f64 / (1u64 << 53) as f64
    }
}

#[cfg(test)]
mod tests {
    #[test]
    fn the_root_is_the_processors() {
        let mut bits = 0x9e37_79b9_7f4a_7c15_u64;
        for _ in 0..200_000 {
            bits = bits.wrapping_mul(6_364_136_223_846_793_005).wrapping_add(1_442_695_040_888_963_407);
            let x = f64::from_bits(bits & (u64::MAX >> 1));
            for x in
                [x, 1.0 + (bits >> 12) as f64 * f64::EPSILON / 2.0, (bits >> 40) as f64, ((bits >> 40) as f64).powi(2)]
            {
                assert!(!x.is_normal() || super::root(x).to_bits() == x.sqrt().to_bits(), "{x:e}");
            }
        }
        assert!(super::root(0.0) == 0.0 && super::root(-1.0).is_nan());
    }
}
