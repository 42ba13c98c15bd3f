//! What a mesh is known by: its digest, the version that made it, and a date.

use std::fmt::Write;
use std::time::{SystemTime, UNIX_EPOCH};

use crate::run::Paved;
use crate::sha256;

pub const VERSION: &str = env!("CARGO_PKG_VERSION");
/// A digest's digits.
const DIGITS: usize = 16;

/// A mesh's digest: the first 16 digits of the SHA-256 of its lines `n` and `q` as a listing has them (docs/FORMATS.md). Two meshes with one digest are the same
/// mesh; whatever differs in a node's last bit or in a quad has another.
pub fn digest(paved: &Paved) -> String {
    let mut text = String::new();
    for [x, y] in &paved.nodes {
        writeln!(text, "n {:016x} {:016x}", x.to_bits(), y.to_bits()).expect("a string takes every line");
    }
    for [a, b, c, d] in &paved.quads {
        writeln!(text, "q {a} {b} {c} {d}").expect("a string takes every line");
    }
    sha256::of(&text)[..DIGITS].to_string()
}

/// What every picture and file says of its mesh.
pub fn line(paved: &Paved) -> String {
    format!("mesh {}, sitjorbe {VERSION}", digest(paved))
}

/// Today, by Greenwich: `2026-11-27`.
pub fn today() -> String {
    let seconds = SystemTime::now().duration_since(UNIX_EPOCH).map_or(0, |since| since.as_secs());
    let [year, month, day] = civil(seconds / 86_400);
    format!("{year:04}-{month:02}-{day:02}")
}

/// The date of a day counted from 1970-01-01: years begin in March, in eras of 400 (Howard Hinnant, "chrono-compatible low-level date algorithms").
fn civil(days: u64) -> [u64; 3] {
    let days = days + 719_468;
    let (era, of_era) = (days / 146_097, days % 146_097);
    let year = (of_era - of_era / 1_460 + of_era / 36_524 - of_era / 146_096) / 365;
    let of_year = of_era - (365 * year + year / 4 - year / 100);
    let month = (5 * of_year + 2) / 153;
    let day = of_year - (153 * month + 2) / 5 + 1;
    let month = if month < 10 { month + 3 } else { month - 9 };
    [era * 400 + year + u64::from(month <= 2), month, day]
}

#[cfg(test)]
mod tests {
    use super::civil;

    #[test]
    fn days_are_dates() {
        let known = [
            (0, [1970, 1, 1]),
            (59, [1970, 3, 1]),
            (11_016, [2000, 2, 29]),
            (11_017, [2000, 3, 1]),
            (20_784, [2026, 11, 27]),
            (47_540, [2100, 2, 28]),
            (47_541, [2100, 3, 1]),
        ];
        for (days, date) in known {
            assert_eq!(civil(days), date);
        }
    }
}
