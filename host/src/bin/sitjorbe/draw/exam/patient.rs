//! A simulated patient: thresholds of a hill that falls 3 dB in 10 degrees, with the loss of a quadrant and with noise from a seed, if they are asked for.

use crate::json::Value;

/// Decibels at fixation.
const PEAK: f64 = 33.0;
/// Decibels lost with each degree outwards.
const FALL: f64 = 0.3;
/// Decibels lost in a quadrant that is.
const LOSS: f64 = 18.0;
const MOST: f64 = 50.0;
/// More noise isn't simulated, in decibels.
pub const MOST_NOISE: f64 = 10.0;
/// Seeds are whole numbers that JSON carries.
pub const MOST_SEED: usize = 9_007_199_254_740_991;

/// So its words begin.
const MARK: &str = "SIMULATED patient";

/// The quadrants by name, with the sides on which they are: right, up.
const QUADRANTS: [(&str, [bool; 2]); 4] = [
    ("right superior", [true, true]),
    ("left superior", [false, true]),
    ("left inferior", [false, false]),
    ("right inferior", [true, false]),
];

#[derive(Clone, Debug, PartialEq)]
pub struct Patient {
    pub seed: usize,
    /// A quadrant of [`QUADRANTS`], by its place.
    pub loss: Option<usize>,
    /// The standard deviation of an answer, in decibels.
    pub noise: f64,
}

/// A number that looks random, of a state that goes on (SplitMix64).
fn mixed(state: &mut u64) -> u64 {
    *state = state.wrapping_add(0x9e37_79b9_7f4a_7c15);
    let one = (*state ^ (*state >> 30)).wrapping_mul(0xbf58_476d_1ce4_e5b9);
    let two = (one ^ (one >> 27)).wrapping_mul(0x94d0_49bb_1331_11eb);
    two ^ (two >> 31)
}

/// From 0 to 1.
fn unit(state: &mut u64) -> f64 {
    (mixed(state) >> 11) as f64 / (1u64 << 53) as f64
}

impl Patient {
    /// The answer at a node, in tenths of a decibel. It doesn't depend on when the node is tested.
    pub fn threshold(&self, node: u32, [x, y]: [f64; 2]) -> u32 {
        let mut state = (self.seed as u64) ^ (u64::from(node) << 32);
        // Twelve uniform numbers less 6 are nearly normal, with variance 1.
        let noise = self.noise * ((0..12).map(|_| unit(&mut state)).sum::<f64>() - 6.0);
        let lost = self.loss.is_some_and(|quadrant| QUADRANTS[quadrant].1 == [x >= 0.0, y >= 0.0]);
        let hill = PEAK - FALL * x.hypot(y) - if lost { LOSS } else { 0.0 };
        (10.0 * (hill + noise).clamp(0.0, MOST)).round() as u32
    }

    pub fn value(&self) -> Value {
        Value::map([
            ("seed", Value::count(self.seed)),
            ("loss", self.loss.map_or(Value::Null, |quadrant| Value::text(QUADRANTS[quadrant].0))),
            ("noise", Value::Number(self.noise)),
            ("words", Value::text(&self.in_words())),
        ])
    }

    pub fn of_value(value: &Value) -> Option<Patient> {
        let loss = match value.get("loss") {
            None | Some(Value::Null) => None,
            Some(name) => Some(QUADRANTS.iter().position(|(other, _)| name.as_text() == Some(other))?),
        };
        let noise = value.get("noise")?.as_number().filter(|noise| (0.0..=MOST_NOISE).contains(noise))?;
        Some(Patient { seed: value.get("seed")?.as_count(MOST_SEED)?, loss, noise })
    }

    /// The patient whose words a file has in a comment.
    pub fn of_words(text: &str) -> Option<Patient> {
        let told = text.lines().find_map(|line| line.trim_start_matches(['#', ' ']).strip_prefix(MARK))?;
        let mut parts = told.split(", ");
        let seed = parts.next()?.strip_prefix(": seed ")?.parse().ok().filter(|seed| *seed <= MOST_SEED)?;
        let noise = parts.next()?.strip_prefix("noise ")?.strip_suffix(" dB")?.parse().ok()?;
        let loss = parts.next().and_then(|words| {
            QUADRANTS.iter().position(|(name, _)| words.strip_suffix(" quadrant lost") == Some(name))
        });
        Some(Patient { seed, loss, noise })
    }

    pub fn in_words(&self) -> String {
        let loss = self.loss.map_or(String::new(), |quadrant| format!(", {} quadrant lost", QUADRANTS[quadrant].0));
        format!("{MARK}: seed {}, noise {} dB{loss}", self.seed, self.noise)
    }
}

#[cfg(test)]
mod tests {
    use super::Patient;

    #[test]
    fn the_hill_falls_3_decibels_in_10_degrees() {
        let plain = Patient { seed: 1, loss: None, noise: 0.0 };
        assert_eq!([[0.0, 0.0], [10.0, 0.0], [0.0, -20.0]].map(|at| plain.threshold(7, at)), [330, 300, 270]);
        let lost = Patient { loss: Some(0), ..plain };
        assert_eq!([[3.0, 4.0], [-3.0, 4.0], [3.0, -4.0]].map(|at| lost.threshold(7, at)), [135, 315, 315]);
    }

    #[test]
    fn a_file_tells_its_patient() {
        for patient in [Patient { seed: 5, loss: None, noise: 0.0 }, Patient { seed: 1, loss: Some(2), noise: 1.5 }] {
            assert_eq!(Patient::of_words(&format!("# mesh x\n# {}\nnode,x\n", patient.in_words())), Some(patient));
        }
        assert_eq!(Patient::of_words("node,x\n"), None);
    }

    #[test]
    fn noise_is_the_seeds() {
        let answers = |seed| {
            let noisy = Patient { seed, loss: None, noise: 1.5 };
            (0..400).map(|node| noisy.threshold(node, [0.0, 0.0])).collect::<Vec<u32>>()
        };
        assert_eq!(answers(5), answers(5));
        assert_ne!(answers(5), answers(6));
        let mean = answers(5).iter().sum::<u32>() as f64 / 400.0;
        let spread = answers(5).iter().map(|one| (f64::from(*one) - mean).powi(2)).sum::<f64>() / 400.0;
        assert!((mean - 330.0).abs() < 3.0 && (spread.sqrt() - 15.0).abs() < 2.0, "{mean} {}", spread.sqrt());
    }
}
