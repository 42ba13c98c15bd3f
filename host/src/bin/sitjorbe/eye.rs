//! The eye that a field is of: its name, its sides, and what is to be asked of a blind spot to the nose.

use crate::csv::{Field, Point};

/// Which eye a field is of.
#[derive(Clone, Copy, Debug, PartialEq, Eq)]
pub enum Eye {
    Right,
    Left,
}

impl Eye {
    /// `right` or `left`.
    pub fn name(self) -> &'static str {
        match self {
            Eye::Right => "right",
            Eye::Left => "left",
        }
    }

    /// The eye with a name, or with the letters that clinics write.
    pub fn of_name(name: &str) -> Option<Eye> {
        match name.to_ascii_lowercase().as_str() {
            "right" | "od" => Some(Eye::Right),
            "left" | "os" => Some(Eye::Left),
            _ => None,
        }
    }

    /// What is to be asked of a field that has a loop where this eye has no blind spot and the other has: 10 to 20 degrees to the nose, about the horizontal.
    pub fn doubt(self, field: &Field) -> Option<String> {
        let words = "its blind spot lies to the nose, where no eye has one: is it the other eye, or is x turned?";
        self.blind_spot_is_nasal(field).then(|| words.to_string())
    }

    fn blind_spot_is_nasal(self, field: &Field) -> bool {
        let nasal = |points: &Vec<Point>| {
            let mean = |sum: f64| sum / points.len() as f64;
            let (x, y) =
                (mean(points.iter().map(|point| point.x).sum()), mean(points.iter().map(|point| point.y).sum()));
            let to_the_nose = if self == Eye::Right { -x } else { x };
            (10.0..20.0).contains(&to_the_nose) && y.abs() < 6.0
        };
        field.loops.iter().skip(1).any(nasal)
    }

    /// As it stands above a picture.
    pub fn words(self) -> &'static str {
        match self {
            Eye::Right => "Right eye (OD), as the patient sees it",
            Eye::Left => "Left eye (OS), as the patient sees it",
        }
    }

    /// What lies to the left, and what to the right.
    pub fn sides(self) -> [&'static str; 2] {
        match self {
            Eye::Right => ["nasal", "temporal"],
            Eye::Left => ["temporal", "nasal"],
        }
    }
}
