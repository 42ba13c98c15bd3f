//! How words for people name the loops, points and segments of a field.

use crate::csv::{Field, Point};

/// A point or a segment: its loop, and its place there. A segment has the place of the point that it begins at.
pub type Spot = [usize; 2];

/// What a field's parts are named by.
#[derive(Clone, Copy, Debug, PartialEq, Eq)]
pub enum Naming {
    /// The lines of the file that the field was read from.
    Line,
    /// Loop and point, where there is no file. Points are counted from 1.
    Point,
}

impl Naming {
    /// A segment, by its ends.
    pub fn segment(self, field: &Field, [k, place]: Spot) -> String {
        let points = &field.loops[k];
        let after = (place + 1) % points.len();
        match self {
            Naming::Line => format!("from line {} to line {}", points[place].line, points[after].line),
            Naming::Point => format!("from point {} to point {} of “{}”", place + 1, after + 1, field.names[k]),
        }
    }

    /// A point that repeats the one before it: the one that the segment between them ends at.
    pub fn doubled(self, field: &Field, [k, place]: Spot) -> String {
        let points = &field.loops[k];
        let after = (place + 1) % points.len();
        match self {
            Naming::Line => format!("line {} repeats the point of line {}", points[after].line, points[place].line),
            Naming::Point => format!("point {} of “{}” repeats point {}", after + 1, field.names[k], place + 1),
        }
    }

    /// A point with its coordinates.
    pub fn point(self, field: &Field, [k, place]: Spot) -> String {
        let Point { x, y, line } = field.loops[k][place];
        match self {
            Naming::Line => format!("line {line}: {x:?},{y:?}"),
            Naming::Point => format!("point {} of “{}”: {x:?},{y:?}", place + 1, field.names[k]),
        }
    }

    /// A loop of so many points, in words.
    pub fn loop_of(self, field: &Field, k: usize, points: &str) -> String {
        let name = &field.names[k];
        match (self, field.loops[k].first()) {
            (Naming::Line, Some(first)) => format!("{name}, of {points}, at line {}", first.line),
            (Naming::Line, None) => format!("{name}, of {points}"),
            (Naming::Point, _) => format!("“{name}”, of {points}"),
        }
    }

    /// A blind spot; `article` is what stands before it.
    pub fn blind_spot(self, field: &Field, k: usize, article: &str) -> String {
        match self {
            Naming::Line => format!("{article} at line {}", field.loops[k][0].line),
            Naming::Point => format!("“{}”", field.names[k]),
        }
    }
}
