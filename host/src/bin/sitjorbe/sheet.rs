//! The sheet that a picture is drawn on: where degrees fall, and what text takes.

/// The most that the field takes, in pixels, and the least that the text below it is given.
const MOST_WIDTH: f64 = 640.0;
const MOST_HEIGHT: f64 = 560.0;
const LEAST_WIDTH: f64 = 460.0;
/// The margins beside the field, for the names of meridians and sides.
pub const SIDE: f64 = 72.0;

/// Where degrees fall on the sheet.
#[derive(Clone, Copy, Debug)]
pub struct Sheet {
    /// The frame in degrees: left, right, low, high.
    pub left: f64,
    pub right: f64,
    pub low: f64,
    pub high: f64,
    /// Pixels to a degree.
    pub scale: f64,
    /// The frame's upper left corner, in pixels.
    pub x: f64,
    pub y: f64,
}

impl Sheet {
    /// A sheet for these points, its frame's top so far down, and so many times as large as is usual.
    pub fn of(points: impl Iterator<Item = [f64; 2]>, y: f64, zoom: f64) -> Sheet {
        let start = [f64::INFINITY, f64::NEG_INFINITY, f64::INFINITY, f64::NEG_INFINITY];
        let [left, right, low, high] =
            points.fold(start, |[l, r, b, t], [x, y]| [l.min(x), r.max(x), b.min(y), t.max(y)]);
        let pad = (right - left).max(high - low).max(1e-6) / 30.0;
        let (left, right, low, high) = (left - pad, right + pad, low - pad, high + pad);
        let scale = zoom * (MOST_WIDTH / (right - left)).min(MOST_HEIGHT / (high - low));
        let spare = (LEAST_WIDTH - scale * (right - left)).max(0.0) / 2.0;
        Sheet { left, right, low, high, scale, x: SIDE + spare, y }
    }

    /// The frame's width and height in pixels.
    pub fn frame(&self) -> [f64; 2] {
        [self.scale * (self.right - self.left), self.scale * (self.high - self.low)]
    }

    /// The sheet's width in pixels.
    pub fn width(&self) -> f64 {
        2.0 * self.x + self.frame()[0]
    }

    /// The frame's lower end.
    pub fn bottom(&self) -> f64 {
        self.y + self.frame()[1]
    }

    pub fn at(&self, [x, y]: [f64; 2]) -> [f64; 2] {
        [self.x + self.scale * (x - self.left), self.y + self.scale * (self.high - y)]
    }

    /// A closed polygon, as part of a path.
    pub fn ring(&self, points: impl Iterator<Item = [f64; 2]>) -> String {
        let corners: Vec<String> = points
            .map(|point| {
                let [x, y] = self.at(point);
                format!("{x:.2},{y:.2}")
            })
            .collect();
        format!("M{}Z", corners.join(" "))
    }

    /// Whether a point is in the frame.
    pub fn holds(&self, [x, y]: [f64; 2]) -> bool {
        (self.left..=self.right).contains(&x) && (self.low..=self.high).contains(&y)
    }
}

// ---- text

/// Text as it stands in a document: what XML has no place for is left out.
pub fn escaped(words: &str) -> String {
    let mut text = String::new();
    for c in words.chars() {
        match c {
            '&' => text += "&amp;",
            '<' => text += "&lt;",
            '>' => text += "&gt;",
            '"' => text += "&quot;",
            '\u{fffe}' | '\u{ffff}' => {}
            _ if c.is_control() => {}
            _ => text.push(c),
        }
    }
    text
}

/// About as wide is a text in a sans-serif font of a size.
pub fn text_width(words: &str, size: f64) -> f64 {
    0.58 * size * words.chars().count() as f64
}

/// Words broken into lines that fit a width; a word that is too long is cut.
pub fn wrapped(words: &str, size: f64, width: f64) -> Vec<String> {
    let most = ((width / (0.58 * size)) as usize).max(8);
    let mut lines: Vec<String> = vec![];
    for word in words.split(' ') {
        let mut rest: Vec<char> = word.chars().collect();
        while !rest.is_empty() {
            let more = rest.len().min(most);
            let piece: String = rest.drain(..more).collect();
            match lines.last_mut() {
                Some(line) if line.chars().count() + 1 + more <= most => *line += &format!(" {piece}"),
                _ => lines.push(piece),
            }
        }
    }
    lines
}

/// Where a label's text is held.
#[derive(Clone, Copy, Debug, PartialEq, Eq)]
pub enum Anchor {
    Start,
    Middle,
    End,
}

/// Labels that stand clear of each other.
#[derive(Debug, Default)]
pub struct Labels {
    boxes: Vec<[f64; 4]>,
}

/// A place that a label may take: its anchor's point, and how the text is held there.
pub type Place = ([f64; 2], Anchor);

impl Labels {
    /// Keeps a square clear of labels.
    pub fn reserve(&mut self, [x, y]: [f64; 2], half: f64) {
        self.boxes.push([x - half, x + half, y - half, y + half]);
    }

    /// The first place at which words stand clear of all labels before, and inside the limits given; it is taken.
    pub fn take(&mut self, words: &str, size: f64, limits: [f64; 4], places: &[Place]) -> Option<Place> {
        let width = text_width(words, size);
        let found = places.iter().find_map(|place| {
            let ([x, y], anchor) = *place;
            let left = match anchor {
                Anchor::Start => x,
                Anchor::Middle => x - width / 2.0,
                Anchor::End => x - width,
            };
            let label = [left - 2.0, left + width + 2.0, y - size, y + 0.3 * size];
            let inside =
                limits[0] <= label[0] && label[1] <= limits[1] && limits[2] <= label[2] && label[3] <= limits[3];
            let apart = |other: &[f64; 4]| {
                label[1] < other[0] || other[1] < label[0] || label[3] < other[2] || other[3] < label[2]
            };
            (inside && self.boxes.iter().all(apart)).then_some((*place, label))
        });
        found.map(|(place, label)| {
            self.boxes.push(label);
            place
        })
    }
}

/// A text element.
pub fn text([x, y]: [f64; 2], anchor: Anchor, class: &str, words: &str) -> String {
    let held = match anchor {
        Anchor::Start => "",
        Anchor::Middle => r#" text-anchor="middle""#,
        Anchor::End => r#" text-anchor="end""#,
    };
    let class = if class.is_empty() { String::new() } else { format!(r#" class="{class}""#) };
    format!(r#"<text x="{x:.1}" y="{y:.1}"{class}{held}>{}</text>"#, escaped(words)) + "\n"
}

/// A path element, if there is anything to it.
pub fn path(class: &str, parts: &str) -> String {
    if parts.is_empty() {
        String::new()
    } else {
        format!(r#"<path class="{class}" d="{parts}"/>"#) + "\n"
    }
}
