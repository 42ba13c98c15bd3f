//! The refusals, with words for people.

use core::{error, fmt};

use crate::ffi;

/// Why the library refused. A refusal is its number alone ([`Refusal::number`]); the words are this crate's.
///
/// A refused call has changed none of the memory lent to it, but scratch where the wrapper says so. Further refusals may come with later versions.
///
/// ```
/// use sitjorbe::Refusal;
///
/// let refusal = Refusal::of_number(2).expect("there is one");
/// assert_eq!(refusal, Refusal::ShortLoop);
/// assert_eq!(refusal.to_string(), "refused (2): a loop has fewer than three points: draw at least three, or leave the loop out");
/// ```
#[derive(Clone, Copy, Debug, PartialEq, Eq, Hash)]
#[non_exhaustive]
#[repr(u32)]
pub enum Refusal {
    /// A coordinate list of odd length, hole lengths that don't add up to the hole points, or more than 4,096 points.
    Lists = 1,
    /// A loop of fewer than three points.
    ShortLoop = 2,
    /// A coordinate not finite, in the outline or in a query's point.
    NotFinite = 3,
    /// A coordinate beyond 1,000 either way, in the outline or in a query's point.
    TooFar = 4,
    /// A size not finite, or not above 0.
    NoSize = 5,
    /// A size below 0.01 or above 100.
    SizeOutOfRange = 6,
    /// An outline whose bounding box has no width or no height.
    Flat = 7,
    /// More than 1,000 sweeps.
    TooManySweeps = 8,
    /// The field has more nodes than were lent.
    FieldNeedsSpace = 9,
    /// The sampled outline has more nodes than the lent node places or edge places, or more loops than there are places for their lengths.
    FrontNeedsSpace = 10,
    /// A field record that isn't one.
    NoFieldRecord = 11,
    /// A file's block has a wrong check.
    WrongCheck = 12,
    /// A file with a wrong length, count or fill.
    WrongFile = 13,
    /// A list for answers that is too short, or lists of points and targets that differ in length or end in half a point.
    AnswerLists = 14,
    /// A node id that isn't in the mesh, or is past the lent list of thresholds.
    NoNode = 15,
    /// A threshold above 500.
    ThresholdTooHigh = 16,
    /// A withdrawal where no threshold stands.
    NoThreshold = 17,
    /// A quad that isn't in the mesh, or lacks a threshold where its estimate is asked for.
    NoQuad = 18,
    /// A weight above 256.
    WeightTooHigh = 19,
    /// An unknown role, or an operation that its role lacks.
    NotAllowed = 20,
    /// A presentation order in which some quad is absent, repeated or unknown.
    NotEachOnce = 21,
    /// A presentation order in which a quad stands before one that laid a front edge which it used up.
    TooEarly = 22,
    /// A lent mesh that isn't sound, or a list lent beside it that is too short.
    UnsoundMesh = 23,
    /// An edge that isn't on the front.
    NotOnFront = 24,
    /// A quad that doesn't turn left at all four corners in steps of the bowl.
    NotShown = 25,
    /// The lent list is too short for every small quad.
    FoursNeedSpace = 26,
    /// A quad that doesn't turn left by more than 20 degrees at all four corners.
    FoldedQuad = 27,
    /// A quad with a side that another has in the same direction, or that is neither the sampled outline's nor another's run back, or both.
    WrongSide = 28,
    /// An edge of the sampled outline that is no quad's side.
    UnlaidEdge = 29,
    /// A node that isn't the sampled outline's.
    MovedNode = 30,
    /// A points file that says something else than points, at a line and a column.
    FaultyText = 31,
}

impl Refusal {
    /// Every refusal, in the order of the numbers.
    pub const ALL: [Refusal; 31] = [
        Refusal::Lists,
        Refusal::ShortLoop,
        Refusal::NotFinite,
        Refusal::TooFar,
        Refusal::NoSize,
        Refusal::SizeOutOfRange,
        Refusal::Flat,
        Refusal::TooManySweeps,
        Refusal::FieldNeedsSpace,
        Refusal::FrontNeedsSpace,
        Refusal::NoFieldRecord,
        Refusal::WrongCheck,
        Refusal::WrongFile,
        Refusal::AnswerLists,
        Refusal::NoNode,
        Refusal::ThresholdTooHigh,
        Refusal::NoThreshold,
        Refusal::NoQuad,
        Refusal::WeightTooHigh,
        Refusal::NotAllowed,
        Refusal::NotEachOnce,
        Refusal::TooEarly,
        Refusal::UnsoundMesh,
        Refusal::NotOnFront,
        Refusal::NotShown,
        Refusal::FoursNeedSpace,
        Refusal::FoldedQuad,
        Refusal::WrongSide,
        Refusal::UnlaidEdge,
        Refusal::MovedNode,
        Refusal::FaultyText,
    ];

    /// Its number: 1 to 13 are a run's and a file's, those above the other entries'.
    #[must_use]
    pub fn number(self) -> u32 {
        self as u32
    }

    /// The refusal with this number, if there is one.
    #[must_use]
    pub fn of_number(number: u32) -> Option<Refusal> {
        Refusal::ALL.into_iter().find(|refusal| refusal.number() == number)
    }

    /// What an answer's `refusal` says: nothing refused for 0, else the refusal.
    ///
    /// # Panics
    ///
    /// On a number that no refusal has. The library never answers one, so this is a bug: most likely an archive
    /// that doesn't belong to this crate.
    pub(crate) fn check(number: u32) -> Result<(), Refusal> {
        match (number, Refusal::of_number(number)) {
            (0, _) => Ok(()),
            (_, Some(refusal)) => Err(refusal),
            (_, None) => {
                panic!("a bug: the library answered refusal {number}, which shape {} doesn't have", ffi::abi())
            }
        }
    }

    /// What is wrong, and what to do about it.
    fn words(self) -> &'static str {
        match self {
            Refusal::Lists => {
                "the outline's lists don't fit together: lend x and y for every point, hole lengths that add up to the hole \
                 points, and at most 4,096 points in all"
            }
            Refusal::ShortLoop => "a loop has fewer than three points: draw at least three, or leave the loop out",
            Refusal::NotFinite => {
                "a coordinate is infinite or not a number: look for a division by zero or a missing reading where the \
                 outline and the point come from"
            }
            Refusal::TooFar => {
                "a coordinate is beyond 1,000 either way: move the drawing nearer to the origin or use a larger unit"
            }
            Refusal::NoSize => "the element size isn't a number above 0: set one from 0.01 to 100",
            Refusal::SizeOutOfRange => "the element size is below 0.01 or above 100: set one between them, or change the unit",
            Refusal::Flat => "the outline has no width or no height: draw points that aren't all in one row or column",
            Refusal::TooManySweeps => "more than 1,000 sweeps are asked for: ask for 1,000 or fewer",
            Refusal::FieldNeedsSpace => "the field has more nodes than were lent: set a larger size, or lend longer lists",
            Refusal::FrontNeedsSpace => {
                "the sampled outline has more nodes or loops than the lent lists have places: set a larger size, or lend longer lists"
            }
            Refusal::NoFieldRecord => {
                "the field record isn't one: hand over the record, values and marks as the field entry answered them"
            }
            Refusal::WrongCheck => {
                "a block of the file has a wrong check: the file is damaged, so fetch it again, or write it anew from the outline"
            }
            Refusal::WrongFile => {
                "the file has a wrong length, a wrong count, or something where zeros belong: write it anew from the outline, \
                 with 1 to 8 loops, at most 248 points in all, and nothing after the last block"
            }
            Refusal::AnswerLists => {
                "the list for the answers is too short, or those of points and targets don't fit together: lend three floats for each \
                 point, x and y for every point and as many targets, and a place for each node of a loop that is read"
            }
            Refusal::NoNode => {
                "the node isn't in the mesh, or is past the lent list of thresholds: count nodes from 0, and lend a place for each"
            }
            Refusal::ThresholdTooHigh => {
                "the threshold is above 500: give it in tenths of a decibel, 0 to 500; to take one back, withdraw it"
            }
            Refusal::NoThreshold => "no threshold stands at the node: enter one first, or look whether it was withdrawn already",
            Refusal::NoQuad => {
                "the quad isn't in the mesh, or lacks a threshold: count quads from 0, and enter the thresholds of all its nodes"
            }
            Refusal::WeightTooHigh => "a weight is above 256: give weights from 0 to 256, which is all the way across the quad",
            Refusal::NotAllowed => {
                "the role is unknown or lacks the operation: ask as the desk (1), a reader (2) or a masked reader (3), and as a role that \
                 may ask this"
            }
            Refusal::NotEachOnce => {
                "the order leaves a quad out, names one twice or names one that isn't there: name every quad of the mesh exactly \
                 once, counted from 0"
            }
            Refusal::TooEarly => {
                "a quad stands before one that laid a front edge which it used up: move it after every such quad, or keep the \
                 order in which the quads were placed"
            }
            Refusal::UnsoundMesh => {
                "the lent mesh isn't sound, or the list lent beside it is too short: hand over lists and counts as a run or the last step \
                 left them, with every coordinate within 1,001 either way; lend two numbers for each front edge and four more for a preview, \
                 and two places a node for steps"
            }
            Refusal::NotOnFront => {
                "the edge isn't on the front: name a node of the front and the node after it, in that order"
            }
            Refusal::NotShown => {
                "a quad doesn't turn left at all four corners in steps of 1/64 degree, so the bowl can't show it: set a larger \
                 size, or draw the outline so that no part of it is narrower than a step"
            }
            Refusal::FoursNeedSpace => {
                "the list is too short for every small quad: lend four places for each, 14,944 in all"
            }
            Refusal::FoldedQuad => {
                "a quad doesn't turn left by more than 20 degrees at all four corners: give its nodes in the order that runs round it to the \
                 left, and no corner that is flat or folded in"
            }
            Refusal::WrongSide => {
                "a side of a quad stands twice, or isn't just one of these, the sampled outline's or another quad's run back: look for a \
                 quad left out, given twice, or laid over others"
            }
            Refusal::UnlaidEdge => {
                "an edge of the sampled outline is no quad's side: look for quads left out along the outline"
            }
            Refusal::MovedNode => {
                "a node isn't the sampled outline's, bit for bit: begin the mesh with the sampled outline's nodes, in their order and unmoved"
            }
            Refusal::FaultyText => {
                "a line of the points file can't be read: write x and y there with a comma or a semicolon between, or put # before it"
            }
        }
    }
}

/// For example `refused (2): a loop has fewer than three points: draw at least three, or leave the loop out`.
impl fmt::Display for Refusal {
    fn fmt(&self, f: &mut fmt::Formatter<'_>) -> fmt::Result {
        write!(f, "refused ({}): {}", self.number(), self.words())
    }
}

impl error::Error for Refusal {}

#[cfg(test)]
mod tests {
    use super::Refusal;

    #[test]
    fn each_number_has_its_refusal() {
        let numbers: Vec<u32> = Refusal::ALL.into_iter().map(Refusal::number).collect();
        assert_eq!(numbers[..13], (1..=13).collect::<Vec<u32>>());
        assert!(numbers.windows(2).all(|pair| pair[0] < pair[1]), "{numbers:?}");
        for refusal in Refusal::ALL {
            assert_eq!(Refusal::of_number(refusal.number()), Some(refusal));
            assert_eq!(Refusal::check(refusal.number()), Err(refusal));
        }
        assert_eq!(Refusal::check(0), Ok(()));
        assert_eq!([0, 32, u32::MAX].map(Refusal::of_number), [None; 3]);
    }

    #[test]
    fn each_has_words_of_its_own() {
        for refusal in Refusal::ALL {
            let text = refusal.to_string();
            assert!(text.starts_with(&format!("refused ({}): ", refusal.number())), "{text}");
            assert_eq!(text.matches(": ").count(), 2, "what is wrong, then what to do: {text}");
            assert!(!text.contains("  ") && text.is_ascii(), "{text}");
        }
        let words: std::collections::HashSet<&str> = Refusal::ALL.iter().map(|refusal| refusal.words()).collect();
        assert_eq!(words.len(), Refusal::ALL.len());
    }

    #[test]
    #[should_panic(expected = "a bug: the library answered refusal 32")]
    fn an_unknown_number_is_a_bug() {
        let _ = Refusal::check(32);
    }
}
