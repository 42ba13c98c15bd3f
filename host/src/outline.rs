//! The outline of a visual field, owned.

use alloc::vec::Vec;

use crate::raw;
use crate::{Refusal, Segment};

/// The outline of a visual field: an outer loop, and any number of holes in it, as blind spots are.
///
/// Points are x and y in degrees: x to the right and y up from fixation. A loop closes by itself, and may run either way round. Any points at all make an
/// outline: what can't be used is refused when something is asked of it. An outline has at most 4,096 points in all its loops together, and every
/// coordinate is from -1,000 to 1,000.
///
/// ```
/// use sitjorbe::{Outline, Paver, Refusal};
///
/// let field = Outline::new([[0.0, 0.0], [8.0, 0.0], [8.0, 8.0], [0.0, 8.0]]).hole([[2.0, 2.0], [2.0, 4.0], [4.0, 4.0], [4.0, 2.0]]);
/// assert_eq!(field.contains([1.0, 1.0]), Ok(true));
/// assert_eq!(field.contains([3.0, 3.0]), Ok(false), "in the hole");
/// assert_eq!(field.is_sound(), Ok(true));
/// assert_eq!(Paver::new(1.0).pave(&field)?.quads().len(), 44);
///
/// assert_eq!(Outline::new([[0.0, 0.0], [1.0, 0.0]]).is_sound(), Err(Refusal::ShortLoop));
/// # Ok::<(), sitjorbe::NotPaved>(())
/// ```
#[derive(Clone, Debug, PartialEq)]
pub struct Outline {
    outer: Vec<[f64; 2]>,
    holes: Vec<[f64; 2]>,
    hole_lengths: Vec<usize>,
}

impl Outline {
    /// An outline with these points as its outer loop, and no hole: an array, a slice or a `Vec` of x and y in degrees.
    ///
    /// ```
    /// let triangle = sitjorbe::Outline::new([[0.0, 0.0], [3.0, 0.0], [0.0, 3.0]]);
    /// assert_eq!(triangle.outer(), [[0.0, 0.0], [3.0, 0.0], [0.0, 3.0]]);
    /// ```
    #[must_use]
    pub fn new(points: impl Into<Vec<[f64; 2]>>) -> Outline {
        Outline { outer: points.into(), holes: Vec::new(), hole_lengths: Vec::new() }
    }

    /// The outline with one more hole: its points as [`Outline::new`] takes them. Holes lie inside the outer loop and apart, or the outline isn't
    /// [sound](Outline::is_sound).
    ///
    /// ```
    /// # use sitjorbe::Outline;
    /// let field = Outline::new([[0.0, 0.0], [9.0, 0.0], [0.0, 9.0]]).hole([[1.0, 1.0], [2.0, 1.0], [1.0, 2.0]]);
    /// assert_eq!(field.holes().collect::<Vec<_>>(), [[[1.0, 1.0], [2.0, 1.0], [1.0, 2.0]]]);
    /// ```
    #[must_use]
    pub fn hole(mut self, points: impl Into<Vec<[f64; 2]>>) -> Outline {
        let mut points = points.into();
        self.hole_lengths.push(points.len());
        self.holes.append(&mut points);
        self
    }

    /// The outer loop's points.
    ///
    /// ```
    /// let field = sitjorbe::Outline::new(vec![[0.0, 0.0], [9.0, 0.0], [0.0, 9.0]]);
    /// assert_eq!(field.outer()[1], [9.0, 0.0]);
    /// ```
    #[must_use]
    pub fn outer(&self) -> &[[f64; 2]] {
        &self.outer
    }

    /// Each hole's points, in the order in which the holes were given. A node of hole k has the [origin](crate::Mesh::origins) k + 1.
    ///
    /// ```
    /// let field = sitjorbe::Outline::new([[0.0, 0.0], [9.0, 0.0], [0.0, 9.0]]);
    /// assert_eq!(field.holes().len(), 0);
    /// ```
    #[must_use]
    pub fn holes(&self) -> impl ExactSizeIterator<Item = &[[f64; 2]]> + Clone + '_ {
        let mut start = 0;
        self.hole_lengths.iter().map(move |length| {
            let from = start;
            start += length;
            &self.holes[from..start]
        })
    }

    /// The outline as the functions of [`raw`] take it.
    ///
    /// ```
    /// use sitjorbe::{raw, Outline};
    ///
    /// let triangle = Outline::new([[0.0, 0.0], [3.0, 0.0], [0.0, 3.0]]);
    /// assert_eq!(triangle.lent().outer, [0.0, 0.0, 3.0, 0.0, 0.0, 3.0]);
    /// assert_eq!(raw::contains(&triangle.lent(), [1.0, 1.0]), Ok(true));
    /// ```
    #[must_use]
    pub fn lent(&self) -> raw::Outline<'_> {
        raw::Outline {
            outer: self.outer.as_flattened(),
            holes: self.holes.as_flattened(),
            hole_lengths: &self.hole_lengths,
        }
    }

    /// Whether the outline is sound: no two segments of one loop meet except neighbours at their common end, no two loops touch, every hole lies inside the
    /// outer loop, and no hole lies in another. It is judged exactly; [`raw::is_sound`] says more.
    ///
    /// ```
    /// let figure_of_eight = sitjorbe::Outline::new([[0.0, 0.0], [2.0, 2.0], [2.0, 0.0], [0.0, 2.0]]);
    /// assert_eq!(figure_of_eight.is_sound(), Ok(false));
    /// ```
    ///
    /// # Errors
    ///
    /// [`Refusal::Lists`] for more than 4,096 points, [`Refusal::ShortLoop`], [`Refusal::NotFinite`] and [`Refusal::TooFar`], in this order.
    pub fn is_sound(&self) -> Result<bool, Refusal> {
        raw::is_sound(&self.lent())
    }

    /// Whether a point is inside the outer loop and outside every hole, by the even-odd rule; [`raw::contains`] says what counts on the outline itself.
    ///
    /// ```
    /// # let square = sitjorbe::Outline::new([[0.0, 0.0], [2.0, 0.0], [2.0, 2.0], [0.0, 2.0]]);
    /// assert_eq!(square.contains([1.0, 1.0]), Ok(true));
    /// ```
    ///
    /// # Errors
    ///
    /// Those of [`Outline::is_sound`], then [`Refusal::NotFinite`] and [`Refusal::TooFar`] of the point.
    pub fn contains(&self, point: [f64; 2]) -> Result<bool, Refusal> {
        raw::contains(&self.lent(), point)
    }

    /// The segment of the outline that is nearest to a point, with its loop, its place there, its ends and its distance in degrees.
    ///
    /// ```
    /// let square = sitjorbe::Outline::new([[0.0, 0.0], [8.0, 0.0], [8.0, 8.0], [0.0, 8.0]]);
    /// let nearest = square.nearest_segment([7.0, 5.0])?;
    /// assert_eq!((nearest.a, nearest.b, nearest.distance), ([8.0, 0.0], [8.0, 8.0], 1.0));
    /// assert_eq!((nearest.loop_index, nearest.segment_index), (0, 1));
    /// # Ok::<(), sitjorbe::Refusal>(())
    /// ```
    ///
    /// # Errors
    ///
    /// Those of [`Outline::contains`].
    pub fn nearest_segment(&self, point: [f64; 2]) -> Result<Segment, Refusal> {
        raw::nearest_segment(&self.lent(), point)
    }

    /// The distance in degrees from a point to the nearest segment of the outline.
    ///
    /// ```
    /// let square = sitjorbe::Outline::new([[0.0, 0.0], [8.0, 0.0], [8.0, 8.0], [0.0, 8.0]]);
    /// assert_eq!(square.distance_to_boundary([3.0, 2.5]), Ok(2.5));
    /// ```
    ///
    /// # Errors
    ///
    /// Those of [`Outline::contains`].
    pub fn distance_to_boundary(&self, point: [f64; 2]) -> Result<f64, Refusal> {
        raw::distance_to_boundary(&self.lent(), point)
    }
}
