//! The cross field of an outline, owned.

use alloc::vec;
use alloc::vec::Vec;

use crate::raw::{self, Settings};
use crate::{FieldRecord, Outline, Refusal};

/// The cross field of an outline: at each point of the plane four directions, a right angle apart, that run along the outline near it and smoothly in between.
///
/// It is kept on a grid. Node (i, j), counted from 0, stands at `xmin + i * h` and `ymin + j * h` degrees and has number `j * nx + i` ([`FieldRecord`]).
///
/// ```
/// use sitjorbe::{Outline, Paver, Refusal};
///
/// let square = Outline::new([[0.0, 0.0], [8.0, 0.0], [8.0, 8.0], [0.0, 8.0]]);
/// let field = Paver::new(2.0).field(&square)?;
/// let record = field.record();
/// assert_eq!((record.nx, record.ny, record.h), (11, 11, 1.0));
/// assert_eq!((field.values().len(), field.marks().len()), (121, 121));
///
/// // Of the four directions the one nearest to a target; a point of a list may be refused by itself.
/// assert_eq!(field.direction([0.0, 4.0], [0.1, -1.0]), Ok([0.0, -1.0]));
/// let all = field.directions(&[[0.0, 4.0], [4.0, f64::NAN]], &[[0.1, -1.0], [1.0, 0.0]])?;
/// assert_eq!(all, [Ok([0.0, -1.0]), Err(Refusal::NotFinite)]);
/// # Ok::<(), Refusal>(())
/// ```
#[derive(Clone, Debug, PartialEq)]
pub struct Field {
    record: FieldRecord,
    values: Vec<f64>,
    marks: Vec<u8>,
}

impl Field {
    pub(crate) fn of(outline: &Outline, settings: &Settings) -> Result<Field, Refusal> {
        let lent = outline.lent();
        let nodes = raw::least_places(&lent, settings.size)?.field_nodes;
        let (mut values, mut marks) = (vec![0.0; 2 * nodes], vec![0; nodes]);
        let mut blocks = vec![0; lent.outer.len() + lent.holes.len()];
        let record = raw::field(&lent, settings.size, settings.sweeps, &mut values, &mut marks, &mut blocks)?;
        Ok(Field { record, values, marks })
    }

    /// The field of a run, with its values and marks as they stand in the lists lent.
    pub(crate) fn copied(record: FieldRecord, (values, marks): (&[f64], &[u8])) -> Field {
        Field { record, values: values.to_vec(), marks: marks.to_vec() }
    }

    /// Where its grid stands and how many nodes it has.
    ///
    /// ```
    /// # let square = sitjorbe::Outline::new([[0.0, 0.0], [2.0, 0.0], [2.0, 2.0], [0.0, 2.0]]);
    /// # let field = sitjorbe::Paver::new(1.0).field(&square)?;
    /// let record = field.record();
    /// assert_eq!((record.h, record.xmin), (0.5, -0.5));
    /// # Ok::<(), sitjorbe::Refusal>(())
    /// ```
    #[must_use]
    pub fn record(&self) -> FieldRecord {
        self.record
    }

    /// Each grid node's value, by number: the cosine and the sine of its directions' angle times four.
    ///
    /// ```
    /// # let square = sitjorbe::Outline::new([[0.0, 0.0], [2.0, 0.0], [2.0, 2.0], [0.0, 2.0]]);
    /// # let field = sitjorbe::Paver::new(1.0).field(&square)?;
    /// assert_eq!(field.values().len(), field.record().nodes());
    /// # Ok::<(), sitjorbe::Refusal>(())
    /// ```
    #[must_use]
    pub fn values(&self) -> &[[f64; 2]] {
        self.values.as_chunks().0
    }

    /// Each grid node's mark, by number: 1 where the outline fixes its value, else 0.
    ///
    /// ```
    /// # let square = sitjorbe::Outline::new([[0.0, 0.0], [2.0, 0.0], [2.0, 2.0], [0.0, 2.0]]);
    /// # let field = sitjorbe::Paver::new(1.0).field(&square)?;
    /// assert!(field.marks().iter().all(|&mark| mark <= 1));
    /// # Ok::<(), sitjorbe::Refusal>(())
    /// ```
    #[must_use]
    pub fn marks(&self) -> &[u8] {
        &self.marks
    }

    /// Values, two a node, and marks, as [`raw::direction`] takes them.
    ///
    /// ```
    /// # let square = sitjorbe::Outline::new([[0.0, 0.0], [2.0, 0.0], [2.0, 2.0], [0.0, 2.0]]);
    /// # let field = sitjorbe::Paver::new(1.0).field(&square)?;
    /// let (values, marks) = field.lent();
    /// assert_eq!(values.len(), 2 * marks.len());
    /// # Ok::<(), sitjorbe::Refusal>(())
    /// ```
    #[must_use]
    pub fn lent(&self) -> (&[f64], &[u8]) {
        (&self.values, &self.marks)
    }

    /// Of the four directions at a point, in degrees, the one nearest to a target, which may be any two floats: a vector of length 1.
    ///
    /// ```
    /// # let square = sitjorbe::Outline::new([[0.0, 0.0], [2.0, 0.0], [2.0, 2.0], [0.0, 2.0]]);
    /// # let field = sitjorbe::Paver::new(1.0).field(&square)?;
    /// assert_eq!(field.direction([1.0, 0.0], [0.1, 0.9])?, [0.0, 1.0]);
    /// # Ok::<(), sitjorbe::Refusal>(())
    /// ```
    ///
    /// # Errors
    ///
    /// [`Refusal::NotFinite`] and [`Refusal::TooFar`] of the point.
    pub fn direction(&self, point: [f64; 2], target: [f64; 2]) -> Result<[f64; 2], Refusal> {
        raw::direction(&self.record, &self.values, &self.marks, point, target)
    }

    /// What [`Field::direction`] answers for each point and its target, in their order: faster than one by one.
    ///
    /// ```
    /// # let square = sitjorbe::Outline::new([[0.0, 0.0], [2.0, 0.0], [2.0, 2.0], [0.0, 2.0]]);
    /// # let field = sitjorbe::Paver::new(1.0).field(&square)?;
    /// assert_eq!(field.directions(&[[1.0, 0.0]], &[[0.1, 0.9]])?, [Ok([0.0, 1.0])]);
    /// # Ok::<(), sitjorbe::Refusal>(())
    /// ```
    ///
    /// # Errors
    ///
    /// [`Refusal::AnswerLists`] if there aren't as many targets as points.
    pub fn directions(
        &self,
        points: &[[f64; 2]],
        targets: &[[f64; 2]],
    ) -> Result<Vec<Result<[f64; 2], Refusal>>, Refusal> {
        raw::directions(&self.record, &self.values, &self.marks, points, targets)
    }
}
