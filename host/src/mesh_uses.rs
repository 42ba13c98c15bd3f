//! What becomes of a mesh: an exam, an order of testing, steps of the bowl, more steps by hand.

use alloc::vec::Vec;

use crate::raw;
use crate::{BowlSteps, Exam, Mesh, NotAccepted, NotShown, Stepper};

impl Mesh {
    /// Begins an exam on the mesh: no threshold stands yet. [`Exam`] has an example.
    ///
    /// ```
    /// # let square = sitjorbe::Outline::new([[0.0, 0.0], [2.0, 0.0], [2.0, 2.0], [0.0, 2.0]]);
    /// # let mesh = sitjorbe::Paver::new(1.0).pave(&square)?;
    /// let mut exam = mesh.exam();
    /// exam.desk().enter(8, 300)?;
    /// assert_eq!(exam.reader().threshold(8), Ok(300));
    /// # Ok::<(), Box<dyn std::error::Error>>(())
    /// ```
    #[must_use]
    pub fn exam(&self) -> Exam<'_> {
        Exam::begin(self.lent())
    }

    /// An order in which the quads may be tested, as near as may be to a wish: numbers of quads, the first one first. Any list will do: quads that it doesn't name come
    /// last, and with none the order is that of placing. A wish that may be tested comes back as it is.
    ///
    /// ```
    /// # let square = sitjorbe::Outline::new([[0.0, 0.0], [2.0, 0.0], [2.0, 2.0], [0.0, 2.0]]);
    /// # let mesh = sitjorbe::Paver::new(1.0).pave(&square)?;
    /// assert_eq!(mesh.order(&[3]), [0, 1, 2, 3], "it uses up what the others laid");
    /// assert_eq!(mesh.order(&[]), [0, 1, 2, 3]);
    /// # Ok::<(), sitjorbe::NotPaved>(())
    /// ```
    ///
    /// # Panics
    ///
    /// Where the order isn't accepted, which would be a bug.
    #[must_use]
    pub fn order(&self, wish: &[u32]) -> Vec<u32> {
        raw::nearest_order(self.quads().len(), self.quads().as_flattened(), wish)
    }

    /// Whether the quads may be tested in this order: every one of them once, and each after every quad that laid a front edge which it used up.
    ///
    /// ```
    /// # let square = sitjorbe::Outline::new([[0.0, 0.0], [2.0, 0.0], [2.0, 2.0], [0.0, 2.0]]);
    /// # let mesh = sitjorbe::Paver::new(1.0).pave(&square)?;
    /// use sitjorbe::NotAccepted;
    ///
    /// assert_eq!(mesh.check_order(&[0, 1, 2, 3]), Ok(()));
    /// assert_eq!(mesh.check_order(&[0, 1, 2]), Err(NotAccepted::NotEachOnce));
    /// # Ok::<(), sitjorbe::NotPaved>(())
    /// ```
    ///
    /// # Errors
    ///
    /// [`NotAccepted::NotEachOnce`], then [`NotAccepted::TooEarly`] with the first such place.
    pub fn check_order(&self, order: &[u32]) -> Result<(), NotAccepted> {
        raw::check_order(self.quads().len(), self.quads().as_flattened(), order)
    }

    /// The nodes in steps of the motor bowl, 1/64 degree each.
    ///
    /// ```
    /// # let square = sitjorbe::Outline::new([[0.0, 0.0], [2.0, 0.0], [2.0, 2.0], [0.0, 2.0]]);
    /// # let mesh = sitjorbe::Paver::new(1.0).pave(&square)?;
    /// assert_eq!(mesh.bowl_steps()?.counts().last(), Some([64, 64]));
    /// # Ok::<(), Box<dyn std::error::Error>>(())
    /// ```
    ///
    /// # Errors
    ///
    /// [`NotShown::Quad`] with the lowest quad that doesn't turn left at all four corners in steps, as happens to quads narrower than one.
    pub fn bowl_steps(&self) -> Result<BowlSteps, NotShown> {
        BowlSteps::of(&self.net.read(), self.net.counts)
    }

    /// A front that is stepped by hand, which begins with this mesh.
    ///
    /// ```
    /// # let square = sitjorbe::Outline::new([[0.0, 0.0], [2.0, 0.0], [2.0, 2.0], [0.0, 2.0]]);
    /// # let mesh = sitjorbe::Paver::new(1.0).pave(&square)?;
    /// let mut stepper = mesh.stepper();
    /// assert_eq!(stepper.pass().placed, 0, "all is paved");
    /// # Ok::<(), sitjorbe::NotPaved>(())
    /// ```
    #[must_use]
    pub fn stepper(&self) -> Stepper {
        Stepper::on(self.outline.clone(), self.size, self.field.clone(), self.net.clone())
    }
}
