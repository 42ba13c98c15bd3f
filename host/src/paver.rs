//! Paving in memory of its own.

use core::{error, fmt};

use crate::raw::{self, Settings};
use crate::{End, Field, Memory, Mesh, Outline, Places, Refusal, TooManyPlaces};

/// Paves outlines with quads of a size.
///
/// ```
/// use sitjorbe::{Outline, Paver};
///
/// let square = Outline::new([[0.0, 0.0], [2.0, 0.0], [2.0, 2.0], [0.0, 2.0]]);
/// let mesh = Paver::new(1.0).pave(&square)?;
/// assert_eq!((mesh.nodes().len(), mesh.quads().len(), mesh.is_whole()), (9, 4, true));
/// assert_eq!((mesh.quads()[0], mesh.nodes()[8]), ([0, 1, 8, 7], [1.0, 1.0]));
/// # Ok::<(), sitjorbe::NotPaved>(())
/// ```
#[derive(Clone, Copy, Debug, PartialEq)]
pub struct Paver {
    settings: Settings,
}

impl Paver {
    /// A paver for quads with sides of about this length, in degrees, 0.01 to 100: with 400 sweeps of the field and 600 passes of the paving.
    ///
    /// ```
    /// let paver = sitjorbe::Paver::new(2.5);
    /// assert_eq!((paver.settings().size, paver.settings().sweeps, paver.settings().passes), (2.5, 400, 600));
    /// ```
    #[must_use]
    pub fn new(size: f64) -> Paver {
        Paver { settings: Settings { size, sweeps: 400, passes: 600 } }
    }

    /// The paver with at most so many sweeps of the field, up to 1,000. More of them make the field smoother, and take longer.
    ///
    /// ```
    /// assert_eq!(sitjorbe::Paver::new(2.5).sweeps(100).settings().sweeps, 100);
    /// ```
    #[must_use]
    pub fn sweeps(mut self, sweeps: usize) -> Paver {
        self.settings.sweeps = sweeps;
        self
    }

    /// The paver with at most so many passes round the front; more than 600 count as 600. With 0 nothing is paved yet: the mesh is the sampled outline,
    /// from which a [`Stepper`](crate::Stepper) goes on.
    ///
    /// ```
    /// # use sitjorbe::{End, Outline, Paver};
    /// # let square = Outline::new([[0.0, 0.0], [2.0, 0.0], [2.0, 2.0], [0.0, 2.0]]);
    /// let sampled = Paver::new(1.0).passes(0).pave(&square)?;
    /// assert_eq!((sampled.nodes().len(), sampled.quads().len(), sampled.end()), (8, 0, Some(End::Passes)));
    /// # Ok::<(), sitjorbe::NotPaved>(())
    /// ```
    #[must_use]
    pub fn passes(mut self, passes: usize) -> Paver {
        self.settings.passes = passes;
        self
    }

    /// What it is set to: size in degrees, sweeps and passes.
    ///
    /// ```
    /// assert_eq!(sitjorbe::Paver::new(2.5).settings().size, 2.5);
    /// ```
    #[must_use]
    pub fn settings(&self) -> &Settings {
        &self.settings
    }

    /// Paves an outline. Memory is made for what the run can't do without and for a guess of its quads; where that runs out, the run is made again with
    /// places for twice as many: it places the same quads and goes on. So no mesh ends [`End::Full`].
    ///
    /// # Errors
    ///
    /// [`NotPaved::Refused`] with [`Refusal::Lists`], [`Refusal::ShortLoop`], [`Refusal::NotFinite`], [`Refusal::TooFar`], [`Refusal::NoSize`],
    /// [`Refusal::SizeOutOfRange`], [`Refusal::Flat`] or [`Refusal::TooManySweeps`], in this order; [`NotPaved::NoMemory`] where memory can't be had.
    ///
    /// ```
    /// # use sitjorbe::{NotPaved, Outline, Paver, Refusal};
    /// # let square = Outline::new([[0.0, 0.0], [2.0, 0.0], [2.0, 2.0], [0.0, 2.0]]);
    /// let refused = Paver::new(-1.0).pave(&square).unwrap_err();
    /// assert_eq!(refused, NotPaved::Refused(Refusal::NoSize));
    /// assert_eq!(refused.to_string(), "refused (5): the element size isn't a number above 0: set one from 0.01 to 100");
    /// ```
    pub fn pave(&self, outline: &Outline) -> Result<Mesh, NotPaved> {
        let mut growth = 1;
        loop {
            let places = self.places(outline, growth)?;
            let mut memory = Memory::new(places)?;
            let mesh = self.pave_in(outline, &mut memory)?;
            // With places for the most quads that a run places none runs out.
            if mesh.end() != End::Full || places.quads == Places::MOST_QUADS {
                return Ok(Mesh::of_run(outline, self.settings.size, &mesh));
            }
            growth *= 2;
        }
    }

    /// Paves an outline in memory that is kept for one run after the other: nothing is allocated, and where places run out the mesh ends [`End::Full`]. The
    /// mesh is read out of the memory, and lasts until the next run in it.
    ///
    /// ```
    /// # use sitjorbe::{End, Memory, Outline, Paver};
    /// # let square = Outline::new([[0.0, 0.0], [2.0, 0.0], [2.0, 2.0], [0.0, 2.0]]);
    /// let paver = Paver::new(1.0);
    /// let mut memory = Memory::new(paver.places(&square, 1)?)?;
    /// let mesh = paver.pave_in(&square, &mut memory)?;
    /// assert_eq!((mesh.quad_count(), mesh.end()), (4, End::Still));
    /// # Ok::<(), sitjorbe::NotPaved>(())
    /// ```
    ///
    /// # Errors
    ///
    /// The refusals of [`Paver::pave`], then [`Refusal::FieldNeedsSpace`] and [`Refusal::FrontNeedsSpace`] where the memory has fewer places than
    /// [`Paver::places`] answers with a growth of 0. The memory is as it was then.
    pub fn pave_in<'m>(&self, outline: &Outline, memory: &'m mut Memory) -> Result<raw::Mesh<'m>, Refusal> {
        memory.pave(&outline.lent(), &self.settings)
    }

    /// Places for a run: [`Places::for_outline`].
    ///
    /// ```
    /// # let square = sitjorbe::Outline::new([[0.0, 0.0], [2.0, 0.0], [2.0, 2.0], [0.0, 2.0]]);
    /// let places = sitjorbe::Paver::new(1.0).places(&square, 0)?;
    /// assert_eq!((places.nodes, places.quads), (8, 0));
    /// # Ok::<(), sitjorbe::Refusal>(())
    /// ```
    ///
    /// # Errors
    ///
    /// The refusals of [`Paver::pave`], but for [`Refusal::TooManySweeps`].
    pub fn places(&self, outline: &Outline, growth: usize) -> Result<Places, Refusal> {
        Places::for_outline(&outline.lent(), self.settings.size, growth)
    }

    /// The field alone, which a run begins with: four directions at each point of the outline.
    ///
    /// ```
    /// # use sitjorbe::{Outline, Paver};
    /// # let square = Outline::new([[0.0, 0.0], [2.0, 0.0], [2.0, 2.0], [0.0, 2.0]]);
    /// let field = Paver::new(1.0).field(&square)?;
    /// assert_eq!(field.direction([1.0, 0.0], [0.9, 0.1])?, [1.0, 0.0]);
    /// # Ok::<(), sitjorbe::Refusal>(())
    /// ```
    ///
    /// # Errors
    ///
    /// The refusals of [`Paver::pave`].
    pub fn field(&self, outline: &Outline) -> Result<Field, Refusal> {
        Field::of(outline, &self.settings)
    }
}

/// Why there is no mesh.
#[derive(Clone, Copy, Debug, PartialEq, Eq)]
pub enum NotPaved {
    /// The outline or a setting is refused.
    Refused(Refusal),
    /// There isn't memory for so many nodes and quads.
    NoMemory,
}

/// The refusal's words.
impl fmt::Display for NotPaved {
    fn fmt(&self, f: &mut fmt::Formatter<'_>) -> fmt::Result {
        match self {
            NotPaved::Refused(refusal) => refusal.fmt(f),
            NotPaved::NoMemory => f.write_str("there isn't memory for so many quads: set a larger size"),
        }
    }
}

impl error::Error for NotPaved {}

impl From<Refusal> for NotPaved {
    fn from(refusal: Refusal) -> NotPaved {
        NotPaved::Refused(refusal)
    }
}

impl From<TooManyPlaces> for NotPaved {
    fn from(_: TooManyPlaces) -> NotPaved {
        NotPaved::NoMemory
    }
}
