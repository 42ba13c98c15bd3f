//! The front stepped by hand, in memory of its own.

use alloc::vec;
use alloc::vec::Vec;

use crate::ffi;
use crate::net::Net;
use crate::raw::{preview_numbers, step_numbers, Ground, MeshCounts};
use crate::{Field, Mesh, NotPaved, Outcome, Outline, Pass, Paver, Preview, Refusal};

/// A front that is stepped by hand: an edge is named, and one quad placed or none, with a look at it before. It makes room for each quad, so a step never ends
/// [`Outcome::Full`].
///
/// ```
/// use sitjorbe::{Outcome, Outline, Refusal, Stepper};
///
/// let square = Outline::new([[0.0, 0.0], [2.0, 0.0], [2.0, 2.0], [0.0, 2.0]]);
/// let mut stepper = Stepper::new(&square, 1.0)?;
/// assert_eq!(stepper.front()[..2], [[0, 1], [1, 2]]);
///
/// // A look, then the step. Afterwards the edge isn't on the front any more.
/// let preview = stepper.preview([0, 1])?;
/// assert_eq!((preview.quad, preview.new_d), (Some([0, 1, 8, 7]), Some([1.0, 1.0])));
/// assert_eq!(stepper.step([0, 1]), Ok(Outcome::Placed));
/// assert_eq!(stepper.step([0, 1]), Err(Refusal::NotOnFront));
///
/// // The rest by automatic passes. The mesh goes to an exam or to the bowl like any other.
/// while stepper.pass().outcome == Outcome::Placed {}
/// let mesh = stepper.mesh();
/// assert!(mesh.is_whole());
/// assert_eq!(mesh.exam().reader().figures(), (0, 0));
/// assert_eq!(mesh.bowl_steps()?.counts().nth(8), Some([64, 64]));
/// # Ok::<(), Box<dyn std::error::Error>>(())
/// ```
#[derive(Clone, Debug)]
pub struct Stepper {
    outline: Outline,
    size: f64,
    field: Field,
    net: Net,
    /// A preview's front edges.
    list: Vec<u32>,
}

impl Stepper {
    /// The front of an outline, sampled for quads of a size in degrees, with no quad placed yet. [`Mesh::stepper`] goes on from any mesh.
    ///
    /// ```
    /// # let square = sitjorbe::Outline::new([[0.0, 0.0], [2.0, 0.0], [2.0, 2.0], [0.0, 2.0]]);
    /// let stepper = sitjorbe::Stepper::new(&square, 1.0)?;
    /// assert_eq!(stepper.front().len(), 8);
    /// # Ok::<(), sitjorbe::NotPaved>(())
    /// ```
    ///
    /// # Errors
    ///
    /// Those of [`Paver::pave`].
    pub fn new(outline: &Outline, size: f64) -> Result<Stepper, NotPaved> {
        Ok(Paver::new(size).passes(0).pave(outline)?.stepper())
    }

    pub(crate) fn on(outline: Outline, size: f64, field: Field, net: Net) -> Stepper {
        Stepper { outline, size, field, net, list: Vec::new() }
    }

    /// Steps on the front edge from a node to the next one.
    ///
    /// ```
    /// # let square = sitjorbe::Outline::new([[0.0, 0.0], [2.0, 0.0], [2.0, 2.0], [0.0, 2.0]]);
    /// # let mut stepper = sitjorbe::Stepper::new(&square, 1.0)?;
    /// use sitjorbe::Outcome;
    ///
    /// assert_eq!(stepper.step([0, 1])?, Outcome::Placed);
    /// assert_eq!(stepper.quads(), [[0, 1, 8, 7]]);
    /// # Ok::<(), Box<dyn std::error::Error>>(())
    /// ```
    ///
    /// # Errors
    ///
    /// [`Refusal::NotOnFront`]; the front stays as it is then.
    pub fn step(&mut self, edge: [u32; 2]) -> Result<Outcome, Refusal> {
        self.net.make_room();
        let counts = self.net.counts;
        let answer = step_numbers(&ground(&self.outline, self.size, &self.field), &mut self.net.lists(), counts, edge);
        Refusal::check(answer.refusal)?;
        let ffi::StepAnswer { nodes, quads, edges, front, .. } = answer;
        self.net.counts = MeshCounts { nodes, quads, edges, front };
        Ok(Outcome::of_number(answer.outcome))
    }

    /// What a step on the edge would do. The front stays as it is.
    ///
    /// ```
    /// # let square = sitjorbe::Outline::new([[0.0, 0.0], [2.0, 0.0], [2.0, 2.0], [0.0, 2.0]]);
    /// # let mut stepper = sitjorbe::Stepper::new(&square, 1.0)?;
    /// let preview = stepper.preview([0, 1])?;
    /// assert_eq!((preview.quad, preview.new_d), (Some([0, 1, 8, 7]), Some([1.0, 1.0])));
    /// assert!(stepper.quads().is_empty());
    /// # Ok::<(), Box<dyn std::error::Error>>(())
    /// ```
    ///
    /// # Errors
    ///
    /// Those of [`Stepper::step`].
    pub fn preview(&mut self, edge: [u32; 2]) -> Result<Preview<'_>, Refusal> {
        self.net.make_room();
        let counts = self.net.counts;
        self.list = vec![0; 2 * counts.front + 4];
        let ground = ground(&self.outline, self.size, &self.field);
        let answer = preview_numbers(&ground, &self.net.read(), counts, edge, &mut self.list);
        Refusal::check(answer.refusal)?;
        Ok(Preview::of(&answer, counts.nodes, &self.list))
    }

    /// An automatic pass: takes the front edges that are there now, by their first nodes in rising order, and steps on each that is still there when its turn
    /// comes. It leaves what one more pass of a [`Paver`] leaves, which is faster.
    ///
    /// ```
    /// # let square = sitjorbe::Outline::new([[0.0, 0.0], [2.0, 0.0], [2.0, 2.0], [0.0, 2.0]]);
    /// # let mut stepper = sitjorbe::Stepper::new(&square, 1.0)?;
    /// assert_eq!(stepper.pass().placed, 4);
    /// # Ok::<(), sitjorbe::NotPaved>(())
    /// ```
    pub fn pass(&mut self) -> Pass {
        Pass::over(self.front(), || true, |edge| self.step(edge)).expect("it goes on")
    }

    /// Each node's x and y in degrees, by number.
    ///
    /// ```
    /// # let square = sitjorbe::Outline::new([[0.0, 0.0], [2.0, 0.0], [2.0, 2.0], [0.0, 2.0]]);
    /// # let mut stepper = sitjorbe::Stepper::new(&square, 1.0)?;
    /// assert_eq!(stepper.nodes().nth(1), Some([1.0, 0.0]));
    /// # Ok::<(), sitjorbe::NotPaved>(())
    /// ```
    #[must_use]
    pub fn nodes(&self) -> impl ExactSizeIterator<Item = [f64; 2]> + Clone + '_ {
        self.net.nodes()
    }

    /// Each quad's nodes a, b, d, c, in the order in which they were placed.
    ///
    /// ```
    /// # let square = sitjorbe::Outline::new([[0.0, 0.0], [2.0, 0.0], [2.0, 2.0], [0.0, 2.0]]);
    /// # let mut stepper = sitjorbe::Stepper::new(&square, 1.0)?;
    /// assert!(stepper.quads().is_empty());
    /// # Ok::<(), sitjorbe::NotPaved>(())
    /// ```
    #[must_use]
    pub fn quads(&self) -> &[[u32; 4]] {
        self.net.quads()
    }

    /// Each front edge, from a node to the next one, by the first's number, as the front stands: those to step on.
    ///
    /// ```
    /// # let square = sitjorbe::Outline::new([[0.0, 0.0], [2.0, 0.0], [2.0, 2.0], [0.0, 2.0]]);
    /// # let mut stepper = sitjorbe::Stepper::new(&square, 1.0)?;
    /// assert_eq!(stepper.front()[7], [7, 0]);
    /// # Ok::<(), sitjorbe::NotPaved>(())
    /// ```
    #[must_use]
    pub fn front(&self) -> Vec<[u32; 2]> {
        self.net.front().collect()
    }

    /// The mesh as it stands, for an exam, an order or the bowl. Its [`Mesh::end`] is none.
    ///
    /// ```
    /// # let square = sitjorbe::Outline::new([[0.0, 0.0], [2.0, 0.0], [2.0, 2.0], [0.0, 2.0]]);
    /// # let mut stepper = sitjorbe::Stepper::new(&square, 1.0)?;
    /// stepper.step([0, 1])?;
    /// let mesh = stepper.mesh();
    /// assert_eq!((mesh.quads().len(), mesh.end()), (1, None));
    /// # Ok::<(), Box<dyn std::error::Error>>(())
    /// ```
    #[must_use]
    pub fn mesh(&self) -> Mesh {
        Mesh::stepped(&self.outline, self.size, &self.field, &self.net)
    }
}

/// What stays the same throughout.
fn ground<'a>(outline: &'a Outline, size: f64, field: &'a Field) -> Ground<'a> {
    let (values, marks) = field.lent();
    Ground { outline: outline.lent(), size, record: field.record(), values, marks }
}
