//! Presentation order: whether a list of quads is an order in which a mesh may be tested, and such an order near to a wish.

use alloc::collections::BinaryHeap;
use alloc::vec;
use alloc::vec::Vec;
use core::cmp::Reverse;
use core::{error, fmt};

use crate::ffi;
use crate::Refusal;

/// Why an order isn't accepted.
#[derive(Clone, Copy, Debug, PartialEq, Eq, Hash)]
pub enum NotAccepted {
    /// Some quad is absent, repeated or unknown.
    NotEachOnce,
    /// A quad stands too early.
    TooEarly {
        /// Its place in the list, counted from 0; none before it does.
        place: usize,
    },
}

impl NotAccepted {
    /// The refusal: 21 or 22.
    ///
    /// ```
    /// assert_eq!(sitjorbe::NotAccepted::TooEarly { place: 3 }.refusal().number(), 22);
    /// ```
    #[must_use]
    pub fn refusal(self) -> Refusal {
        match self {
            NotAccepted::NotEachOnce => Refusal::NotEachOnce,
            NotAccepted::TooEarly { .. } => Refusal::TooEarly,
        }
    }
}

/// The refusal's words, and the place of a quad that stands too early.
impl fmt::Display for NotAccepted {
    fn fmt(&self, f: &mut fmt::Formatter<'_>) -> fmt::Result {
        write!(f, "{}", self.refusal())?;
        match self {
            NotAccepted::NotEachOnce => Ok(()),
            NotAccepted::TooEarly { place } => write!(f, " (place {place})"),
        }
    }
}

impl error::Error for NotAccepted {}

/// Scratch for [`check_order_in`], for one order after the other.
#[derive(Clone, Debug, Default)]
pub struct OrderScratch {
    /// A number a quad.
    pub places: Vec<usize>,
    /// Eight numbers a quad, and two: 2,000,002 for 250,000 quads. With fewer it runs out, and the quads that find no room in it are looked at
    /// for every place.
    pub pool: Vec<u32>,
}

impl OrderScratch {
    /// Enough for so many quads; more than 250,000 count as 250,000.
    ///
    /// ```
    /// let scratch = sitjorbe::raw::OrderScratch::new(10);
    /// assert_eq!((scratch.places.len(), scratch.pool.len()), (10, 82));
    /// ```
    #[must_use]
    pub fn new(quads: usize) -> OrderScratch {
        let quads = quads.min(MOST_QUADS);
        OrderScratch { places: vec![0; quads], pool: vec![0; 8 * quads + 2] }
    }
}

/// No mesh has more.
const MOST_QUADS: usize = 250_000;

/// How many quads the library sees: a count beyond the list stops at its last whole quad.
fn seen(quad_count: usize, quads: &[u32]) -> usize {
    quad_count.min(quads.len() / 4).min(MOST_QUADS)
}

/// Whether the quads of a mesh may be tested in this order: every one of them once, and each after every quad that laid a front edge
/// which it used up.
///
/// `quads` has four ids a quad, a, b, d, c, in the order in which the quads were placed, and `order` their numbers in the order in which
/// they are to be tested.
///
/// ```
/// use sitjorbe::raw::{check_order, nearest_order};
/// use sitjorbe::NotAccepted;
///
/// // The second quad used up the front edge from 3 to 2, which the first one laid.
/// let quads = [0, 1, 2, 3, 3, 2, 4, 5];
/// assert_eq!(check_order(2, &quads, &[0, 1]), Ok(()));
/// assert_eq!(check_order(2, &quads, &[1, 0]), Err(NotAccepted::TooEarly { place: 0 }));
/// assert_eq!(nearest_order(2, &quads, &[1, 0]), [0, 1]);
/// ```
///
/// # Errors
///
/// [`NotAccepted::NotEachOnce`], then [`NotAccepted::TooEarly`] with the first such place.
pub fn check_order(quad_count: usize, quads: &[u32], order: &[u32]) -> Result<(), NotAccepted> {
    let mut scratch = OrderScratch::new(seen(quad_count, quads));
    check_order_in(quad_count, quads, order, &mut scratch.places, &mut scratch.pool)
}

/// As [`check_order`], with scratch lent for it. Any slices will do, empty ones as well: they save time, and change no answer. What is left
/// in them means nothing.
///
/// ```
/// let quads = [0, 1, 2, 3, 3, 2, 4, 5];
/// assert_eq!(sitjorbe::raw::check_order_in(2, &quads, &[0, 1], &mut [], &mut []), Ok(()));
/// ```
///
/// # Errors
///
/// Those of [`check_order`].
pub fn check_order_in(
    quad_count: usize,
    quads: &[u32],
    order: &[u32],
    places: &mut [usize],
    pool: &mut [u32],
) -> Result<(), NotAccepted> {
    let ffi::OrderAnswer { refusal, place } = order_numbers(quad_count, quads, order, places, pool);
    match Refusal::check(refusal) {
        Ok(()) => Ok(()),
        Err(Refusal::NotEachOnce) => Err(NotAccepted::NotEachOnce),
        Err(Refusal::TooEarly) => Err(NotAccepted::TooEarly { place }),
        Err(other) => panic!("a bug: the library answered refusal {} of an order", other.number()),
    }
}

/// As [`check_order_in`], with the numbers as they cross.
///
/// ```
/// let quads = [0, 1, 2, 3, 3, 2, 4, 5];
/// let answer = sitjorbe::raw::order_numbers(2, &quads, &[1, 0], &mut [], &mut []);
/// assert_eq!((answer.refusal, answer.place), (22, 0));
/// ```
pub fn order_numbers(
    quad_count: usize,
    quads: &[u32],
    order: &[u32],
    places: &mut [usize],
    pool: &mut [u32],
) -> ffi::OrderAnswer {
    // SAFETY: each pointer comes with the length of its slice, and the slices live until the call returns; the two that may be
    // written are borrowed for that. The entry is proved to read and write nothing else.
    unsafe {
        ffi::sitjorbe_order(
            quad_count,
            quads.as_ptr(),
            quads.len(),
            order.as_ptr(),
            order.len(),
            places.as_mut_ptr(),
            places.len(),
            pool.as_mut_ptr(),
            pool.len(),
        )
    }
}

/// An order that is accepted and near to a wish: each place has, of the quads that may come there, the one that the wish names first.
/// A wish that is accepted comes back as it is.
///
/// The wish may be any list: quads that it doesn't name come last, by their numbers, and what isn't a quad is passed over. This function
/// isn't proved; what it makes has been accepted by [`check_order`], which is.
///
/// ```
/// let quads = [0, 1, 2, 3, 3, 2, 4, 5];
/// assert_eq!(sitjorbe::raw::nearest_order(2, &quads, &[1]), [0, 1]);
/// ```
///
/// # Panics
///
/// Where it isn't accepted, which would be a bug.
#[must_use]
pub fn nearest_order(quad_count: usize, quads: &[u32], wish: &[u32]) -> Vec<u32> {
    let count = seen(quad_count, quads);
    let mut rank = vec![usize::MAX; count];
    for (place, &quad) in wish.iter().enumerate().rev() {
        if let Some(rank) = rank.get_mut(quad as usize) {
            *rank = place;
        }
    }
    let mut followers = Followers::new(&quads[..4 * count]);
    let mut free: BinaryHeap<_> = followers.free().map(|quad| Reverse((rank[quad], quad))).collect();
    let mut order = Vec::with_capacity(count);
    while let Some(Reverse((_, quad))) = free.pop() {
        order.push(quad as u32);
        free.extend(followers.freed_by(quad).map(|quad| Reverse((rank[quad], quad))));
    }
    if let Err(refused) = check_order(quad_count, quads, &order) {
        panic!("a bug: an order made from a wish is {refused}");
    }
    order
}

/// Which quads may come only after which.
struct Followers {
    /// Each edge that some quad used up, with that quad's number, in order.
    users: Vec<([u32; 2], usize)>,
    /// For each quad the edges that it laid.
    laid: Vec<[[u32; 2]; 3]>,
    /// For each quad, how many times one before it that isn't out yet laid an edge that it used up.
    waits: Vec<usize>,
}

impl Followers {
    fn new(quads: &[u32]) -> Followers {
        let mut users = Vec::with_capacity(quads.len() / 4 * 3);
        let mut laid = Vec::with_capacity(quads.len() / 4);
        for (number, quad) in quads.chunks_exact(4).enumerate() {
            let [a, b, d, c] = [quad[0], quad[1], quad[2], quad[3]];
            users.extend([[a, b], [b, d], [c, a]].map(|used| (used, number)));
            laid.push([[d, b], [c, d], [a, c]]);
        }
        users.sort_unstable();
        let mut followers = Followers { users, waits: vec![0; laid.len()], laid };
        for quad in 0..followers.laid.len() {
            for later in followers.after(quad) {
                followers.waits[later] += 1;
            }
        }
        followers
    }

    /// The quads placed after this one that used up an edge which it laid, once for each such edge.
    fn after(&self, quad: usize) -> Vec<usize> {
        let later = |&edge| {
            let start = self.users.partition_point(|&user| user <= (edge, quad));
            self.users[start..].iter().take_while(move |(used, _)| *used == edge).map(|(_, user)| *user)
        };
        self.laid[quad].iter().flat_map(later).collect()
    }

    /// Those that wait for none.
    fn free(&self) -> impl Iterator<Item = usize> + '_ {
        (0..self.waits.len()).filter(|&quad| self.waits[quad] == 0)
    }

    /// Those that wait for none any more, once this one is out.
    fn freed_by(&mut self, quad: usize) -> impl Iterator<Item = usize> {
        let mut freed = Vec::new();
        for later in self.after(quad) {
            self.waits[later] -= 1;
            if self.waits[later] == 0 {
                freed.push(later);
            }
        }
        freed.into_iter()
    }
}
