//! Lists lent by the host, and the entries' own numbers: what the owned types of the crate's root are made of.
//!
//! Here an [`Outline`] is three slices, a [`Mesh`] reads the [`Lists`] that were lent to [`pave`], and nothing is allocated but where a function answers a
//! `Vec`. A function whose name ends in `_numbers` answers what crosses from the library ([`crate::ffi`]), refusals as numbers; the others answer a
//! [`crate::Refusal`]. Which lists are written, and which of them on a refusal, each says.
//!
//! ```
//! use sitjorbe::raw::{check_order, contains, direction, directions, distance_to_boundary, field, nearest_order, nearest_segment};
//! use sitjorbe::raw::{Outline, Settings};
//! use sitjorbe::{End, Memory, Places, Refusal};
//!
//! // A square with a square hole.
//! let outline = Outline {
//!     outer: &[0.0, 0.0, 8.0, 0.0, 8.0, 8.0, 0.0, 8.0],
//!     holes: &[2.0, 2.0, 2.0, 4.0, 4.0, 4.0, 4.0, 2.0],
//!     hole_lengths: &[4],
//! };
//! assert_eq!(contains(&outline, [1.0, 1.0]), Ok(true));
//! assert_eq!(contains(&outline, [3.0, 3.0]), Ok(false));
//! assert_eq!(distance_to_boundary(&outline, [5.5, 3.0]), Ok(1.5));
//!
//! let nearest = nearest_segment(&outline, [7.0, 5.0])?;
//! assert_eq!((nearest.a, nearest.b, nearest.distance), ([8.0, 0.0], [8.0, 8.0], 1.0));
//! assert_eq!((nearest.loop_index, nearest.segment_index), (0, 1), "the outer loop's second side");
//!
//! // The cross field for elements of size 2, after at most 400 sweeps: two floats and a mark a node, in memory lent for it,
//! // and two numbers for each of the outline's eight points, which save it time.
//! let (mut values, mut marks, mut blocks) = (vec![0.0; 2 * 200], vec![0; 200], vec![0; 2 * 8]);
//! let record = field(&outline, 2.0, 400, &mut values, &mut marks, &mut blocks)?;
//! assert_eq!((record.nx, record.ny, record.h), (11, 11, 1.0));
//!
//! // Of its four directions at a point, the one nearest to a target; near the left side they are along it and across it.
//! let nodes = record.nodes();
//! let toward = direction(&record, &values[..2 * nodes], &marks[..nodes], [0.0, 4.0], [0.1, -1.0])?;
//! assert_eq!(toward, [0.0, -1.0]);
//!
//! // The same for a list of points and their targets, with the field looked through once. A point may be refused by itself.
//! let (points, targets) = ([[0.0, 4.0], [4.0, f64::NAN]], [[0.1, -1.0], [1.0, 0.0]]);
//! let all = directions(&record, &values[..2 * nodes], &marks[..nodes], &points, &targets)?;
//! assert_eq!(all, [Ok([0.0, -1.0]), Err(Refusal::NotFinite)]);
//!
//! // The whole run, in memory that is kept for one run after the other: the outline paved with quads of size 1. The library says how many places it
//! // can't do without; those for quads, and the nodes and edges that they add, are a guess.
//! let mut memory = Memory::new(Places::for_outline(&outline, 1.0, 1)?)?;
//! let mesh = memory.pave(&outline, &Settings { size: 1.0, sweeps: 400, passes: 600 })?;
//! assert_eq!((mesh.node_count(), mesh.quad_count(), mesh.end()), (80, 44, End::Still));
//! assert_eq!(mesh.quads().next(), Some([0, 1, 40, 31]));
//! assert!(!mesh.is_whole());
//!
//! // The order in which the quads are to be tested: the last one as soon as may be.
//! let quads: Vec<u32> = mesh.quads().flatten().collect();
//! let order = nearest_order(44, &quads, &[43]);
//! assert_eq!(check_order(44, &quads, &order), Ok(()));
//! assert!(check_order(44, &quads, &order[1..]).is_err());
//!
//! // For the motor bowl: the nodes in whole steps of 1/64 degree, and as the degrees that these are.
//! let steps = mesh.steps()?;
//! assert_eq!(steps.counts().nth(1), Some([64, 0]));
//! assert_eq!(steps.degrees().nth(1), Some([1.0, 0.0]));
//!
//! // A refusal says what is wrong and what to do about it.
//! let refusal = contains(&outline, [f64::NAN, 0.0]).unwrap_err();
//! assert_eq!(refusal, Refusal::NotFinite);
//! println!("{refusal}");
//! # Ok::<(), Box<dyn std::error::Error>>(())
//! ```

pub use crate::covers::{covers, covers_numbers};
pub use crate::directions::{directions, directions_in};
pub use crate::exam_call::{exam_numbers, read_numbers, Asked, LentMesh, Results, SharedResults};
pub use crate::field::{direction, field};
pub use crate::lent_mesh::Mesh;
pub use crate::lent_stepper::Stepper;
pub use crate::order::{check_order, check_order_in, nearest_order, order_numbers, OrderScratch};
pub use crate::pave::{pave, pave_numbers, Lists, Settings};
pub use crate::places::{least_places, LeastPlaces};
pub use crate::queries::{contains, distance_to_boundary, nearest_segment, Outline};
pub use crate::sound::is_sound;
pub use crate::step::{preview_numbers, step_numbers, Ground, MeshCounts, MeshLists, MeshRead};
pub use crate::steps::{steps, steps_numbers};
