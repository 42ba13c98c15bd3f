//! Sitjorbe for Rust: safe functions over the proved library.
//!
//! Everything that is computed is computed by the library, which is written in Rattle and proved: each entry equals its
//! definition on every input, ends, and writes nothing but what its contract names. This crate only takes slices apart, since
//! each crosses as a pointer and a length ([`ffi`]), and gives the refusals' numbers their words ([`Refusal`]).
//!
//! The library is an archive for x86-64 Linux; `build.rs` says where it is looked for. An archive of another shape than [`ffi::ABI`] doesn't
//! link. Nothing here needs `std`; what owns its lists, as [`Memory`] does, needs an allocator.
//!
//! ```
//! use sitjorbe::{NotPaved, Outline, Paver};
//!
//! // A field with a blind spot, in degrees, and quads with sides of about 1 degree.
//! let field = Outline::new([[0.0, 0.0], [8.0, 0.0], [8.0, 8.0], [0.0, 8.0]]).hole([[2.0, 2.0], [2.0, 4.0], [4.0, 4.0], [4.0, 2.0]]);
//! let mesh = Paver::new(1.0).pave(&field)?;
//! assert_eq!((mesh.nodes().len(), mesh.quads().len()), (80, 44));
//! assert_eq!((mesh.nodes()[1], mesh.quads()[0]), ([1.0, 0.0], [0, 1, 40, 31]));
//!
//! // A refusal says what is wrong and what to do about it.
//! let refused = Paver::new(-1.0).pave(&field).unwrap_err();
//! assert_eq!(refused.to_string(), "refused (5): the element size isn't a number above 0: set one from 0.01 to 100");
//! # Ok::<(), NotPaved>(())
//! ```
//!
//! | to | take |
//! |---|---|
//! | draw an outline, ask whether it is sound and what is inside | [`Outline`] |
//! | pave it | [`Paver::pave`]; in memory that is kept for one run after the other, [`Paver::pave_in`] |
//! | read the mesh, order its quads, show it on the motor bowl | [`Mesh`] |
//! | step the front by hand | [`Stepper`] |
//! | run an exam, with roles that can do no more than they may | [`Exam`] |
//! | draw the field of directions | [`Field`] |
//! | lend lists of the host's own, or see the numbers as they cross | [`raw`] |
//!
//! Coordinates and sizes are degrees, x to the right and y up; thresholds tenths of a decibel. Nodes, quads and loops count from 0.

#![cfg_attr(not(test), no_std)]
#![deny(missing_docs)]

extern crate alloc;

pub mod closing;
mod covers;
mod cross_field;
mod directions;
mod ends;
mod exam;
mod exam_call;
pub mod ffi;
mod field;
mod floats;
mod lent_mesh;
mod lent_stepper;
mod memory;
mod mesh;
mod mesh_uses;
mod net;
mod order;
mod outcomes;
mod outline;
mod pave;
mod paver;
mod places;
mod queries;
pub mod raw;
mod read_points;
mod refusal;
mod roles;
mod small_quads;
mod sound;
mod step;
mod stepper;
mod steps;

pub use covers::{Covered, NotCovered};
pub use cross_field::Field;
pub use ends::End;
pub use exam::Exam;
pub use exam_call::{Node, MOST_THRESHOLD, MOST_WEIGHT, NO_THRESHOLD};
pub use field::FieldRecord;
pub use floats::are_floats_as_proved;
pub use memory::{Memory, Places, TooManyPlaces};
pub use mesh::Mesh;
pub use order::NotAccepted;
pub use outcomes::{Outcome, Pass, Preview};
pub use outline::Outline;
pub use pave::OFF;
pub use paver::{NotPaved, Paver};
pub use queries::Segment;
pub use read_points::{read_points, text_fault, FaultKind, ReadPoints, TextFault};
pub use refusal::Refusal;
pub use roles::{Desk, MaskedReader, Reader};
pub use small_quads::small_quads;
pub use stepper::Stepper;
pub use steps::{BowlSteps, NotShown, STEPS_PER_DEGREE};
