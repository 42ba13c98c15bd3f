//! The oracle: the reference's own text, cut out of its source by oracle/cut, and a driver that answers in SCOPE's terms.
//!
//! `patched` has SCOPE's stand-ins for the angle functions, and is what the port must equal bit for bit; `plain` has the
//! Rust's own. Both offer the same functions and types (driver.rs).

pub mod cases;
pub mod compare;
pub mod file;
pub mod fixed;
pub mod generate;
pub mod live;
pub mod stand_ins;
pub mod terms;

/// The judgement of soundness, in whole numbers of any size, which the host's tests make too.
#[path = "../../host/tests/common/sound.rs"]
pub mod sound;

#[path = "../../host/tests/common/whole.rs"]
pub mod whole;

#[path = "../target/patched.rs"]
#[allow(dead_code)]
pub mod patched;

#[path = "../target/plain.rs"]
#[allow(dead_code)]
pub mod plain;
