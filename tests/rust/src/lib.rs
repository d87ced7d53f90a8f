//! Evidence from outside the proofs: an independent model of Ribalonga, written
//! from the rules in words alone, and differential tests of the library against it.
//!
//! - `model`: the rules, read a second time.
//! - `linked`: safe wrappers over the exported functions (feature `linked`).
//! - `plain`: the same calls in plain Rust on lent memory, for the benchmark, and
//!   in the library's place where none is linked.
//! - `idiom`: the measured calls as one would write them with sets and maps.
//! - `make`, `guard`, `random`: inputs, buffers with guard zones, seeds.
//! - `trial`: one call of the subject compared with the model in full.
//! - `groups`: the cases of the differential tests.

#![allow(clippy::too_many_arguments)]

pub mod answers;
pub mod groups;
pub mod guard;
pub mod idiom;
#[cfg(feature = "linked")]
pub mod linked;
pub mod make;
pub mod mill;
pub mod model;
pub mod plain;
pub mod random;
pub mod trial;

/// What is tried: the library, or the plain version where none is linked.
#[cfg(feature = "linked")]
pub use linked as subject;
#[cfg(not(feature = "linked"))]
pub use plain as subject;

pub const SUBJECT: &str =
    if cfg!(feature = "linked") { "the linked library" } else { "the plain version, no library" };

#[cfg(test)]
mod tests;
