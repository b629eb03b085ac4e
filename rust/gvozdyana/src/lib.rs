//! The proved functions of Gvozdyana, for Rust programs. What each answers is proved; this crate, which no proof reaches, hands numbers and bytes over.
//! It computes nothing itself but the bits of [`frame::Record::for_areas`], the comparison of [`frame::Record::same_fields`] and the part of a capture
//! in [`capture::frame_at`].
//!
//! The functions stand in the archive `libgvozdyana.a`, which `make archive` builds. It is looked for in the folder that the environment
//! variable `GVOZDYANA_LIB_DIR` names by its whole path, else in the repository's `target/staticlib`.
//!
//! ```
#![doc = include_str!("../examples/warning.rs")]
//! ```
#![deny(missing_docs)]

#[doc(hidden)]
pub mod calls;
pub mod capture;
mod crc;
mod edition;
pub mod follower;
pub mod frame;
pub mod header;
pub mod ledger;
pub mod place;
mod refusal;
mod repair;
mod tuner;

pub use crc::crc32;
pub use edition::Edition;
pub use refusal::Refusal;
pub use repair::{
    repair, repair_by_register, repair_into, repair_marked, repair_marked_into, Repaired,
};
pub use tuner::Tuner;

/// The bytes of a frame.
pub const FRAME_BYTES: usize = 26;

/// The bytes of a header.
pub const HEADER_BYTES: usize = 188;

/// What a status tells above the refusal's number, or the refusal.
fn told(status: u32) -> Result<u32, Refusal> {
    match Refusal::from_status(status) {
        None => Ok(status >> 8),
        Some(refusal) => Err(refusal),
    }
}
