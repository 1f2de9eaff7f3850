//! Jobs of the program `cutplan` as bytes, and the listing that it prints for them: document 01's
//! "The job and the listing", read by the driver for itself, with the Rust's plan inside.

mod damaged;
pub mod encode;
pub mod fixed;
mod limits;
mod listing;
pub mod make;
pub mod outcome;
mod parents;
pub mod read;
pub mod trials;

use outcome::Outcome;
use read::read;

/// Bytes of a job, at most.
pub const MOST_BYTES: usize = 8_192;
/// Frames of a job, at most.
pub const MOST_FRAMES: u64 = 511;
/// Entries of the program's parent list.
pub const PARENTS: usize = 16_384;

/// Fields that a job may leave out, each with its bit of the map.
const FIELDS: usize = 12;

/// The listing that the program prints for these bytes.
pub fn expected(bytes: &[u8]) -> Vec<u8> {
    Outcome::of(read(bytes).as_ref()).listing()
}
