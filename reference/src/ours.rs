//! The port's functions, by the declarations and the safe functions that every Rust program takes in. Refusals go on as
//! document 01's numbers, and nothing as the marker that the port has for it.

#[path = "../../include/buchawzer.rs"]
mod buchawzer;
#[cfg(feature = "candidates")]
pub mod candidates;
#[cfg(feature = "jobs")]
pub mod jobs;
#[cfg(feature = "path")]
pub mod path;
#[cfg(feature = "plan")]
pub mod plan;
#[cfg(feature = "silences")]
pub mod silences;

pub use buchawzer::Recording as Lent;
#[cfg(any(feature = "silences", feature = "path"))]
pub use buchawzer::Work;
pub use buchawzer::are_flags;
use buchawzer::{ACCEPTED, NO_FLOAT, NO_NUMBER, Refusal};

/// Document 01's refusal, or 0.
fn number(answer: Result<(), Refusal>) -> u32 {
    answer.map_or_else(Refusal::number, |()| ACCEPTED)
}

pub fn validate(r: &Lent<'_>) -> u32 {
    number(buchawzer::validate(r))
}

pub fn covers(r: &Lent<'_>) -> bool {
    buchawzer::covers(r.sample_rate, r.frame_rate, r.hop, r.len, r.values.len())
}

/// The driver counts frames and boundaries in u64.
pub fn boundary(rate: u32, frame_rate: u32, hop: u32, len: u64, frames: u64, k: u64) -> u64 {
    let at = buchawzer::boundary(rate, frame_rate, hop, len, frames as usize, k as usize);
    at.unwrap_or(NO_NUMBER)
}

pub fn frames_in(frame_rate: u32, hop: u32, nanos: u64) -> u64 {
    buchawzer::frames_in(frame_rate, hop, nanos).unwrap_or(NO_NUMBER)
}

pub fn frames_ceil(frame_rate: u32, hop: u32, nanos: u64) -> u64 {
    buchawzer::frames_ceil(frame_rate, hop, nanos).unwrap_or(NO_NUMBER)
}

pub fn frames_floor(frame_rate: u32, hop: u32, nanos: u64) -> u64 {
    buchawzer::frames_floor(frame_rate, hop, nanos).unwrap_or(NO_NUMBER)
}

pub fn samples_floor(sample_rate: u32, nanos: u64) -> u64 {
    buchawzer::samples_floor(sample_rate, nanos).unwrap_or(NO_NUMBER)
}

pub fn samples_in(sample_rate: u32, nanos: u64) -> f64 {
    buchawzer::samples_in(sample_rate, nanos).unwrap_or(NO_FLOAT)
}

pub fn seconds(nanos: u64) -> f64 {
    buchawzer::seconds(nanos).unwrap_or(NO_FLOAT)
}

pub fn frame_secs(frame_rate: u32, hop: u32) -> f64 {
    buchawzer::frame_secs(frame_rate, hop).unwrap_or(NO_FLOAT)
}
