//! The limits of documents 01 and 02, and what a function of the port answers outside them.

use std::ops::RangeInclusive;

/// Sample rates, in Hz.
pub const SAMPLE_RATES: RangeInclusive<u64> = 1..=768_000;
/// The same of bat recorders: those that document 02 added.
pub const BAT_RATES: RangeInclusive<u64> = 192_001..=768_000;
/// Frame rates, in Hz.
pub const FRAME_RATES: RangeInclusive<u64> = 1..=192_000;
/// Samples from one frame to the next, at the frame rate.
pub const HOPS: RangeInclusive<u64> = 1..=1_048_576;
/// Most frames of a recording.
pub const MOST_FRAMES: u64 = 1_048_576;
/// Greatest length in samples.
pub const MOST_SAMPLES: u64 = 1 << 40;
/// Longest duration in nanoseconds: 24 hours.
pub const MOST_NANOS: u64 = 86_400_000_000_000;
/// Most candidates of a path.
#[cfg(feature = "path")]
pub const MOST_CANDIDATES: usize = 1_048_577;
/// Most pieces that can be asked for.
pub const MOST_COUNT: u64 = 1_048_576;
/// Least and greatest target length of a path; the greatest is that of the minimum too.
pub const LEAST_TARGET: f64 = 1.0 / (1u64 << 40) as f64;
pub const MOST_TARGET: f64 = (1u64 << 60) as f64;

/// What a conversion answers with. Both kinds travel as one word, so that floats are compared by
/// their bits.
#[derive(Clone, Copy)]
pub enum Kind {
    Whole,
    Real,
}

impl Kind {
    /// The answer outside the domain.
    pub fn marker(self) -> u64 {
        match self {
            Kind::Whole => u64::MAX,
            Kind::Real => (-1.0f64).to_bits(),
        }
    }

    pub fn show(self, answer: u64) -> String {
        match self {
            Kind::Whole => answer.to_string(),
            Kind::Real => format!("{:?} ({answer:#018x})", f64::from_bits(answer)),
        }
    }
}
