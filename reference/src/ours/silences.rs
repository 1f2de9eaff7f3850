//! The operation "silence list".

use super::buchawzer::{Refusal, Settings as All, find_silences, silence_list};
use super::{Lent, Work, number};
use crate::silence_job::Settings;

/// Clears work memory, as the operation does it at its end.
pub use super::buchawzer::clear_work as clear;

/// The port's settings with these, and its defaults for the plan's.
pub fn settings(s: &Settings) -> All {
    All {
        threshold_kind: s.kind,
        threshold: s.threshold,
        min_silence: s.min_silence,
        min_sound: s.min_sound,
        pre: s.pre,
        tail: s.tail,
        ..All::default()
    }
}

/// Document 01's refusal, or 0 with the silences in `out` and their number in `count`.
pub fn list(r: &Lent<'_>, s: &Settings, work: Work<'_>, out: &mut [u32], count: &mut u64) -> u32 {
    number(silence_list(r, &settings(s), work, out, count))
}

/// The silences, or document 01's refusal.
pub fn found<'a>(
    r: &Lent<'_>,
    s: &Settings,
    work: Work<'_>,
    out: &'a mut [u32],
) -> Result<&'a [u32], u32> {
    find_silences(r, &settings(s), work, out).map_err(Refusal::number)
}
