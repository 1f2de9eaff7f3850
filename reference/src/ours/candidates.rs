//! The candidates of a plan, as they are before completion.

use super::buchawzer::{self, Candidates, Refusal, Settings as All, find_candidates};
use super::{Lent, Work, number, silences};
use crate::plan_job::Settings;
use crate::silence_job;

/// Where the answer goes: left boundary, right boundary and reason of each candidate, its cost,
/// and the number of candidates.
pub use super::buchawzer::CandidatesOutput as Answer;

/// The port's settings with these of the silences and of the plan.
pub fn settings(s: &silence_job::Settings, p: &Settings) -> All {
    All {
        min: p.min,
        target: p.target,
        max: p.max,
        by_count: p.by_count,
        count: p.count,
        drop_gaps: p.drop_gaps,
        placement_kind: p.placement,
        ratio: p.ratio,
        cut: p.weights.cut,
        level: p.weights.level,
        pause: p.weights.pause,
        pause_ref: p.weights.pause_ref,
        target_weight: p.weights.target,
        short_weight: p.weights.short,
        ..silences::settings(s)
    }
}

/// Document 01's refusal, or 0 with the answer in its places.
pub fn candidates(
    r: &Lent<'_>,
    s: &silence_job::Settings,
    p: &Settings,
    work: Work<'_>,
    answer: Answer<'_>,
) -> u32 {
    number(buchawzer::candidates(r, &settings(s, p), work, answer))
}

/// The candidates, or document 01's refusal.
pub fn found<'a>(
    r: &Lent<'_>,
    s: &silence_job::Settings,
    p: &Settings,
    work: Work<'_>,
    ends: &'a mut [u32],
    costs: &'a mut [f64],
) -> Result<Candidates<'a>, u32> {
    find_candidates(r, &settings(s, p), work, ends, costs).map_err(Refusal::number)
}
