//! The plan.

use super::buchawzer::{self, Plan, make_plan};
use super::candidates::settings;
use super::{Lent, Work, number};
use crate::plan_job::Settings;
use crate::silence_job;

/// Where the answer goes: start, end and flags of each piece, previous end, next start and reason
/// of each cut, and the number of pieces.
pub use super::buchawzer::PlanOutput as Answer;
/// A plan's numbers as records.
pub use super::buchawzer::{Cut, Piece, Refusal, cut_records, piece_records};

/// Document 01's refusal, or 0 with the answer in its places.
pub fn plan(
    r: &Lent<'_>,
    s: &silence_job::Settings,
    p: &Settings,
    work: Work<'_>,
    parent: &mut [u32],
    answer: Answer<'_>,
) -> u32 {
    number(buchawzer::plan(r, &settings(s, p), work, parent, answer))
}

/// The plan, or document 01's refusal.
pub fn made<'a>(
    r: &Lent<'_>,
    s: &silence_job::Settings,
    p: &Settings,
    work: Work<'_>,
    parent: &mut [u32],
    pieces: &'a mut [u64],
    cuts: &'a mut [u64],
) -> Result<Plan<'a>, u32> {
    make_plan(r, &settings(s, p), work, parent, pieces, cuts).map_err(Refusal::number)
}
