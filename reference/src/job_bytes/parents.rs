//! Jobs by count whose paths need the whole parent list, or more than it has.

use super::trials::printed;
use crate::plan_job::Job;

const FRAME: u64 = 100_000_000;

/// A maximum of one frame makes every boundary a candidate: 64 pieces of 256 candidates are as many
/// entries as there are, those of 257 too many.
pub fn of_first_path() -> [Job; 2] {
    [255, 256].map(|frames| {
        let mut job = sound(frames, 64);
        (job.plan.min, job.plan.target, job.plan.max) = (FRAME, FRAME, FRAME);
        job
    })
}

/// Every other boundary is a candidate, 193 of them; completion makes 256 of these for 64 pieces,
/// and a piece more is too many.
pub fn of_second_path() -> [Job; 2] {
    [64, 65].map(|count| {
        let mut job = sound(383, count);
        (job.plan.min, job.plan.target, job.plan.max) = (0, 4 * FRAME, 4 * FRAME);
        job
    })
}

/// Nothing but sound on R's grid.
fn sound(frames: usize, count: u32) -> Job {
    let mut job = printed();
    let case = &mut job.recording.case;
    (case.values, case.flags) = (vec![1.0; frames], vec![0; frames]);
    case.len = 100 * frames as u64;
    (job.plan.by_count, job.plan.count) = (true, count);
    job
}
