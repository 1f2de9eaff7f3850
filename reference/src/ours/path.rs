//! The operation "path over lent candidates".

use super::buchawzer::{self, LentCandidates, Path, PathOutput, Preferences, Refusal, find_path};
use super::{Work, number};
use crate::path_job::{Job, Score};

/// Where the answer goes.
pub struct Answer<'a> {
    pub path: &'a mut [u32],
    pub length: &'a mut u32,
    pub score: &'a mut Score,
}

fn lent(job: &Job) -> (LentCandidates<'_>, Preferences) {
    let p = &job.preferences;
    let lent = LentCandidates {
        left: &job.left,
        right: &job.right,
        cost: &job.cost,
    };
    let wanted = Preferences {
        min: p.min,
        target: p.target,
        limit: p.max,
        target_weight: p.target_weight,
        short_weight: p.short_weight,
        by_count: job.by_count,
        count: job.count,
    };
    (lent, wanted)
}

/// Document 01's refusal, or 0 with the answer in its places.
pub fn path(job: &Job, work: Work<'_>, parent: &mut [u32], answer: Answer<'_>) -> u32 {
    let (lent, wanted) = lent(job);
    let mut length = u64::from(*answer.length);
    let places = PathOutput {
        path: answer.path,
        length: &mut length,
        over: &mut answer.score.over,
        score_cost: &mut answer.score.cost,
    };
    let number = number(buchawzer::path(&lent, &wanted, work, parent, places));
    *answer.length = u32::try_from(length).expect("a path has at most 1,048,577 candidates");
    number
}

/// The path, or document 01's refusal.
pub fn found<'a>(
    job: &Job,
    work: Work<'_>,
    parent: &mut [u32],
    path: &'a mut [u32],
) -> Result<Path<'a>, u32> {
    let (lent, wanted) = lent(job);
    find_path(&lent, &wanted, work, parent, path).map_err(Refusal::number)
}
