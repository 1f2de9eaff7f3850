//! What becomes of a job: document 01's first refusal, or the Rust's plan.

use silence_split::candidates::hook_smoothed;

use super::read::Damage;
use super::{PARENTS, listing};
use crate::first_refusal;
use crate::plan_job::Job;
use crate::plan_job::planned::Planned;

pub enum Outcome {
    Planned(Planned),
    /// For what the recording and the settings are, by its number.
    Refused(u32),
    /// 14, for the path over the candidates that were found.
    FirstPath,
    /// 14, for the path over the candidates after completion.
    SecondPath,
    /// 19.
    Unread(Damage),
}

impl Outcome {
    /// Of bytes as they were read. The levels of an accepted recording are those that the Rust
    /// smooths for itself, or its plan would be that of another job.
    pub fn of(read: Result<&Job, &Damage>) -> Self {
        let job = match read {
            Ok(job) => job,
            Err(damage) => return Self::Unread(*damage),
        };
        let first = first_refusal::of_plan(job);
        if first != 0 {
            return Self::Refused(first);
        }
        assert!(has_rusts_levels(job), "levels that the Rust does not have");
        if job.plan.by_count {
            let needed = |course: &[usize]| course.iter().any(|n| *n > PARENTS);
            if needed(&job.begun().parents(job.plan.count)) {
                return Self::FirstPath;
            }
            if needed(&job.course().parents(job.plan.count)) {
                return Self::SecondPath;
            }
        }
        Self::Planned(job.planned())
    }

    /// Document 01's number, or 0.
    pub fn number(&self) -> u32 {
        match self {
            Self::Planned(_) => 0,
            Self::Refused(number) => *number,
            Self::FirstPath | Self::SecondPath => 14,
            Self::Unread(_) => 19,
        }
    }

    pub fn listing(&self) -> Vec<u8> {
        match self {
            Self::Planned(planned) => listing::of_plan(planned),
            refused => listing::of_refusal(refused.number()),
        }
    }
}

/// Whether the differential run has this job: it is refused, or the Rust makes a plan of the same.
pub fn is_compared(job: &Job) -> bool {
    let settings = &job.recording.settings;
    let negative = settings.kind == 2 && settings.threshold < 0.0;
    first_refusal::of_plan(job) != 0 || (!negative && has_rusts_levels(job))
}

/// Of an accepted recording: scores have none.
fn has_rusts_levels(job: &Job) -> bool {
    let case = &job.recording.case;
    if !case.decibels {
        return true;
    }
    let smoothed = hook_smoothed(&case.analysis().expect("accepted"));
    let bits = |levels: &[f64]| levels.iter().map(|l| l.to_bits()).collect::<Vec<_>>();
    bits(&smoothed) == bits(&case.levels)
}
