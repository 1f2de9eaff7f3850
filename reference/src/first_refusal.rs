//! The first refusal that document 01 gives a recording and its settings, before any lent list but
//! the recording's own is looked at. Up to there its order is the order of its numbers, and the
//! Rust tests in that order too, so the least number that either finds is the first that applies.

use crate::case::Case;
use crate::domain::{
    FRAME_RATES, HOPS, MOST_COUNT, MOST_FRAMES, MOST_NANOS, MOST_SAMPLES, SAMPLE_RATES,
};
use crate::{plan_job, silence_job};

/// Document 01's number for a recording, or 0.
pub fn of_recording(case: &Case) -> u32 {
    least([recording_limits(case), case.refusal()])
}

/// The same with the settings for its silences.
pub fn of_silences(job: &silence_job::Job) -> u32 {
    let s = &job.settings;
    let durations = [s.min_silence, s.min_sound, s.pre, s.tail];
    match of_recording(&job.case) {
        0 if durations.iter().any(|d| *d > MOST_NANOS) => 7,
        0 if s.kind > 2 || (s.kind > 0 && !s.threshold.is_finite()) => 11,
        first => first,
    }
}

/// The same with the settings of a plan.
pub fn of_plan(job: &plan_job::Job) -> u32 {
    let recording = of_silences(&job.recording);
    least([recording, plan_limits(&job.plan), job.plan.refusal()])
}

fn least<const N: usize>(found: [u32; N]) -> u32 {
    found.into_iter().filter(|n| *n != 0).min().unwrap_or(0)
}

/// The conditions that the Rust does not have: upper limits, lent levels, flags as bytes. It has a
/// count of marks too, but calls a wrong one a mismatch of frames, after the values.
fn recording_limits(case: &Case) -> u32 {
    let frames = case.values.len();
    let levels = if case.decibels { frames } else { 0 };
    if u64::from(case.sample_rate) > *SAMPLE_RATES.end() {
        1
    } else if u64::from(case.frame_rate) > *FRAME_RATES.end() || u64::from(case.hop) > *HOPS.end() {
        3
    } else if frames as u64 > MOST_FRAMES
        || case.flags.len() != frames
        || case.levels.len() != levels
    {
        4
    } else if case.levels.iter().any(|l| !l.is_finite()) || case.flags.iter().any(|f| *f > 1) {
        5
    } else if case.len > MOST_SAMPLES {
        6
    } else {
        0
    }
}

/// The limits of a plan's settings that the Rust does not have.
fn plan_limits(plan: &plan_job::Settings) -> u32 {
    let lengths = [plan.min, plan.target, plan.max];
    if lengths.iter().any(|d| *d > MOST_NANOS) {
        7
    } else if plan.by_count && !(1..=MOST_COUNT).contains(&plan.count.into()) {
        8
    } else if plan.weights.pause_ref > MOST_NANOS {
        10
    } else {
        0
    }
}
