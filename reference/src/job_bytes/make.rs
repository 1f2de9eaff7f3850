//! Random accepted jobs for the program, many with settings that a job may leave out.

use super::encode::{ALL, Written, encode};
use super::{MOST_FRAMES, PARENTS};
use crate::domain::MOST_COUNT;
use crate::plan_job::{self, Job};
use crate::rng::Rng;
use crate::silence_job;

/// Frames from which on a path may need more than the parent list.
const MANY_FRAMES: u64 = 128;
/// Pieces from which on a path between as many cuts as it has pieces does.
const MANY_PIECES: u64 = 128;

/// An accepted job of so many frames, every other one with some settings, or all, that an
/// absence says too.
pub fn accepted(rng: &mut Rng, frames: u64) -> Job {
    let mut job = Job::to_plan(rng, frames);
    match rng.below(16) {
        0..=6 => take_usual(rng, &mut job),
        7 => {
            job.recording.settings = silence_job::Settings::usual();
            job.plan = plan_job::Settings {
                by_count: job.plan.by_count,
                count: job.plan.count,
                ..plan_job::Settings::usual()
            };
        }
        _ => {}
    }
    job
}

/// An accepted job by count with paths that need about as much as the parent list has.
pub fn about_parents(rng: &mut Rng) -> Job {
    let frames = MANY_FRAMES + rng.below(MOST_FRAMES + 1 - MANY_FRAMES);
    let mut job = accepted(rng, frames);
    (job.plan.by_count, job.plan.count) = (true, 1);
    let found = job.begun().found.len().max(1) as u64;
    let rows = PARENTS as u64 / found;
    job.plan.count = rng
        .near(&[rows, rows, MANY_PIECES, frames], MOST_COUNT)
        .max(1) as u32;
    job
}

/// Some settings, and now and then the lengths, as an absence has them.
fn take_usual(rng: &mut Rng, job: &mut Job) {
    let (s, silences) = (&mut job.recording.settings, silence_job::Settings::usual());
    let (p, plan) = (&mut job.plan, plan_job::Settings::usual());
    let durations = [
        (&mut s.min_silence, silences.min_silence),
        (&mut s.min_sound, silences.min_sound),
        (&mut s.pre, silences.pre),
        (&mut s.tail, silences.tail),
    ];
    for (duration, usual) in durations {
        if rng.one_in(3) {
            *duration = usual;
        }
    }
    if rng.one_in(3) {
        (s.kind, s.threshold) = (silences.kind, silences.threshold);
    }
    if rng.one_in(3) {
        p.drop_gaps = plan.drop_gaps;
    }
    if rng.one_in(3) {
        (p.placement, p.ratio) = (plan.placement, plan.ratio);
    }
    if rng.one_in(2) {
        p.weights = plan.weights;
    }
    if rng.one_in(4) {
        (p.min, p.target, p.max) = (plan.min, plan.target, plan.max);
    }
}

/// The bytes of a job, with all its fields, with those alone that it must have, or with any between.
pub fn write(rng: &mut Rng, job: &Job) -> Written {
    let any = rng.word() as u16;
    encode(job, rng.choose(&[0, ALL, any, any]))
}
