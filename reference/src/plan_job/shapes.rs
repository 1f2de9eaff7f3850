//! Random jobs whose plans take completion: many dropped gaps, chains of silences with hardly a
//! sound between them, maxima of a few frames, counts around what can be given.

use super::Job;
use super::make::{alternate, minimum};
use crate::domain::MOST_COUNT;
use crate::rng::Rng;
use crate::silence_job::around;

/// Frames of a maximum in a long recording, at most: by length the Rust looks at every candidate
/// within it.
const LONG_MAXIMUM: u64 = 1_000;

impl Job {
    /// An accepted job of so many frames for a whole plan.
    pub fn to_plan(rng: &mut Rng, frames: u64) -> Self {
        let mut job = Self::random(rng, frames);
        match rng.below(20) {
            0..=6 => many_gaps(rng, &mut job),
            7..=14 => chain(rng, &mut job, frames / 12 + 2),
            _ => {}
        }
        job.only_rusts_thresholds();
        job.lend_finite_levels();
        if job.plan.by_count {
            job.plan.count = count(rng, &job, MOST_COUNT);
        }
        job
    }

    /// The same of very many frames, few of them within the maximum; by count the parent list for
    /// the first path has so many entries at most.
    pub fn long_to_plan(rng: &mut Rng, frames: u64, by_count: bool, parents: u64) -> Self {
        let mut job = Self::long(rng, frames);
        match rng.below(4) {
            0 => many_gaps(rng, &mut job),
            1 | 2 => chain(rng, &mut job, LONG_MAXIMUM),
            _ => {
                let whole = 1 + rng.below(LONG_MAXIMUM);
                set_maximum(rng, &mut job, whole);
            }
        }
        job.only_rusts_thresholds();
        job.lend_finite_levels();
        (job.plan.by_count, job.plan.count) = (by_count, 1);
        if by_count {
            let most = parents / job.begun().found.len().max(1) as u64;
            job.plan.count = count(rng, &job, most);
        }
        job
    }

    /// A negative distance below the reference is accepted here alone.
    pub fn only_rusts_thresholds(&mut self) {
        let s = &mut self.recording.settings;
        if s.kind == 2 {
            s.threshold = s.threshold.abs();
        }
    }
}

/// Short silences that are dropped, so that places and boundaries part.
fn many_gaps(rng: &mut Rng, job: &mut Job) {
    let (sound, silence) = (1 + rng.below(3), 1 + rng.below(4));
    let padding = rng.below(8) / 7;
    stretches(rng, job, sound, silence, padding);
    let whole = 1 + rng.below(12);
    set_maximum(rng, job, whole);
    job.plan.drop_gaps = true;
}

/// Silences about as long as the maximum, or longer where they are dropped, hardly a sound between
/// them, and padding that blocks the rest: neighbouring candidates are then often further apart
/// than the maximum, which is of four frames and so many more.
fn chain(rng: &mut Rng, job: &mut Job, more: u64) {
    let whole = 4 + rng.below(more);
    let (silence, padding) = if job.plan.drop_gaps {
        (3 * whole, whole - 2)
    } else {
        (whole, rng.below(whole))
    };
    let sound = rng.choose(&[1, 1, 1, 2]);
    stretches(rng, job, sound, silence, padding);
    set_maximum(rng, job, whole);
    // Small blocks beside the maximum let padding be.
    if rng.one_in(2) {
        (job.plan.min, job.plan.target) = (job.plan.max, job.plan.max);
    }
}

/// Alternating stretches that all count, however short, and padding of so many frames.
fn stretches(rng: &mut Rng, job: &mut Job, sound: u64, silence: u64, padding: u64) {
    alternate(rng, &mut job.recording, sound, silence);
    let (case, settings) = (&mut job.recording.case, &mut job.recording.settings);
    case.flags.fill(0);
    (settings.min_silence, settings.min_sound) = (0, 0);
    settings.pre = around(rng, case, padding);
    settings.tail = around(rng, case, padding);
}

/// A maximum of about so many frames, and lengths below it.
fn set_maximum(rng: &mut Rng, job: &mut Job, frames: u64) {
    let (case, plan) = (&job.recording.case, &mut job.plan);
    plan.max = around(rng, case, frames).max(1);
    plan.min = minimum(rng, case, plan.max);
    let least = plan.min.max(1);
    plan.target = least + rng.below(plan.max - least + 1);
}

/// Around the number of pieces that the candidates give, that the kept frames give, or that the
/// maximum asks for; from 1 to `most`.
fn count(rng: &mut Rng, job: &Job, most: u64) -> u32 {
    let course = job.begun();
    let candidates = course.found.len().saturating_sub(1) as u64;
    let kept = course.places.kept_frames as u64;
    let needed = course.places.farthest(course.maximum).len() as u64 + 1;
    let around = rng.near(&[candidates, candidates, kept, needed], MOST_COUNT);
    let any = 1 + rng.below(kept + 2);
    let asked = rng.choose(&[around, around, around, any, u64::from(job.plan.count)]);
    asked.min(most).max(1) as u32
}
