//! The refusals of the silence list: inputs on both sides of every limit, alone and two at once.

use super::{Caller, Sizes, WORK, take};
use crate::compare::Amount;
use crate::compare::aims::aims;
use crate::compare::lists::enough;
use crate::compare::validate::changes;
use crate::domain::{MOST_FRAMES, MOST_NANOS};
use crate::first_refusal;
use crate::rng::Rng;
use crate::silence_job::Job;
use crate::tally::Tally;

/// Document 01's order for this operation.
const ORDER: [u32; 10] = [1, 2, 3, 4, 5, 6, 7, 11, 13, 12];

/// One recording in so many is large: it takes as long as thousands of small ones.
const LARGE: u64 = 10_000;

pub fn refusals(amount: Amount, rng: &mut Rng, tally: &mut Tally) {
    let mut caller = Caller::new();
    for i in 0..amount.inputs {
        let frames = match i % LARGE {
            10 => MOST_FRAMES,
            11 => MOST_FRAMES + 1,
            _ => rng.magnitude(40),
        };
        let mut job = Job::random(rng, frames);
        let aims = aims(&ORDER, rng, i);
        for number in &aims {
            change(&mut job, rng, *number);
        }
        let refusal = first_refusal::of_silences(&job);
        let silences = if refusal == 0 {
            job.silences()
        } else {
            Vec::new()
        };
        let sizes = Sizes {
            work: work(rng, job.case.values.len(), &aims),
            out: out(rng, silences.len(), &aims),
        };
        let refusal = if refusal == 0 {
            by_lists(&job, &sizes, silences.len())
        } else {
            refusal
        };
        let fault = caller.ask(&job, &sizes, refusal, &silences, rng);
        take(tally, &job, &sizes, fault);
    }
}

/// Brings a number of `job` to the limit of this refusal; the lent lists have their own sizes.
pub fn change(job: &mut Job, rng: &mut Rng, number: u32) {
    match number {
        1..=6 => changes::apply(&mut job.case, rng, &[number.into()]),
        7 => {
            let nanos = rng.near(&[MOST_NANOS, MOST_NANOS, u64::MAX], u64::MAX);
            let s = &mut job.settings;
            *[
                &mut s.min_silence,
                &mut s.min_sound,
                &mut s.pre,
                &mut s.tail,
            ][rng.below(4) as usize] = nanos;
        }
        11 => {
            job.settings.kind = rng.choose(&[0, 1, 1, 2, 2, 3, 4, 255]);
            let numbers = [f32::NAN, f32::INFINITY, f32::NEG_INFINITY];
            let finite = [f32::MAX, f32::MIN, 0.0];
            job.settings.threshold = rng.choose(&[numbers, finite].concat());
        }
        _ => {}
    }
}

fn by_lists(job: &Job, sizes: &Sizes, answer: usize) -> u32 {
    let least = WORK * (job.case.values.len() + 1);
    if sizes.work.iter().any(|n| *n < least) {
        13
    } else if sizes.out < answer {
        12
    } else {
        0
    }
}

/// Entries of the work lists for so many frames.
pub fn work(rng: &mut Rng, frames: usize, aims: &[u32]) -> [usize; 3] {
    // Large work lists are the large silences' matter; here they are then too short.
    let least = WORK * (frames.min(4_000) + 1);
    let mut work = enough(rng, least);
    if aims.contains(&13) {
        let short = rng.near(&[least as u64], u64::MAX) as usize;
        work[rng.below(3) as usize] = if rng.one_in(8) { 0 } else { short };
    }
    work
}

/// Entries of an output whose answer has so many.
pub fn out(rng: &mut Rng, answer: usize, aims: &[u32]) -> usize {
    if aims.contains(&12) {
        return rng.near(&[answer as u64, answer as u64, 0], u64::MAX) as usize;
    }
    answer + rng.below(8) as usize
}
