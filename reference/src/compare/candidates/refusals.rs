//! The refusals of the candidates: inputs on both sides of every limit, alone and two at once.

use super::{Caller, Sizes, take};
use crate::compare::Amount;
use crate::compare::aims::aims;
use crate::compare::silences::{WORK, refusals as silences};
use crate::domain::{MOST_COUNT, MOST_FRAMES, MOST_NANOS};
use crate::first_refusal;
use crate::plan_job::{Found, Job, Settings};
use crate::rng::Rng;
use crate::silence_job;
use crate::tally::Tally;

/// Document 01's order for a plan, up to what only completion and path can refuse.
const ORDER: [u32; 13] = [1, 2, 3, 4, 5, 6, 7, 8, 9, 10, 11, 13, 12];

/// One recording in so many is large: it takes as long as thousands of small ones.
const LARGE: u64 = 10_000;

pub fn refusals(amount: Amount, rng: &mut Rng, tally: &mut Tally) {
    let mut caller = Caller::new();
    for i in 0..amount.inputs {
        let mut job = match i % LARGE {
            10 => any_levels(rng, MOST_FRAMES),
            11 => any_levels(rng, MOST_FRAMES + 1),
            _ => any_job(rng),
        };
        let aims = aims(&ORDER, rng, i);
        for number in &aims {
            change(&mut job, rng, *number);
        }
        let refusal = first_refusal::of_plan(&job);
        let frames = job.recording.case.values.len();
        // A large job is refused by its lists, and its candidates would take long.
        let found = if refusal == 0 && (frames as u64) < MOST_FRAMES {
            // A changed frame rate has changed them.
            job.lend_levels();
            job.found()
        } else {
            Found::default()
        };
        let sizes = Sizes {
            work: silences::work(rng, frames, &aims),
            ends: silences::out(rng, found.ends.len(), &aims),
            costs: silences::out(rng, found.costs.len(), &aims),
        };
        let refusal = match refusal {
            0 => by_lists(frames, &sizes, found.costs.len()),
            first => first,
        };
        let fault = caller.ask(&job, &sizes, refusal, &found, rng);
        take(tally, &job, &sizes, fault);
    }
}

fn any_job(rng: &mut Rng) -> Job {
    let frames = rng.magnitude(40);
    Job::random(rng, frames)
}

/// A job whose levels are not the Rust's, which would take long and which no refusal needs.
pub fn any_levels(rng: &mut Rng, frames: u64) -> Job {
    let recording = silence_job::Job::random(rng, frames);
    Job::with_settings(rng, recording)
}

/// Brings a number of `job` to the limit of this refusal; the lent lists have their own sizes.
pub fn change(job: &mut Job, rng: &mut Rng, number: u32) {
    let plan = &mut job.plan;
    match number {
        7 if !rng.one_in(3) => lengths(plan, rng),
        8 => {
            plan.by_count = !rng.one_in(8);
            let most = MOST_COUNT as u32;
            plan.count = rng.choose(&[0, 0, 1, most, most + 1, most + 1, u32::MAX]);
        }
        9 => {
            plan.placement = rng.choose(&[0, 1, 2, 2, 2, 2, 3, 255]);
            let inside = [0.0, -0.0, 1.0];
            let outside = [-f32::from_bits(1), 1.0f32.next_up(), f32::NAN];
            let far = [-1.0, f32::INFINITY, f32::NEG_INFINITY];
            plan.ratio = rng.choose(&[inside, outside, far].concat());
        }
        10 => weights(plan, rng),
        _ => silences::change(&mut job.recording, rng, number),
    }
}

/// One length one below, at or one above another or a limit.
fn lengths(plan: &mut Settings, rng: &mut Rng) {
    match rng.below(8) {
        0 => plan.target = 0,
        1 => (plan.min, plan.target) = (0, rng.below(2)),
        2 => plan.min = rng.near(&[plan.target], u64::MAX),
        3 => plan.target = rng.near(&[plan.min, plan.max], u64::MAX),
        4 => plan.max = rng.near(&[plan.target], u64::MAX),
        // The maximum alone can be above the longest duration and nothing else be wrong.
        5 | 6 => plan.max = rng.near(&[MOST_NANOS], u64::MAX),
        _ => {
            let all = rng.near(&[MOST_NANOS, u64::MAX], u64::MAX);
            (plan.min, plan.target, plan.max) = (all, all, all);
        }
    }
}

fn weights(plan: &mut Settings, rng: &mut Rng) {
    let tiny = f64::from_bits(1);
    let any = [
        0.0,
        -0.0,
        tiny,
        -tiny,
        -1.0,
        f64::MAX,
        f64::INFINITY,
        f64::NEG_INFINITY,
        f64::NAN,
    ];
    let w = &mut plan.weights;
    match rng.below(6) {
        0 => w.pause_ref = rng.near(&[0, 1, MOST_NANOS, MOST_NANOS, u64::MAX], u64::MAX),
        i => {
            let five = [
                &mut w.cut,
                &mut w.level,
                &mut w.pause,
                &mut w.target,
                &mut w.short,
            ];
            *five[i as usize - 1] = rng.choose(&any);
        }
    }
}

fn by_lists(frames: usize, sizes: &Sizes, count: usize) -> u32 {
    if sizes.work.iter().any(|n| *n < WORK * (frames + 1)) {
        13
    } else if !sizes.hold(count) {
        12
    } else {
        0
    }
}
