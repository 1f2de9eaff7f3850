//! The candidates. A record, all its fields little-endian and without padding between them:
//!
//! | Field | Type |
//! |---|---|
//! | the recording's numbers and the segment settings, as with the silences; frames n, at most 40 | 72 bytes |
//! | min, target, max, in nanoseconds | u64 each |
//! | 0 by length, 1 by count | u32 |
//! | count, not read by length | u32 |
//! | gaps: 0 kept, 1 dropped | u32 |
//! | placement: 0 quietest, 1 center, 2 ratio | u32 |
//! | the ratio, read by placement 2 alone | f32 |
//! | cut, level, pause | f64 each |
//! | pause reference, in nanoseconds | u64 |
//! | target weight, short weight | f64 each |
//! | refusal, 0 where the candidates were found | u32 |
//! | candidates c, none where refused | u32 |
//! | values | n × f32 |
//! | flags | n × u8 |
//! | levels, for decibels alone | n × f64 |
//! | left boundary, right boundary and reason of each | 3c × u32 |
//! | costs | c × f64 |
//!
//! The first three are the trials of recording R. One in eight is refused, by the Rust itself.
//! Spoiled are, of the first: each number of a candidate, the last bit of a cost, one candidate
//! less, one more, and a refusal; and the number of a refusal.

use super::Bytes;
use super::silences::{put_lists, put_recording};
use crate::plan_job::trials::trials;
use crate::plan_job::{Found, Job, Settings};
use crate::rng::Rng;

const MOST_FRAMES: u64 = 40;

/// One job in so many is refused.
const REFUSED: u64 = 8;

pub fn record(bytes: &mut Bytes, rng: &mut Rng, i: u64) {
    let job = trials().get(i as usize).map(|(job, _)| job.clone());
    let job = job.unwrap_or_else(|| {
        // One in four of few frames.
        let most = rng.choose(&[8, 32, MOST_FRAMES, MOST_FRAMES]);
        let frames = rng.below(most + 1);
        let mut job = Job::random(rng, frames);
        if i % REFUSED == 0 {
            refuse(&mut job, rng, i / REFUSED);
        }
        job
    });
    match refusal(&job) {
        0 => put(bytes, &job, 0, &job.found()),
        number => put(bytes, &job, number, &Found::default()),
    }
}

pub fn spoiled(bytes: &mut Bytes) {
    let [(job, _), ..] = trials();
    for i in 0..3 {
        let mut found = job.found();
        found.ends[i] ^= 1;
        put(bytes, &job, 0, &found);
    }
    let mut found = job.found();
    found.costs[1] = found.costs[1].next_up();
    put(bytes, &job, 0, &found);
    let mut found = job.found();
    found.ends.truncate(found.ends.len() - 3);
    found.costs.pop();
    put(bytes, &job, 0, &found);
    let mut found = job.found();
    found.ends.extend([7, 7, 2]);
    found.costs.push(0.0);
    put(bytes, &job, 0, &found);
    put(bytes, &job, 12, &Found::default());
    let mut refused = job;
    refused.plan.target = 0;
    put(bytes, &refused, 8, &Found::default());
}

/// The Rust's first refusal as document 01 numbers it, or 0.
fn refusal(job: &Job) -> u32 {
    match job.recording.case.refusal() {
        0 => job.plan.refusal(),
        number => number,
    }
}

/// Changes a number to one that the Rust refuses, another at each turn.
fn refuse(job: &mut Job, rng: &mut Rng, turn: u64) {
    let (case, plan) = (&mut job.recording.case, &mut job.plan);
    match turn % 8 {
        0 => case.sample_rate = 0,
        1 => case.channels = 0,
        2 => case.hop = 0,
        // No frames cover so long a recording.
        3 => case.len = u64::MAX,
        4 => plan.target = 0,
        5 => lengths(plan, rng),
        6 => {
            let outside = [-f32::from_bits(1), 1.0f32.next_up(), f32::NAN];
            (plan.placement, plan.ratio) = (2, rng.choose(&outside));
        }
        _ => plan.weights.cut = rng.choose(&[0.0, -1.0, f64::INFINITY]),
    }
}

fn lengths(plan: &mut Settings, rng: &mut Rng) {
    if rng.one_in(2) {
        plan.min = plan.target + 1;
    } else {
        plan.max = plan.target - 1;
    }
}

fn put(bytes: &mut Bytes, job: &Job, refusal: u32, found: &Found) {
    put_recording(bytes, &job.recording);
    put_settings(bytes, &job.plan);
    bytes.u32(refusal);
    bytes.u32(found.costs.len() as u32);
    put_lists(bytes, &job.recording.case);
    found.ends.iter().for_each(|n| bytes.u32(*n));
    found.costs.iter().for_each(|c| bytes.f64(*c));
}

/// The settings of a plan.
pub fn put_settings(bytes: &mut Bytes, plan: &Settings) {
    let weights = &plan.weights;
    bytes.u64(plan.min);
    bytes.u64(plan.target);
    bytes.u64(plan.max);
    bytes.u32(plan.by_count.into());
    bytes.u32(plan.count);
    bytes.u32(plan.drop_gaps.into());
    bytes.u32(plan.placement.into());
    bytes.f32(plan.ratio);
    bytes.f64(weights.cut);
    bytes.f64(weights.level);
    bytes.f64(weights.pause);
    bytes.u64(weights.pause_ref);
    bytes.f64(weights.target);
    bytes.f64(weights.short);
}
