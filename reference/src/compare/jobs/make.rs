//! Random jobs as bytes: accepted, refused for each number, damaged.

use crate::compare::aims::aims;
use crate::compare::candidates::refusals::change;
use crate::compare::silences::vary;
use crate::first_refusal;
use crate::job_bytes::encode::Written;
use crate::job_bytes::make::{about_parents, accepted, write};
use crate::job_bytes::outcome::is_compared;
use crate::job_bytes::read::read;
use crate::job_bytes::{MOST_BYTES, MOST_FRAMES};
use crate::plan_job::Job;
use crate::rng::Rng;

/// The refusals that one number of a job brings, in document 01's order.
const ORDER: [u32; 10] = [1, 2, 3, 5, 6, 7, 8, 9, 10, 11];

/// Job `i` of a run.
pub fn any(rng: &mut Rng, i: u64) -> Vec<u8> {
    let mut job = match rng.below(256) {
        0..=3 => about_parents(rng),
        4 => accepted(rng, MOST_FRAMES),
        _ => small(rng),
    };
    match rng.below(16) {
        0..=3 => refuse(rng, &mut job, i),
        4 => put_nan(rng, &mut job),
        _ => {}
    }
    let written = write(rng, &job);
    if rng.one_in(4) {
        return damage(rng, &written);
    }
    written.bytes
}

/// Mostly up to 35 frames.
fn small(rng: &mut Rng) -> Job {
    let frames = match rng.below(256) {
        0..=15 => rng.below(100),
        16..=31 => rng.magnitude(8),
        _ => 4 + rng.below(32),
    };
    let mut job = accepted(rng, frames);
    vary(&mut job.recording, rng);
    job
}

/// Brings numbers of the job to the limits of some refusals.
fn refuse(rng: &mut Rng, job: &mut Job, i: u64) {
    for number in aims(&ORDER, rng, i) {
        change(job, rng, number);
    }
    job.only_rusts_thresholds();
    // A changed frame rate has changed them.
    if first_refusal::of_plan(job) == 0 {
        job.lend_levels();
    }
}

/// A NaN of any pattern in place of one of the floats.
fn put_nan(rng: &mut Rng, job: &mut Job) {
    let (plan, settings) = (&mut job.plan, &mut job.recording.settings);
    let case = &mut job.recording.case;
    let (single, double) = (nan32(rng), nan64(rng));
    let at = rng.below(case.values.len().max(1) as u64) as usize;
    let w = &mut plan.weights;
    match rng.below(9) {
        0 => (plan.placement, plan.ratio) = (2, single),
        1 => (settings.kind, settings.threshold) = (rng.choose(&[1, 2]), single),
        2 => w.cut = double,
        3 => w.level = double,
        4 => w.pause = double,
        5 => w.target = double,
        6 => w.short = double,
        7 => put(&mut case.values, at, single),
        _ => put(&mut case.levels, at, double),
    }
}

/// In place of an entry, if there is one.
fn put<T>(list: &mut [T], at: usize, entry: T) {
    if let Some(place) = list.get_mut(at) {
        *place = entry;
    }
}

fn nan32(rng: &mut Rng) -> f32 {
    let payload = 1 + rng.magnitude((1 << 23) - 2) as u32;
    let sign = rng.below(2) as u32;
    f32::from_bits(sign << 31 | 0x7f80_0000 | payload)
}

fn nan64(rng: &mut Rng) -> f64 {
    let payload = 1 + rng.magnitude((1 << 52) - 2);
    f64::from_bits(rng.below(2) << 63 | 0x7ff0_0000_0000_0000 | payload)
}

/// Something wrong with the bytes, or a byte of them another one. What the differential run does
/// not have is cut short.
fn damage(rng: &mut Rng, job: &Written) -> Vec<u8> {
    let mut bytes = job.bytes.clone();
    match rng.below(8) {
        0 | 1 => bytes.truncate(rng.below(bytes.len() as u64) as usize),
        2 => lengthen(rng, &mut bytes),
        3 => bytes[1] |= 1 << (4 + rng.below(4)),
        4 => {
            let (at, least) = rng.choose(&job.kinds);
            bytes[at] = rng.choose(&[least, 2, 3, u8::MAX]);
        }
        5 => {
            let frames = job.number_of_frames();
            let other = rng.near(
                &[frames, frames, MOST_FRAMES, u32::MAX.into()],
                u32::MAX.into(),
            );
            bytes[job.frames..][..4].copy_from_slice(&(other as u32).to_le_bytes());
        }
        6 => bytes[rng.below(2) as usize] ^= 1 << rng.below(8),
        _ => {
            let at = rng.below(bytes.len() as u64) as usize;
            bytes[at] ^= 1 << rng.below(8);
        }
    }
    if read(&bytes).is_ok_and(|job| !is_compared(&job)) {
        bytes.pop();
    }
    bytes
}

/// Bytes after the end: a few, or up to where the limit is.
fn lengthen(rng: &mut Rng, bytes: &mut Vec<u8>) {
    let few = bytes.len() + 1 + rng.magnitude(40) as usize;
    let limit = rng.near(&[MOST_BYTES as u64], u64::MAX) as usize;
    let len = if rng.one_in(8) { limit } else { few };
    while bytes.len() < len {
        bytes.push(rng.word() as u8);
    }
}
