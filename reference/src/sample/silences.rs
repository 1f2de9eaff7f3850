//! The silences. A record, all its fields little-endian and without padding between them:
//!
//! | Field | Type |
//! |---|---|
//! | frames n, at most 60 | u32 |
//! | sample rate, channels, frame rate, hop | u32 each |
//! | domain: 0 scores, 1 decibels | u32 |
//! | threshold: 0 automatic, 1 absolute, 2 below the reference | u32 |
//! | the threshold's number, finite and not read if automatic | f32 |
//! | length | u64 |
//! | min silence, min sound, pre, tail, in nanoseconds | u64 each |
//! | values | n × f32 |
//! | flags | n × u8 |
//! | levels, for decibels alone | n × f64 |
//! | silences c | u32 |
//! | first frame and frame after the last of each | 2c × u32 |
//!
//! The first two are document 01's trial cuts. Every record is accepted. Spoiled are the silences
//! of the first: none, one frame less at either end, and one silence more.

use super::Bytes;
use crate::case::Case;
use crate::rng::Rng;
use crate::silence_job::Job;

const MOST_FRAMES: u64 = 60;

pub fn record(bytes: &mut Bytes, rng: &mut Rng, i: u64) {
    let job = Job::trials().get(i as usize).map(|(job, _)| job.clone());
    let job = job.unwrap_or_else(|| {
        // One in four of very few frames.
        let most = rng.choose(&[8, 30, 30, MOST_FRAMES]);
        let frames = rng.below(most + 1);
        Job::random(rng, frames)
    });
    put(bytes, &job, &job.silences());
}

pub fn spoiled(bytes: &mut Bytes) {
    let [(job, _), _] = Job::trials();
    for silences in [&[][..], &[3, 5], &[2, 4], &[2, 5, 6, 7]] {
        put(bytes, &job, silences);
    }
}

fn put(bytes: &mut Bytes, job: &Job, silences: &[u32]) {
    put_recording(bytes, job);
    put_lists(bytes, &job.case);
    bytes.u32(silences.len() as u32 / 2);
    silences.iter().for_each(|frame| bytes.u32(*frame));
}

/// The numbers of a recording and of its segment settings.
pub fn put_recording(bytes: &mut Bytes, job: &Job) {
    let (case, settings) = (&job.case, &job.settings);
    bytes.u32(case.values.len() as u32);
    bytes.u32(case.sample_rate);
    bytes.u32(case.channels.into());
    bytes.u32(case.frame_rate);
    bytes.u32(case.hop);
    bytes.u32(case.decibels.into());
    bytes.u32(settings.kind.into());
    bytes.f32(settings.threshold);
    bytes.u64(case.len);
    bytes.u64(settings.min_silence);
    bytes.u64(settings.min_sound);
    bytes.u64(settings.pre);
    bytes.u64(settings.tail);
}

/// The lists of a recording.
pub fn put_lists(bytes: &mut Bytes, case: &Case) {
    case.values.iter().for_each(|v| bytes.f32(*v));
    bytes.0.extend(&case.flags);
    case.levels.iter().for_each(|l| bytes.f64(*l));
}
