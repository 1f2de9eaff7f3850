//! Jobs that are refused by 19, each for one thing that is wrong with its bytes.

use super::encode::{ALL, Written, encode};
use super::limits::decibels;
use super::trials::printed;
use super::{FIELDS, MOST_BYTES};
use crate::plan_job::{Job, Weights};
use crate::silence_job;

/// Frames of decibels with which a job that has the three lengths and the gap is 8,192 bytes long,
/// and 8,193 with the placement's byte.
const LONG_FRAMES: usize = 626;

/// A job cut short at each of its bytes behind the first: no bytes at all are an empty recording.
pub fn cut_short(job: &[u8]) -> Vec<Vec<u8>> {
    (1..job.len()).map(|end| job[..end].to_vec()).collect()
}

/// Every job of one byte. Document 02, S-2: "One byte is still refusal 19."
pub fn single_bytes() -> Vec<Vec<u8>> {
    (0..=u8::MAX).map(|byte| vec![byte]).collect()
}

/// A job with each bit of the map that no field has.
pub fn unknown_bits(job: &[u8]) -> Vec<Vec<u8>> {
    let bits = FIELDS..16;
    let with = bits.map(|bit| {
        let mut bytes = job.to_vec();
        bytes[bit / 8] |= 1 << (bit % 8);
        bytes
    });
    with.collect()
}

/// A job with a byte in place of each kind that says none.
pub fn unknown_kinds(job: &Written) -> Vec<Vec<u8>> {
    let places = job.kinds.iter();
    let places = places.flat_map(|(at, least)| [(*at, *least), (*at, u8::MAX)]);
    let with = places.map(|(at, kind)| {
        let mut bytes = job.bytes.clone();
        bytes[at] = kind;
        bytes
    });
    with.collect()
}

/// A job with bytes after its end, so that it has this length.
pub fn followed(job: &[u8], len: usize) -> Vec<u8> {
    let mut bytes = job.to_vec();
    bytes.resize(len, 0);
    bytes
}

/// Jobs of 8,192 and of 8,193 bytes which nothing is wrong with but that they are so long.
pub fn long() -> [Vec<u8>; 2] {
    [0, 1].map(|placement| {
        let mut job = of_frames(LONG_FRAMES, true);
        (job.plan.drop_gaps, job.plan.placement) = (true, placement);
        let bytes = encode(&job, ALL).bytes;
        assert_eq!(bytes.len(), MOST_BYTES + usize::from(placement));
        bytes
    })
}

/// R's sound and silence over so many frames.
pub fn of_frames(frames: usize, in_decibels: bool) -> Job {
    let mut job = if in_decibels { decibels() } else { printed() };
    let case = &mut job.recording.case;
    case.values = case.values.iter().copied().cycle().take(frames).collect();
    case.flags = vec![0; frames];
    case.len = 100 * frames as u64;
    job.lend_levels();
    job
}

/// R with no field as its absence would have it.
pub fn with_all_fields(in_decibels: bool) -> Job {
    let mut job = if in_decibels { decibels() } else { printed() };
    let plan = &mut job.plan;
    (plan.by_count, plan.count, plan.drop_gaps) = (true, 2, true);
    (plan.placement, plan.ratio) = (2, 0.25);
    plan.weights = Weights {
        cut: 0.5,
        level: 2.0,
        pause: 0.25,
        pause_ref: 200_000_000,
        target: 3.0,
        short: 1.5,
    };
    job.recording.settings = silence_job::Settings {
        kind: 2,
        threshold: if in_decibels { 20.0 } else { 0.5 },
        min_silence: 150_000_000,
        min_sound: 50_000_000,
        pre: 0,
        tail: 100_000_000,
    };
    job
}
