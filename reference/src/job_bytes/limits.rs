//! Jobs on either side of each limit of the operation Plan, made from recording R by one change.

use super::trials::printed;
use crate::domain::{MOST_NANOS, MOST_SAMPLES};
use crate::plan_job::Job;

/// A NaN as no arithmetic makes it.
const SIGNALLING: f32 = f32::from_bits(0x7f80_0001);

/// Document 01's number, or 0, and the change that brings a job there.
type Row = (u32, fn(&mut Job));

const GRID: [Row; 18] = [
    (1, |job| job.recording.case.sample_rate = 0),
    (1, |job| job.recording.case.sample_rate = 768_001),
    (0, |job| grid(job, 768_000, 10, 1, 537_600)),
    (6, |job| job.recording.case.sample_rate = 192_001),
    (0, |job| grid(job, 192_000, 10, 1, 134_400)),
    (2, |job| job.recording.case.channels = 0),
    (0, |job| job.recording.case.channels = u16::MAX),
    (3, |job| job.recording.case.frame_rate = 0),
    (3, |job| grid(job, 192_000, 192_001, 2, 14)),
    (3, |job| grid(job, 768_000, 192_001, 1, 28)),
    (0, |job| grid(job, 192_000, 192_000, 1, 7)),
    (3, |job| job.recording.case.hop = 0),
    (3, |job| grid(job, 1_000, 10, 1_048_577, 734_003_900)),
    (0, |job| grid(job, 1_000, 10, 1_048_576, 734_003_200)),
    (3, |job| grid(job, 1_000, 1_001, 1, 7)),
    (0, |job| grid(job, 1_000, 1_000, 1, 7)),
    (6, |job| grid(job, 192_000, 1, 1_048_576, MOST_SAMPLES + 1)),
    (0, |job| grid(job, 192_000, 1, 1_048_576, MOST_SAMPLES)),
];

const SCORES: [Row; 6] = [
    (5, |job| job.recording.case.values[0] = f32::NAN),
    (5, |job| job.recording.case.values[1] = SIGNALLING),
    (5, |job| job.recording.case.values[2] = f32::INFINITY),
    (5, |job| job.recording.case.values[5] = 1.0f32.next_up()),
    (5, |job| job.recording.case.values[6] = -f32::from_bits(1)),
    (0, |job| job.recording.case.values[6] = -0.0),
];

/// Of R in decibels.
const DECIBELS: [Row; 6] = [
    (0, |job| job.recording.case.flags[3] = 1),
    (5, |job| job.recording.case.flags[6] = 2),
    (5, |job| job.recording.case.values[6] = f32::NEG_INFINITY),
    (5, |job| job.recording.case.values[0] = -f32::NAN),
    (5, |job| job.recording.case.levels[0] = f64::NAN),
    (5, |job| job.recording.case.levels[6] = f64::INFINITY),
];

const LENGTHS: [Row; 10] = [
    (7, |job| (job.plan.min, job.plan.target) = (0, 0)),
    (0, |job| (job.plan.min, job.plan.target) = (0, 1)),
    (7, |job| job.plan.min = job.plan.target + 1),
    (7, |job| job.plan.target = job.plan.max + 1),
    (7, |job| job.plan.max = MOST_NANOS + 1),
    (0, |job| job.plan.max = MOST_NANOS),
    (7, |job| job.recording.settings.min_silence = MOST_NANOS + 1),
    (7, |job| job.recording.settings.min_sound = u64::MAX),
    (7, |job| job.recording.settings.pre = MOST_NANOS + 1),
    (7, |job| job.recording.settings.tail = MOST_NANOS + 1),
];

const CHOICES: [Row; 13] = [
    (8, |job| count(job, 0)),
    (8, |job| count(job, 1_048_577)),
    (0, |job| count(job, 1_048_576)),
    (9, |job| ratio(job, 1.0f32.next_up())),
    (9, |job| ratio(job, -f32::from_bits(1))),
    (9, |job| ratio(job, SIGNALLING)),
    (0, |job| ratio(job, 1.0)),
    (11, |job| threshold(job, 1, f32::NAN)),
    (11, |job| threshold(job, 1, f32::NEG_INFINITY)),
    (11, |job| threshold(job, 2, f32::INFINITY)),
    (11, |job| threshold(job, 2, -f32::NAN)),
    (0, |job| threshold(job, 1, f32::MIN)),
    (0, |job| threshold(job, 2, f32::MAX)),
];

const WEIGHTS: [Row; 10] = [
    (10, |job| job.plan.weights.cut = 0.0),
    (10, |job| job.plan.weights.cut = f64::INFINITY),
    (10, |job| job.plan.weights.level = -f64::from_bits(1)),
    (10, |job| job.plan.weights.pause = f64::NAN),
    (10, |job| job.plan.weights.pause_ref = 0),
    (10, |job| job.plan.weights.pause_ref = MOST_NANOS + 1),
    (0, |job| job.plan.weights.pause_ref = MOST_NANOS),
    (10, |job| job.plan.weights.target = -f64::NAN),
    (10, |job| job.plan.weights.short = f64::NEG_INFINITY),
    (0, |job| job.plan.weights.short = -0.0),
];

/// Each job with its number, or 0; then two changes at once, of which the first number is given.
pub fn limits() -> Vec<(u32, Job)> {
    let of_scores = [&GRID[..], &SCORES, &LENGTHS, &CHOICES, &WEIGHTS].concat();
    let changed = |base: &Job, (number, change): &Row| {
        let mut job = base.clone();
        change(&mut job);
        (*number, job)
    };
    let (scores, decibels) = (printed(), decibels());
    let mut jobs: Vec<(u32, Job)> = of_scores.iter().map(|row| changed(&scores, row)).collect();
    jobs.extend(DECIBELS.iter().map(|row| changed(&decibels, row)));
    let mut refused: Vec<Row> = of_scores.into_iter().filter(|(n, _)| *n > 0).collect();
    refused.sort_by_key(|(number, _)| *number);
    refused.dedup_by_key(|(number, _)| *number);
    for two in refused.windows(2) {
        let (number, mut job) = changed(&scores, &two[0]);
        two[1].1(&mut job);
        jobs.push((number, job));
    }
    for (number, job) in &mut jobs {
        if *number == 0 {
            job.lend_levels();
        }
    }
    jobs
}

/// R with a sound of -8 dB and a silence of -72 dB.
pub fn decibels() -> Job {
    let mut job = printed();
    let case = &mut job.recording.case;
    case.decibels = true;
    for value in &mut case.values {
        *value = 64.0 * *value - 72.0;
    }
    job.lend_levels();
    job
}

/// R on another grid. Six of its frames cover the greatest length.
fn grid(job: &mut Job, sample_rate: u32, frame_rate: u32, hop: u32, len: u64) {
    let case = &mut job.recording.case;
    (case.sample_rate, case.frame_rate) = (sample_rate, frame_rate);
    (case.hop, case.len) = (hop, len);
    if len >= MOST_SAMPLES {
        case.values.truncate(6);
        case.flags.truncate(6);
    }
}

fn count(job: &mut Job, count: u32) {
    (job.plan.by_count, job.plan.count) = (true, count);
}

fn ratio(job: &mut Job, ratio: f32) {
    (job.plan.placement, job.plan.ratio) = (2, ratio);
}

fn threshold(job: &mut Job, kind: u8, number: f32) {
    let settings = &mut job.recording.settings;
    (settings.kind, settings.threshold) = (kind, number);
}
