//! Random recordings and settings for a plan's candidates: ties, long silences, padding and maxima
//! from nothing to more than the recording, every limit.

use super::{Job, Settings, Weights};
use crate::case::Case;
use crate::domain::{MOST_COUNT, MOST_NANOS};
use crate::recording::Recording;
use crate::rng::Rng;
use crate::silence_job::{self, around};
use crate::weight::{EXTREME, weight};

/// Decibels up to here give a finite power, however many are added up.
const MOST_DECIBELS: f32 = 3_000.0;

/// A recording of so many frames a second at most is smoothed quickly, however long it is.
const MOST_FRAMES_A_SECOND: u32 = 1_000;

impl Job {
    /// An accepted job of so many frames.
    pub fn random(rng: &mut Rng, frames: u64) -> Self {
        let recording = silence_job::Job::random(rng, frames);
        Self::shaped(rng, recording)
    }

    /// The same with a grid on which very many frames do not take long.
    pub fn long(rng: &mut Rng, frames: u64) -> Self {
        let mut grid = Recording::usual(rng, frames);
        while grid.frame_rate / grid.hop > MOST_FRAMES_A_SECOND {
            grid = Recording::usual(rng, frames);
        }
        let recording = silence_job::Job::on(rng, &grid);
        Self::shaped(rng, recording)
    }

    /// Settings for a recording that stands, whose levels stay as they are.
    pub fn with_settings(rng: &mut Rng, recording: silence_job::Job) -> Self {
        let plan = settings(rng, &recording.case);
        Self { recording, plan }
    }

    fn shaped(rng: &mut Rng, mut recording: silence_job::Job) -> Self {
        if rng.one_in(2) {
            stretches(rng, &mut recording);
        }
        if rng.one_in(3) {
            let s = &mut recording.settings;
            (s.pre, s.tail) = (padding(rng, &recording.case), padding(rng, &recording.case));
        }
        let mut job = Self::with_settings(rng, recording);
        job.lend_finite_levels();
        job
    }

    /// Lends the Rust's levels. It smooths what it likes; a level that is not finite is refused
    /// here.
    pub(super) fn lend_finite_levels(&mut self) {
        self.lend_levels();
        let case = &mut self.recording.case;
        if case.levels.iter().any(|level| !level.is_finite()) {
            for value in &mut case.values {
                *value = value.min(MOST_DECIBELS);
            }
            self.lend_levels();
        }
    }
}

/// Stretches of sound and silence that are as likely to be short as long.
fn stretches(rng: &mut Rng, job: &mut silence_job::Job) {
    let most = 1 + rng.magnitude(job.case.values.len() as u64 + 8);
    alternate(rng, job, most, most);
}

/// Stretches of sound and silence up to so many frames each, of one value or a few, and settings
/// that leave them.
pub(super) fn alternate(rng: &mut Rng, job: &mut silence_job::Job, sound: u64, silence: u64) {
    let (case, settings) = (&mut job.case, &mut job.settings);
    let values = 1 + rng.below(3);
    let (mut loud, mut left) = (rng.one_in(2), 0);
    for value in &mut case.values {
        if left == 0 {
            loud = !loud;
            left = 1 + rng.below(if loud { sound } else { silence });
        }
        left -= 1;
        let step = 0.0625 * rng.below(values) as f32;
        let score = if loud { 1.0 - step } else { step };
        *value = if case.decibels {
            64.0 * score - 72.0
        } else {
            score
        };
    }
    settings.kind = rng.choose(&[0, 0, 1, 1, 2]);
    settings.threshold = match (settings.kind, case.decibels) {
        (2, true) => 24.0,
        (_, true) => -40.0,
        _ => 0.5,
    };
    for shortest in [&mut settings.min_silence, &mut settings.min_sound] {
        let whole = rng.below(3);
        *shortest = around(rng, case, whole);
    }
}

/// Padding up to more than half of the recording.
fn padding(rng: &mut Rng, case: &Case) -> u64 {
    let frames = case.values.len() as u64;
    let whole = match rng.below(4) {
        0 => rng.below(frames / 2 + 2),
        1 => rng.below(frames / 8 + 2),
        _ => rng.below(8),
    };
    around(rng, case, whole)
}

fn settings(rng: &mut Rng, case: &Case) -> Settings {
    let max = maximum(rng, case);
    let min = minimum(rng, case, max);
    let least = min.max(1);
    let inside = least + rng.below(max - least + 1);
    let by_count = rng.one_in(2);
    let counts = [1, 2, 1 + rng.magnitude(MOST_COUNT - 1), MOST_COUNT];
    let unread = [0, u32::MAX];
    let placement = rng.below(3) as u8;
    Settings {
        min,
        target: rng.choose(&[least, max, inside]),
        max,
        by_count,
        count: if by_count {
            rng.choose(&counts) as u32
        } else {
            rng.choose(&unread)
        },
        drop_gaps: rng.one_in(2),
        placement,
        ratio: ratio(rng, placement),
        weights: weights(rng, case),
    }
}

/// Often a few frames, which makes blocks of one or two and grid points inside silences.
fn maximum(rng: &mut Rng, case: &Case) -> u64 {
    let frames = case.values.len() as u64;
    let whole = match rng.below(16) {
        0 => 0,
        1..=4 => 1 + rng.below(4),
        5..=8 => 4 + rng.below(12),
        9..=11 => rng.below(frames + 1),
        12 => frames,
        13 => frames + 1 + rng.magnitude(frames),
        14 => 1 + rng.magnitude(8 * frames),
        _ => {
            let any = 1 + rng.magnitude(MOST_NANOS - 1);
            return rng.choose(&[1, 7, 8, any, MOST_NANOS - 1, MOST_NANOS]);
        }
    };
    around(rng, case, whole).max(1)
}

/// Often so close to the maximum that blocks are small beside it and padding is kept.
pub(super) fn minimum(rng: &mut Rng, case: &Case, max: u64) -> u64 {
    match rng.below(8) {
        0 | 1 => 0,
        2 | 3 => max,
        4 | 5 => {
            let whole = 1 + rng.below(3);
            max.saturating_sub(2 * around(rng, case, whole))
        }
        6 => max / 2,
        _ => rng.below(max + 1),
    }
}

fn ratio(rng: &mut Rng, placement: u8) -> f32 {
    let part = rng.below((1 << 24) + 1) as f32 / (1 << 24) as f32;
    let edges = [0.0, -0.0, f32::from_bits(1), 0.5, 1.0f32.next_down(), 1.0];
    let unread = [f32::NAN, -1.0, 2.0, f32::INFINITY];
    match rng.below(4) {
        0 if placement < 2 => rng.choose(&unread),
        0 => rng.choose(&edges),
        1 => part,
        _ => {
            // Right beside the middle between two boundaries, for so many of them.
            let width = 1 + rng.below(24);
            let middle = (1 + 2 * rng.below(width)) as f32 / (2 * width) as f32;
            rng.choose(&[middle, middle.next_up(), middle.next_down()])
        }
    }
}

fn weights(rng: &mut Rng, case: &Case) -> Weights {
    if rng.one_in(4) {
        return Weights::usual();
    }
    // Some whose sums overflow.
    let weight = if rng.one_in(8) { extreme } else { weight };
    let cut = weight(rng);
    let least = rng.choose(&[f64::from_bits(1), f64::MIN_POSITIVE, 0.1]);
    let few = rng.below(8);
    let pause_ref = match rng.below(8) {
        0 => rng.choose(&[1, MOST_NANOS]),
        1 => rng.magnitude(MOST_NANOS),
        2 => 500_000_000,
        _ => around(rng, case, few),
    };
    Weights {
        cut: if cut > 0.0 { cut } else { least },
        level: weight(rng),
        pause: weight(rng),
        pause_ref: pause_ref.max(1),
        target: weight(rng),
        short: weight(rng),
    }
}

fn extreme(rng: &mut Rng) -> f64 {
    rng.choose(&EXTREME)
}
