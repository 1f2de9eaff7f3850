//! The frame grid: every boundary of a recording, and a million conversions.

use std::hint::black_box;
use std::time::Duration;

use super::case;
use crate::domain::{MOST_FRAMES, MOST_NANOS, SAMPLE_RATES};
use crate::ours;
use crate::recording::Recording;
use crate::rng::Rng;

const CONVERSIONS: usize = 1_000_000;

pub fn run() {
    let recording = full_recording();
    boundary(&recording);
    conversions(&recording);
}

/// A recording of as many frames as are allowed, on a grid that does not divide evenly.
pub fn full_recording() -> Recording {
    let mut made = Recording {
        sample_rate: 44_100,
        frame_rate: 16_000,
        hop: 512,
        frames: MOST_FRAMES,
        len: 0,
    };
    made.len = made.start(MOST_FRAMES) as u64;
    made
}

fn boundary(r: &Recording) {
    let analysis = r.analysis();
    case(
        "boundary",
        || {
            for k in 0..=r.frames {
                let at = ours::boundary(r.sample_rate, r.frame_rate, r.hop, r.len, r.frames, k);
                black_box(at);
            }
        },
        || {
            for k in 0..=analysis.hook_frames() {
                black_box(analysis.hook_position(k));
            }
        },
    );
}

fn conversions(r: &Recording) {
    let mut rng = Rng::new(1);
    let nanos: Vec<u64> = (0..CONVERSIONS).map(|_| rng.below(MOST_NANOS)).collect();
    // Each side has its durations in its own form beforehand.
    let durations: Vec<Duration> = nanos.iter().map(|n| Duration::from_nanos(*n)).collect();
    samples(r, ["samples_in", "samples_floor"], &nanos, &durations);
    // Most products with a bat recorder's rate are beyond 64 bits.
    let bats = Recording {
        sample_rate: *SAMPLE_RATES.end() as u32,
        frames: 0,
        len: 0,
        ..*r
    };
    samples(
        &bats,
        ["samples_in_bats", "samples_floor_bats"],
        &nanos,
        &durations,
    );
    let analysis = r.analysis();
    case(
        "frames_in",
        || each(&nanos, |n| ours::frames_in(r.frame_rate, r.hop, n)),
        || each(&durations, |d| analysis.hook_frames_in(d)),
    );
}

fn samples(r: &Recording, names: [&str; 2], nanos: &[u64], durations: &[Duration]) {
    let analysis = r.analysis();
    case(
        names[0],
        || each(nanos, |n| ours::samples_in(r.sample_rate, n)),
        || each(durations, |d| analysis.hook_samples_in(d)),
    );
    case(
        names[1],
        || each(nanos, |n| ours::samples_floor(r.sample_rate, n)),
        || each(durations, |d| analysis.hook_samples_floor(d)),
    );
}

fn each<T: Copy, A>(list: &[T], convert: impl Fn(T) -> A) {
    for x in list {
        black_box(convert(*x));
    }
}
