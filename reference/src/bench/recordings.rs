//! The recordings of the benchmark: frame values by their kind, on a grid of 100 frames a second.

use crate::case::Case;
use crate::recording::Recording;
use crate::rng::Rng;

/// Frame values by their kind.
pub type Make = fn(&mut Rng, &mut Case);

pub fn case(frames: u64, make: Make) -> Case {
    let mut grid = Recording {
        sample_rate: 44_100,
        frame_rate: 16_000,
        hop: 160,
        frames,
        len: 0,
    };
    grid.len = grid.start(frames) as u64;
    let mut case = Case::silent_scores(&grid);
    make(&mut Rng::new(1), &mut case);
    case
}

/// Scores of words and pauses: a stretch of either, a little noise on both.
pub fn speech(rng: &mut Rng, case: &mut Case) {
    let mut loud = false;
    for value in &mut case.values {
        if rng.one_in(40) {
            loud = !loud;
        }
        let noise = rng.below(1 << 16) as f32 / (1 << 16) as f32;
        *value = if loud { 0.55 } else { 0.05 } + 0.4 * noise;
    }
}

/// The same in decibels, with stretches of no signal.
pub fn decibels(rng: &mut Rng, case: &mut Case) {
    speech(rng, case);
    case.decibels = true;
    for value in &mut case.values {
        *value = 60.0 * *value - 70.0;
    }
    case.levels = case.values.iter().map(|v| f64::from(*v)).collect();
    let mut flag = 0;
    for f in &mut case.flags {
        if rng.one_in(50) {
            flag = u8::from(rng.one_in(8));
        }
        *f = flag;
    }
}

pub fn noise(rng: &mut Rng, case: &mut Case) {
    for value in &mut case.values {
        *value = rng.below(1 << 24) as f32 / (1 << 24) as f32;
    }
}

pub fn alternating(_: &mut Rng, case: &mut Case) {
    for (i, value) in case.values.iter_mut().enumerate() {
        *value = (i % 2) as f32;
    }
}
