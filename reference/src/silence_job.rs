//! Recordings with settings for their silences, and the Rust's answer.

mod values;

use std::time::Duration;

use silence_split::segment::{SegmentConfig, Threshold, hook_levels, hook_silence_runs};

use crate::case::Case;
use crate::domain::MOST_NANOS;
use crate::recording::Recording;
use crate::rng::Rng;

/// Durations in nanoseconds.
#[derive(Clone, Copy, Debug)]
pub struct Settings {
    /// 0 automatic, 1 absolute, 2 below the reference; refused otherwise.
    pub kind: u8,
    /// Not read where the threshold is automatic.
    pub threshold: f32,
    pub min_silence: u64,
    pub min_sound: u64,
    pub pre: u64,
    pub tail: u64,
}

impl Settings {
    /// The Rust's defaults.
    pub fn usual() -> Self {
        Self {
            kind: 0,
            threshold: 0.0,
            min_silence: 250_000_000,
            min_sound: 100_000_000,
            pre: 100_000_000,
            tail: 200_000_000,
        }
    }

    pub fn config(&self) -> SegmentConfig {
        let threshold = match self.kind {
            0 => Threshold::Auto,
            1 => Threshold::Abs(self.threshold),
            2 => Threshold::BelowRef(self.threshold),
            other => panic!("{other} is no threshold"),
        };
        let [min_silence, min_sound, pre, tail] =
            [self.min_silence, self.min_sound, self.pre, self.tail].map(Duration::from_nanos);
        SegmentConfig::from_settings(threshold, min_silence, min_sound, pre, tail)
    }
}

#[derive(Clone, Debug)]
pub struct Job {
    pub case: Case,
    pub settings: Settings,
}

impl Job {
    /// Document 01's trial cuts and their silences: recording R, and 1 1 0 0 1 1 on its grid.
    pub fn trials() -> [(Self, Vec<u32>); 2] {
        let mut none = Case::trial(600);
        none.values = vec![1.0, 1.0, 0.0, 0.0, 1.0, 1.0];
        none.flags.pop();
        let settings = Settings::usual();
        [(Case::trial(700), vec![2, 5]), (none, Vec::new())]
            .map(|(case, silences)| (Self { case, settings }, silences))
    }

    /// An accepted job of so many frames; its number is finite for every threshold.
    pub fn random(rng: &mut Rng, frames: u64) -> Self {
        let grid = if rng.one_in(4) {
            Recording::accepted(rng, frames)
        } else {
            Recording::usual(rng, frames)
        };
        Self::on(rng, &grid)
    }

    /// The same on this grid.
    pub fn on(rng: &mut Rng, grid: &Recording) -> Self {
        let mut case = Case::silent_scores(grid);
        case.decibels = rng.one_in(2);
        values::fill(&mut case, rng);
        let (kind, few) = (rng.below(3) as u8, rng.one_in(2));
        let settings = Settings {
            kind,
            threshold: values::threshold(rng, &case, kind),
            min_silence: duration(rng, &case, few),
            min_sound: duration(rng, &case, few),
            pre: duration(rng, &case, false),
            tail: duration(rng, &case, false),
        };
        let mut job = Self { case, settings };
        if rng.one_in(2) {
            job.meet_thresholds(rng);
        }
        job
    }

    /// Moves some values to where sound starts, to where it ends, right beside or in between.
    fn meet_thresholds(&mut self, rng: &mut Rng) {
        let analysis = self.case.analysis().expect("made to be accepted");
        let levels = hook_levels(&analysis, &self.settings.config());
        let edges = [levels.on, levels.off, (levels.on + levels.off) / 2.0];
        for value in &mut self.case.values {
            let edge = values::beside(rng, &edges);
            if rng.one_in(3) && values::accepted(edge, self.case.decibels) {
                *value = edge;
            }
        }
    }

    /// The Rust's answer: the first frame of each silence and the frame after its last.
    pub fn silences(&self) -> Vec<u32> {
        let analysis = self.case.analysis().expect("made to be accepted");
        let runs = hook_silence_runs(&analysis, &self.settings.config());
        let ends = runs.into_iter().flat_map(|run| [run.start, run.end]);
        ends.map(|frame| frame as u32).collect()
    }
}

/// A duration within a nanosecond of a whole or a half number of frames: few if there shall be
/// many silences, otherwise also all of them or more than all, or anything.
fn duration(rng: &mut Rng, case: &Case, few: bool) -> u64 {
    let frames = case.values.len() as u64;
    let whole = match rng.below(if few { 8 } else { 16 }) {
        0..=3 => 0,
        4 | 5 => 1,
        6 => 2,
        7 => 3,
        8..=10 => 2 + rng.below(4),
        11 => rng.below(frames + 1),
        12 => frames,
        13 => frames + 1 + rng.magnitude(frames),
        14 => return rng.magnitude(MOST_NANOS),
        _ => return rng.choose(&[0, 1, MOST_NANOS - 1, MOST_NANOS]),
    };
    around(rng, case, whole)
}

/// A duration within half a frame of `whole` frames, within a nanosecond of a half or a whole one.
pub fn around(rng: &mut Rng, case: &Case, whole: u64) -> u64 {
    let halves = (2 * whole + rng.below(3)).saturating_sub(1);
    let nanos = u128::from(halves) * u128::from(case.hop) * 500_000_000;
    let nanos = (nanos / u128::from(case.frame_rate)).min(MOST_NANOS.into());
    rng.near(&[nanos as u64], MOST_NANOS)
}
