//! Recordings with settings for their silences and their plan, the Rust's candidates and its plan.

mod make;
pub mod places;
pub mod planned;
mod shapes;
pub mod trials;

use std::num::NonZeroUsize;
use std::time::Duration;

use silence_split::analyze::Analysis;
use silence_split::candidates::{Shown, hook_smoothed};
use silence_split::errors::ConfigError;
use silence_split::plan::{self, CutReason, Gap, Placement, PlanConfig, hook_found};
use silence_split::segment::SegmentConfig;

use crate::silence_job;

/// Durations in nanoseconds.
#[derive(Clone, Copy, Debug)]
pub struct Settings {
    pub min: u64,
    pub target: u64,
    pub max: u64,
    pub by_count: bool,
    /// Not read by length.
    pub count: u32,
    pub drop_gaps: bool,
    /// 0 quietest, 1 center, 2 ratio; refused otherwise.
    pub placement: u8,
    /// Read by placement 2 alone.
    pub ratio: f32,
    pub weights: Weights,
}

#[derive(Clone, Copy, Debug)]
pub struct Weights {
    pub cut: f64,
    pub level: f64,
    pub pause: f64,
    pub pause_ref: u64,
    pub target: f64,
    pub short: f64,
}

impl Weights {
    /// The Rust's defaults.
    fn usual() -> Self {
        Self {
            cut: 0.1,
            level: 1.0,
            pause: 1.0,
            pause_ref: 500_000_000,
            target: 1.0,
            short: 4.0,
        }
    }

    fn config(&self) -> plan::Weights {
        let mut weights = plan::Weights::default();
        weights.cut = self.cut;
        weights.level = self.level;
        weights.pause = self.pause;
        weights.pause_ref = Duration::from_nanos(self.pause_ref);
        weights.target = self.target;
        weights.short = self.short;
        weights
    }
}

impl Settings {
    /// What document 01 takes where a job says nothing.
    pub fn usual() -> Self {
        Self {
            min: 5_000_000_000,
            target: 15_000_000_000,
            max: 30_000_000_000,
            by_count: false,
            count: 0,
            drop_gaps: false,
            placement: 0,
            ratio: 0.0,
            weights: Weights::usual(),
        }
    }

    /// Through the Rust's own builders, or the first refusal of theirs.
    pub fn config(&self) -> Result<PlanConfig, ConfigError> {
        let [min, target, max] = [self.min, self.target, self.max].map(Duration::from_nanos);
        let placement = match self.placement {
            0 => Placement::Quietest,
            1 => Placement::Center,
            2 => Placement::Ratio(self.ratio),
            // An unknown kind is refused as a ratio outside.
            _ => Placement::Ratio(f32::NAN),
        };
        let gap = if self.drop_gaps { Gap::Drop } else { Gap::Keep };
        let mut config = PlanConfig::new(min, target, max)?
            .gap(gap)
            .placement(placement)?
            .weights(self.weights.config())?;
        let count = NonZeroUsize::new(self.count as usize);
        if let Some(count) = count.filter(|_| self.by_count) {
            config = config.count(count);
        }
        Ok(config)
    }

    /// The first error of the Rust's builders as document 01 numbers it, or 0.
    pub fn refusal(&self) -> u32 {
        match self.config() {
            Ok(_) => 0,
            Err(ConfigError::InvalidLengths) => 7,
            Err(ConfigError::InvalidRatio) => 9,
            Err(ConfigError::InvalidWeights) => 10,
            Err(other) => panic!("{other:?} is no answer of these builders"),
        }
    }
}

#[derive(Clone, Debug)]
pub struct Job {
    pub recording: silence_job::Job,
    pub plan: Settings,
}

/// The Rust's answer, as the port gives it.
#[derive(Debug, Default)]
pub struct Found {
    /// The first frame of each silence and the frame after its last.
    pub silences: Vec<u32>,
    /// Left boundary, right boundary and reason of each candidate.
    pub ends: Vec<u32>,
    pub costs: Vec<f64>,
}

impl Job {
    /// Lends a decibel recording the levels that the Rust smooths for itself.
    pub fn lend_levels(&mut self) {
        let case = &mut self.recording.case;
        if case.decibels {
            case.levels = hook_smoothed(&case.analysis().expect("made to be accepted"));
        }
    }

    /// The recording and the settings as the Rust takes them.
    fn rust(&self) -> (Analysis, SegmentConfig, PlanConfig) {
        (
            self.recording.case.analysis().expect("made to be accepted"),
            self.recording.settings.config(),
            self.plan.config().expect("made to be accepted"),
        )
    }

    /// The Rust's silences and candidates.
    pub fn found(&self) -> Found {
        let (analysis, segment, config) = self.rust();
        let found = hook_found(&analysis, &segment, &config);
        let candidates = &found.candidates;
        let ends = candidates.first().zip(candidates.last());
        assert_eq!(
            ends.map(|(first, last)| (first.left, last.right)),
            found.ends,
            "the first and the last candidate are the ends of the span"
        );
        let runs = found.silences.iter().flat_map(|run| [run.start, run.end]);
        Found {
            silences: runs.map(|frame| frame as u32).collect(),
            ends: candidates.iter().flat_map(row).collect(),
            costs: candidates.iter().map(|c| c.cost).collect(),
        }
    }
}

fn row(c: &Shown) -> [u32; 3] {
    [c.left as u32, c.right as u32, reason(c.reason)]
}

/// A reason's number.
fn reason(reason: CutReason) -> u32 {
    match reason {
        CutReason::Silence => 0,
        CutReason::Quiet => 1,
        CutReason::Forced => 2,
        other => panic!("{other:?} is no reason of document 01"),
    }
}
