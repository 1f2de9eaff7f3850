//! A recording with all that is lent with it, accepted or not.

use silence_split::analyze::{Analysis, ScoreFrames};
use silence_split::errors::ConfigError;
use silence_split::sample::Layout;

use crate::ours::Lent;
use crate::recording::Recording;
use crate::rng::Rng;

#[derive(Clone, Debug)]
pub struct Case {
    pub sample_rate: u32,
    pub channels: u16,
    pub frame_rate: u32,
    pub hop: u32,
    pub len: u64,
    pub decibels: bool,
    pub values: Vec<f32>,
    pub flags: Vec<u8>,
    pub levels: Vec<f64>,
}

impl Case {
    /// Scores of 0 on the grid of `r`.
    pub fn silent_scores(r: &Recording) -> Self {
        Self {
            sample_rate: r.sample_rate,
            channels: 1,
            frame_rate: r.frame_rate,
            hop: r.hop,
            len: r.len,
            decibels: false,
            values: vec![0.0; r.frames as usize],
            flags: vec![0; r.frames as usize],
            levels: Vec::new(),
        }
    }

    /// Recording R of document 01 with another length.
    pub fn trial(len: u64) -> Self {
        let mut case = Self::silent_scores(&Recording {
            sample_rate: 1_000,
            frame_rate: 10,
            hop: 1,
            frames: 7,
            len,
        });
        case.values = vec![1.0, 1.0, 0.0, 0.0, 0.0, 1.0, 1.0];
        case
    }

    /// An accepted recording of either domain, with limit values among the others.
    pub fn accepted(rng: &mut Rng, frames: u64) -> Self {
        let mut case = Self::silent_scores(&Recording::accepted(rng, frames));
        case.channels = rng.choose(&[1, 2, 6, u16::MAX]);
        case.decibels = rng.one_in(2);
        case.fill(rng);
        case
    }

    /// Values for each frame, and of decibels levels and flags, as the domain accepts them.
    pub fn fill(&mut self, rng: &mut Rng) {
        let decibels = self.decibels;
        for value in &mut self.values {
            *value = good_value(rng, decibels);
        }
        if decibels {
            let frames = self.values.len();
            self.levels = (0..frames).map(|_| good_level(rng)).collect();
            for flag in &mut self.flags {
                *flag = rng.below(2) as u8;
            }
        }
    }

    pub fn lent(&self) -> Lent<'_> {
        Lent {
            sample_rate: self.sample_rate,
            channels: self.channels,
            frame_rate: self.frame_rate,
            hop: self.hop,
            len: self.len,
            decibels: self.decibels,
            values: &self.values,
            flags: &self.flags,
            levels: &self.levels,
        }
    }

    /// The Rust's recording, or its refusal.
    pub fn analysis(&self) -> Result<Analysis, ConfigError> {
        let layout = Layout {
            sample_rate: self.sample_rate,
            channels: self.channels,
        };
        let frames = ScoreFrames {
            sample_rate: self.frame_rate,
            hop: self.hop,
        };
        let values = self.values.clone();
        let marks = self.flags.iter().map(|f| *f != 0).collect();
        if self.decibels {
            Analysis::from_decibels(layout, self.len, frames, values, marks)
        } else {
            Analysis::from_marked_scores(layout, self.len, frames, values, marks)
        }
    }

    /// The Rust's error as document 01 numbers it, or 0.
    pub fn refusal(&self) -> u32 {
        match self.analysis() {
            Ok(_) => 0,
            Err(ConfigError::ZeroSampleRate) => 1,
            Err(ConfigError::ZeroChannels) => 2,
            Err(ConfigError::InvalidScoreFrames) => 3,
            Err(ConfigError::InvalidValue) => 5,
            Err(ConfigError::FrameCountMismatch) => 6,
            Err(other) => panic!("{other:?} is no answer of `validate`"),
        }
    }

    /// How much a reader has to take in: the lists first, then the numbers.
    pub fn weight(&self) -> u64 {
        let lists = self.values.len() + self.flags.len() + self.levels.len();
        let numbers = [self.sample_rate, self.frame_rate, self.hop].map(u64::from);
        let bits = |n: u64| u64::from(64 - n.leading_zeros());
        lists as u64 * 256 + numbers.into_iter().chain([self.len]).map(bits).sum::<u64>()
    }

    pub fn show(&self) -> String {
        if self.values.len() <= 16 {
            return format!("{self:?}");
        }
        let (values, flags, levels) = (self.values.len(), self.flags.len(), self.levels.len());
        let mut short = self.clone();
        (short.values, short.flags, short.levels) = Default::default();
        format!("{short:?} with {values} values, {flags} flags, {levels} levels")
    }
}

/// A value of an accepted recording, often at the edge of what is accepted.
pub fn good_value(rng: &mut Rng, decibels: bool) -> f32 {
    let part = rng.below(1 << 24) as f32 / (1 << 24) as f32;
    match (rng.below(4), decibels) {
        (0, false) => rng.choose(&[0.0, -0.0, 1.0, 1.0 - f32::EPSILON, f32::MIN_POSITIVE]),
        (0, true) => rng.choose(&[0.0, -0.0, f32::MAX, f32::MIN, -f32::from_bits(1)]),
        (_, false) => part,
        (_, true) => -120.0 * part,
    }
}

/// A smoothed level of an accepted recording.
pub fn good_level(rng: &mut Rng) -> f64 {
    match rng.below(4) {
        0 => rng.choose(&[0.0, -0.0, f64::MAX, f64::MIN, f64::from_bits(1)]),
        _ => -120.0 * (rng.below(1 << 32) as f64 / (1u64 << 32) as f64),
    }
}
