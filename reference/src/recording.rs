//! Random frame grids, and recordings on them that the Rust accepts.

use std::ops::RangeInclusive;

use silence_split::analyze::{Analysis, ScoreFrames};
use silence_split::sample::Layout;

use crate::domain::{BAT_RATES, FRAME_RATES, HOPS, MOST_FRAMES, MOST_SAMPLES, SAMPLE_RATES};
use crate::rng::Rng;

/// Rates in common use, beside the random ones; the last three are those of bat recorders.
const USUAL_RATES: [u64; 10] = [
    8_000, 11_025, 16_000, 22_050, 44_100, 48_000, 96_000, 256_000, 384_000, 768_000,
];

/// A sample rate as a C caller can give it; one in eight is any of a bat recorder.
pub fn any_sample_rate(rng: &mut Rng) -> u32 {
    if rng.one_in(8) {
        let (least, most) = (*BAT_RATES.start(), *BAT_RATES.end());
        return (least + rng.below(most - least + 1)) as u32;
    }
    any_rate(rng, &SAMPLE_RATES)
}

/// A frame rate as a C caller can give it.
pub fn any_frame_rate(rng: &mut Rng) -> u32 {
    any_rate(rng, &FRAME_RATES)
}

/// A rate of either kind: mostly inside its limits, often close to one.
fn any_rate(rng: &mut Rng, limits: &RangeInclusive<u64>) -> u32 {
    let most = *limits.end();
    let rate = match rng.below(8) {
        0 => rng.near(&[0, 1, most, u32::MAX.into()], u32::MAX.into()),
        1 | 2 => rng.choose(&USUAL_RATES).min(most),
        _ => rng.magnitude(most),
    };
    rate as u32
}

/// A hop as a C caller can give it.
pub fn any_hop(rng: &mut Rng) -> u32 {
    let hop = match rng.below(8) {
        0 => rng.near(&[0, 1, *HOPS.end(), u32::MAX.into()], u32::MAX.into()),
        _ => rng.magnitude(*HOPS.end()),
    };
    hop as u32
}

pub fn sample_rate(rng: &mut Rng) -> u32 {
    within(any_sample_rate(rng), &SAMPLE_RATES)
}

pub fn frame_rate(rng: &mut Rng) -> u32 {
    within(any_frame_rate(rng), &FRAME_RATES)
}

pub fn hop(rng: &mut Rng) -> u32 {
    within(any_hop(rng), &HOPS)
}

/// A number held to its limits.
fn within(number: u32, limits: &RangeInclusive<u64>) -> u32 {
    u64::from(number).clamp(*limits.start(), *limits.end()) as u32
}

/// A number of frames, a few hundred at most; `large` takes it up to the limit.
pub fn frames(rng: &mut Rng, large: bool) -> u64 {
    match (large, rng.one_in(4)) {
        (true, true) => rng.near(&[MOST_FRAMES], MOST_FRAMES),
        (true, false) => rng.magnitude(MOST_FRAMES),
        (false, _) => rng.magnitude(300),
    }
}

/// The numbers of a recording; the values do not matter to the grid.
#[derive(Clone, Copy)]
pub struct Recording {
    pub sample_rate: u32,
    pub frame_rate: u32,
    pub hop: u32,
    pub frames: u64,
    pub len: u64,
}

impl Recording {
    /// A recording of `frames` frames that is accepted, its length often at an edge of what they
    /// cover. `frames` may be one above the limit: then that alone is wrong with it.
    pub fn accepted(rng: &mut Rng, frames: u64) -> Self {
        Self::grid(rng, frames).covering(rng)
    }

    /// The same on a grid as detectors have it, where a second is many frames.
    pub fn usual(rng: &mut Rng, frames: u64) -> Self {
        let mut made = Self {
            sample_rate: rng.choose(&USUAL_RATES) as u32,
            frame_rate: rng.choose(&[10, 100, 1_000, 16_000]),
            hop: rng.choose(&[1, 10, 160, 512]),
            frames,
            len: 0,
        };
        made.fit();
        made.covering(rng)
    }

    /// With a length that the frames cover, and shorter frames if there is none.
    fn covering(mut self, rng: &mut Rng) -> Self {
        // So many frames of this hop may be too long; shorter frames always fit.
        while self.frames > 0 && self.start(self.frames - 1) >= u128::from(MOST_SAMPLES) {
            self.hop /= 2;
            self.fit();
        }
        self.len = self.covered_len(rng);
        self
    }

    /// A length one below, at or one above the greatest, and frames that cover all three.
    pub fn at_greatest_len(rng: &mut Rng) -> Self {
        let mut made = Self {
            sample_rate: (*SAMPLE_RATES.end() - rng.below(672_000)) as u32,
            frame_rate: 1 + rng.below(8) as u32,
            hop: 1_048_576 - rng.below(524_288) as u32,
            frames: 0,
            len: rng.near(&[MOST_SAMPLES], u64::MAX),
        };
        while made.start(made.frames) + 1 < u128::from(MOST_SAMPLES) {
            made.frames += 1;
        }
        made
    }

    /// A grid whose frames span at least one sample each.
    fn grid(rng: &mut Rng, frames: u64) -> Self {
        let mut made = Self {
            sample_rate: sample_rate(rng),
            frame_rate: frame_rate(rng),
            hop: hop(rng),
            frames,
            len: 0,
        };
        if rng.one_in(16) {
            made.hop = 1;
        }
        made.fit();
        made
    }

    /// Raises the hop to the least that spans a sample, where it is below.
    fn fit(&mut self) {
        self.hop = self.hop.max(self.frame_rate.div_ceil(self.sample_rate));
    }

    fn covered_len(&self, rng: &mut Rng) -> u64 {
        if self.frames == 0 {
            return 0;
        }
        let least = self.start(self.frames - 1) as u64 + 1;
        let most = (self.start(self.frames + 1) as u64 - 1).min(MOST_SAMPLES);
        match rng.below(4) {
            0 => least,
            1 => most,
            _ => least + rng.below(most - least + 1),
        }
    }

    /// Boundary `k` before it is held to the length.
    pub fn start(&self, k: u64) -> u128 {
        let product = u128::from(k) * u128::from(self.hop) * u128::from(self.sample_rate);
        product / u128::from(self.frame_rate)
    }

    pub fn layout(&self) -> Layout {
        Layout {
            sample_rate: self.sample_rate,
            channels: 1,
        }
    }

    pub fn score_frames(&self) -> ScoreFrames {
        ScoreFrames {
            sample_rate: self.frame_rate,
            hop: self.hop,
        }
    }

    /// The Rust's recording, all scores 0, which it must accept.
    pub fn analysis(&self) -> Analysis {
        let scores = vec![0.0; self.frames as usize];
        Analysis::from_scores(self.layout(), self.len, self.score_frames(), scores)
            .expect("made to be accepted")
    }
}

/// A length one below, at or one above an edge of what the frames of `r` cover, or 0.
pub fn edge_len(rng: &mut Rng, r: &Recording) -> u64 {
    let (first, last) = (r.start(r.frames.saturating_sub(1)), r.start(r.frames + 1));
    // An edge above the words of a length is far above the greatest length too.
    let word = |edge: u128| u64::try_from(edge).unwrap_or(u64::MAX);
    match rng.below(16) {
        0 => 0,
        1 => word(r.start(r.frames)),
        _ => rng.near(&[word(first), word(last)], u64::MAX),
    }
}

/// A boundary: around the frame count, inside, or far beyond.
pub fn any_boundary(rng: &mut Rng, frames: u64) -> u64 {
    match rng.below(4) {
        0 => rng.near(&[0, frames, MOST_FRAMES, 1 << 32, u64::MAX], u64::MAX),
        1 => rng.magnitude(u64::MAX),
        _ => rng.below(frames.saturating_add(2)),
    }
}
