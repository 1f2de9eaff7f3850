//! Random candidate lists and preferences: ties, equal positions, dropped gaps, every limit.

use super::Job;
use crate::domain::{LEAST_TARGET, MOST_COUNT, MOST_SAMPLES, MOST_TARGET};
use crate::rng::Rng;
use crate::weight::{EVEN, EXTREME, part, weight};
use silence_split::dp::Preferences;

impl Job {
    /// An accepted job over so many candidates, at least one.
    pub fn random(rng: &mut Rng, candidates: usize) -> Self {
        let (left, right) = positions(rng, candidates);
        let mut job = Self {
            left,
            right,
            cost: costs(rng, candidates),
            preferences: Preferences {
                min: 0.0,
                target: 1.0,
                max: 0,
                target_weight: weight(rng),
                short_weight: weight(rng),
            },
            by_count: rng.one_in(2),
            count: 0,
        };
        job.count = job.any_count(rng);
        job.preferences.max = job.any_limit(rng);
        job.preferences.target = job.any_target(rng);
        job.preferences.min = job.any_min(rng);
        job
    }

    /// As many candidates as a test of the greatest numbers needs, few of them within the limit of
    /// one another; by count two pieces.
    pub fn long(rng: &mut Rng, candidates: usize, by_count: bool) -> Self {
        let mut job = Self::random(rng, 1);
        let steps = (0..candidates).scan(0, |at, _| {
            *at += 1 + rng.below(4);
            Some(*at)
        });
        job.left = steps.collect();
        job.right = job.left.clone();
        job.cost = costs(rng, candidates);
        job.preferences.max = rng.choose(&[1, 10, 100]);
        job.preferences.target = 10.0;
        job.preferences.min = 5.0;
        (job.by_count, job.count) = (by_count, 2);
        job
    }

    /// The length of any piece.
    fn any_len(&self, rng: &mut Rng) -> u64 {
        let i = rng.below(self.left.len() as u64) as usize;
        let last = self.last();
        if i == last {
            return 0;
        }
        let reach = 1 + rng.magnitude((last - i - 1) as u64) as usize;
        self.len(i, i + reach)
    }

    fn any_count(&self, rng: &mut Rng) -> u32 {
        if !self.by_count && rng.one_in(2) {
            return rng.choose(&[0, u32::MAX]);
        }
        let last = self.last() as u64;
        let count = match rng.below(8) {
            0 => 1,
            1 => rng.near(&[1, last, MOST_COUNT], MOST_COUNT),
            2 => rng.magnitude(MOST_COUNT),
            3 => rng.magnitude(last),
            _ => rng.below(last + 1),
        };
        count.max(1) as u32
    }

    /// A limit near the lengths of pieces, or at an end of what is accepted.
    pub fn any_limit(&self, rng: &mut Rng) -> u64 {
        let last = self.last();
        let neighbours = (0..last).map(|i| self.len(i, i + 1));
        match rng.below(16) {
            0 => 0,
            1 => neighbours.min().unwrap_or(0).saturating_sub(1),
            2 => self.left[last] - self.left[0],
            3 => MOST_SAMPLES,
            4 => rng.magnitude(MOST_SAMPLES),
            _ => {
                let len = self.any_len(rng);
                rng.near(&[len, len, 2 * len], MOST_SAMPLES)
            }
        }
    }

    fn any_target(&self, rng: &mut Rng) -> f64 {
        let len = self.any_len(rng) as f64;
        let target = match rng.below(16) {
            0 => LEAST_TARGET,
            1 => MOST_TARGET,
            2 => rng.magnitude(MOST_SAMPLES) as f64 / 3.0,
            3 => LEAST_TARGET * (1u128 << rng.below(101)) as f64,
            4..=9 => len,
            10..=12 => len / 2.0,
            _ => len * 1.1,
        };
        target.clamp(LEAST_TARGET, MOST_TARGET)
    }

    fn any_min(&self, rng: &mut Rng) -> f64 {
        let target = self.preferences.target;
        let min = match rng.below(8) {
            0 => rng.choose(&[0.0, -0.0, f64::from_bits(1), MOST_TARGET]),
            1 | 2 => 0.0,
            3 => target,
            4 => target / 2.0,
            _ => self.any_len(rng) as f64,
        };
        min.min(MOST_TARGET)
    }
}

/// Left and right ends, in order and within the greatest length.
fn positions(rng: &mut Rng, candidates: usize) -> (Vec<u64>, Vec<u64>) {
    let steps = [0, 1, 2, 100, rng.magnitude(1 << 20)];
    let step = rng.choose(&steps);
    let style = rng.below(6);
    let gaps = rng.one_in(3);
    let mut at = match rng.below(8) {
        0 => rng.magnitude(MOST_SAMPLES),
        1 => MOST_SAMPLES.saturating_sub(step * candidates as u64 / 2),
        _ => 0,
    };
    let (mut left, mut right) = (Vec::new(), Vec::new());
    for _ in 0..candidates {
        left.push(at);
        if gaps && rng.one_in(3) {
            at = (at + rng.choose(&[1, step, 3 * step])).min(MOST_SAMPLES);
        }
        right.push(at);
        let to_next = match style {
            0 | 1 => step,
            2 | 3 => step * rng.below(4),
            4 => rng.magnitude(1 << 10),
            _ => rng.magnitude(MOST_SAMPLES / candidates as u64),
        };
        at = (at + to_next).min(MOST_SAMPLES);
    }
    (left, right)
}

fn costs(rng: &mut Rng, candidates: usize) -> Vec<f64> {
    let style = rng.below(8);
    let one = cost(rng);
    let each = |_| match style {
        0 | 1 => one,
        2 | 3 => rng.choose(&EVEN),
        4 => cost(rng),
        5 => rng.choose(&[0.0, 0.0, -0.0, f64::MAX]),
        _ => part(rng),
    };
    (0..candidates).map(each).collect()
}

fn cost(rng: &mut Rng) -> f64 {
    match rng.below(4) {
        0 => rng.choose(&EXTREME),
        1 => part(rng),
        _ => rng.choose(&EVEN),
    }
}
