//! Frame values, flags and levels for the silences: ties, long runs, values at the limits.

use crate::case::{Case, good_level, good_value};
use crate::rng::Rng;

/// Fills the lists of `case`, whose numbers stand.
pub fn fill(case: &mut Case, rng: &mut Rng) {
    let decibels = case.decibels;
    match rng.below(8) {
        0 => each(case, |_| good_value(rng, decibels)),
        1 => few(case, rng, good_value),
        2 => few(case, rng, step),
        3 => {
            let both = [good_value(rng, decibels), good_value(rng, decibels)];
            each(case, |i| both[i % 2]);
        }
        _ => runs(case, rng),
    }
    if decibels {
        flag(case, rng);
        // The silences do not look at the levels, but they must be one a frame.
        let level = good_level(rng);
        case.levels = vec![level; case.values.len()];
    }
}

/// Up to four values, over and over.
fn few(case: &mut Case, rng: &mut Rng, make: fn(&mut Rng, bool) -> f32) {
    let values: Vec<f32> = (0..=rng.below(4))
        .map(|_| make(rng, case.decibels))
        .collect();
    each(case, |_| rng.choose(&values));
}

fn each(case: &mut Case, mut make: impl FnMut(usize) -> f32) {
    for (i, value) in case.values.iter_mut().enumerate() {
        *value = make(i);
    }
}

/// Values at the very distances that the automatic threshold works with.
fn step(rng: &mut Rng, decibels: bool) -> f32 {
    if decibels {
        -60.0 + rng.choose(&[0.0, 0.0, 1.0, 3.0, 4.0, 6.0, 20.0, 24.0, 26.0, 40.0])
    } else {
        rng.choose(&[0.0, 0.2, 0.35, 0.42, 0.5, 0.6, 1.0])
    }
}

/// Stretches of quiet, of loud and of what lies between the two thresholds.
fn runs(case: &mut Case, rng: &mut Rng) {
    let stay = 1 + rng.below(12);
    let noise = rng.choose(&[0.0, 0.05, 0.3]);
    let bases = if case.decibels {
        [-70.0, -66.5, -25.0]
    } else {
        [0.2, 0.42, 0.6]
    };
    let scale = if case.decibels { 20.0 } else { 1.0 };
    let mut base = bases[0];
    each(case, |_| {
        if rng.one_in(stay) {
            base = rng.choose(&bases);
        }
        base + noise * scale * (part(rng) - 0.5)
    });
}

fn flag(case: &mut Case, rng: &mut Rng) {
    let style = rng.below(6);
    let stay = 1 + rng.below(8);
    let mut flag = 0;
    for f in &mut case.flags {
        if rng.one_in(stay) {
            flag = rng.below(2) as u8;
        }
        *f = match style {
            0 | 1 => 0,
            2 => u8::from(rng.one_in(8)),
            3 => 1,
            _ => flag,
        };
    }
    // A single frame that bears a signal decides both percentiles.
    if style == 3 && rng.one_in(2) && !case.flags.is_empty() {
        let at = rng.below(case.flags.len() as u64) as usize;
        case.flags[at] = 0;
    }
}

/// A threshold's number: one of the values, or below the reference a distance between two, which
/// may be negative; or a limit, or anything.
pub fn threshold(rng: &mut Rng, case: &Case, kind: u8) -> f32 {
    let limits = [0.0, -0.0, 0.35, 0.5, 1.0, f32::MAX, f32::MIN];
    if case.values.is_empty() || rng.one_in(8) {
        return beside(rng, &limits);
    }
    let (a, b) = (rng.choose(&case.values), rng.choose(&case.values));
    let greatest = case.values.iter().copied().fold(a, f32::max);
    let number = match (rng.below(4), kind) {
        (0, _) => good_value(rng, case.decibels),
        (1, 2) => a - b,
        (_, 2) => greatest - a,
        _ => beside(rng, &[a]),
    };
    if number.is_finite() { number } else { a }
}

/// One of `list`, or the float next to it on either side, unless that is infinite.
pub fn beside(rng: &mut Rng, list: &[f32]) -> f32 {
    let at = rng.choose(list);
    let next = match rng.below(4) {
        0 => at.next_up(),
        1 => at.next_down(),
        _ => at,
    };
    if next.is_finite() { next } else { at }
}

pub fn accepted(value: f32, decibels: bool) -> bool {
    value.is_finite() && (decibels || (0.0..=1.0).contains(&value))
}

fn part(rng: &mut Rng) -> f32 {
    rng.below(1 << 24) as f32 / (1 << 24) as f32
}
