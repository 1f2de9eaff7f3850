//! Random weights, and the numbers that costs are drawn from too.

use crate::rng::Rng;

/// Weights and costs that add up exactly, so that ties come often.
pub const EVEN: [f64; 5] = [0.0, 0.25, 0.5, 1.0, 4.0];
/// Those at the ends of what is accepted, and those whose sums and products overflow.
pub const EXTREME: [f64; 7] = [
    0.0,
    -0.0,
    f64::from_bits(1),
    f64::MIN_POSITIVE,
    1e300,
    f64::MAX / 2.0,
    f64::MAX,
];

pub fn weight(rng: &mut Rng) -> f64 {
    match rng.below(8) {
        0 => rng.choose(&EXTREME),
        1 | 2 => 10.0 * part(rng),
        _ => rng.choose(&EVEN),
    }
}

/// At least 0 and below 1.
pub fn part(rng: &mut Rng) -> f64 {
    rng.below(1 << 53) as f64 / (1u64 << 53) as f64
}
