//! Which refusals of an operation an input is brought to.

use crate::rng::Rng;

/// One of the numbers, two neighbours in document 01's order, any three, or none. Over the indices
/// `i` of a run every number and every pair of neighbours has its turn.
pub fn aims(order: &[u32], rng: &mut Rng, i: u64) -> Vec<u32> {
    let (at, last) = (i as usize, order.len() - 1);
    match rng.below(8) {
        0 => Vec::new(),
        1..=3 => vec![order[at % order.len()]],
        4..=6 => vec![order[at % last], order[at % last + 1]],
        _ => [(); 3].map(|()| rng.choose(order)).to_vec(),
    }
}
