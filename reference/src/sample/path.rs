//! The path over lent candidates. A record, all its fields little-endian and without padding
//! between them:
//!
//! | Field | Type |
//! |---|---|
//! | candidates n, from 1 to 12 | u32 |
//! | 0 by length, 1 by count | u32 |
//! | count, not read by length | u32 |
//! | candidates on the path p | u32 |
//! | pieces over the limit | u32 |
//! | limit | u64 |
//! | min, target, target weight, short weight | f64 each |
//! | cost of the path | f64 |
//! | left ends | n × u64 |
//! | right ends | n × u64 |
//! | costs | n × f64 |
//! | the path | p × u32 |
//!
//! The path is the Rust's, the score that path's, added up as document 01 says. The first eight
//! are its trial cuts. Every record is accepted. Spoiled are the path, its length, the pieces over
//! the limit and the last bit of the cost, all of the second.

use super::Bytes;
use crate::path_job::trials::trials;
use crate::path_job::{Job, Score};
use crate::rng::Rng;

const MOST_CANDIDATES: u64 = 12;

pub fn record(bytes: &mut Bytes, rng: &mut Rng, i: u64) {
    let job = trials().get(i as usize).map(|(job, _, _)| job.clone());
    let job = job.unwrap_or_else(|| {
        let candidates = 1 + rng.below(MOST_CANDIDATES);
        Job::random(rng, candidates as usize)
    });
    let path = job.path();
    put(bytes, &job, &path, job.score(&path));
}

pub fn spoiled(bytes: &mut Bytes) {
    let (job, path, score) = trials().swap_remove(1);
    for other in [&[0, 2, 3][..], &[0, 3], &[0, 1, 2, 3]] {
        put(bytes, &job, other, score);
    }
    let over = score.over + 1;
    put(bytes, &job, &path, Score { over, ..score });
    let cost = score.cost.next_up();
    put(bytes, &job, &path, Score { cost, ..score });
}

fn put(bytes: &mut Bytes, job: &Job, path: &[u32], score: Score) {
    let p = &job.preferences;
    bytes.u32(job.left.len() as u32);
    bytes.u32(job.by_count.into());
    bytes.u32(job.count);
    bytes.u32(path.len() as u32);
    bytes.u32(score.over);
    bytes.u64(p.max);
    bytes.f64(p.min);
    bytes.f64(p.target);
    bytes.f64(p.target_weight);
    bytes.f64(p.short_weight);
    bytes.f64(score.cost);
    job.left.iter().for_each(|at| bytes.u64(*at));
    job.right.iter().for_each(|at| bytes.u64(*at));
    job.cost.iter().for_each(|c| bytes.f64(*c));
    path.iter().for_each(|i| bytes.u32(*i));
}
