//! Document 02's S-12: the same candidates, costs and preferences, by length or by count, under a
//! limit and under a longer one, asked with lists of the same lengths. Each of the library's two
//! answers is held to the Rust's path, and where both are paths, the score after to the one before.

use super::{Caller, Given, Sizes, WORK, take};
use crate::compare::{Amount, FULL};
use crate::domain::MOST_SAMPLES;
use crate::path_job::trials::raised_trial;
use crate::path_job::{Job, Score};
use crate::rng::Rng;
use crate::tally::Tally;

pub fn raised(amount: Amount, rng: &mut Rng, tally: &mut Tally) {
    try_on_trial();
    let mut caller = Caller::new();
    for _ in 0..amount.inputs {
        let candidates = match rng.below(8) {
            0 => rng.below(60),
            _ => rng.below(12),
        };
        let pair = Pair::random(rng, 1 + candidates as usize);
        ask(&mut caller, &pair, rng, tally);
    }
    let never = tally.never();
    assert!(amount.inputs < FULL || never.is_empty(), "never: {never:?}");
}

/// One job under two limits, the second no shorter.
struct Pair {
    before: Job,
    after: Job,
}

impl Pair {
    fn random(rng: &mut Rng, candidates: usize) -> Self {
        let mut before = Job::random(rng, candidates);
        let mut after = before.clone();
        let (one, other) = (before.preferences.max, before.any_limit(rng));
        before.preferences.max = one.min(other);
        after.preferences.max = match rng.below(32) {
            0 => rng.choose(&[MOST_SAMPLES, MOST_SAMPLES + 1, u64::MAX]),
            _ => one.max(other),
        };
        Self { before, after }
    }

    /// Lists that do for the first call, whose path has so many candidates: the output just so, or
    /// with an entry for each.
    fn sizes(&self, rng: &mut Rng, first: usize) -> Sizes {
        let candidates = self.before.left.len();
        let pieces = if self.before.by_count {
            self.before.pieces()
        } else {
            0
        };
        Sizes {
            work: [WORK * candidates; 3],
            parent: pieces * candidates,
            path: rng.choose(&[first, candidates]),
        }
    }

    /// What the second call must answer: 16 for its limit, 12 where its path has more candidates
    /// than the output has entries, and else the Rust's path.
    fn second(&self, sizes: &Sizes) -> Given {
        if self.after.preferences.max > MOST_SAMPLES {
            return Err(16);
        }
        let (path, score) = solved(&self.after);
        if path.len() > sizes.path {
            return Err(12);
        }
        Ok((path, score))
    }
}

/// Asks for both answers, and then again with every list looked at.
fn ask(caller: &mut Caller, pair: &Pair, rng: &mut Rng, tally: &mut Tally) {
    let first = solved(&pair.before);
    let sizes = pair.sizes(rng, first.0.len());
    let expected = [Ok(first), pair.second(&sizes)];
    let jobs = [&pair.before, &pair.after];
    let given = jobs.map(|job| caller.given(job, &sizes, rng));
    count(tally, pair, &given);
    let mut fault = fault(&given, &expected);
    for (job, answer) in jobs.into_iter().zip(&expected) {
        let (refusal, path) = match answer {
            Ok((path, _)) => (0, &path[..]),
            Err(refusal) => (*refusal, &[][..]),
        };
        fault = fault.or(caller.ask(job, &sizes, refusal, path, rng));
    }
    let limit = pair.after.preferences.max;
    let fault = fault.map(|fault| format!("limit raised to {limit}: {fault}"));
    take(tally, &pair.before, &sizes, fault);
}

/// The Rust's path with its score.
fn solved(job: &Job) -> (Vec<u32>, Score) {
    let path = job.path();
    let score = job.score(&path);
    (path, score)
}

/// What is wrong with the two answers, if anything.
fn fault(given: &[Given; 2], expected: &[Given; 2]) -> Option<String> {
    let same = |(a, b): (&Given, &Given)| match (a, b) {
        (Ok((a, s)), Ok((b, t))) => a == b && s.same(t),
        (a, b) => a == b,
    };
    if !given.iter().zip(expected).all(same) {
        return Some(format!("ours {given:?}, expected {expected:?}"));
    }
    match given {
        [Ok((_, before)), Ok((_, after))] if after <= before => None,
        [Ok(_), Ok(_)] => Some(format!("a worse path: {given:?}")),
        [Ok(_), Err(_)] => None,
        [Err(_), _] => Some(format!("the first call was refused: {given:?}")),
    }
}

/// Counts what the pairs are made for.
fn count(tally: &mut Tally, pair: &Pair, given: &[Given; 2]) {
    let by_count = pair.before.by_count;
    let longer = pair.before.preferences.max < pair.after.preferences.max;
    let (mut lower, mut fewer, mut more, mut other) = (false, false, false, false);
    let both = given.iter().all(Result::is_ok);
    if let [Ok((path, score)), Ok((path_after, score_after))] = given {
        lower = score_after < score;
        fewer = score_after.over < score.over;
        more = path_after.len() > path.len();
        other = score_after == score && path_after != path;
    }
    tally.occurs("a longer limit", longer);
    tally.occurs("both give a path, by length", both && !by_count);
    tally.occurs("both give a path, by count", both && by_count);
    tally.occurs("a lower score, by length", lower && !by_count);
    tally.occurs("a lower score, by count", lower && by_count);
    tally.occurs("fewer over-long pieces", fewer);
    tally.occurs("another path of the same score", other);
    tally.occurs("more candidates, by length", more && !by_count);
    tally.occurs("12 for the longer limit", given[1] == Err(12));
    tally.occurs("16 for the longer limit", given[1] == Err(16));
}

/// What the trial gives, a lower score, and 12 where the output just fits the path before; and that
/// a worse path is noticed.
fn try_on_trial() {
    let (before, after) = raised_trial();
    let pair = Pair {
        before: before.0,
        after: after.0,
    };
    let expected = [Ok((before.1, before.2)), Ok((after.1, after.2))];
    let given = [&pair.before, &pair.after].map(|job| Ok(solved(job)));
    assert_eq!(fault(&given, &expected), None, "a trial");
    let sizes = Sizes {
        work: [0; 3],
        parent: 0,
        path: 3,
    };
    assert_eq!(pair.second(&sizes), Err(12), "a trial");
    let [low, high] = given;
    let worse = [high, low];
    assert!(fault(&worse, &worse).is_some(), "a worse path is noticed");
}
