//! The trial cuts of document 01 over lent candidates.

use silence_split::dp::Preferences;

use super::{Job, Score};

/// A job with the path and the score that document 01 gives.
pub type Trial = (Job, Vec<u32>, Score);

pub fn trials() -> Vec<Trial> {
    let four = || list(&[0, 100, 200, 300], 0.5);
    let mut dear = four();
    dear.cost = vec![0.0, 2.0, 2.0, 0.0];
    let mut low = by_count(four(), 2);
    low.preferences.max = 50;
    vec![
        trial(four(), &[0, 1, 2, 3], 0, 1.0),
        trial(dear, &[0, 1, 3], 0, 3.0),
        trial(list(&[0, 300, 400], 0.5), &[0, 1, 2], 1, 4.5),
        trial(by_count(four(), 1), &[0, 3], 1, 4.0),
        trial(by_count(four(), 2), &[0, 1, 3], 0, 1.5),
        trial(by_count(four(), 9), &[0, 1, 2, 3], 0, 1.0),
        trial(low, &[0, 2, 3], 2, 1.5),
        trial(list(&[0], 0.0), &[0], 0, 0.0),
    ]
}

/// Document 02's S-12 over five candidates, by length: the path before and after raising the limit
/// from 75 to 100, which has one candidate more and costs less.
pub fn raised_trial() -> (Trial, Trial) {
    let mut before = list(&[0, 25, 75, 125, 150], 0.0);
    before.cost[2] = 2.0;
    before.preferences.max = 75;
    let mut after = before.clone();
    after.preferences.max = 100;
    (
        trial(before, &[0, 2, 4], 0, 2.125),
        trial(after, &[0, 1, 3, 4], 0, 1.125),
    )
}

fn trial(job: Job, path: &[u32], over: u32, cost: f64) -> Trial {
    (job, path.to_vec(), Score { over, cost })
}

fn list(ends: &[u64], inner: f64) -> Job {
    let mut cost = vec![inner; ends.len()];
    cost[0] = 0.0;
    cost[ends.len() - 1] = 0.0;
    Job {
        left: ends.to_vec(),
        right: ends.to_vec(),
        cost,
        preferences: Preferences {
            min: 0.0,
            target: 100.0,
            max: 200,
            target_weight: 1.0,
            short_weight: 0.0,
        },
        by_count: false,
        count: 0,
    }
}

fn by_count(job: Job, count: u32) -> Job {
    Job {
        by_count: true,
        count,
        ..job
    }
}
