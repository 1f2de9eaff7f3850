//! The comparison: one file for each part of document 01, one line for each subject.

#[cfg(any(feature = "silences", feature = "path"))]
mod aims;
#[cfg(feature = "candidates")]
mod candidates;
mod grid;
#[cfg(feature = "jobs")]
mod jobs;
#[cfg(any(feature = "silences", feature = "path"))]
mod lists;
#[cfg(feature = "path")]
mod path;
#[cfg(feature = "plan")]
mod plan;
#[cfg(feature = "silences")]
mod silences;
mod validate;

use std::collections::BTreeMap;
use std::iter;
use std::sync::atomic::{AtomicUsize, Ordering};
use std::sync::mpsc;
use std::thread;

use crate::rng::Rng;
use crate::tally::Tally;

/// A run of so many inputs or more is a full one.
const FULL: u64 = 200_000;

/// How much is compared.
#[derive(Clone, Copy)]
pub struct Amount {
    /// Inputs of each subject.
    pub inputs: u64,
    /// Inputs of each subject of large inputs, where a number is asked for.
    pub large: Option<u64>,
}

impl Amount {
    /// How many large inputs: the number asked for, or what suits a full or a short run.
    #[cfg_attr(not(any(feature = "silences", feature = "path")), allow(dead_code))]
    fn large(&self, full: u64, short: u64) -> u64 {
        let usual = if self.inputs >= FULL { full } else { short };
        self.large.unwrap_or(usual)
    }
}

/// What both sides are asked, under the name that its line carries.
struct Subject {
    name: &'static str,
    ask: Box<Ask>,
}

type Ask = dyn Fn(Amount, &mut Rng, &mut Tally) + Sync;

impl Subject {
    fn new(
        name: &'static str,
        ask: impl Fn(Amount, &mut Rng, &mut Tally) + Sync + 'static,
    ) -> Self {
        let ask = Box::new(ask);
        Self { name, ask }
    }

    /// Every subject starts from the seed, so that one more changes no other's inputs.
    fn asked(&self, amount: Amount, seed: u64) -> Tally {
        let mut tally = Tally::new(self.name);
        (self.ask)(amount, &mut Rng::new(seed), &mut tally);
        tally
    }
}

/// Compares the named subjects, or all where none is named; true where nothing differs.
pub fn run(amount: Amount, seed: u64, names: &[String]) -> Result<bool, String> {
    let subjects = subjects();
    for name in names {
        if subjects.iter().all(|s| s.name != name) {
            return Err(format!("{name}: no such subject in this build"));
        }
    }
    println!("seed {seed}");
    let named = |s: &&Subject| names.is_empty() || names.iter().any(|n| n == s.name);
    let chosen: Vec<&Subject> = subjects.iter().filter(named).collect();
    Ok(compare_all(&chosen, amount, seed))
}

/// Compares each subject, as many at a time as there are cores, and reports them in their order;
/// true where nothing differs. A subject that panics fails the run, once the others have ended.
fn compare_all(subjects: &[&Subject], amount: Amount, seed: u64) -> bool {
    let cores = thread::available_parallelism().map_or(1, usize::from);
    let next = AtomicUsize::new(0);
    let (ended, reports) = mpsc::channel();
    thread::scope(|scope| {
        for _ in 0..cores {
            let (next, ended) = (&next, ended.clone());
            scope.spawn(move || {
                let numbers = iter::from_fn(|| Some(next.fetch_add(1, Ordering::Relaxed)));
                for number in numbers.take_while(|n| *n < subjects.len()) {
                    let tally = subjects[number].asked(amount, seed);
                    let report = ended.send((number, tally));
                    report.expect("reports are taken until all have ended");
                }
            });
        }
        drop(ended);
        report_in_order(reports)
    })
}

/// Reports each subject once those before it are reported; true where nothing differs.
fn report_in_order(reports: mpsc::Receiver<(usize, Tally)>) -> bool {
    let (mut equal, mut next, mut early) = (true, 0, BTreeMap::new());
    for (number, tally) in reports {
        early.insert(number, tally);
        while let Some(tally) = early.remove(&next) {
            equal &= tally.report();
            next += 1;
        }
    }
    equal
}

fn subjects() -> Vec<Subject> {
    let mut all: Vec<Subject> = grid::subjects().chain(validate::subjects()).collect();
    #[cfg(feature = "silences")]
    all.extend(silences::subjects());
    #[cfg(feature = "candidates")]
    all.extend(candidates::subjects());
    #[cfg(feature = "path")]
    all.extend(path::subjects());
    #[cfg(feature = "plan")]
    all.extend(plan::subjects());
    #[cfg(feature = "jobs")]
    all.extend(jobs::subjects());
    // From whole jobs down to the grid: the last ones are short, so that no core waits long.
    all.reverse();
    all
}
