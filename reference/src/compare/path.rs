//! The path over lent candidates: the Rust's path, the score of that path added up again, and
//! every lent list as document 01 leaves it.

mod all;
mod raised;
mod refusals;

use super::lists::{List, Work, enough};
use super::{Amount, Subject};
use crate::domain::MOST_CANDIDATES;
use crate::ours;
use crate::path_job::trials::trials;
use crate::path_job::{Job, Score};
use crate::rng::Rng;
use crate::tally::Tally;

/// Entries of each work list for a candidate.
const WORK: usize = 16;

pub fn subjects() -> [Subject; 5] {
    [
        Subject::new("path", path),
        Subject::new("path_large", path_large),
        Subject::new("path_all", all::all),
        Subject::new("path_raised", raised::raised),
        Subject::new("path_refusals", refusals::refusals),
    ]
}

fn path(amount: Amount, rng: &mut Rng, tally: &mut Tally) {
    let trials = trials();
    let mut caller = Caller::new();
    for i in 0..amount.inputs {
        if let Some((job, path, score)) = trials.get(i as usize) {
            assert_eq!(&job.path(), path, "a trial cut of document 01");
            assert_eq!(&job.score(path), score, "a trial cut of document 01");
            ask_accepted(&mut caller, job, rng, tally);
            continue;
        }
        let candidates = match rng.below(4) {
            0 => rng.below(60),
            _ => rng.below(16),
        };
        let job = Job::random(rng, 1 + candidates as usize);
        ask_accepted(&mut caller, &job, rng, tally);
    }
}

/// First as many candidates as are allowed, by length and by count, then some thousands.
fn path_large(amount: Amount, rng: &mut Rng, tally: &mut Tally) {
    let mut caller = Caller::new();
    for i in 0..amount.large(200, 2) {
        let candidates = 1_000 + rng.below(2_000) as usize;
        let mut job = match i {
            0 | 1 => Job::long(rng, MOST_CANDIDATES, i == 1),
            _ => Job::random(rng, candidates),
        };
        // The Rust takes milliseconds for each row.
        let most = if rng.one_in(32) { 300 } else { 16 };
        let rows = if i < 2 { 2 } else { 1 + rng.below(most) as u32 };
        job.count = job.count.min(rows);
        ask_accepted(&mut caller, &job, rng, tally);
    }
}

/// Asks a job that stands, with work and parent lists that are long enough and sometimes too short
/// an output.
fn ask_accepted(caller: &mut Caller, job: &Job, rng: &mut Rng, tally: &mut Tally) {
    let path = job.path();
    let candidates = job.left.len();
    let parent = if job.by_count {
        job.pieces() * candidates
    } else {
        0
    };
    let sizes = Sizes {
        work: enough(rng, WORK * candidates),
        parent: enough(rng, parent)[0],
        path: match rng.below(8) {
            0 => path.len() - 1,
            1..=3 => path.len(),
            _ => path.len() + rng.below(8) as usize,
        },
    };
    let refusal = if sizes.path < path.len() { 12 } else { 0 };
    let fault = caller.ask(job, &sizes, refusal, &path, rng);
    take(tally, job, &sizes, fault);
}

fn take(tally: &mut Tally, job: &Job, sizes: &Sizes, fault: Option<String>) {
    tally.take(fault.is_none(), job.left.len() as u64, || {
        let fault = fault.unwrap_or_default();
        if job.left.len() <= 16 {
            return format!("{job:?}, {sizes:?}: {fault}");
        }
        let mut short = job.clone();
        (short.left, short.right, short.cost) = Default::default();
        let candidates = job.left.len();
        format!("{candidates} candidates, {short:?}, {sizes:?}: {fault}")
    });
}

/// Entries of the lent lists.
#[derive(Debug)]
struct Sizes {
    work: [usize; 3],
    parent: usize,
    path: usize,
}

/// The library's answer: the path with its score, or a refusal.
type Given = Result<(Vec<u32>, Score), u32>;

/// The lent lists, kept from call to call.
struct Caller {
    work: Work,
    parent: List<u32>,
    path: List<u32>,
}

impl Caller {
    fn new() -> Self {
        Self {
            work: Work::new(),
            parent: List::new(),
            path: List::new(),
        }
    }

    /// Calls the port; what it did otherwise than document 01, if anything.
    fn ask(
        &mut self,
        job: &Job,
        sizes: &Sizes,
        refusal: u32,
        path: &[u32],
        rng: &mut Rng,
    ) -> Option<String> {
        self.soil(sizes, rng);
        let before = (rng.word() as u32, any_score(rng));
        let (mut length, mut score) = before;
        let places = ours::path::Answer {
            path: self.path.lend(),
            length: &mut length,
            score: &mut score,
        };
        let given = ours::path::path(job, self.work.lend(), self.parent.lend(), places);
        let (answer, after) = match refusal {
            0 => (path, (path.len() as u32, job.score(path))),
            _ => (&[][..], before),
        };
        if given != refusal {
            Some(format!("ours {given}, expected {refusal}"))
        } else if !self.path.holds(answer) {
            let out = self.path.lend();
            let shown = &out[..out.len().min(answer.len() + 2)];
            Some(format!("at {given}: path {shown:?}, expected {answer:?}"))
        } else if length != after.0 || !score.same(&after.1) {
            let given = (length, score);
            Some(format!("length and score {given:?}, expected {after:?}"))
        } else if !self.left_as_it_should_be(refusal) {
            Some(format!("at {given}: work or parent lists"))
        } else {
            self.ask_again(job, refusal, path)
        }
    }

    /// What the port answers, in lists that earlier work left full.
    fn given(&mut self, job: &Job, sizes: &Sizes, rng: &mut Rng) -> Given {
        self.soil(sizes, rng);
        let (work, parent) = (self.work.lend(), self.parent.lend());
        let found = ours::path::found(job, work, parent, self.path.lend())?;
        let (over, cost) = (found.over, found.score_cost);
        Ok((found.path.to_vec(), Score { over, cost }))
    }

    /// Asks once more, for the filled part of the output.
    fn ask_again(&mut self, job: &Job, refusal: u32, path: &[u32]) -> Option<String> {
        let (work, parent) = (self.work.lend(), self.parent.lend());
        let given = ours::path::found(job, work, parent, self.path.lend());
        let given = given.map(|p| (p.path, p.over, p.score_cost.to_bits()));
        let expected = match refusal {
            0 => Ok((path, job.score(path))),
            _ => Err(refusal),
        };
        let expected = expected.map(|(path, score)| (path, score.over, score.cost.to_bits()));
        (given != expected).then(|| format!("again: ours {given:?}, expected {expected:?}"))
    }

    fn soil(&mut self, sizes: &Sizes, rng: &mut Rng) {
        self.work.soil(sizes.work, rng);
        self.parent.soil(sizes.parent, rng);
        self.path.soil(sizes.path, rng);
    }

    /// Work memory, by the refusal or 0.
    fn left_as_it_should_be(&self, refusal: u32) -> bool {
        match refusal {
            0 | 12 | 14 => self.work.zeroed() && self.parent.zeroed(),
            _ => self.work.untouched() && self.parent.untouched(),
        }
    }
}

fn any_score(rng: &mut Rng) -> Score {
    Score {
        over: rng.word() as u32,
        cost: f64::from_bits(rng.word()),
    }
}
