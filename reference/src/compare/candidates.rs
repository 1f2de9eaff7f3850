//! The candidates: the Rust's span, silences and candidates, costs by their bits, and every lent
//! list as document 01 leaves it.

pub(super) mod refusals;

use super::lists::{List, enough, first_fault};
use super::silences::{self, WORK, vary};
use super::{Amount, Subject};
use crate::domain::MOST_FRAMES;
use crate::ours;
use crate::plan_job::trials::trials;
use crate::plan_job::{Found, Job};
use crate::rng::Rng;
use crate::tally::Tally;

/// The smaller of the large sizes.
const LARGE: u64 = 65_536;

pub fn subjects() -> [Subject; 3] {
    [
        Subject::new("candidates", candidates),
        Subject::new("candidates_large", candidates_large),
        Subject::new("candidates_refusals", refusals::refusals),
    ]
}

fn candidates(amount: Amount, rng: &mut Rng, tally: &mut Tally) {
    let trials = trials();
    let mut caller = Caller::new();
    for i in 0..amount.inputs {
        if let Some((job, k)) = trials.get(i as usize) {
            let found = job.found();
            let cut = [*k, *k, 0];
            assert_eq!(found.silences, [2, 5], "a trial cut of document 01");
            assert!(
                found.ends.chunks(3).any(|row| row == cut),
                "a trial cut of document 01: {found:?}"
            );
            ask_accepted(&mut caller, job, rng, tally);
            continue;
        }
        let job = small(rng);
        ask_accepted(&mut caller, &job, rng, tally);
    }
}

/// The two sizes in turn.
fn candidates_large(amount: Amount, rng: &mut Rng, tally: &mut Tally) {
    let mut caller = Caller::new();
    for i in 0..amount.large(20, 2) {
        let frames = if i % 2 == 0 { LARGE } else { MOST_FRAMES };
        let job = Job::long(rng, frames);
        ask_accepted(&mut caller, &job, rng, tally);
    }
}

/// Mostly up to 60 frames, 2,000 at most.
fn small(rng: &mut Rng) -> Job {
    let frames = match rng.below(256) {
        0 if rng.one_in(4) => rng.below(2_001),
        0..=7 => rng.below(600),
        8..=63 => rng.magnitude(8),
        _ => 1 + rng.below(60),
    };
    let mut job = Job::random(rng, frames);
    vary(&mut job.recording, rng);
    job
}

/// Asks a job that stands, with work lists that are long enough and sometimes too short an output.
fn ask_accepted(caller: &mut Caller, job: &Job, rng: &mut Rng, tally: &mut Tally) {
    let found = job.found();
    let (frames, count) = (job.recording.case.values.len(), found.costs.len());
    let mut sizes = Sizes {
        work: enough(rng, WORK * (frames + 1)),
        ends: 3 * count + rng.magnitude(8) as usize,
        costs: count + rng.magnitude(8) as usize,
    };
    match rng.below(16) {
        0 => sizes.ends = (3 * count).saturating_sub(1 + rng.below(3) as usize),
        1 => sizes.costs = count.saturating_sub(1),
        _ => {}
    }
    let refusal = if sizes.hold(count) { 0 } else { 12 };
    let fault = caller.ask(job, &sizes, refusal, &found, rng);
    let fault = fault.or_else(|| caller.ask_silences(job, &sizes, &found, rng));
    take(tally, job, &sizes, fault);
}

fn take(tally: &mut Tally, job: &Job, sizes: &Sizes, fault: Option<String>) {
    let case = &job.recording.case;
    tally.take(fault.is_none(), case.weight(), || {
        let (case, settings, plan) = (case.show(), job.recording.settings, job.plan);
        let fault = fault.unwrap_or_default();
        format!("{case}, {settings:?}, {plan:?}, {sizes:?}: {fault}")
    });
}

/// Entries of the lent lists.
#[derive(Debug)]
struct Sizes {
    work: [usize; 3],
    ends: usize,
    costs: usize,
}

impl Sizes {
    /// Whether so many candidates have room.
    fn hold(&self, count: usize) -> bool {
        self.ends >= 3 * count && self.costs >= count
    }
}

/// The lent lists, kept from call to call; the work lists serve both operations.
struct Caller {
    silences: silences::Caller,
    ends: List<u32>,
    costs: List<f64>,
}

impl Caller {
    fn new() -> Self {
        Self {
            silences: silences::Caller::new(),
            ends: List::new(),
            costs: List::new(),
        }
    }

    /// Asks the port for the silences alone, which are to be those of the candidates.
    fn ask_silences(
        &mut self,
        job: &Job,
        sizes: &Sizes,
        found: &Found,
        rng: &mut Rng,
    ) -> Option<String> {
        let sizes = silences::Sizes {
            work: sizes.work,
            out: found.silences.len(),
        };
        let fault = self
            .silences
            .ask(&job.recording, &sizes, 0, &found.silences, rng);
        fault.map(|fault| format!("silences: {fault}"))
    }

    /// Calls the port; what it did otherwise than document 01, if anything.
    fn ask(
        &mut self,
        job: &Job,
        sizes: &Sizes,
        refusal: u32,
        found: &Found,
        rng: &mut Rng,
    ) -> Option<String> {
        self.silences.work.soil(sizes.work, rng);
        self.ends.soil(sizes.ends, rng);
        self.costs.soil(sizes.costs, rng);
        let before = rng.word();
        let mut count = before;
        let given = self.call(job, &mut count);
        let (ends, costs, counted) = match refusal {
            0 => (&found.ends[..], &found.costs[..], found.costs.len() as u64),
            _ => (&[][..], &[][..], before),
        };
        let work = match refusal {
            0 | 12 => self.silences.work.zeroed(),
            _ => self.silences.work.untouched(),
        };
        if given != refusal {
            Some(format!("ours {given}, expected {refusal}"))
        } else if count != counted {
            Some(format!("at {given}: count {count}, expected {counted}"))
        } else if !self.ends.holds(ends) {
            let fault = first_fault(self.ends.lend(), ends, 3);
            Some(format!(
                "at {given}: boundaries and reason of candidate {fault}"
            ))
        } else if !self.costs.holds(costs) {
            let fault = first_fault(self.costs.lend(), costs, 1);
            Some(format!("at {given}: cost of candidate {fault}"))
        } else if !work {
            Some(format!("at {given}: work lists"))
        } else {
            self.ask_again(job, refusal, found)
        }
    }

    /// Asks once more, for the filled parts of the outputs.
    fn ask_again(&mut self, job: &Job, refusal: u32, found: &Found) -> Option<String> {
        let (case, settings) = (&job.recording.case, &job.recording.settings);
        let (work, ends, costs) = (
            self.silences.work.lend(),
            self.ends.lend(),
            self.costs.lend(),
        );
        let given = ours::candidates::found(&case.lent(), settings, &job.plan, work, ends, costs);
        let given = given.map(|c| (c.ends, c.costs));
        let expected = match refusal {
            0 => Ok((&found.ends[..], &found.costs[..])),
            _ => Err(refusal),
        };
        (given != expected).then(|| format!("again: ours {given:?}, expected {expected:?}"))
    }

    fn call(&mut self, job: &Job, count: &mut u64) -> u32 {
        let answer = ours::candidates::Answer {
            ends: self.ends.lend(),
            costs: self.costs.lend(),
            found: count,
        };
        let (case, settings) = (&job.recording.case, &job.recording.settings);
        let work = self.silences.work.lend();
        ours::candidates::candidates(&case.lent(), settings, &job.plan, work, answer)
    }
}
