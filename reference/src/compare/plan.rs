//! Whole plans: the Rust's pieces and cuts, and every lent list as document 01 leaves it.

mod divisions;
mod large;
mod occurrences;
mod records;
mod refusals;

use super::lists::{List, Work, enough, first_fault};
use super::silences::{WORK, vary};
use super::{Amount, Subject};
use crate::domain::BAT_RATES;
use crate::ours;
use crate::plan_job::Job;
use crate::plan_job::planned::{Course, Planned};
use crate::plan_job::trials;
use crate::rng::Rng;
use crate::tally::Tally;

pub fn subjects() -> [Subject; 6] {
    [
        Subject::new("plan", plan),
        Subject::new("plan_all", plan_all),
        Subject::new("plan_bats", plan_bats),
        Subject::new("plan_large", large::large),
        Subject::new("plan_refusals", refusals::refusals),
        Subject::new("records", records::records),
    ]
}

fn plan(amount: Amount, rng: &mut Rng, tally: &mut Tally) {
    let trials = first_inputs();
    let mut caller = Caller::new();
    for i in 0..amount.inputs {
        if let Some((job, planned)) = trials.get(i as usize) {
            assert_eq!(&job.planned(), planned, "a trial");
            ask_accepted(&mut caller, job, rng, tally);
            continue;
        }
        let job = small(rng);
        ask_accepted(&mut caller, &job, rng, tally);
    }
}

/// Document 01's trial cuts, a reach of the whole span, short pieces, and the plans that cost more
/// under a longer maximum.
fn first_inputs() -> Vec<(Job, Planned)> {
    let raised = trials::raised();
    for (job, _, score) in &raised {
        assert_eq!(job.score().as_ref(), Some(score), "the score of a plan");
    }
    for pair in raised.chunks(2) {
        assert!(pair[0].2 < pair[1].2, "more under the longer maximum");
    }
    let raised = raised.map(|(job, planned, _)| (job, planned));
    let planned = trials::planned().into_iter().chain([trials::whole()]);
    planned.chain(trials::tails()).chain(raised).collect()
}

/// So few frames that every plan is held against all divisions.
fn plan_all(amount: Amount, rng: &mut Rng, tally: &mut Tally) {
    divisions::try_on_trials();
    let mut caller = Caller::new();
    for _ in 0..amount.inputs {
        let frames = rng.below(divisions::MOST_FRAMES as u64 + 1);
        let job = Job::to_plan(rng, frames);
        ask_accepted(&mut caller, &job, rng, tally);
    }
}

/// Sample rates of bat recorders alone.
fn plan_bats(amount: Amount, rng: &mut Rng, tally: &mut Tally) {
    let mut caller = Caller::new();
    for _ in 0..amount.inputs {
        let mut job = small(rng);
        while !BAT_RATES.contains(&job.recording.case.sample_rate.into()) {
            job = small(rng);
        }
        ask_accepted(&mut caller, &job, rng, tally);
    }
}

/// Mostly up to 35 frames, 600 at most.
fn small(rng: &mut Rng) -> Job {
    let frames = match rng.below(256) {
        0 if rng.one_in(4) => rng.below(600),
        0..=15 => rng.below(100),
        16..=31 => rng.magnitude(8),
        _ => 4 + rng.below(32),
    };
    let mut job = Job::to_plan(rng, frames);
    vary(&mut job.recording, rng);
    job
}

/// Asks a job that stands, with work lists that are long enough. A parent list is often just long
/// enough for a path or one short of it, the output sometimes too short.
fn ask_accepted(caller: &mut Caller, job: &Job, rng: &mut Rng, tally: &mut Tally) {
    let (planned, course) = (job.planned(), job.course());
    let frames = job.recording.case.values.len();
    let sizes = Sizes {
        work: enough(rng, WORK * (frames + 1)),
        parent: parent(rng, job, &course),
        pieces: output(rng, planned.pieces.len()),
        cuts: output(rng, planned.cuts.len()),
    };
    let refusal = sizes.refusal(job, &planned, &course);
    occurrences::count(tally, job, &sizes, refusal, &planned, &course);
    let fault = caller.ask(job, &sizes, refusal, &planned, rng);
    let fault = fault.or_else(|| divisions::reach_fault(&course));
    let fault = fault.or_else(|| divisions::fault(job, &planned, &course));
    take(tally, job, &sizes, fault);
}

/// Entries of the parent list: none are needed by length or for an empty span.
fn parent(rng: &mut Rng, job: &Job, course: &Course) -> usize {
    if !job.plan.by_count || course.found.is_empty() {
        return rng.below(8) as usize;
    }
    let needed = course.parents(job.plan.count);
    let any = rng.choose(&needed);
    let most = needed.into_iter().max().unwrap_or(0);
    match rng.below(8) {
        0 | 1 => any - 1,
        2 => any,
        _ => enough(rng, most)[0],
    }
}

/// Entries of an output list whose answer has so many.
fn output(rng: &mut Rng, answer: usize) -> usize {
    match rng.below(32) {
        0 => answer.saturating_sub(1 + rng.below(3) as usize),
        1..=16 => answer,
        _ => answer + rng.below(8) as usize,
    }
}

fn take(tally: &mut Tally, job: &Job, sizes: &Sizes, fault: Option<String>) {
    let case = &job.recording.case;
    tally.take(fault.is_none(), case.weight(), || {
        let (case, settings, plan) = (case.show(), job.recording.settings, job.plan);
        let fault = fault.unwrap_or_default();
        format!("{case}, {settings:?}, {plan:?}, {sizes:?}: {fault}")
    });
}

/// Entries of the lent lists.
#[derive(Debug)]
struct Sizes {
    work: [usize; 3],
    parent: usize,
    pieces: usize,
    cuts: usize,
}

impl Sizes {
    /// What these lists are refused by, in an accepted job with work lists that are long enough.
    fn refusal(&self, job: &Job, planned: &Planned, course: &Course) -> u32 {
        let needed = course.parents(job.plan.count);
        if job.plan.by_count && needed.iter().any(|n| self.parent < *n) {
            14
        } else if self.pieces < planned.pieces.len() || self.cuts < planned.cuts.len() {
            12
        } else {
            0
        }
    }
}

/// The lent lists, kept from call to call.
struct Caller {
    work: Work,
    parent: List<u32>,
    pieces: List<u64>,
    cuts: List<u64>,
}

impl Caller {
    fn new() -> Self {
        Self {
            work: Work::new(),
            parent: List::new(),
            pieces: List::new(),
            cuts: List::new(),
        }
    }

    /// Calls the port; what it did otherwise than document 01, if anything.
    fn ask(
        &mut self,
        job: &Job,
        sizes: &Sizes,
        refusal: u32,
        planned: &Planned,
        rng: &mut Rng,
    ) -> Option<String> {
        self.soil(sizes, rng);
        let before = rng.word();
        let mut found = before;
        let given = self.call(job, &mut found);
        let (pieces, cuts) = match refusal {
            0 => (&planned.pieces[..], &planned.cuts[..]),
            _ => Default::default(),
        };
        let count = if refusal == 0 {
            pieces.len() as u64 / 3
        } else {
            before
        };
        if given != refusal {
            Some(format!("ours {given}, expected {refusal}"))
        } else if found != count {
            Some(format!("at {given}: {found} pieces, expected {count}"))
        } else if !self.pieces.holds(pieces) {
            let fault = first_fault(self.pieces.lend(), pieces, 3);
            Some(format!("at {given}: piece {fault}"))
        } else if !self.cuts.holds(cuts) {
            let fault = first_fault(self.cuts.lend(), cuts, 3);
            Some(format!("at {given}: cut {fault}"))
        } else if !self.left_as_it_should_be(refusal) {
            Some(format!("at {given}: work or parent lists"))
        } else {
            self.ask_again(job, refusal, planned)
        }
    }

    /// Asks once more, for the filled parts of the outputs.
    fn ask_again(&mut self, job: &Job, refusal: u32, planned: &Planned) -> Option<String> {
        let (case, settings) = (&job.recording.case, &job.recording.settings);
        let (work, parent) = (self.work.lend(), self.parent.lend());
        let (pieces, cuts) = (self.pieces.lend(), self.cuts.lend());
        let (lent, plan) = (case.lent(), &job.plan);
        let given = ours::plan::made(&lent, settings, plan, work, parent, pieces, cuts);
        let given = given.map(|p| (p.pieces, p.cuts));
        let expected = match refusal {
            0 => Ok((&planned.pieces[..], &planned.cuts[..])),
            _ => Err(refusal),
        };
        (given != expected).then(|| format!("again: ours {given:?}, expected {expected:?}"))
    }

    fn soil(&mut self, sizes: &Sizes, rng: &mut Rng) {
        self.work.soil(sizes.work, rng);
        self.parent.soil(sizes.parent, rng);
        self.pieces.soil(sizes.pieces, rng);
        self.cuts.soil(sizes.cuts, rng);
    }

    fn call(&mut self, job: &Job, found: &mut u64) -> u32 {
        let answer = ours::plan::Answer {
            pieces: self.pieces.lend(),
            cuts: self.cuts.lend(),
            found,
        };
        let (case, settings) = (&job.recording.case, &job.recording.settings);
        let (work, parent) = (self.work.lend(), self.parent.lend());
        ours::plan::plan(&case.lent(), settings, &job.plan, work, parent, answer)
    }

    /// Work memory, by the refusal or 0.
    fn left_as_it_should_be(&self, refusal: u32) -> bool {
        match refusal {
            0 | 12 | 14 => self.work.zeroed() && self.parent.zeroed(),
            _ => self.work.untouched() && self.parent.untouched(),
        }
    }
}
