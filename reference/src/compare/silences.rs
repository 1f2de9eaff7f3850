//! The silences: the same list as the Rust's, and every lent list as document 01 leaves it.

pub(super) mod refusals;

use super::lists::{List, Work, enough};
use super::{Amount, Subject};
use crate::domain::MOST_FRAMES;
use crate::ours;
use crate::rng::Rng;
use crate::silence_job::Job;
use crate::tally::Tally;

/// Entries of each work list for a frame, and for one frame more.
pub(super) const WORK: usize = 16;

pub fn subjects() -> [Subject; 3] {
    [
        Subject::new("silences", silences),
        Subject::new("silences_large", silences_large),
        Subject::new("silence_refusals", refusals::refusals),
    ]
}

fn silences(amount: Amount, rng: &mut Rng, tally: &mut Tally) {
    let trials = Job::trials();
    let mut caller = Caller::new();
    for i in 0..amount.inputs {
        if let Some((job, silences)) = trials.get(i as usize) {
            assert_eq!(&job.silences(), silences, "a trial cut of document 01");
            ask_accepted(&mut caller, job, rng, tally);
            continue;
        }
        let job = small(rng);
        ask_accepted(&mut caller, &job, rng, tally);
    }
}

fn silences_large(amount: Amount, rng: &mut Rng, tally: &mut Tally) {
    let mut caller = Caller::new();
    for _ in 0..amount.large(10, 1) {
        let job = Job::random(rng, MOST_FRAMES);
        ask_accepted(&mut caller, &job, rng, tally);
    }
}

/// Mostly a few frames, 3,000 at most.
fn small(rng: &mut Rng) -> Job {
    let frames = match rng.below(256) {
        0 => rng.below(3_001),
        1..=15 => rng.below(300),
        16..=79 => rng.magnitude(8),
        _ => rng.below(48),
    };
    let mut job = Job::random(rng, frames);
    vary(&mut job, rng);
    job
}

/// Changes what no answer depends on.
pub(super) fn vary(job: &mut Job, rng: &mut Rng) {
    job.case.channels = rng.choose(&[1, 2, u16::MAX]);
    // An automatic threshold has no number, so none is refused.
    if job.settings.kind == 0 && rng.one_in(2) {
        job.settings.threshold = rng.choose(&[f32::NAN, f32::INFINITY, f32::NEG_INFINITY]);
    }
}

/// Asks a job that stands, with work lists that are long enough and sometimes too short an output.
fn ask_accepted(caller: &mut Caller, job: &Job, rng: &mut Rng, tally: &mut Tally) {
    let silences = job.silences();
    let frames = job.case.values.len();
    let sizes = Sizes {
        work: enough(rng, WORK * (frames + 1)),
        out: match rng.below(8) {
            0 => silences.len().saturating_sub(1),
            1..=3 => silences.len(),
            _ => silences.len() + rng.magnitude(2 * frames as u64 + 2) as usize,
        },
    };
    let refusal = if sizes.out < silences.len() { 12 } else { 0 };
    let fault = caller.ask(job, &sizes, refusal, &silences, rng);
    take(tally, job, &sizes, fault);
}

fn take(tally: &mut Tally, job: &Job, sizes: &Sizes, fault: Option<String>) {
    tally.take(fault.is_none(), job.case.weight(), || {
        let (case, settings) = (job.case.show(), job.settings);
        let fault = fault.unwrap_or_default();
        format!("{case}, {settings:?}, {sizes:?}: {fault}")
    });
}

/// Entries of the lent lists.
#[derive(Debug)]
pub(super) struct Sizes {
    pub work: [usize; 3],
    pub out: usize,
}

/// The lent lists, kept from call to call.
pub(super) struct Caller {
    pub work: Work,
    out: List<u32>,
}

impl Caller {
    pub fn new() -> Self {
        Self {
            work: Work::new(),
            out: List::new(),
        }
    }

    /// Calls the port; what it did otherwise than document 01, if anything.
    pub fn ask(
        &mut self,
        job: &Job,
        sizes: &Sizes,
        refusal: u32,
        silences: &[u32],
        rng: &mut Rng,
    ) -> Option<String> {
        self.work.soil(sizes.work, rng);
        self.out.soil(sizes.out, rng);
        let before = rng.word();
        let mut count = before;
        let (work, out) = (self.work.lend(), self.out.lend());
        let given = ours::silences::list(&job.case.lent(), &job.settings, work, out, &mut count);
        let (answer, counted) = match refusal {
            0 => (silences, silences.len() as u64 / 2),
            _ => (&[][..], before),
        };
        let work = match refusal {
            0 | 12 => self.work.zeroed(),
            _ => self.work.untouched(),
        };
        if given != refusal {
            Some(format!("ours {given}, expected {refusal}"))
        } else if count != counted {
            Some(format!("at {given}: count {count}, expected {counted}"))
        } else if !self.out.holds(answer) {
            let out = self.out.lend();
            let shown = &out[..out.len().min(answer.len() + 2)];
            Some(format!("at {given}: output {shown:?}, expected {answer:?}"))
        } else if !work {
            Some(format!("at {given}: work lists"))
        } else {
            self.ask_again(job, refusal, silences)
        }
    }

    /// Asks once more, for the filled part of the output.
    fn ask_again(&mut self, job: &Job, refusal: u32, silences: &[u32]) -> Option<String> {
        let (work, out) = (self.work.lend(), self.out.lend());
        let given = ours::silences::found(&job.case.lent(), &job.settings, work, out);
        let expected = if refusal == 0 {
            Ok(silences)
        } else {
            Err(refusal)
        };
        (given != expected).then(|| format!("again: ours {given:?}, expected {expected:?}"))
    }
}
