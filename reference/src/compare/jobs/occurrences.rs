//! What the compared jobs were, so that a run shows which ways it took.

use crate::job_bytes::outcome::Outcome;
use crate::job_bytes::read::Damage;
use crate::ours::jobs::LISTING;
use crate::plan_job::Job;
use crate::plan_job::planned::Planned;
use crate::tally::Tally;

/// The refusals for what recording and settings are.
const REFUSED: [(u32, &str); 10] = [
    (1, "refused 1"),
    (2, "refused 2"),
    (3, "refused 3"),
    (5, "refused 5"),
    (6, "refused 6"),
    (7, "refused 7"),
    (8, "refused 8"),
    (9, "refused 9"),
    (10, "refused 10"),
    (11, "refused 11"),
];

const UNREAD: [(Damage, &str); 6] = [
    (Damage::TooManyBytes, "19, over 8,192 bytes"),
    (Damage::UnknownBit, "19, an unknown bit"),
    (Damage::UnknownKind, "19, an unknown kind"),
    (Damage::TooManyFrames, "19, over 511 frames"),
    (Damage::CutShort, "19, cut short"),
    (Damage::BytesAfter, "19, followed by bytes"),
];

/// Counts a job of these bytes, which says this where it can be read, with a listing so long.
pub fn count(tally: &mut Tally, bytes: &[u8], job: Option<&Job>, outcome: &Outcome, lent: usize) {
    tally.occurs("an empty job", bytes.is_empty());
    tally.occurs("a job of one byte", bytes.len() == 1);
    tally.occurs("too short a listing", lent < LISTING);
    tally.occurs("a NaN", job.is_some_and(has_nan));
    for (number, what) in REFUSED {
        let so = matches!(outcome, Outcome::Refused(n) if *n == number);
        tally.occurs(what, so);
    }
    tally.occurs(
        "14 for the first path",
        matches!(outcome, Outcome::FirstPath),
    );
    tally.occurs(
        "14 for the second path",
        matches!(outcome, Outcome::SecondPath),
    );
    for (damage, what) in UNREAD {
        tally.occurs(what, matches!(outcome, Outcome::Unread(d) if *d == damage));
    }
    let planned = match outcome {
        Outcome::Planned(planned) => job.zip(Some(planned)),
        _ => None,
    };
    inputs(tally, bytes, planned.map(|(job, _)| job));
    answers(tally, planned.map(|(_, planned)| planned));
}

fn has_nan(job: &Job) -> bool {
    let (case, w) = (&job.recording.case, &job.plan.weights);
    let numbers = [job.plan.ratio, job.recording.settings.threshold];
    let weights = [w.cut, w.level, w.pause, w.target, w.short];
    let mut single = case.values.iter().chain(&numbers);
    let mut double = case.levels.iter().chain(&weights);
    single.any(|x| x.is_nan()) || double.any(|x| x.is_nan())
}

/// What an accepted job says.
fn inputs(tally: &mut Tally, bytes: &[u8], accepted: Option<&Job>) {
    let is = |so: &dyn Fn(&Job) -> bool| accepted.is_some_and(so);
    tally.occurs("planned by length", is(&|job| !job.plan.by_count));
    tally.occurs("planned by count", is(&|job| job.plan.by_count));
    tally.occurs("scores", is(&|job| !job.recording.case.decibels));
    tally.occurs("decibels", is(&|job| job.recording.case.decibels));
    tally.occurs("gaps kept", is(&|job| !job.plan.drop_gaps));
    tally.occurs("gaps dropped", is(&|job| job.plan.drop_gaps));
    for (kind, what) in ["quietest", "center", "ratio"].into_iter().enumerate() {
        tally.occurs(what, is(&|job| usize::from(job.plan.placement) == kind));
    }
    for (kind, what) in ["automatic", "absolute", "below the reference"]
        .into_iter()
        .enumerate()
    {
        tally.occurs(
            what,
            is(&|job| usize::from(job.recording.settings.kind) == kind),
        );
    }
    tally.occurs(
        "511 frames",
        is(&|job| job.recording.case.values.len() == 511),
    );
    // The empty job has no map.
    let map = |so: &dyn Fn(&[u8]) -> bool| accepted.is_some() && bytes.get(..2).is_some_and(so);
    tally.occurs("every field", map(&|map| map == [0xff, 0x0f]));
    tally.occurs("no field", map(&|map| map == [0, 0]));
}

fn answers(tally: &mut Tally, planned: Option<&Planned>) {
    let is = |so: &dyn Fn(&Planned) -> bool| planned.is_some_and(so);
    tally.occurs("an empty plan", is(&|p| p.pieces.is_empty()));
    // No piece has both: its length would be below the minimum and above the maximum.
    for (flags, what) in [(1, "a short piece"), (2, "a long piece")] {
        let so = is(&|p| p.pieces.chunks(3).any(|piece| piece[2] == flags));
        tally.occurs(what, so);
    }
    tally.occurs("a tail that lost its flag", is(&|p| p.unflagged));
    let alone = is(&|p| p.pieces.len() == 3 && p.pieces[2] == 1);
    tally.occurs("a plan of one short piece", alone);
    for (reason, what) in ["a cut in silence", "a quiet cut", "a forced cut"]
        .into_iter()
        .enumerate()
    {
        let so = is(&|p| p.cuts.chunks(3).any(|cut| cut[2] == reason as u64));
        tally.occurs(what, so);
    }
    let so = is(&|p| p.cuts.chunks(3).any(|cut| cut[0] < cut[1]));
    tally.occurs("a cut that drops a gap", so);
}
