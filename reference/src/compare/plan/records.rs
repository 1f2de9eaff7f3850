//! Piece and cut records: the Rust's own, but that a tail is not short, from the numbers that a plan
//! is given by.

use std::fmt::Debug;

use super::small;
use crate::compare::Amount;
use crate::ours::plan::{Cut, Piece, Refusal, cut_records, piece_records};
use crate::plan_job::planned::{Planned, cut_reason, unflag_tail};
use crate::rng::Rng;
use crate::tally::Tally;

/// What stands in the lists before a call, and in no plan.
const PIECE: Piece = Piece {
    start: 9,
    end: 3,
    too_short: true,
    too_long: true,
};
const CUT: Cut = Cut {
    previous_end: 9,
    next_start: 3,
    reason: 77,
};

pub fn records(amount: Amount, rng: &mut Rng, tally: &mut Tally) {
    for _ in 0..amount.inputs {
        let job = small(rng);
        let mut plan = job.rust_plan();
        tally.occurs("a tail that lost its flag", unflag_tail(&mut plan));
        let pieces = plan.pieces.iter().map(|p| Piece {
            start: p.start,
            end: p.end,
            too_short: p.too_short,
            too_long: p.too_long,
        });
        let cuts = plan.cuts.iter().map(|c| Cut {
            previous_end: c.previous_end,
            next_start: c.next_start,
            reason: cut_reason(c),
        });
        let (pieces, cuts): (Vec<Piece>, Vec<Cut>) = (pieces.collect(), cuts.collect());
        let numbers = Planned::from(plan);
        let fault = fault(rng, tally, numbers.pieces, &pieces, PIECE, piece_records);
        let fault = fault.or_else(|| fault_of_cuts(rng, tally, numbers.cuts, &cuts));
        let case = &job.recording.case;
        tally.take(fault.is_none(), case.weight(), || {
            let fault = fault.unwrap_or_default();
            format!("{}, {:?}: {fault}", case.show(), job.plan)
        });
    }
}

fn fault_of_cuts(
    rng: &mut Rng,
    tally: &mut Tally,
    numbers: Vec<u64>,
    cuts: &[Cut],
) -> Option<String> {
    fault(rng, tally, numbers, cuts, CUT, cut_records)
}

/// Asks for the records of these numbers, with a rest of one or two at their end now and then, into
/// a list that is one too short, just long enough or longer.
fn fault<T: Copy + Debug + PartialEq>(
    rng: &mut Rng,
    tally: &mut Tally,
    mut numbers: Vec<u64>,
    wanted: &[T],
    before: T,
    ask: for<'a> fn(&[u64], &'a mut [T]) -> Result<&'a [T], Refusal>,
) -> Option<String> {
    numbers.resize(numbers.len() + rng.below(3) as usize, 5);
    let room = (wanted.len() + rng.below(4) as usize).saturating_sub(1);
    let mut lent = vec![before; room];
    let given = ask(&numbers, &mut lent).map_err(Refusal::number);
    let given = given.map(<[T]>::to_vec);
    let short = room < wanted.len();
    let expected = if short { Err(12) } else { Ok(wanted.to_vec()) };
    tally.occurs("too short a list", short);
    tally.occurs("a list that is just long enough", room == wanted.len());
    let mut left = vec![before; room];
    if !short {
        left[..wanted.len()].copy_from_slice(wanted);
    }
    let same = given == expected && lent == left;
    (!same).then(|| format!("{given:?}, {lent:?}, wanted {expected:?}, {left:?}"))
}
