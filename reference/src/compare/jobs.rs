//! Jobs of the program `cutplan`: the listing byte for byte, and nothing behind it touched.

mod make;
mod occurrences;

use std::fmt::Write;

use super::lists::List;
use super::{Amount, FULL, Subject};
use crate::job_bytes::fixed;
use crate::job_bytes::outcome::Outcome;
use crate::job_bytes::read::read;
use crate::ours;
use crate::ours::jobs::LISTING;
use crate::rng::Rng;
use crate::tally::Tally;

/// Bytes of a job that are shown.
const SHOWN: usize = 400;

pub fn subjects() -> [Subject; 1] {
    [Subject::new("jobs", jobs)]
}

fn jobs(amount: Amount, rng: &mut Rng, tally: &mut Tally) {
    fixed::check();
    let fixed = fixed::jobs();
    let mut listing = List::new();
    for i in 0..amount.inputs {
        let job = fixed.get(i as usize).cloned();
        let job = job.unwrap_or_else(|| make::any(rng, i));
        ask(&mut listing, &job, rng, tally);
    }
    let never = tally.never();
    assert!(amount.inputs < FULL || never.is_empty(), "never: {never:?}");
}

/// Asks a job with a listing that is often just long enough, and sometimes too short.
fn ask(listing: &mut List<u8>, job: &[u8], rng: &mut Rng, tally: &mut Tally) {
    let read = read(job);
    let outcome = Outcome::of(read.as_ref());
    let len = match rng.below(32) {
        0 => rng.choose(&[0, 11, LISTING - 1]),
        1..=20 => LISTING,
        _ => LISTING + rng.below(40) as usize,
    };
    let whole = outcome.listing();
    let expected = if len < LISTING {
        Err(12)
    } else {
        Ok(&whole[..])
    };
    occurrences::count(tally, job, read.as_ref().ok(), &outcome, len);
    listing.soil(len, rng);
    let given = ours::jobs::listing(job, listing.lend()).map(<[u8]>::to_vec);
    let equal = given.as_deref() == expected.as_deref() && listing.holds(expected.unwrap_or(&[]));
    tally.take(equal, job.len() as u64, || {
        let ours = given.as_deref().map(String::from_utf8_lossy);
        let expected = expected.map(String::from_utf8_lossy);
        let job = show(job);
        format!("{job}, {len} bytes lent: ours {ours:?}, expected {expected:?}")
    });
}

fn show(job: &[u8]) -> String {
    let mut text = format!("{} bytes ", job.len());
    for byte in job.iter().take(SHOWN) {
        write!(text, "{byte:02x}").expect("a string takes every byte");
    }
    text
}
