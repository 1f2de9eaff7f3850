//! The jobs of the program `cutplan`. A record, both lengths little-endian:
//!
//! | Field | Type |
//! |---|---|
//! | bytes of the job j, at most 8,193 | u16 |
//! | the job | j × u8 |
//! | bytes of the listing l, at most 4,096 | u16 |
//! | the listing, with a line feed after each of its lines | l × u8 |
//!
//! The first sixteen are document 01's trial cuts, with document 02's empty job, the second, its
//! short pieces, the five that follow, and its rates among them. Then come jobs on either side of each limit, one for each refusal number among
//! them and 14 for either path; then one for each damage: every job of one byte, R's job cut short at
//! each byte behind its first, each unknown bit and kind, a byte after the end, 511 and 512 frames,
//! 8,192 and 8,193 bytes. The rest is random, by length and by count.
//! Spoiled are, of the first, a digit of a piece, its flags, a digit of a cut, its reason, a count;
//! a leading zero, a line feed less in the middle and at the end, a line less, nothing at all, and a
//! refusal; of others the number of a refusal and a plan in its place; the empty job as one that is
//! refused, and a job of one byte as an empty one; a tail that is flagged short, and a piece alone
//! that is not.

use super::Bytes;
use crate::job_bytes::make::{accepted, write};
use crate::job_bytes::trials::{EMPTY_LISTING, PRINTED_LISTING, TAILS};
use crate::job_bytes::{MOST_BYTES, expected, fixed, trials};
use crate::rng::Rng;

/// Frames of a random job.
const MOST_FRAMES: u64 = 16;
/// Bytes of a stored listing.
const MOST_LISTING: usize = 4_096;

pub fn record(bytes: &mut Bytes, rng: &mut Rng, i: u64) {
    if i == 0 {
        fixed::check();
    }
    let job = fixed::stored().into_iter().nth(i as usize);
    let job = job.unwrap_or_else(|| {
        // Most of very few frames.
        let most = rng.choose(&[3, 6, 9, MOST_FRAMES]);
        let frames = rng.below(most + 1);
        let job = accepted(rng, frames);
        write(rng, &job).bytes
    });
    put(bytes, &job, &expected(&job));
}

pub fn spoiled(bytes: &mut Bytes) {
    let trials: Vec<Vec<u8>> = trials::trials().into_iter().map(|(job, _)| job).collect();
    let listing = PRINTED_LISTING;
    let others = [
        ("piece 0 400 -", "piece 0 401 -"),
        ("piece 0 400 -", "piece 0 400 s"),
        ("cut 400 400", "cut 400 300"),
        ("silence", "quiet"),
        ("plan 2 1", "plan 2 2"),
        ("piece 400 700", "piece 0400 700"),
        ("-\ncut", "-cut"),
        ("silence\n", "silence"),
        ("cut 400 400 silence\n", ""),
        (listing, ""),
        (listing, "refused 19\n"),
    ];
    for (said, other) in others {
        put(
            bytes,
            &trials[0],
            listing.replacen(said, other, 1).as_bytes(),
        );
    }
    let refused = trials.last().expect("the last trial is refused by 1");
    put(bytes, refused, b"refused 2\n");
    put(bytes, refused, listing.as_bytes());
    put(bytes, &[], b"refused 19\n");
    put(bytes, &[0], EMPTY_LISTING.as_bytes());
    let [tail, .., alone] = TAILS;
    put(bytes, &trials[2], tail.replace("2 3 -", "2 3 s").as_bytes());
    put(bytes, &trials[6], alone.replace(" s", " -").as_bytes());
}

fn put(bytes: &mut Bytes, job: &[u8], listing: &[u8]) {
    for (list, most) in [(job, MOST_BYTES + 1), (listing, MOST_LISTING)] {
        assert!(list.len() <= most, "{} bytes in a record", list.len());
        bytes.u16(list.len() as u16);
        bytes.0.extend(list);
    }
}
