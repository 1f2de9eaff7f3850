//! The listing: what the program prints, every line with a line feed after it.

use std::fmt::Write;

use crate::plan_job::planned::Planned;

/// By the number of a piece's flags.
const FLAGS: [&str; 4] = ["-", "s", "l", "sl"];
/// By the number of a cut's reason.
const REASONS: [&str; 3] = ["silence", "quiet", "forced"];

/// Writing to a string cannot fail.
const NEVER: &str = "a string takes every line";

pub fn of_plan(planned: &Planned) -> Vec<u8> {
    let (pieces, cuts) = (planned.pieces.chunks(3), planned.cuts.chunks(3));
    let mut text = format!("plan {} {}\n", pieces.len(), cuts.len());
    for piece in pieces {
        let flags = FLAGS[piece[2] as usize];
        writeln!(text, "piece {} {} {flags}", piece[0], piece[1]).expect(NEVER);
    }
    for cut in cuts {
        let reason = REASONS[cut[2] as usize];
        writeln!(text, "cut {} {} {reason}", cut[0], cut[1]).expect(NEVER);
    }
    text.into_bytes()
}

pub fn of_refusal(number: u32) -> Vec<u8> {
    format!("refused {number}\n").into_bytes()
}
