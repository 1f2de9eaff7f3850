//! Plans document 01's recording R and prints its listing; then tries a refusal, and says in words on standard error what
//! it is about; then prints the listings of a job of 0 bytes, an empty recording, and of one byte, which is no job. Built
//! and run by tools/examples, which also holds README.md to the marked lines.

#[path = "../include/buchawzer.rs"]
mod buchawzer;

use buchawzer::{Cut, Piece, Recording, Refusal, Settings, Work};

/// Prints the plan of R at this sample rate.
fn print_plan_at(sample_rate: u32) -> Result<(), Refusal> {
    // README
    let values = [1.0, 1.0, 0.0, 0.0, 0.0, 1.0, 1.0];
    let recording = Recording {
        sample_rate, channels: 1, frame_rate: 10, hop: 1, len: 700, decibels: buchawzer::DOMAIN_SCORES,
        values: &values, flags: &[0; 7], levels: &[],
    };
    let settings = Settings { min: 100_000_000, target: 300_000_000, max: 400_000_000, ..Settings::default() };
    let n = buchawzer::work_length(values.len());
    let (mut u32s, mut u64s, mut f64s) = (vec![0; n], vec![0; n], vec![0.0; n]);
    let work = Work { u32s: &mut u32s, u64s: &mut u64s, f64s: &mut f64s };
    let (mut pieces, mut cuts) = ([0; 3 * 7], [0; 3 * 7]);
    let plan = buchawzer::make_plan(&recording, &settings, work, &mut [], &mut pieces, &mut cuts)?;
    let (mut pieces, mut cuts) = ([Piece::default(); 7], [Cut::default(); 7]);
    let pieces = buchawzer::piece_records(plan.pieces, &mut pieces)?;
    let cuts = buchawzer::cut_records(plan.cuts, &mut cuts)?;
    // end
    println!("plan {} {}", pieces.len(), cuts.len());
    for piece in pieces {
        let flags = match (piece.too_short, piece.too_long) {
            (false, false) => "-",
            (true, false) => "s",
            (false, true) => "l",
            (true, true) => "sl",
        };
        println!("piece {} {} {flags}", piece.start, piece.end);
    }
    for cut in cuts {
        let reason = ["silence", "quiet", "forced"][usize::from(cut.reason)];
        println!("cut {} {} {reason}", cut.previous_end, cut.next_start);
    }
    Ok(())
}

fn main() -> Result<(), Refusal> {
    print_plan_at(1000)?;
    if let Err(refusal) = print_plan_at(buchawzer::MOST_SAMPLE_RATE + 1) {
        println!("refused {}", refusal.number());
        eprintln!("{refusal}");
    }
    let mut listing = [0; buchawzer::LISTING_BYTES];
    for job in [&[][..], &[0]] {
        let listing = buchawzer::cutplan(job, &mut listing)?;
        print!("{}", String::from_utf8_lossy(listing));
    }
    Ok(())
}
