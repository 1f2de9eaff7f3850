//! Plans an hour of made-up speech by count, under a maximum below, near and well above length / count, and counts the forced
//! cuts, as examples/by_count.c does. The parent list starts small and is doubled where the call asks for more. Built and
//! run by tools/examples.

#[path = "../include/buchawzer.rs"]
mod buchawzer;

use buchawzer::{Recording, Refusal, Settings, Work};

const FRAMES: usize = 36_000;
const COUNT: u32 = 60;

/// Sentences of 2 to 8 seconds and pauses of 0.3 to 1.2 seconds, as scores, ten a second. The same at every run.
fn made_up() -> Vec<f32> {
    let mut row: u32 = 1;
    let mut below = |most| {
        row = row.wrapping_mul(1_664_525).wrapping_add(1_013_904_223);
        (row >> 16) % most
    };
    let mut scores = Vec::new();
    while scores.len() < FRAMES {
        for _ in 0..20 + below(60) {
            scores.push(0.6 + 0.004 * below(100) as f32);
        }
        for _ in 0..3 + below(10) {
            scores.push(0.001 * below(100) as f32);
        }
    }
    scores.truncate(FRAMES);
    scores
}

/// Plans with as few parents as doubling finds, and gives the plan's pieces, its forced cuts and those parents. A refusal by
/// 14 leaves the outputs as they were, and costs time alone.
fn planned_by_count(
    recording: &Recording,
    settings: &Settings,
) -> Result<(usize, usize, usize), Refusal> {
    let n = buchawzer::work_length(FRAMES);
    let (mut u32s, mut u64s, mut f64s) = (vec![0; n], vec![0; n], vec![0.0; n]);
    // By count a plan has at most so many pieces, three numbers each.
    let (mut pieces, mut cuts) = ([0; 3 * COUNT as usize], [0; 3 * COUNT as usize]);
    let enough = buchawzer::parent_length(FRAMES, COUNT);
    let mut parent = vec![0; enough.min(4_096)];
    let plan = loop {
        let work = Work {
            u32s: &mut u32s,
            u64s: &mut u64s,
            f64s: &mut f64s,
        };
        let (pieces, cuts) = (&mut pieces, &mut cuts);
        match buchawzer::make_plan(recording, settings, work, &mut parent, pieces, cuts) {
            Err(Refusal::PARENT) if parent.len() < enough => {
                parent.resize(enough.min(2 * parent.len()), 0);
            }
            answer => break answer?,
        }
    };
    let reasons = plan.cuts.iter().skip(2).step_by(3);
    let forced = reasons.filter(|reason| **reason == u64::from(buchawzer::REASON_FORCED));
    Ok((plan.pieces.len() / 3, forced.count(), parent.len()))
}

/// Prints what comes of a maximum of so many seconds.
fn print_plan_under(seconds: u64, values: &[f32]) -> Result<(), Refusal> {
    let recording = Recording {
        sample_rate: 16_000,
        channels: 1,
        frame_rate: 10,
        hop: 1,
        len: 3_600 * 16_000,
        decibels: buchawzer::DOMAIN_SCORES,
        values,
        flags: &[0; FRAMES],
        levels: &[],
    };
    let settings = Settings {
        max: seconds * 1_000_000_000,
        by_count: true,
        count: COUNT,
        ..Settings::default()
    };
    let (pieces, forced, parents) = planned_by_count(&recording, &settings)?;
    println!(
        "maximum {seconds} s: {pieces} pieces, {forced} of {} cuts forced; {parents} parents, where {} are always enough",
        pieces.saturating_sub(1),
        buchawzer::parent_length(FRAMES, COUNT)
    );
    Ok(())
}

fn main() -> Result<(), Refusal> {
    let values = made_up();
    print_plan_under(30, &values)?; // the default; length / count is 60 s
    print_plan_under(61, &values)?;
    print_plan_under(65, &values)
}
