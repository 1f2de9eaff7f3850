//! Buchawzer for Rust: where a recording is cut, so that its pieces have a wanted length. The declarations of
//! buchawzer.h, and over them safe functions under the same names without the prefix.
//!
//! A program takes this file in by `#[path = "../include/buchawzer.rs"] mod buchawzer;` and links libbuchawzer.a, which
//! `make target/staticlib/libbuchawzer.a` writes: `-L native=target/staticlib -l static=buchawzer`. examples/plan.rs and
//! examples/by_count.rs are whole programs. Nothing here allocates or panics, and nothing is decided that the library
//! does not decide, but that [`cutplan`] says 12 where the declared function answers 0: the caller lends every list, and
//! no two that a call may write overlap.
//!
//! - A call that is refused gives an `Err` with a [`Refusal`]: its number, its name, and README's words for it. The number
//!   is that of the first condition that applies, in the order given for the function. Output lists are as they were.
//! - A call that is not refused, and answers more than `()`, gives the fronts of the output lists, as far as they were
//!   filled. What lies beyond is untouched.
//! - Work lists and the parent list may hold anything before a call. After a refusal by a test of the input (every
//!   number but 12 and 14) they are as they were; after every other end, success too, they are all 0.
//! - Lengths of sound are in samples of one channel, durations in nanoseconds.
//! - [`cutplan`] keeps its lists on the stack, and wants 320 KB of it; the other operations want 64 KB.
//!
//! "Document 01" is the requirements that the desk wrote; docs/TRACE.md goes through them sentence by sentence. buchawzer.h
//! says more of each function.
#![allow(dead_code)]

use core::{error, fmt};

/// What the declared functions answer where a call is not refused.
pub const ACCEPTED: u32 = 0;

/// Why a call was refused: one of document 01's numbers, by the name that it has in buchawzer.h.
///
/// It is shown in the words of README's table of refusals, what it says and then what to do about it. A name may
/// stand in a pattern: `Err(Refusal::PARENT) => ..`.
#[must_use]
#[derive(Clone, Copy, Debug, PartialEq, Eq, Hash)]
pub struct Refusal(u32);

impl Refusal {
    /// The sample rate is outside its limits.
    pub const SAMPLE_RATE: Self = Self(1);
    /// There are no channels.
    pub const CHANNELS: Self = Self(2);
    /// The frame rate or the hop is outside its limits, or a frame is shorter than a sample.
    pub const FRAME_STEP: Self = Self(3);
    /// There are too many frames, or a list has not as many entries as they ask for.
    pub const LISTS: Self = Self(4);
    /// A score, a decibel, a level or a flag is none.
    pub const VALUE: Self = Self(5);
    /// The length is above its limit, or the frames do not cover it.
    pub const LENGTH: Self = Self(6);
    /// A duration is above its limit, or minimum, target and maximum are not in order.
    pub const DURATION: Self = Self(7);
    /// The count is outside its limits.
    pub const COUNT: Self = Self(8);
    /// The ratio is outside 0 to 1, or the placement unknown.
    pub const RATIO: Self = Self(9);
    /// A weight or the pause reference is outside its limits.
    pub const WEIGHTS: Self = Self(10);
    /// The threshold is not finite, or its kind unknown.
    pub const THRESHOLD: Self = Self(11);
    /// An output list is too short for the answer.
    pub const OUTPUT: Self = Self(12);
    /// A work list is too short.
    pub const WORK: Self = Self(13);
    /// By count, the parent list is too short. A longer one may be lent to the same call: examples/by_count.rs.
    pub const PARENT: Self = Self(14);
    /// The lent candidates' lists are empty, unequal or too long.
    pub const CANDIDATES: Self = Self(15);
    /// Lent candidates are out of order, or an end or the limit is above its own.
    pub const ENDS: Self = Self(16);
    /// A cost, a weight, the target or the minimum of a path is outside its limits.
    pub const COSTS: Self = Self(17);
    /// These bytes are no job. It stands in listings alone.
    pub const JOB: Self = Self(19);

    /// Document 01's number.
    #[must_use]
    pub const fn number(self) -> u32 {
        self.0
    }

    /// What it says.
    #[must_use]
    pub const fn meaning(self) -> &'static str {
        self.words()[0]
    }

    /// What to do about it.
    #[must_use]
    pub const fn advice(self) -> &'static str {
        self.words()[1]
    }
}

impl fmt::Display for Refusal {
    fn fmt(&self, f: &mut fmt::Formatter<'_>) -> fmt::Result {
        let [meaning, advice] = self.words();
        write!(f, "refused {}: {meaning}; {advice}", self.0)
    }
}

impl error::Error for Refusal {}

/// For `decibels`: the values of a recording are scores.
pub const DOMAIN_SCORES: bool = false;
/// For `decibels`: the values of a recording are decibels.
pub const DOMAIN_DECIBELS: bool = true;

/// For `threshold_kind`: where sound starts follows from the recording.
pub const THRESHOLD_AUTO: u8 = 0;
/// For `threshold_kind`: sound starts at `threshold`.
pub const THRESHOLD_ABSOLUTE: u8 = 1;
/// For `threshold_kind`: sound starts `threshold` below the recording's reference level.
pub const THRESHOLD_BELOW_REFERENCE: u8 = 2;

/// For `placement_kind`: a long silence is cut at its quietest place.
pub const PLACEMENT_QUIETEST: u8 = 0;
/// For `placement_kind`: a long silence is cut in its middle.
pub const PLACEMENT_CENTER: u8 = 1;
/// For `placement_kind`: a long silence is cut at `ratio`, from 0, its start, to 1, its end.
pub const PLACEMENT_RATIO: u8 = 2;

/// A cut is at the own place of a silence, or inside one but for what is kept of it next to sound.
pub const REASON_SILENCE: u8 = 0;
/// A cut is at any other place whose level is in the quietest quarter of its scale, from 0 to 1.
pub const REASON_QUIET: u8 = 1;
/// A cut is at neither. It says nothing of the lengths of the pieces.
pub const REASON_FORCED: u8 = 2;

/// A piece is below the minimum, and not the last of several, which is what was left over; one that is alone in its plan
/// can be short. No piece has both flags.
pub const FLAG_SHORT: u64 = 1;
/// A piece is above the maximum.
pub const FLAG_LONG: u64 = 2;

/// Greatest sample rate. At a limit is within it, for all that follow.
pub const MOST_SAMPLE_RATE: u32 = 768_000;
/// Greatest frame rate.
pub const MOST_FRAME_RATE: u32 = 192_000;
/// Greatest hop.
pub const MOST_HOP: u32 = 1_048_576;
/// Most frames of a recording.
pub const MOST_FRAMES: usize = 1_048_576;
/// Greatest length, in samples.
pub const MOST_LENGTH: u64 = 1_099_511_627_776;
/// Longest duration: 24 hours in nanoseconds.
pub const MOST_DURATION: u64 = 86_400_000_000_000;
/// Most pieces that can be asked for.
pub const MOST_COUNT: u32 = 1_048_576;
/// Most candidates that can be lent.
pub const MOST_CANDIDATES: usize = 1_048_577;
/// Most bytes of a job.
pub const MOST_JOB_BYTES: usize = 8_192;
/// Most frames of a job.
pub const MOST_JOB_FRAMES: usize = 511;
/// How many bytes the listing of a job may take, and the list for it has to have.
pub const LISTING_BYTES: usize = 53_702;

/// What a declared conversion to a whole number answers outside the limits.
pub const NO_NUMBER: u64 = 18_446_744_073_709_551_615;
/// What a declared conversion to a float answers outside the limits.
pub const NO_FLOAT: f64 = -1.0;

/// A piece from sample `start` up to `end`, which is not in it.
#[repr(C)]
#[derive(Clone, Copy, Debug, Default, PartialEq, Eq)]
pub struct Piece {
    /// Its first sample.
    pub start: u64,
    /// The sample after its last.
    pub end: u64,
    /// Whether it is below the minimum, and not the last of several pieces.
    pub too_short: bool,
    /// Whether it is above the maximum.
    pub too_long: bool,
}

/// A cut: where the piece before it ends, where the one after it starts, and why it is there.
#[repr(C)]
#[derive(Clone, Copy, Debug, Default, PartialEq, Eq)]
pub struct Cut {
    /// Where the piece before it ends.
    pub previous_end: u64,
    /// Where the piece after it starts; later than that where silence is left out.
    pub next_start: u64,
    /// [`REASON_SILENCE`], [`REASON_QUIET`] or [`REASON_FORCED`].
    pub reason: u8,
}

// The declarations. buchawzer.h says what each asks of its pointers.
unsafe extern "C" {
    /// What [`boundary`] calls.
    #[must_use]
    pub safe fn buchawzer_boundary(
        sample_rate: u32,
        frame_rate: u32,
        hop: u32,
        len: u64,
        frames: usize,
        k: usize,
    ) -> u64;
    /// What [`frames_in`] calls.
    #[must_use]
    pub safe fn buchawzer_frames_in(frame_rate: u32, hop: u32, nanos: u64) -> u64;
    /// What [`frames_ceil`] calls.
    #[must_use]
    pub safe fn buchawzer_frames_ceil(frame_rate: u32, hop: u32, nanos: u64) -> u64;
    /// What [`frames_floor`] calls.
    #[must_use]
    pub safe fn buchawzer_frames_floor(frame_rate: u32, hop: u32, nanos: u64) -> u64;
    /// What [`samples_floor`] calls.
    #[must_use]
    pub safe fn buchawzer_samples_floor(sample_rate: u32, nanos: u64) -> u64;
    /// What [`samples_in`] calls.
    #[must_use]
    pub safe fn buchawzer_samples_in(sample_rate: u32, nanos: u64) -> f64;
    /// What [`seconds`] calls.
    #[must_use]
    pub safe fn buchawzer_seconds(nanos: u64) -> f64;
    /// What [`frame_secs`] calls.
    #[must_use]
    pub safe fn buchawzer_frame_secs(frame_rate: u32, hop: u32) -> f64;
    /// What [`covers`] calls.
    #[must_use]
    pub safe fn buchawzer_covers(
        sample_rate: u32,
        frame_rate: u32,
        hop: u32,
        len: u64,
        frames: usize,
    ) -> bool;
    /// What [`validate`] calls.
    #[must_use]
    pub fn buchawzer_validate(
        sample_rate: u32,
        channels: u16,
        frame_rate: u32,
        hop: u32,
        len: u64,
        decibels: bool,
        values: *const f32,
        values_len: usize,
        flags: *const u8,
        flags_len: usize,
        levels: *const f64,
        levels_len: usize,
    ) -> u32;
    /// What [`are_flags`] calls.
    #[must_use]
    pub fn buchawzer_are_flags(flags: *const u8, flags_len: usize) -> bool;
    /// What [`silence_list`] calls.
    #[must_use]
    pub fn buchawzer_silence_list(
        sample_rate: u32,
        channels: u16,
        frame_rate: u32,
        hop: u32,
        len: u64,
        decibels: bool,
        values: *const f32,
        values_len: usize,
        flags: *const u8,
        flags_len: usize,
        levels: *const f64,
        levels_len: usize,
        threshold_kind: u8,
        threshold: f32,
        min_silence: u64,
        min_sound: u64,
        pre: u64,
        tail: u64,
        work_u32: *mut u32,
        work_u32_len: usize,
        work_u64: *mut u64,
        work_u64_len: usize,
        work_f64: *mut f64,
        work_f64_len: usize,
        out: *mut u32,
        out_len: usize,
        count: *mut u64,
    ) -> u32;
    /// What [`candidates`] calls.
    #[must_use]
    pub fn buchawzer_candidates(
        sample_rate: u32,
        channels: u16,
        frame_rate: u32,
        hop: u32,
        len: u64,
        decibels: bool,
        values: *const f32,
        values_len: usize,
        flags: *const u8,
        flags_len: usize,
        levels: *const f64,
        levels_len: usize,
        threshold_kind: u8,
        threshold: f32,
        min_silence: u64,
        min_sound: u64,
        pre: u64,
        tail: u64,
        min: u64,
        target: u64,
        max: u64,
        by_count: bool,
        count: u32,
        drop_gaps: bool,
        placement_kind: u8,
        ratio: f32,
        cut: f64,
        level: f64,
        pause: f64,
        pause_ref: u64,
        target_weight: f64,
        short_weight: f64,
        work_u32: *mut u32,
        work_u32_len: usize,
        work_u64: *mut u64,
        work_u64_len: usize,
        work_f64: *mut f64,
        work_f64_len: usize,
        ends: *mut u32,
        ends_len: usize,
        costs: *mut f64,
        costs_len: usize,
        found: *mut u64,
    ) -> u32;
    /// What [`path`] calls.
    #[must_use]
    pub fn buchawzer_path(
        left: *const u64,
        left_len: usize,
        right: *const u64,
        right_len: usize,
        cost: *const f64,
        cost_len: usize,
        min: f64,
        target: f64,
        limit: u64,
        target_weight: f64,
        short_weight: f64,
        by_count: bool,
        count: u32,
        work_u32: *mut u32,
        work_u32_len: usize,
        work_u64: *mut u64,
        work_u64_len: usize,
        work_f64: *mut f64,
        work_f64_len: usize,
        parent: *mut u32,
        parent_len: usize,
        path: *mut u32,
        path_len: usize,
        length: *mut u64,
        over: *mut u32,
        score_cost: *mut f64,
    ) -> u32;
    /// What [`plan`] calls.
    #[must_use]
    pub fn buchawzer_plan(
        sample_rate: u32,
        channels: u16,
        frame_rate: u32,
        hop: u32,
        len: u64,
        decibels: bool,
        values: *const f32,
        values_len: usize,
        flags: *const u8,
        flags_len: usize,
        levels: *const f64,
        levels_len: usize,
        threshold_kind: u8,
        threshold: f32,
        min_silence: u64,
        min_sound: u64,
        pre: u64,
        tail: u64,
        min: u64,
        target: u64,
        max: u64,
        by_count: bool,
        count: u32,
        drop_gaps: bool,
        placement_kind: u8,
        ratio: f32,
        cut: f64,
        level: f64,
        pause: f64,
        pause_ref: u64,
        target_weight: f64,
        short_weight: f64,
        work_u32: *mut u32,
        work_u32_len: usize,
        work_u64: *mut u64,
        work_u64_len: usize,
        work_f64: *mut f64,
        work_f64_len: usize,
        parent: *mut u32,
        parent_len: usize,
        pieces: *mut u64,
        pieces_len: usize,
        cuts: *mut u64,
        cuts_len: usize,
        found: *mut u64,
    ) -> u32;
    /// What [`piece_records`] calls.
    #[must_use]
    pub fn buchawzer_piece_records(
        numbers: *const u64,
        numbers_len: usize,
        records: *mut Piece,
        records_len: usize,
    ) -> u32;
    /// What [`cut_records`] calls.
    #[must_use]
    pub fn buchawzer_cut_records(
        numbers: *const u64,
        numbers_len: usize,
        records: *mut Cut,
        records_len: usize,
    ) -> u32;
    /// What [`cutplan`] calls.
    #[must_use]
    pub fn buchawzer_cutplan(
        job: *const u8,
        job_len: usize,
        listing: *mut u8,
        listing_len: usize,
    ) -> u64;
    /// What [`clear_work`] calls.
    pub fn buchawzer_clear_work(
        work_u32: *mut u32,
        work_u32_len: usize,
        work_u64: *mut u64,
        work_u64_len: usize,
        work_f64: *mut f64,
        work_f64_len: usize,
    );
}

/// A recording, lent. A frame lasts `hop / frame_rate` seconds.
#[derive(Clone, Copy, Debug)]
pub struct Recording<'a> {
    /// Samples of one channel a second.
    pub sample_rate: u32,
    /// At least 1; no answer depends on how many there are.
    pub channels: u16,
    /// The rate at which `hop` counts, in Hz.
    pub frame_rate: u32,
    /// From one frame to the next, at that rate.
    pub hop: u32,
    /// Length in samples of one channel.
    pub len: u64,
    /// [`DOMAIN_SCORES`] or [`DOMAIN_DECIBELS`].
    pub decibels: bool,
    /// A score from 0 to 1 or a decibel for each frame.
    pub values: &'a [f32],
    /// A byte for each frame: 1 where there is no signal. All 0 for scores.
    pub flags: &'a [u8],
    /// For decibels the smoothed level of each frame; empty for scores.
    pub levels: &'a [f64],
}

/// How silences are found, what lengths are wanted, and what a cut costs. Durations in nanoseconds.
#[derive(Clone, Copy, Debug, PartialEq)]
pub struct Settings {
    /// [`THRESHOLD_AUTO`], [`THRESHOLD_ABSOLUTE`] or [`THRESHOLD_BELOW_REFERENCE`].
    pub threshold_kind: u8,
    /// Read by the last two kinds of threshold.
    pub threshold: f32,
    /// Shorter silence counts as sound.
    pub min_silence: u64,
    /// Shorter sound counts as silence.
    pub min_sound: u64,
    /// Silence that is kept before sound.
    pub pre: u64,
    /// Silence that is kept after sound.
    pub tail: u64,
    /// A shorter piece costs more, and is flagged if it is not the last of several.
    pub min: u64,
    /// The wanted length of a piece.
    pub target: u64,
    /// The longest piece. By count, set it well above length / count: near that, cuts go where they keep the pieces
    /// short, in silence or not. Raising it makes new candidates, so that the plan may cost more.
    pub max: u64,
    /// Whether exactly `count` pieces are wanted.
    pub by_count: bool,
    /// How many, by count.
    pub count: u32,
    /// Whether the middle of a silence at a cut is left out.
    pub drop_gaps: bool,
    /// [`PLACEMENT_QUIETEST`], [`PLACEMENT_CENTER`] or [`PLACEMENT_RATIO`].
    pub placement_kind: u8,
    /// Read by the last kind of placement.
    pub ratio: f32,
    /// Fixed cost of a cut.
    pub cut: f64,
    /// Weight of the level at a cut.
    pub level: f64,
    /// Weight of a cut outside a long pause.
    pub pause: f64,
    /// How long a pause has to be for the full credit.
    pub pause_ref: u64,
    /// Weight of the distance from the wanted length.
    pub target_weight: f64,
    /// Weight of what a piece is short of the minimum.
    pub short_weight: f64,
}

impl Default for Settings {
    /// Those of silence-split, with 5, 15 and 30 seconds, by length.
    fn default() -> Self {
        Self {
            threshold_kind: THRESHOLD_AUTO,
            threshold: 0.0,
            min_silence: 250_000_000,
            min_sound: 100_000_000,
            pre: 100_000_000,
            tail: 200_000_000,
            min: 5_000_000_000,
            target: 15_000_000_000,
            max: 30_000_000_000,
            by_count: false,
            count: 0,
            drop_gaps: false,
            placement_kind: PLACEMENT_QUIETEST,
            ratio: 0.0,
            cut: 0.1,
            level: 1.0,
            pause: 1.0,
            pause_ref: 500_000_000,
            target_weight: 1.0,
            short_weight: 4.0,
        }
    }
}

/// The work lists, lent: [`work_length`] entries each, for a path [`path_work_length`].
#[derive(Debug)]
pub struct Work<'a> {
    /// Of u32.
    pub u32s: &'a mut [u32],
    /// Of u64.
    pub u64s: &'a mut [u64],
    /// Of f64.
    pub f64s: &'a mut [f64],
}

/// A plan, as [`make_plan`] answers it: three numbers for each piece and three for each cut, of which there is one
/// fewer, or none where there is no piece. [`piece_records`] and [`cut_records`] make records of them.
#[derive(Clone, Copy, Debug, PartialEq, Eq)]
pub struct Plan<'a> {
    /// Start, end and flags of each piece.
    pub pieces: &'a [u64],
    /// Previous end, next start and reason of each cut.
    pub cuts: &'a [u64],
}

/// Candidates, as [`find_candidates`] answers them.
#[derive(Clone, Copy, Debug, PartialEq)]
pub struct Candidates<'a> {
    /// Left frame boundary, right frame boundary and reason of each.
    pub ends: &'a [u32],
    /// The cost of each.
    pub costs: &'a [f64],
}

/// A path, as [`find_path`] answers it, and its score.
#[derive(Clone, Copy, Debug, PartialEq)]
pub struct Path<'a> {
    /// Indices of its candidates, from the first to the last.
    pub path: &'a [u32],
    /// How many pieces are above the limit.
    pub over: u32,
    /// What it costs.
    pub score_cost: f64,
}

/// Where [`plan`] puts its answer: the numbers of a [`Plan`], and how many pieces it has.
#[derive(Debug)]
pub struct PlanOutput<'a> {
    /// Room for the pieces.
    pub pieces: &'a mut [u64],
    /// Room for the cuts.
    pub cuts: &'a mut [u64],
    /// The number of pieces.
    pub found: &'a mut u64,
}

/// Where [`candidates`] puts its answer: the numbers of [`Candidates`], and how many there are.
#[derive(Debug)]
pub struct CandidatesOutput<'a> {
    /// Room for the ends and reasons.
    pub ends: &'a mut [u32],
    /// Room for the costs.
    pub costs: &'a mut [f64],
    /// The number of candidates.
    pub found: &'a mut u64,
}

/// Where [`path`] puts its answer: the numbers of a [`Path`], and how many candidates it has.
#[derive(Debug)]
pub struct PathOutput<'a> {
    /// Room for the path.
    pub path: &'a mut [u32],
    /// The number of its candidates.
    pub length: &'a mut u64,
    /// How many pieces are above the limit.
    pub over: &'a mut u32,
    /// What it costs.
    pub score_cost: &'a mut f64,
}

/// Candidates that are lent for a path, one entry of each list for each.
#[derive(Clone, Copy, Debug)]
pub struct LentCandidates<'a> {
    /// Where each starts.
    pub left: &'a [u64],
    /// Where each ends.
    pub right: &'a [u64],
    /// What a cut there costs.
    pub cost: &'a [f64],
}

/// What a path's pieces should be like.
#[derive(Clone, Copy, Debug, PartialEq)]
pub struct Preferences {
    /// A shorter piece costs more.
    pub min: f64,
    /// The wanted length of a piece.
    pub target: f64,
    /// The longest piece that is wanted.
    pub limit: u64,
    /// Weight of the distance from the wanted length.
    pub target_weight: f64,
    /// Weight of what a piece is short of the minimum.
    pub short_weight: f64,
    /// Whether `count` pieces are wanted.
    pub by_count: bool,
    /// How many, by count.
    pub count: u32,
}

// How many entries are enough. No sum overflows: it ends at the greatest usize, which is more than any list has.

/// Entries that each work list needs for so many frames.
#[must_use]
pub const fn work_length(frames: usize) -> usize {
    path_work_length(frames.saturating_add(1))
}

/// Entries that are enough for silences.
#[must_use]
pub const fn silences_length(frames: usize) -> usize {
    frames.saturating_add(1)
}

/// Entries that are enough for the ends of candidates.
#[must_use]
pub const fn ends_length(frames: usize) -> usize {
    frames.saturating_add(1).saturating_mul(3)
}

/// Entries that are enough for the costs of candidates.
#[must_use]
pub const fn costs_length(frames: usize) -> usize {
    frames.saturating_add(1)
}

/// Entries that are enough for the pieces of a plan, and for its cuts.
#[must_use]
pub const fn plan_length(frames: usize) -> usize {
    frames.saturating_mul(3)
}

/// Entries that each work list needs for so many lent candidates.
#[must_use]
pub const fn path_work_length(candidates: usize) -> usize {
    candidates.saturating_mul(16)
}

/// Entries that the parent list needs for a path by count over so many lent candidates.
#[must_use]
pub const fn path_parent_length(candidates: usize, count: u32) -> usize {
    let last = candidates.saturating_sub(1);
    let pieces = if (count as usize) < last {
        count as usize
    } else {
        last
    };
    pieces.saturating_mul(candidates)
}

/// Entries of the parent list that are always enough for a plan by count. Far fewer often do: start with few, and
/// double them on [`Refusal::PARENT`], as examples/by_count.rs does.
#[must_use]
pub const fn parent_length(frames: usize, count: u32) -> usize {
    path_parent_length(frames.saturating_add(1), count)
}

// The conversions. None outside document 01's limits.

/// Boundary k of the frame grid: floor(k × hop × sample_rate / frame_rate), and the length where k is the number of
/// frames or more.
#[must_use]
pub fn boundary(
    sample_rate: u32,
    frame_rate: u32,
    hop: u32,
    len: u64,
    frames: usize,
    k: usize,
) -> Option<u64> {
    whole(buchawzer_boundary(
        sample_rate,
        frame_rate,
        hop,
        len,
        frames,
        k,
    ))
}

/// A duration in whole frames, rounded half up.
#[must_use]
pub fn frames_in(frame_rate: u32, hop: u32, nanos: u64) -> Option<u64> {
    whole(buchawzer_frames_in(frame_rate, hop, nanos))
}

/// A duration in whole frames, rounded up.
#[must_use]
pub fn frames_ceil(frame_rate: u32, hop: u32, nanos: u64) -> Option<u64> {
    whole(buchawzer_frames_ceil(frame_rate, hop, nanos))
}

/// A duration in whole frames, rounded down.
#[must_use]
pub fn frames_floor(frame_rate: u32, hop: u32, nanos: u64) -> Option<u64> {
    whole(buchawzer_frames_floor(frame_rate, hop, nanos))
}

/// A duration in whole samples: nanos × rate / 10^9, rounded down; exact, though the product may be beyond 64 bits.
#[must_use]
pub fn samples_floor(sample_rate: u32, nanos: u64) -> Option<u64> {
    whole(buchawzer_samples_floor(sample_rate, nanos))
}

/// A duration in samples: the whole product rounded to the nearest f64, then divided by 10^9.
#[must_use]
pub fn samples_in(sample_rate: u32, nanos: u64) -> Option<f64> {
    float(buchawzer_samples_in(sample_rate, nanos))
}

/// A duration in seconds: whole seconds plus (the nanoseconds left / 10^9).
#[must_use]
pub fn seconds(nanos: u64) -> Option<f64> {
    float(buchawzer_seconds(nanos))
}

/// One frame in seconds: hop / frame_rate.
#[must_use]
pub fn frame_secs(frame_rate: u32, hop: u32) -> Option<f64> {
    float(buchawzer_frame_secs(frame_rate, hop))
}

/// Whether so many frames cover the length: the last one starts before its end, and it ends before one frame more
/// would. No frames cover the length 0 alone. false outside the limits.
#[must_use]
pub fn covers(sample_rate: u32, frame_rate: u32, hop: u32, len: u64, frames: usize) -> bool {
    buchawzer_covers(sample_rate, frame_rate, hop, len, frames)
}

// How the library's answers are read.

fn whole(answer: u64) -> Option<u64> {
    (answer != NO_NUMBER).then_some(answer)
}

fn float(answer: f64) -> Option<f64> {
    (answer != NO_FLOAT).then_some(answer)
}

fn accepted(number: u32) -> Result<(), Refusal> {
    match number {
        ACCEPTED => Ok(()),
        refused => Err(Refusal(refused)),
    }
}

/// The first `count` entries; there never are more than the list has.
fn front<T>(list: &[T], count: u64) -> &[T] {
    &list[..list.len().min(count as usize)]
}

// SAFETY, of every call below: each pointer comes with the length of its own list, no list that is lent to be written
// overlaps another, and all outlive the call.

/// The tests 1 to 6 of a recording.
pub fn validate(r: &Recording<'_>) -> Result<(), Refusal> {
    accepted(unsafe {
        buchawzer_validate(
            r.sample_rate,
            r.channels,
            r.frame_rate,
            r.hop,
            r.len,
            r.decibels,
            r.values.as_ptr(),
            r.values.len(),
            r.flags.as_ptr(),
            r.flags.len(),
            r.levels.as_ptr(),
            r.levels.len(),
        )
    })
}

/// Whether each byte is 0 or 1, as test 5 asks it of the flags of decibels. true where there is none.
#[must_use]
pub fn are_flags(flags: &[u8]) -> bool {
    unsafe { buchawzer_are_flags(flags.as_ptr(), flags.len()) }
}

/// The silences of a recording: for each its first frame and the frame after its last. Refused by 1 to 7, 11, 13, 12,
/// in this order. [`silences_length`] entries of `out` are always enough.
pub fn find_silences<'a>(
    r: &Recording<'_>,
    s: &Settings,
    work: Work<'_>,
    out: &'a mut [u32],
) -> Result<&'a [u32], Refusal> {
    let mut count = 0;
    silence_list(r, s, work, out, &mut count)?;
    Ok(front(out, count.saturating_mul(2)))
}

/// As [`find_silences`], with their number in its place, which a refusal leaves as it was.
pub fn silence_list(
    r: &Recording<'_>,
    s: &Settings,
    work: Work<'_>,
    out: &mut [u32],
    count: &mut u64,
) -> Result<(), Refusal> {
    accepted(unsafe {
        buchawzer_silence_list(
            r.sample_rate,
            r.channels,
            r.frame_rate,
            r.hop,
            r.len,
            r.decibels,
            r.values.as_ptr(),
            r.values.len(),
            r.flags.as_ptr(),
            r.flags.len(),
            r.levels.as_ptr(),
            r.levels.len(),
            s.threshold_kind,
            s.threshold,
            s.min_silence,
            s.min_sound,
            s.pre,
            s.tail,
            work.u32s.as_mut_ptr(),
            work.u32s.len(),
            work.u64s.as_mut_ptr(),
            work.u64s.len(),
            work.f64s.as_mut_ptr(),
            work.f64s.len(),
            out.as_mut_ptr(),
            out.len(),
            count,
        )
    })
}

/// The places where a plan may cut, before any are added. Refused by 1 to 11, 13, 12, in this order. [`ends_length`]
/// entries of `ends` and [`costs_length`] of `costs` are always enough.
pub fn find_candidates<'a>(
    r: &Recording<'_>,
    s: &Settings,
    work: Work<'_>,
    ends: &'a mut [u32],
    costs: &'a mut [f64],
) -> Result<Candidates<'a>, Refusal> {
    let mut found = 0;
    let out = CandidatesOutput {
        ends,
        costs,
        found: &mut found,
    };
    candidates(r, s, work, out)?;
    Ok(Candidates {
        ends: front(ends, found.saturating_mul(3)),
        costs: front(costs, found),
    })
}

/// As [`find_candidates`], with the answer in its places; a refusal leaves `found` as it was.
pub fn candidates(
    r: &Recording<'_>,
    s: &Settings,
    work: Work<'_>,
    out: CandidatesOutput<'_>,
) -> Result<(), Refusal> {
    accepted(unsafe {
        buchawzer_candidates(
            r.sample_rate,
            r.channels,
            r.frame_rate,
            r.hop,
            r.len,
            r.decibels,
            r.values.as_ptr(),
            r.values.len(),
            r.flags.as_ptr(),
            r.flags.len(),
            r.levels.as_ptr(),
            r.levels.len(),
            s.threshold_kind,
            s.threshold,
            s.min_silence,
            s.min_sound,
            s.pre,
            s.tail,
            s.min,
            s.target,
            s.max,
            s.by_count,
            s.count,
            s.drop_gaps,
            s.placement_kind,
            s.ratio,
            s.cut,
            s.level,
            s.pause,
            s.pause_ref,
            s.target_weight,
            s.short_weight,
            work.u32s.as_mut_ptr(),
            work.u32s.len(),
            work.u64s.as_mut_ptr(),
            work.u64s.len(),
            work.f64s.as_mut_ptr(),
            work.f64s.len(),
            out.ends.as_mut_ptr(),
            out.ends.len(),
            out.costs.as_mut_ptr(),
            out.costs.len(),
            out.found,
        )
    })
}

/// The best path over lent candidates: none has a lower score, `over` first and then the cost. Refused by 15, 16, 17,
/// 8 (by count), 13, 14 (by count), 12, in this order. By count the parent list needs [`path_parent_length`] entries,
/// else none; `path` at most one for each candidate.
///
/// A longer limit gives no worse a path: of two calls that differ in the limit alone, and in what their lists hold, and
/// both give a path, the one with the longer limit has the lower score or the same. Where the first does, so does the
/// second with a limit up to 2^40 and lists no shorter; by length the path may have more candidates, so lend an entry for
/// each, else 12 may come.
pub fn find_path<'a>(
    c: &LentCandidates<'_>,
    p: &Preferences,
    work: Work<'_>,
    parent: &mut [u32],
    path: &'a mut [u32],
) -> Result<Path<'a>, Refusal> {
    let (mut length, mut over, mut score_cost) = (0, 0, 0.0);
    let out = PathOutput {
        path,
        length: &mut length,
        over: &mut over,
        score_cost: &mut score_cost,
    };
    self::path(c, p, work, parent, out)?;
    Ok(Path {
        path: front(path, length),
        over,
        score_cost,
    })
}

/// As [`find_path`], with the answer in its places; a refusal leaves length and score as they were.
pub fn path(
    c: &LentCandidates<'_>,
    p: &Preferences,
    work: Work<'_>,
    parent: &mut [u32],
    out: PathOutput<'_>,
) -> Result<(), Refusal> {
    accepted(unsafe {
        buchawzer_path(
            c.left.as_ptr(),
            c.left.len(),
            c.right.as_ptr(),
            c.right.len(),
            c.cost.as_ptr(),
            c.cost.len(),
            p.min,
            p.target,
            p.limit,
            p.target_weight,
            p.short_weight,
            p.by_count,
            p.count,
            work.u32s.as_mut_ptr(),
            work.u32s.len(),
            work.u64s.as_mut_ptr(),
            work.u64s.len(),
            work.f64s.as_mut_ptr(),
            work.f64s.len(),
            parent.as_mut_ptr(),
            parent.len(),
            out.path.as_mut_ptr(),
            out.path.len(),
            out.length,
            out.over,
            out.score_cost,
        )
    })
}

/// The plan of a recording. Refused by 1 to 11, 13, 14, 12, in this order. By length the parent list may be
/// empty; by count [`parent_length`] entries are always enough. [`plan_length`] entries are enough for the pieces,
/// and for the cuts. With so many of each, and [`work_length`] of each work list, only 1 to 11 are left.
pub fn make_plan<'a>(
    r: &Recording<'_>,
    s: &Settings,
    work: Work<'_>,
    parent: &mut [u32],
    pieces: &'a mut [u64],
    cuts: &'a mut [u64],
) -> Result<Plan<'a>, Refusal> {
    let mut found = 0;
    let out = PlanOutput {
        pieces,
        cuts,
        found: &mut found,
    };
    plan(r, s, work, parent, out)?;
    Ok(Plan {
        pieces: front(pieces, found.saturating_mul(3)),
        cuts: front(cuts, found.saturating_sub(1).saturating_mul(3)),
    })
}

/// As [`make_plan`], with the answer in its places; a refusal leaves `found` as it was.
pub fn plan(
    r: &Recording<'_>,
    s: &Settings,
    work: Work<'_>,
    parent: &mut [u32],
    out: PlanOutput<'_>,
) -> Result<(), Refusal> {
    accepted(unsafe {
        buchawzer_plan(
            r.sample_rate,
            r.channels,
            r.frame_rate,
            r.hop,
            r.len,
            r.decibels,
            r.values.as_ptr(),
            r.values.len(),
            r.flags.as_ptr(),
            r.flags.len(),
            r.levels.as_ptr(),
            r.levels.len(),
            s.threshold_kind,
            s.threshold,
            s.min_silence,
            s.min_sound,
            s.pre,
            s.tail,
            s.min,
            s.target,
            s.max,
            s.by_count,
            s.count,
            s.drop_gaps,
            s.placement_kind,
            s.ratio,
            s.cut,
            s.level,
            s.pause,
            s.pause_ref,
            s.target_weight,
            s.short_weight,
            work.u32s.as_mut_ptr(),
            work.u32s.len(),
            work.u64s.as_mut_ptr(),
            work.u64s.len(),
            work.f64s.as_mut_ptr(),
            work.f64s.len(),
            parent.as_mut_ptr(),
            parent.len(),
            out.pieces.as_mut_ptr(),
            out.pieces.len(),
            out.cuts.as_mut_ptr(),
            out.cuts.len(),
            out.found,
        )
    })
}

/// Records of the pieces of a plan, one for each three numbers. Refused by 12 where `records` has fewer.
pub fn piece_records<'a>(
    numbers: &[u64],
    records: &'a mut [Piece],
) -> Result<&'a [Piece], Refusal> {
    accepted(unsafe {
        buchawzer_piece_records(
            numbers.as_ptr(),
            numbers.len(),
            records.as_mut_ptr(),
            records.len(),
        )
    })?;
    Ok(front(records, (numbers.len() / 3) as u64))
}

/// Records of the cuts of a plan, one for each three numbers. Refused by 12 where `records` has fewer.
pub fn cut_records<'a>(numbers: &[u64], records: &'a mut [Cut]) -> Result<&'a [Cut], Refusal> {
    accepted(unsafe {
        buchawzer_cut_records(
            numbers.as_ptr(),
            numbers.len(),
            records.as_mut_ptr(),
            records.len(),
        )
    })?;
    Ok(front(records, (numbers.len() / 3) as u64))
}

/// The listing of a job, as the program cutplan prints it. A job of 0 bytes is an empty recording, whose listing is
/// `plan 0 0`. A job that is refused, by 19 where other bytes are none, is no `Err`: its listing is the line `refused`
/// with the number. Refused by 12 where `listing` has fewer than [`LISTING_BYTES`] bytes; the declared function answers
/// 0 there.
pub fn cutplan<'a>(job: &[u8], listing: &'a mut [u8]) -> Result<&'a [u8], Refusal> {
    let length =
        unsafe { buchawzer_cutplan(job.as_ptr(), job.len(), listing.as_mut_ptr(), listing.len()) };
    match length {
        0 => Err(Refusal::OUTPUT),
        _ => Ok(front(listing, length)),
    }
}

/// Sets every entry of the three lists to 0, as each operation does at its end.
pub fn clear_work(work: Work<'_>) {
    unsafe {
        buchawzer_clear_work(
            work.u32s.as_mut_ptr(),
            work.u32s.len(),
            work.u64s.as_mut_ptr(),
            work.u64s.len(),
            work.f64s.as_mut_ptr(),
            work.f64s.len(),
        );
    }
}

// Refusals in words.

impl Refusal {
    /// What it says and what to do about it, as README's table has them; tools/declarations holds the two together.
    const fn words(self) -> [&'static str; 2] {
        match self {
            Self::SAMPLE_RATE => [
                "sample rate 0 or above 768,000",
                "give the rate of the sound that was analyzed, in Hz",
            ],
            Self::CHANNELS => ["no channels", "give at least 1"],
            Self::FRAME_STEP => [
                "frame rate 0 or above 192,000, hop 0 or above 1,048,576, or a frame shorter than a \
                 sample",
                "a frame lasts hop / frame rate seconds: see that the two are not swapped",
            ],
            Self::LISTS => [
                "over 1,048,576 frames, flags not one a frame, levels not one a frame for decibels or \
                 not empty for scores",
                "give every list one entry a frame; cut a longer recording in two, or use longer \
                 frames; no job gives it",
            ],
            Self::VALUE => [
                "a score outside 0 to 1, a decibel or level not finite, a flag not 0 or 1, a flag 1 \
                 in scores",
                "look for a NaN in the values; clamp scores; take minus infinity out of decibels and \
                 set the frame's flag",
            ],
            Self::LENGTH => [
                "length above 2^40, or the frames do not cover it",
                "give the length in samples of one channel, not of all; the last frame must start \
                 before its end, and one frame more would have to end behind it",
            ],
            Self::DURATION => [
                "a duration above 24 hours, target 0, minimum above target, or target above maximum",
                "give nanoseconds, and minimum ≤ target ≤ maximum",
            ],
            Self::COUNT => [
                "count 0 or above 1,048,576",
                "ask for 1 to 1,048,576 pieces, or plan by length",
            ],
            Self::RATIO => [
                "placement's ratio outside 0 to 1, or an unknown placement",
                "give a ratio from 0, the silence's start, to 1, its end",
            ],
            Self::WEIGHTS => [
                "a weight negative or not finite, fixed cost of a cut or pause reference 0, reference \
                 above 24 hours",
                "start from the defaults, and change one weight at a time",
            ],
            Self::THRESHOLD => [
                "threshold's number not finite, or an unknown threshold",
                "give a number, or the automatic threshold",
            ],
            Self::OUTPUT => [
                "an output list is too short for the answer",
                "lend as many entries as the header says at the function (buchawzer_plan_length for a \
                 plan); no job gives it",
            ],
            Self::WORK => [
                "a work list is too short",
                "lend 16 × (frames + 1) entries of each type (buchawzer_work_length); no job gives it",
            ],
            Self::PARENT => [
                "by count, the parent list is too short for the path",
                "lend twice as many, from some thousand on, and call again (buchawzer_parent_length \
                 is always enough, for a path buchawzer_path_parent_length); a job's list has 16,384 \
                 entries: ask for fewer pieces, or use the library",
            ],
            Self::CANDIDATES => [
                "lent candidates: lists empty, unequal or above 1,048,577",
                "give three lists of one length, with at least one candidate",
            ],
            Self::ENDS => [
                "lent candidates: a left end above its right, a right above the next left, an end or \
                 the limit above 2^40",
                "sort the candidates, and join those that overlap; give the limit in samples",
            ],
            Self::COSTS => [
                "a cost or length weight negative or not finite, target outside 2^−40 to 2^60, \
                 minimum outside 0 to 2^60",
                "look for a NaN in the costs; give target and minimum in samples, the target above 0",
            ],
            Self::JOB => [
                "no job: above 8,192 bytes or 511 frames, cut short, followed by bytes, or with an \
                 unknown bit or kind; or standard input could not be read",
                "look at it by tools/job --show, which names the field and offset where it stops \
                 being a job; for more frames use the library",
            ],
            _ => [
                "unknown refusal",
                "take the file that came with the library",
            ],
        }
    }
}
