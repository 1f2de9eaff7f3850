/* Buchawzer for C (C11) and C++ (C++11): where a recording is cut, so that its pieces have a wanted length.
 *
 * Link with libbuchawzer.a, which `make target/staticlib/libbuchawzer.a` writes; x86-64 only, and nothing else is needed
 * beside it. README.md shows the calls; examples/plan.c and examples/by_count.c are whole programs. "Document 01" is the
 * requirements that the desk wrote, to which the library is proved; docs/TRACE.md goes through them sentence by sentence. Their
 * terms are explained here where they occur.
 *
 * How to call
 * - A list goes over to an exported function as two arguments, a pointer to its first element and the number of its
 *   elements. The pointer must not be NULL, and must be aligned for its type, even where the number is 0: then nothing is
 *   read or written through it, and any object's address serves.
 * - The inline functions at the end take NULL for an empty list. A list that is NULL has no entries, whatever number
 *   stands beside it: memory that could not be had is refused as a list that is too short, by 4 (values, flags, levels),
 *   12 (an output), 13 (a work list), 14 (parents, by count) or 15 (lent candidates). Where values and flags are NULL, for
 *   decibels levels too, the recording has no frames, and these cover the length 0 alone, else 6. Pointers to structs,
 *   and to a number that is written, must not be NULL.
 * - A list or a number that a call may write overlaps nothing else of that call. This is not tested and must hold.
 * - A `bool` is 0 or 1, in structs too.
 * - Lengths of sound are in samples of one channel, durations in nanoseconds.
 * - buchawzer_cutplan keeps its lists on the stack, and wants 320 KB of it; the other operations want 64 KB.
 * - No function fails in another way than by its number: whatever the numbers and the lists hold, nothing is read or
 *   written outside the lists, and every call returns. There is no global state, so that several threads may call at once,
 *   each with lists of its own.
 *
 * What a refused call leaves
 * - The number of a refusal is that of the first condition that applies, in the order given for the function. The
 *   compiler warns where it is not looked at (BUCHAWZER_NODISCARD).
 * - Output lists and counts are as they were. So is output beyond the answer where the call is not refused.
 * - Work lists (work_u32, work_u64, work_f64, parent) may hold anything before a call. After a refusal by a test of the
 *   input (every number but 12 and 14) they are as they were; after every other end, success too, they are all 0.
 */
#ifndef BUCHAWZER_H
#define BUCHAWZER_H

#include <assert.h>
#include <stdbool.h>
#include <stddef.h>
#include <stdint.h>

/* Stands before each function whose answer says whether anything was done. Where that is not looked at gcc and clang warn,
 * and others from C23 and C++17 on. */
#if (defined(__cplusplus) && __cplusplus >= 201703L) || (defined(__STDC_VERSION__) && __STDC_VERSION__ >= 202311L)
#define BUCHAWZER_NODISCARD [[nodiscard]]
#elif defined(__GNUC__)
#define BUCHAWZER_NODISCARD __attribute__((warn_unused_result))
#else
#define BUCHAWZER_NODISCARD
#endif

#ifdef __cplusplus
extern "C" {
#endif

/* ---- numbers */

/* Why a call was refused: buchawzer_refusal_meaning says it in words, buchawzer_refusal_advice what to do about it. */
enum buchawzer_refusal {
    BUCHAWZER_ACCEPTED = 0,
    BUCHAWZER_REFUSED_SAMPLE_RATE = 1,
    BUCHAWZER_REFUSED_CHANNELS = 2,
    BUCHAWZER_REFUSED_FRAME_STEP = 3,
    BUCHAWZER_REFUSED_LISTS = 4,
    BUCHAWZER_REFUSED_VALUE = 5,
    BUCHAWZER_REFUSED_LENGTH = 6,
    BUCHAWZER_REFUSED_DURATION = 7,
    BUCHAWZER_REFUSED_COUNT = 8,
    BUCHAWZER_REFUSED_RATIO = 9,
    BUCHAWZER_REFUSED_WEIGHTS = 10,
    BUCHAWZER_REFUSED_THRESHOLD = 11,
    BUCHAWZER_REFUSED_OUTPUT = 12,
    BUCHAWZER_REFUSED_WORK = 13,
    BUCHAWZER_REFUSED_PARENT = 14,
    BUCHAWZER_REFUSED_CANDIDATES = 15,
    BUCHAWZER_REFUSED_ENDS = 16,
    BUCHAWZER_REFUSED_COSTS = 17,
    BUCHAWZER_REFUSED_JOB = 19
};

/* What a refusal says, as in README.md's table, in UTF-8. */
static inline const char *buchawzer_refusal_meaning(uint32_t number)
{
    switch (number) {
    case BUCHAWZER_ACCEPTED:
        return "accepted";
    case BUCHAWZER_REFUSED_SAMPLE_RATE:
        return "sample rate 0 or above 768,000";
    case BUCHAWZER_REFUSED_CHANNELS:
        return "no channels";
    case BUCHAWZER_REFUSED_FRAME_STEP:
        return "frame rate 0 or above 192,000, hop 0 or above 1,048,576, or a frame shorter than a sample";
    case BUCHAWZER_REFUSED_LISTS:
        return "over 1,048,576 frames, flags not one a frame, levels not one a frame for decibels or not empty for "
            "scores";
    case BUCHAWZER_REFUSED_VALUE:
        return "a score outside 0 to 1, a decibel or level not finite, a flag not 0 or 1, a flag 1 in scores";
    case BUCHAWZER_REFUSED_LENGTH:
        return "length above 2^40, or the frames do not cover it";
    case BUCHAWZER_REFUSED_DURATION:
        return "a duration above 24 hours, target 0, minimum above target, or target above maximum";
    case BUCHAWZER_REFUSED_COUNT:
        return "count 0 or above 1,048,576";
    case BUCHAWZER_REFUSED_RATIO:
        return "placement's ratio outside 0 to 1, or an unknown placement";
    case BUCHAWZER_REFUSED_WEIGHTS:
        return "a weight negative or not finite, fixed cost of a cut or pause reference 0, reference above 24 hours";
    case BUCHAWZER_REFUSED_THRESHOLD:
        return "threshold's number not finite, or an unknown threshold";
    case BUCHAWZER_REFUSED_OUTPUT:
        return "an output list is too short for the answer";
    case BUCHAWZER_REFUSED_WORK:
        return "a work list is too short";
    case BUCHAWZER_REFUSED_PARENT:
        return "by count, the parent list is too short for the path";
    case BUCHAWZER_REFUSED_CANDIDATES:
        return "lent candidates: lists empty, unequal or above 1,048,577";
    case BUCHAWZER_REFUSED_ENDS:
        return "lent candidates: a left end above its right, a right above the next left, an end or the limit above "
            "2^40";
    case BUCHAWZER_REFUSED_COSTS:
        return "a cost or length weight negative or not finite, target outside 2^−40 to 2^60, minimum outside 0 to "
            "2^60";
    case BUCHAWZER_REFUSED_JOB:
        return "no job: above 8,192 bytes or 511 frames, cut short, followed by bytes, or with an unknown bit or "
            "kind; or standard input could not be read";
    default:
        return "unknown refusal";
    }
}

/* What to do about it; empty for 0. */
static inline const char *buchawzer_refusal_advice(uint32_t number)
{
    switch (number) {
    case BUCHAWZER_ACCEPTED:
        return "";
    case BUCHAWZER_REFUSED_SAMPLE_RATE:
        return "give the rate of the sound that was analyzed, in Hz";
    case BUCHAWZER_REFUSED_CHANNELS:
        return "give at least 1";
    case BUCHAWZER_REFUSED_FRAME_STEP:
        return "a frame lasts hop / frame rate seconds: see that the two are not swapped";
    case BUCHAWZER_REFUSED_LISTS:
        return "give every list one entry a frame; cut a longer recording in two, or use longer frames; no job gives "
            "it";
    case BUCHAWZER_REFUSED_VALUE:
        return "look for a NaN in the values; clamp scores; take minus infinity out of decibels and set the frame's "
            "flag";
    case BUCHAWZER_REFUSED_LENGTH:
        return "give the length in samples of one channel, not of all; the last frame must start before its end, and "
            "one frame more would have to end behind it";
    case BUCHAWZER_REFUSED_DURATION:
        return "give nanoseconds, and minimum ≤ target ≤ maximum";
    case BUCHAWZER_REFUSED_COUNT:
        return "ask for 1 to 1,048,576 pieces, or plan by length";
    case BUCHAWZER_REFUSED_RATIO:
        return "give a ratio from 0, the silence's start, to 1, its end";
    case BUCHAWZER_REFUSED_WEIGHTS:
        return "start from the defaults, and change one weight at a time";
    case BUCHAWZER_REFUSED_THRESHOLD:
        return "give a number, or the automatic threshold";
    case BUCHAWZER_REFUSED_OUTPUT:
        return "lend as many entries as the header says at the function (buchawzer_plan_length for a plan); no job "
            "gives it";
    case BUCHAWZER_REFUSED_WORK:
        return "lend 16 × (frames + 1) entries of each type (buchawzer_work_length); no job gives it";
    case BUCHAWZER_REFUSED_PARENT:
        return "lend twice as many, from some thousand on, and call again (buchawzer_parent_length is always enough, "
            "for a path buchawzer_path_parent_length); a job's list has 16,384 entries: ask for fewer pieces, or "
            "use the library";
    case BUCHAWZER_REFUSED_CANDIDATES:
        return "give three lists of one length, with at least one candidate";
    case BUCHAWZER_REFUSED_ENDS:
        return "sort the candidates, and join those that overlap; give the limit in samples";
    case BUCHAWZER_REFUSED_COSTS:
        return "look for a NaN in the costs; give target and minimum in samples, the target above 0";
    case BUCHAWZER_REFUSED_JOB:
        return "look at it by tools/job --show, which names the field and offset where it stops being a job; for "
            "more frames use the library";
    default:
        return "take the header that came with the library";
    }
}

/* What a recording's values are; for `decibels`. */
enum buchawzer_domain {
    BUCHAWZER_DOMAIN_SCORES = 0,
    BUCHAWZER_DOMAIN_DECIBELS = 1
};

/* Where sound starts; for `threshold_kind`. The last two read `threshold`. */
enum buchawzer_threshold {
    BUCHAWZER_THRESHOLD_AUTO = 0,
    BUCHAWZER_THRESHOLD_ABSOLUTE = 1,
    BUCHAWZER_THRESHOLD_BELOW_REFERENCE = 2
};

/* Where a long silence is cut; for `placement_kind`. The last reads `ratio`. */
enum buchawzer_placement {
    BUCHAWZER_PLACEMENT_QUIETEST = 0,
    BUCHAWZER_PLACEMENT_CENTER = 1,
    BUCHAWZER_PLACEMENT_RATIO = 2
};

/* What a cut falls in.
 * - Silence: the own place of a silence that has sound on both sides, or any place inside a silence but for what is kept
 *   of it next to sound (`tail`, `pre`; less is kept where the maximum leaves no room).
 * - Quiet: any other place whose level is 0.25 or less. The level of a place is the mean of the two frames beside it, each
 *   averaged over the 150 ms around it: scores as they are; decibels on a scale from 0, at the 10th percentile of the
 *   frames that have signal, to 1, at their 99th or 20 dB above the 10th, whichever is higher.
 * - Forced: every place that is neither. It says nothing of the lengths of the pieces: such a place is cut where no
 *   other plan is better, by fewer pieces above the maximum or by its cost. */
enum buchawzer_reason {
    BUCHAWZER_REASON_SILENCE = 0,
    BUCHAWZER_REASON_QUIET = 1,
    BUCHAWZER_REASON_FORCED = 2
};

/* A piece's flags, never both. Short: below the minimum, but never the last of several pieces, which is what was left
 * over; a piece that is alone in its plan can be short. Long: above the maximum. */
enum buchawzer_flag {
    BUCHAWZER_FLAG_SHORT = 1,
    BUCHAWZER_FLAG_LONG = 2
};

/* The limits of document 01, with the sample rate's as it was raised since; at the limit is within it. */
#define BUCHAWZER_MOST_SAMPLE_RATE UINT32_C(768000)
#define BUCHAWZER_MOST_FRAME_RATE UINT32_C(192000)
#define BUCHAWZER_MOST_HOP UINT32_C(1048576)
#define BUCHAWZER_MOST_FRAMES UINT64_C(1048576)
#define BUCHAWZER_MOST_LENGTH UINT64_C(1099511627776)
#define BUCHAWZER_MOST_DURATION UINT64_C(86400000000000)
#define BUCHAWZER_MOST_COUNT UINT32_C(1048576)
#define BUCHAWZER_MOST_CANDIDATES UINT64_C(1048577)
#define BUCHAWZER_MOST_JOB_BYTES UINT64_C(8192)
#define BUCHAWZER_MOST_JOB_FRAMES UINT64_C(511)

/* How many bytes the listing of a job may take, and the list for it has to have. */
#define BUCHAWZER_LISTING_BYTES UINT64_C(53702)

/* What a conversion answers outside the limits. */
#define BUCHAWZER_NO_NUMBER UINT64_C(18446744073709551615)
#define BUCHAWZER_NO_FLOAT (-1.0)

/* ---- records */

/* A piece from sample `start` up to `end`, which is not in it, and its flags: those of enum buchawzer_flag. */
struct buchawzer_piece {
    uint64_t start;
    uint64_t end;
    bool too_short;
    bool too_long;
};

/* A cut: where the piece before it ends, where the one after it starts, and an enum buchawzer_reason. */
struct buchawzer_cut {
    uint64_t previous_end;
    uint64_t next_start;
    uint8_t reason;
};

static_assert(sizeof(size_t) == 8 && sizeof(bool) == 1, "the library is for x86-64");
static_assert(sizeof(struct buchawzer_piece) == 24 && sizeof(struct buchawzer_cut) == 24, "as the library has them");

/* ---- the exported functions */

/* Boundary k of the frame grid: floor(k * hop * sample_rate / frame_rate), and the length where k is the number of frames
 * or more. BUCHAWZER_NO_NUMBER where a rate, the hop, the number of frames or the length is outside its limits. */
uint64_t buchawzer_boundary(
    uint32_t sample_rate,
    uint32_t frame_rate,
    uint32_t hop,
    uint64_t len,
    size_t frames,
    size_t k);

/* A duration in whole frames, rounded half up. BUCHAWZER_NO_NUMBER where frame rate or hop is outside its limits or the
 * duration above 24 hours; so for the next two. */
uint64_t buchawzer_frames_in(uint32_t frame_rate, uint32_t hop, uint64_t nanos);

/* The same, rounded up. */
uint64_t buchawzer_frames_ceil(uint32_t frame_rate, uint32_t hop, uint64_t nanos);

/* The same, rounded down. */
uint64_t buchawzer_frames_floor(uint32_t frame_rate, uint32_t hop, uint64_t nanos);

/* A duration in whole samples: nanos * sample_rate / 10^9, rounded down; exact, though the product may be beyond 64 bits.
 * BUCHAWZER_NO_NUMBER where the rate is outside its limits or the duration above 24 hours. */
uint64_t buchawzer_samples_floor(uint32_t sample_rate, uint64_t nanos);

/* A duration in samples: the whole product rounded to the nearest double, then divided by 10^9. BUCHAWZER_NO_FLOAT where
 * the rate is outside its limits or the duration above 24 hours. */
double buchawzer_samples_in(uint32_t sample_rate, uint64_t nanos);

/* A duration in seconds: whole seconds plus (the nanoseconds left / 10^9). BUCHAWZER_NO_FLOAT above 24 hours. */
double buchawzer_seconds(uint64_t nanos);

/* One frame in seconds: hop / frame_rate. BUCHAWZER_NO_FLOAT where either is outside its limits. */
double buchawzer_frame_secs(uint32_t frame_rate, uint32_t hop);

/* Whether so many frames cover the length: the last one starts before its end, and it ends before one frame more would.
 * No frames cover the length 0 alone. false outside the limits. */
bool buchawzer_covers(
    uint32_t sample_rate,
    uint32_t frame_rate,
    uint32_t hop,
    uint64_t len,
    size_t frames);

/* The tests 1 to 6 of a recording: the number of the first that fails, or 0.
 * `values` has a score or a decibel for each frame, `flags` a byte for each, 1 for a frame without signal (all 0 for
 * scores), `levels` for decibels the smoothed level of each frame, and nothing for scores. */
BUCHAWZER_NODISCARD uint32_t buchawzer_validate(
    uint32_t sample_rate,
    uint16_t channels,
    uint32_t frame_rate,
    uint32_t hop,
    uint64_t len,
    bool decibels,
    const float *values,
    size_t values_len,
    const uint8_t *flags,
    size_t flags_len,
    const double *levels,
    size_t levels_len);

/* Whether each byte is 0 or 1, as test 5 asks it of the flags of decibels. true where there is none. */
BUCHAWZER_NODISCARD bool buchawzer_are_flags(const uint8_t *flags, size_t flags_len);

/* The silences of a recording. 0, or 1 to 7, 11, 13, 12 in this order; 7 for its own four durations.
 * With 0 `*count` is the number of silences, and silence i has its first frame at out[2 i] and the frame after its last
 * at out[2 i + 1]. Each work list has at least 16 * (frames + 1) entries, else 13; an output of frames + 1 entries is
 * always long enough. */
BUCHAWZER_NODISCARD uint32_t buchawzer_silence_list(
    uint32_t sample_rate,
    uint16_t channels,
    uint32_t frame_rate,
    uint32_t hop,
    uint64_t len,
    bool decibels,
    const float *values,
    size_t values_len,
    const uint8_t *flags,
    size_t flags_len,
    const double *levels,
    size_t levels_len,
    uint8_t threshold_kind,
    float threshold,
    uint64_t min_silence,
    uint64_t min_sound,
    uint64_t pre,
    uint64_t tail,
    uint32_t *work_u32,
    size_t work_u32_len,
    uint64_t *work_u64,
    size_t work_u64_len,
    double *work_f64,
    size_t work_f64_len,
    uint32_t *out,
    size_t out_len,
    uint64_t *count);

/* The places where a plan may cut, before any are added. 0, or 1 to 11, 13, 12 in this order.
 * With 0 `*found` is the number of candidates; candidate i has its left frame boundary at ends[3 i], its right one at
 * ends[3 i + 1], its reason at ends[3 i + 2] and its cost at costs[i]. Work lists as for the silences; 3 * (frames + 1)
 * entries of `ends` and frames + 1 of `costs` are always enough. The settings are those of a plan. */
BUCHAWZER_NODISCARD uint32_t buchawzer_candidates(
    uint32_t sample_rate,
    uint16_t channels,
    uint32_t frame_rate,
    uint32_t hop,
    uint64_t len,
    bool decibels,
    const float *values,
    size_t values_len,
    const uint8_t *flags,
    size_t flags_len,
    const double *levels,
    size_t levels_len,
    uint8_t threshold_kind,
    float threshold,
    uint64_t min_silence,
    uint64_t min_sound,
    uint64_t pre,
    uint64_t tail,
    uint64_t min,
    uint64_t target,
    uint64_t max,
    bool by_count,
    uint32_t count,
    bool drop_gaps,
    uint8_t placement_kind,
    float ratio,
    double cut,
    double level,
    double pause,
    uint64_t pause_ref,
    double target_weight,
    double short_weight,
    uint32_t *work_u32,
    size_t work_u32_len,
    uint64_t *work_u64,
    size_t work_u64_len,
    double *work_f64,
    size_t work_f64_len,
    uint32_t *ends,
    size_t ends_len,
    double *costs,
    size_t costs_len,
    uint64_t *found);

/* The best path over candidates that the caller lends. 0, or 15, 16, 17, 8 (by count), 13, 14 (by count), 12 in this order.
 * Candidate i lies from left[i] to right[i] and costs cost[i]; all three lists have one entry for each. `limit` is the
 * longest piece that is wanted; `count` is read by count alone.
 * With 0 `*length` candidates stand at the front of `path`, by their indices from the first candidate to the last; `*over`
 * is the number of pieces above the limit and `*score_cost` the cost. No path has a lower score, over first and then cost.
 * Each work list has at least 16 entries for each candidate, else 13; by count the parent list has pieces * candidates,
 * else 14, where pieces is the lesser of the count and candidates - 1. A path has at most one entry for each candidate.
 * A longer limit gives no worse a path: of two calls that differ in `limit` alone, and in what their lists hold, and both
 * answer 0, the one with the longer limit has the lower score or the same, over first and then cost. Where the first
 * answers 0, so does the second with a limit up to 2^40 and lists no shorter; by length the path may have more
 * candidates, so lend an entry for each, else 12 may come. */
BUCHAWZER_NODISCARD uint32_t buchawzer_path(
    const uint64_t *left,
    size_t left_len,
    const uint64_t *right,
    size_t right_len,
    const double *cost,
    size_t cost_len,
    double min,
    double target,
    uint64_t limit,
    double target_weight,
    double short_weight,
    bool by_count,
    uint32_t count,
    uint32_t *work_u32,
    size_t work_u32_len,
    uint64_t *work_u64,
    size_t work_u64_len,
    double *work_f64,
    size_t work_f64_len,
    uint32_t *parent,
    size_t parent_len,
    uint32_t *path,
    size_t path_len,
    uint64_t *length,
    uint32_t *over,
    double *score_cost);

/* The plan of a recording: its pieces and cuts. 0, or 1 to 11, 13, 14, 12 in this order.
 * With 0 `*found` is the number of pieces, n. Piece i has its start at pieces[3 i], its end at pieces[3 i + 1] and its
 * flags at pieces[3 i + 2]; the cut after it has the end of piece i at cuts[3 i], the start of the next at cuts[3 i + 1]
 * and its reason at cuts[3 i + 2]. There are n - 1 cuts, or none where the plan is empty. 3 * frames entries are enough
 * for either list.
 * Each work list has at least 16 * (frames + 1) entries, else 13. By length the parent list may be empty. By count
 * (frames + 1) entries for each of the lesser of count and frames are always enough, else 14 may come. That is 288 MB
 * for an hour at 100 frames a second by count 200. A path wants an entry for each piece and candidate, and as a rule there
 * are far fewer candidates than frames: the hour of examples/by_count.c, of 10 frames a second in 60 pieces, does with
 * 1 MB, where 8.6 MB are always enough. To lend less, start small and double the list on 14, as it does, up to the number
 * that is always enough: nothing is lost by a refusal but its time. With lists of all these lengths a call is refused by
 * a test of the recording or the settings alone, 1 to 11.
 * By count, set the maximum well above length / count. The maximum comes before every cost. Near length / count it
 * allows pieces of nearly one length only; below, the longest piece is made as short as it can be (demand 3 in README.md),
 * which comes to the same. Cuts then fall where the lengths put them: the hour of examples/by_count.c in 60 pieces has 48
 * forced cuts of 59 under the default maximum of 30 s, 22 under 61 s, and none under 65 s.
 * Raising the maximum makes new candidates, so that the plan may cost more, by length and by count: what buchawzer_path
 * promises of a longer limit is for the same candidates. */
BUCHAWZER_NODISCARD uint32_t buchawzer_plan(
    uint32_t sample_rate,
    uint16_t channels,
    uint32_t frame_rate,
    uint32_t hop,
    uint64_t len,
    bool decibels,
    const float *values,
    size_t values_len,
    const uint8_t *flags,
    size_t flags_len,
    const double *levels,
    size_t levels_len,
    uint8_t threshold_kind,
    float threshold,
    uint64_t min_silence,
    uint64_t min_sound,
    uint64_t pre,
    uint64_t tail,
    uint64_t min,
    uint64_t target,
    uint64_t max,
    bool by_count,
    uint32_t count,
    bool drop_gaps,
    uint8_t placement_kind,
    float ratio,
    double cut,
    double level,
    double pause,
    uint64_t pause_ref,
    double target_weight,
    double short_weight,
    uint32_t *work_u32,
    size_t work_u32_len,
    uint64_t *work_u64,
    size_t work_u64_len,
    double *work_f64,
    size_t work_f64_len,
    uint32_t *parent,
    size_t parent_len,
    uint64_t *pieces,
    size_t pieces_len,
    uint64_t *cuts,
    size_t cuts_len,
    uint64_t *found);

/* Records of the pieces that buchawzer_plan wrote: record i of numbers[3 i] to numbers[3 i + 2]. `numbers_len` is
 * 3 * found, 0 if there are none, and not the length of the whole list. 0, or 12 where `records` has fewer than
 * numbers_len / 3 entries; then nothing is written. Records beyond are untouched.
 * Both bools of every lent record must be 0 or 1 before the call, as zeroed memory has them (calloc, static, memset): what
 * malloc or the stack leaves there may be neither. This is not tested and must hold; nor may `records` be NULL, also where
 * calloc failed. */
BUCHAWZER_NODISCARD uint32_t buchawzer_piece_records(
    const uint64_t *numbers,
    size_t numbers_len,
    struct buchawzer_piece *records,
    size_t records_len);

/* The same for the cuts: `numbers_len` is 3 * (found - 1), and 0 where found is 0. A cut's record has no bool, so that it
 * may hold anything before the call. */
BUCHAWZER_NODISCARD uint32_t buchawzer_cut_records(
    const uint64_t *numbers,
    size_t numbers_len,
    struct buchawzer_cut *records,
    size_t records_len);

/* The listing of a job, as the program cutplan prints it: its bytes at the front of `listing`, and their number. A job of 0
 * bytes is an empty recording and gives `plan 0 0`; `job` is not NULL then either. A job that is refused, 19 for other bytes
 * that are no job, gives the line `refused` with its number. 0, and nothing is written, where `listing` has fewer than
 * BUCHAWZER_LISTING_BYTES bytes. No NUL ends the listing. */
BUCHAWZER_NODISCARD uint64_t buchawzer_cutplan(
    const uint8_t *job,
    size_t job_len,
    uint8_t *listing,
    size_t listing_len);

/* Sets every entry of the three lists to 0, as each operation does at its end. */
void buchawzer_clear_work(
    uint32_t *work_u32,
    size_t work_u32_len,
    uint64_t *work_u64,
    size_t work_u64_len,
    double *work_f64,
    size_t work_f64_len);

/* ---- the same calls with named fields */

/* A recording. The lists belong to the caller. */
struct buchawzer_recording {
    uint32_t sample_rate;
    uint16_t channels;
    uint32_t frame_rate; /* a frame lasts hop / frame_rate seconds */
    uint32_t hop;
    uint64_t len; /* in samples */
    bool decibels;
    size_t frames;
    const float *values;  /* one a frame */
    const uint8_t *flags; /* one a frame, else 4; all 0 for scores, and not NULL */
    const double *levels; /* one a frame for decibels; not read for scores */
};

/* How silences are found, what lengths are wanted, and what a cut costs. Fields as the parameters of buchawzer_plan.
 * By count, set `max` well above length / count, else cuts may be forced: see buchawzer_plan. `target` is then tested
 * and not used. */
struct buchawzer_settings {
    uint8_t threshold_kind;
    float threshold;
    uint64_t min_silence;
    uint64_t min_sound;
    uint64_t pre;  /* silence that is kept before sound */
    uint64_t tail; /* and after it */
    uint64_t min;
    uint64_t target;
    uint64_t max;
    bool by_count;
    uint32_t count;
    bool drop_gaps; /* whether the middle of a silence at a cut is left out */
    uint8_t placement_kind;
    float ratio;
    double cut;
    double level;
    double pause;
    uint64_t pause_ref;
    double target_weight;
    double short_weight;
};

/* Work memory. NULL where a list is not needed. */
struct buchawzer_work {
    uint32_t *u32s;
    size_t u32s_len;
    uint64_t *u64s;
    size_t u64s_len;
    double *f64s;
    size_t f64s_len;
    uint32_t *parent;
    size_t parent_len;
};

/* Where a plan goes, and the number of its pieces. */
struct buchawzer_plan_output {
    uint64_t *pieces;
    size_t pieces_len;
    uint64_t *cuts;
    size_t cuts_len;
    uint64_t found;
};

/* Where candidates go, and their number. */
struct buchawzer_candidates_output {
    uint32_t *ends;
    size_t ends_len;
    double *costs;
    size_t costs_len;
    uint64_t found;
};

/* Candidates that are lent for a path, one entry of each list for each. */
struct buchawzer_lent_candidates {
    size_t candidates;
    const uint64_t *left;
    const uint64_t *right;
    const double *cost;
};

/* What a path's pieces should be like. */
struct buchawzer_preferences {
    double min;
    double target;
    uint64_t limit;
    double target_weight;
    double short_weight;
    bool by_count;
    uint32_t count;
};

/* Where a path goes, how many candidates it has, and its score. */
struct buchawzer_path_output {
    uint32_t *path;
    size_t path_len;
    uint64_t length;
    uint32_t over;
    double score_cost;
};

/* The Rust's defaults, with 5, 15 and 30 seconds, by length. */
static inline struct buchawzer_settings buchawzer_default_settings(void)
{
    struct buchawzer_settings s;
    s.threshold_kind = BUCHAWZER_THRESHOLD_AUTO;
    s.threshold = 0.0f;
    s.min_silence = UINT64_C(250000000);
    s.min_sound = UINT64_C(100000000);
    s.pre = UINT64_C(100000000);
    s.tail = UINT64_C(200000000);
    s.min = UINT64_C(5000000000);
    s.target = UINT64_C(15000000000);
    s.max = UINT64_C(30000000000);
    s.by_count = false;
    s.count = 0;
    s.drop_gaps = false;
    s.placement_kind = BUCHAWZER_PLACEMENT_QUIETEST;
    s.ratio = 0.0f;
    s.cut = 0.1;
    s.level = 1.0;
    s.pause = 1.0;
    s.pause_ref = UINT64_C(500000000);
    s.target_weight = 1.0;
    s.short_weight = 4.0;
    return s;
}

/* How many entries are enough, for so many frames, at most BUCHAWZER_MOST_FRAMES (more are refused by 4, and the products
 * below may wrap): each work list; silences; `ends` and `costs` of candidates; pieces and cuts of a plan, each; the parent
 * list of a plan by count, which as a rule does with far fewer (see buchawzer_plan). */
static inline size_t buchawzer_work_length(size_t frames)
{
    return 16 * (frames + 1);
}

static inline size_t buchawzer_silences_length(size_t frames)
{
    return frames + 1;
}

static inline size_t buchawzer_ends_length(size_t frames)
{
    return 3 * (frames + 1);
}

static inline size_t buchawzer_costs_length(size_t frames)
{
    return frames + 1;
}

static inline size_t buchawzer_plan_length(size_t frames)
{
    return 3 * frames;
}

/* For so many lent candidates, from 1 to BUCHAWZER_MOST_CANDIDATES: each work list, and the parent list of a path by count. */
static inline size_t buchawzer_path_work_length(size_t candidates)
{
    return 16 * candidates;
}

static inline size_t buchawzer_path_parent_length(size_t candidates, uint32_t count)
{
    return (count < candidates - 1 ? count : candidates - 1) * candidates;
}

static inline size_t buchawzer_parent_length(size_t frames, uint32_t count)
{
    return buchawzer_path_parent_length(frames + 1, count);
}

/* How many entries of a list go over: none where it is NULL, whatever number stands beside it. */
static inline size_t buchawzer_lent_length(const void *list, size_t length)
{
    return list ? length : 0;
}

/* An address for a list that may be NULL: nothing is read or written there, since its length goes over as 0. */
static inline const void *buchawzer_lent(const void *list)
{
    static const uint64_t none = 0;
    return list ? list : &none;
}

static inline void *buchawzer_lent_to_write(void *list)
{
    static uint64_t none = 0;
    return list ? list : &none;
}

/* buchawzer_validate of a recording. */
BUCHAWZER_NODISCARD static inline uint32_t buchawzer_validate_recording(const struct buchawzer_recording *r)
{
    return buchawzer_validate(
        r->sample_rate, r->channels, r->frame_rate, r->hop, r->len, r->decibels,
        (const float *)buchawzer_lent(r->values), buchawzer_lent_length(r->values, r->frames),
        (const uint8_t *)buchawzer_lent(r->flags), buchawzer_lent_length(r->flags, r->frames),
        (const double *)buchawzer_lent(r->levels), buchawzer_lent_length(r->levels, r->decibels ? r->frames : 0));
}

/* buchawzer_silence_list of a recording. */
BUCHAWZER_NODISCARD static inline uint32_t buchawzer_find_silences(
    const struct buchawzer_recording *r,
    const struct buchawzer_settings *s,
    const struct buchawzer_work *work,
    uint32_t *out,
    size_t out_len,
    uint64_t *count)
{
    return buchawzer_silence_list(
        r->sample_rate, r->channels, r->frame_rate, r->hop, r->len, r->decibels,
        (const float *)buchawzer_lent(r->values), buchawzer_lent_length(r->values, r->frames),
        (const uint8_t *)buchawzer_lent(r->flags), buchawzer_lent_length(r->flags, r->frames),
        (const double *)buchawzer_lent(r->levels), buchawzer_lent_length(r->levels, r->decibels ? r->frames : 0),
        s->threshold_kind, s->threshold, s->min_silence, s->min_sound, s->pre, s->tail,
        (uint32_t *)buchawzer_lent_to_write(work->u32s), buchawzer_lent_length(work->u32s, work->u32s_len),
        (uint64_t *)buchawzer_lent_to_write(work->u64s), buchawzer_lent_length(work->u64s, work->u64s_len),
        (double *)buchawzer_lent_to_write(work->f64s), buchawzer_lent_length(work->f64s, work->f64s_len),
        (uint32_t *)buchawzer_lent_to_write(out), buchawzer_lent_length(out, out_len), count);
}

/* buchawzer_candidates of a recording. */
BUCHAWZER_NODISCARD static inline uint32_t buchawzer_find_candidates(
    const struct buchawzer_recording *r,
    const struct buchawzer_settings *s,
    const struct buchawzer_work *work,
    struct buchawzer_candidates_output *out)
{
    return buchawzer_candidates(
        r->sample_rate, r->channels, r->frame_rate, r->hop, r->len, r->decibels,
        (const float *)buchawzer_lent(r->values), buchawzer_lent_length(r->values, r->frames),
        (const uint8_t *)buchawzer_lent(r->flags), buchawzer_lent_length(r->flags, r->frames),
        (const double *)buchawzer_lent(r->levels), buchawzer_lent_length(r->levels, r->decibels ? r->frames : 0),
        s->threshold_kind, s->threshold, s->min_silence, s->min_sound, s->pre, s->tail,
        s->min, s->target, s->max, s->by_count, s->count, s->drop_gaps, s->placement_kind, s->ratio,
        s->cut, s->level, s->pause, s->pause_ref, s->target_weight, s->short_weight,
        (uint32_t *)buchawzer_lent_to_write(work->u32s), buchawzer_lent_length(work->u32s, work->u32s_len),
        (uint64_t *)buchawzer_lent_to_write(work->u64s), buchawzer_lent_length(work->u64s, work->u64s_len),
        (double *)buchawzer_lent_to_write(work->f64s), buchawzer_lent_length(work->f64s, work->f64s_len),
        (uint32_t *)buchawzer_lent_to_write(out->ends), buchawzer_lent_length(out->ends, out->ends_len),
        (double *)buchawzer_lent_to_write(out->costs), buchawzer_lent_length(out->costs, out->costs_len), &out->found);
}

/* buchawzer_path over lent candidates. */
BUCHAWZER_NODISCARD static inline uint32_t buchawzer_find_path(
    const struct buchawzer_lent_candidates *c,
    const struct buchawzer_preferences *p,
    const struct buchawzer_work *work,
    struct buchawzer_path_output *out)
{
    return buchawzer_path(
        (const uint64_t *)buchawzer_lent(c->left), buchawzer_lent_length(c->left, c->candidates),
        (const uint64_t *)buchawzer_lent(c->right), buchawzer_lent_length(c->right, c->candidates),
        (const double *)buchawzer_lent(c->cost), buchawzer_lent_length(c->cost, c->candidates),
        p->min, p->target, p->limit, p->target_weight, p->short_weight, p->by_count, p->count,
        (uint32_t *)buchawzer_lent_to_write(work->u32s), buchawzer_lent_length(work->u32s, work->u32s_len),
        (uint64_t *)buchawzer_lent_to_write(work->u64s), buchawzer_lent_length(work->u64s, work->u64s_len),
        (double *)buchawzer_lent_to_write(work->f64s), buchawzer_lent_length(work->f64s, work->f64s_len),
        (uint32_t *)buchawzer_lent_to_write(work->parent), buchawzer_lent_length(work->parent, work->parent_len),
        (uint32_t *)buchawzer_lent_to_write(out->path), buchawzer_lent_length(out->path, out->path_len),
        &out->length, &out->over, &out->score_cost);
}

/* buchawzer_plan of a recording. */
BUCHAWZER_NODISCARD static inline uint32_t buchawzer_make_plan(
    const struct buchawzer_recording *r,
    const struct buchawzer_settings *s,
    const struct buchawzer_work *work,
    struct buchawzer_plan_output *out)
{
    return buchawzer_plan(
        r->sample_rate, r->channels, r->frame_rate, r->hop, r->len, r->decibels,
        (const float *)buchawzer_lent(r->values), buchawzer_lent_length(r->values, r->frames),
        (const uint8_t *)buchawzer_lent(r->flags), buchawzer_lent_length(r->flags, r->frames),
        (const double *)buchawzer_lent(r->levels), buchawzer_lent_length(r->levels, r->decibels ? r->frames : 0),
        s->threshold_kind, s->threshold, s->min_silence, s->min_sound, s->pre, s->tail,
        s->min, s->target, s->max, s->by_count, s->count, s->drop_gaps, s->placement_kind, s->ratio,
        s->cut, s->level, s->pause, s->pause_ref, s->target_weight, s->short_weight,
        (uint32_t *)buchawzer_lent_to_write(work->u32s), buchawzer_lent_length(work->u32s, work->u32s_len),
        (uint64_t *)buchawzer_lent_to_write(work->u64s), buchawzer_lent_length(work->u64s, work->u64s_len),
        (double *)buchawzer_lent_to_write(work->f64s), buchawzer_lent_length(work->f64s, work->f64s_len),
        (uint32_t *)buchawzer_lent_to_write(work->parent), buchawzer_lent_length(work->parent, work->parent_len),
        (uint64_t *)buchawzer_lent_to_write(out->pieces), buchawzer_lent_length(out->pieces, out->pieces_len),
        (uint64_t *)buchawzer_lent_to_write(out->cuts), buchawzer_lent_length(out->cuts, out->cuts_len), &out->found);
}

#ifdef __cplusplus
}
#endif

#endif
