/* The candidates. The front goes on from byte 164, of 32 bits each: the refusal, 0 where there is none, and the
 * number of candidates. Behind it the recording's lists; left boundary, right boundary and reason of each candidate,
 * of 32 bits each; and their costs. */
#include "front.h"
#include "numbers.h"
#include "sample.h"

#define FRONT (SETTINGS_BYTES + 8)
#define MOST_FRAMES 40
#define MOST_CANDIDATES 42

/* More work memory than most records need, and more room than they have candidates: all of it is looked at. */
#define WORK (16 * (MOST_FRAMES + 1))
#define ENDS 128
#define COSTS 44

static size_t size(const unsigned char *r, size_t left)
{
    if (left < FRONT || u32_at(r, 0) > MOST_FRAMES || !domain_known(r) || u32_at(r, 168) > MOST_CANDIDATES)
        return 0;
    return FRONT + recording_lists_bytes(r) + 20 * u32_at(r, 168);
}

static const char *difference(const unsigned char *r, struct lent *l)
{
    uint32_t refusal = u32_at(r, 164), found = u32_at(r, 168);
    const unsigned char *ends = r + FRONT + recording_lists_bytes(r);
    struct buchawzer_recording recording = recording_in(r, r + FRONT, l);
    struct buchawzer_settings settings = settings_in(r);
    struct buchawzer_work work = work_lent(l, WORK, clears_work(refusal));
    struct buchawzer_candidates_output want, *out;
    out = lend_output(l, "the number of candidates", sizeof *out, &want, sizeof want);
    *out = (struct buchawzer_candidates_output){
        .ends = lend_output(l, "ends", 4 * ENDS, ends, 12 * found),
        .ends_len = ENDS,
        .costs = lend_output(l, "costs", 8 * COSTS, ends + 12 * found, 8 * found),
        .costs_len = COSTS,
        .found = UNTOUCHED,
    };
    want = *out;
    if (refusal == BUCHAWZER_ACCEPTED)
        want.found = found;
    if (buchawzer_find_candidates(&recording, &settings, &work, out) != refusal)
        return "the refusal";
    return left_otherwise(l);
}

const struct sample candidates = {"candidates", size, difference};
