/* The silences. Behind the front the recording's lists; then the number of silences, and first frame and frame after
 * the last of each, of 32 bits each. Every record is accepted. */
#include "front.h"
#include "numbers.h"
#include "sample.h"

#define MOST_FRAMES 60
#define MOST_SILENCES 30

/* More work memory than most records need, and more room than they have silences: all of it is looked at. */
#define WORK (16 * (MOST_FRAMES + 1))
#define ROOM 64

static size_t size(const unsigned char *r, size_t left)
{
    if (left < RECORDING_BYTES || u32_at(r, 0) > MOST_FRAMES || !domain_known(r))
        return 0;
    size_t after = RECORDING_BYTES + recording_lists_bytes(r);
    if (left < after + 4 || u32_at(r, after) > MOST_SILENCES)
        return 0;
    return after + 4 + 8 * u32_at(r, after);
}

static const char *difference(const unsigned char *r, struct lent *l)
{
    const unsigned char *after = r + RECORDING_BYTES + recording_lists_bytes(r);
    uint64_t found = u32_at(after, 0);
    struct buchawzer_recording recording = recording_in(r, r + RECORDING_BYTES, l);
    struct buchawzer_settings settings = segment_in(r);
    struct buchawzer_work work = work_lent(l, WORK, true);
    uint32_t *out = lend_output(l, "silences", 4 * ROOM, after + 4, 8 * found);
    uint64_t *count = lend_output(l, "the number of silences", sizeof *count, &found, sizeof found);
    if (buchawzer_find_silences(&recording, &settings, &work, out, ROOM, count) != BUCHAWZER_ACCEPTED)
        return "the refusal";
    return left_otherwise(l);
}

const struct sample silences = {"silences", size, difference};
