/* The frame grid. A record is eight words of 64 bits: the subject, six arguments, and the answer, a float as its
 * bits. */
#include "../include/buchawzer.h"
#include "numbers.h"
#include "sample.h"

#define RECORD 64

static size_t size(const unsigned char *r, size_t left)
{
    (void)r;
    (void)left;
    return RECORD;
}

/* Asks the library what a record asks; false where there is no such subject. */
static bool ask(const unsigned char *r, uint64_t *answer)
{
    uint64_t a = u64_at(r, 8), b = u64_at(r, 16), c = u64_at(r, 24);
    uint64_t d = u64_at(r, 32), e = u64_at(r, 40), f = u64_at(r, 48);
    uint32_t a32 = (uint32_t)a, b32 = (uint32_t)b, c32 = (uint32_t)c;
    switch (u64_at(r, 0)) {
    case 0: *answer = buchawzer_boundary(a32, b32, c32, d, e, f); break;
    case 1: *answer = buchawzer_frames_in(a32, b32, c); break;
    case 2: *answer = buchawzer_frames_ceil(a32, b32, c); break;
    case 3: *answer = buchawzer_frames_floor(a32, b32, c); break;
    case 4: *answer = buchawzer_samples_floor(a32, b); break;
    case 5: *answer = bits_of(buchawzer_samples_in(a32, b)); break;
    case 6: *answer = bits_of(buchawzer_seconds(a)); break;
    case 7: *answer = bits_of(buchawzer_frame_secs(a32, b32)); break;
    case 8: *answer = buchawzer_covers(a32, b32, c32, d, e) ? BUCHAWZER_ACCEPTED : BUCHAWZER_REFUSED_LENGTH; break;
    default: return false;
    }
    return true;
}

static const char *difference(const unsigned char *r, struct lent *l)
{
    uint64_t answer;
    (void)l;
    if (!ask(r, &answer))
        return "the subject";
    return answer == u64_at(r, 56) ? NULL : "the answer";
}

const struct sample grid = {"grid", size, difference};
