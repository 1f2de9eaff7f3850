/* The plan. The front goes on from byte 164, of 32 bits each: the refusal, 0 where there is none; pieces and cuts of
 * the plan, none where it was refused; entries of each work list, of the parent list, of the list for pieces and of
 * that for cuts. Behind it the recording's lists; start, end and flags of each piece, and previous end, next start
 * and reason of each cut, of 64 bits each. */
#include "front.h"
#include "numbers.h"
#include "sample.h"

#define FRONT (SETTINGS_BYTES + 28)
#define MOST_FRAMES 30
#define MOST_WORK (16 * (MOST_FRAMES + 1))
#define MOST_PARENTS (MOST_FRAMES * (MOST_FRAMES + 1))
#define MOST_ROOM 96

/* Domain, mode and gaps are 0 or 1 each. */
static bool known(const unsigned char *r)
{
    return domain_known(r) && u32_at(r, 96) <= 1 && u32_at(r, 104) <= 1;
}

/* No list is longer than any record's, and the plan no longer than the lists that are lent for it. */
static bool fit(const unsigned char *r)
{
    return u32_at(r, 0) <= MOST_FRAMES && u32_at(r, 176) <= MOST_WORK && u32_at(r, 180) <= MOST_PARENTS
        && u32_at(r, 184) <= MOST_ROOM && u32_at(r, 188) <= MOST_ROOM
        && u32_at(r, 168) <= u32_at(r, 184) / 3 && u32_at(r, 172) <= u32_at(r, 188) / 3;
}

static size_t size(const unsigned char *r, size_t left)
{
    if (left < FRONT || !known(r) || !fit(r))
        return 0;
    return FRONT + recording_lists_bytes(r) + 24 * u32_at(r, 168) + 24 * u32_at(r, 172);
}

static const char *difference(const unsigned char *r, struct lent *l)
{
    uint32_t refusal = u32_at(r, 164), pieces = u32_at(r, 168), cuts = u32_at(r, 172);
    const unsigned char *stored = r + FRONT + recording_lists_bytes(r);
    struct buchawzer_recording recording = recording_in(r, r + FRONT, l);
    struct buchawzer_settings settings = settings_in(r);
    struct buchawzer_work work = work_lent(l, u32_at(r, 176), clears_work(refusal));
    work.parent_len = u32_at(r, 180);
    work.parent = lend_work(l, "parent", 4 * work.parent_len, clears_work(refusal));
    struct buchawzer_plan_output want, *out;
    out = lend_output(l, "the number of pieces", sizeof *out, &want, sizeof want);
    *out = (struct buchawzer_plan_output){
        .pieces = lend_output(l, "pieces", 8 * u32_at(r, 184), stored, 24 * pieces),
        .pieces_len = u32_at(r, 184),
        .cuts = lend_output(l, "cuts", 8 * u32_at(r, 188), stored + 24 * pieces, 24 * cuts),
        .cuts_len = u32_at(r, 188),
        .found = UNTOUCHED,
    };
    want = *out;
    if (refusal == BUCHAWZER_ACCEPTED)
        want.found = pieces;
    if (buchawzer_make_plan(&recording, &settings, &work, out) != refusal)
        return "the refusal";
    return left_otherwise(l);
}

const struct sample plan = {"plan", size, difference};
