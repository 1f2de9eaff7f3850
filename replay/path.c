/* The path over lent candidates. The front has, from byte 0 on, of 32 bits each: candidates, 0 by length or 1 by
 * count, count, candidates on the path, pieces over the limit; from byte 20 on, of 64 bits each: limit, and as floats
 * min, target, target weight, short weight, cost of the path. Behind it the left ends, right ends and costs of the
 * candidates, of 64 bits each, and the path, of 32 bits each. Every record is accepted. */
#include "front.h"
#include "numbers.h"
#include "sample.h"

#define FRONT 68
#define MOST_CANDIDATES 12

/* More work memory than most records need, and parents for the most pieces: all of it is looked at. */
#define WORK (16 * MOST_CANDIDATES)
#define PARENTS ((MOST_CANDIDATES - 1) * MOST_CANDIDATES)

static size_t size(const unsigned char *r, size_t left)
{
    if (left < FRONT || u32_at(r, 0) > MOST_CANDIDATES || u32_at(r, 4) > 1 || u32_at(r, 12) > MOST_CANDIDATES)
        return 0;
    return FRONT + 24 * u32_at(r, 0) + 4 * u32_at(r, 12);
}

static struct buchawzer_lent_candidates candidates_in(const unsigned char *r, struct lent *l)
{
    size_t n = u32_at(r, 0);
    return (struct buchawzer_lent_candidates){
        .candidates = n,
        .left = lend_input(l, "left", r + FRONT, 8 * n),
        .right = lend_input(l, "right", r + FRONT + 8 * n, 8 * n),
        .cost = lend_input(l, "cost", r + FRONT + 16 * n, 8 * n),
    };
}

static struct buchawzer_preferences preferences_in(const unsigned char *r)
{
    return (struct buchawzer_preferences){
        .min = f64_at(r, 28),
        .target = f64_at(r, 36),
        .limit = u64_at(r, 20),
        .target_weight = f64_at(r, 44),
        .short_weight = f64_at(r, 52),
        .by_count = u32_at(r, 4) == 1,
        .count = u32_at(r, 8),
    };
}

static const char *difference(const unsigned char *r, struct lent *l)
{
    struct buchawzer_lent_candidates lent = candidates_in(r, l);
    struct buchawzer_preferences preferences = preferences_in(r);
    struct buchawzer_work work = work_lent(l, WORK, true);
    work.parent = lend_work(l, "parent", 4 * PARENTS, true);
    work.parent_len = PARENTS;
    struct buchawzer_path_output want, *out;
    out = lend_output(l, "the length of the path, or its score", sizeof *out, &want, sizeof want);
    out->path = lend_output(l, "path", 4 * MOST_CANDIDATES, r + FRONT + 24 * lent.candidates, 4 * u32_at(r, 12));
    out->path_len = MOST_CANDIDATES;
    memcpy(&want, out, sizeof want); /* with what stands between its fields */
    want.length = u32_at(r, 12);
    want.over = u32_at(r, 16);
    want.score_cost = f64_at(r, 60);
    if (buchawzer_find_path(&lent, &preferences, &work, out) != BUCHAWZER_ACCEPTED)
        return "the refusal";
    return left_otherwise(l);
}

const struct sample path = {"path", size, difference};
