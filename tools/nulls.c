/* Every inline function of the header that takes lists, with NULL in the place of each list, one at a time, while the
 * length beside it stays. Looks at the answer and at all lists afterwards. Built and run by tools/nulls.
 *
 *   nulls          every trial
 *   nulls NUMBER   one of them, from 0 on; status 3 where there is none of that number, 4 where no NULL would go over
 */
#include <stdio.h>
#include <stdlib.h>
#include <string.h>

#include "buchawzer.h"

/* More bytes in every list than any small object has that could stand in for a missing one. */
#define FRAMES 14
#define CANDIDATES 4
#define COUNT 2

enum function { VALIDATE, SILENCES, CANDIDATE_LIST, PATH, PLAN, FUNCTIONS };
static const char *const function_names[] = {
    "validate_recording", "find_silences", "find_candidates", "find_path", "make_plan"};

/* OUT and OUT_TOO are what a function writes: silences; ends and costs; a path; pieces and cuts. */
enum list { VALUES, FLAGS, LEVELS, LEFT, RIGHT, COST, U32S, U64S, F64S, PARENT, OUT, OUT_TOO, LISTS };
static const char *const list_names[] = {"values", "flags", "levels", "left", "right", "cost", "u32s", "u64s", "f64s",
    "parent", "the first output", "the second output", "no list", "every list"};

/* Document 01's recording R twice over, as scores and as decibels, and its list of candidates L. */
static const float scores[FRAMES] = {1, 1, 0, 0, 0, 1, 1, 1, 1, 0, 0, 0, 1, 1};
static const float decibels[FRAMES] = {-20, -20, -80, -80, -80, -20, -20, -20, -20, -80, -80, -80, -20, -20};
static const uint8_t flags[FRAMES] = {0};
static const double levels[FRAMES] = {-20, -20, -80, -80, -80, -20, -20, -20, -20, -80, -80, -80, -20, -20};
static const uint64_t ends[CANDIDATES] = {0, 100, 200, 300};
static const double costs[CANDIDATES] = {0, 0.5, 0.5, 0};

struct trial {
    enum function function;
    bool decibels;
    bool by_count;
    int missing; /* an enum list; LISTS for none, LISTS + 1 for all */
};

/* What a call is lent: memory of each list, how much, what it held before; and the numbers that a call writes. */
struct lent {
    unsigned char *memory[LISTS];
    unsigned char *before[LISTS];
    size_t bytes[LISTS];
    uint64_t found;
    uint32_t over;
    double score_cost;
};

#define MARK 0x5a
#define MARKED_FOUND 77
#define MARKED_OVER 78
#define MARKED_COST 79.5

/* ---- lists */

static bool is_work(int list)
{
    return U32S <= list && list <= PARENT;
}

static bool is_output(int list)
{
    return list == OUT || list == OUT_TOO;
}

static bool of_recording(int list)
{
    return list <= LEVELS;
}

static bool of_candidates(int list)
{
    return LEFT <= list && list <= COST;
}

/* Whether the function's structs have this list. */
static bool has(enum function f, int list)
{
    if (of_recording(list))
        return f != PATH;
    if (of_candidates(list))
        return f == PATH;
    if (is_work(list))
        return f != VALIDATE;
    return list == OUT ? f != VALIDATE : f == CANDIDATE_LIST || f == PLAN;
}

/* Whether it is handed to the library: levels of scores are not, and parents only to what seeks a path. */
static bool goes_over(const struct trial *t, int list)
{
    if (list == LEVELS && !t->decibels)
        return false;
    if (list == PARENT && t->function != PATH && t->function != PLAN)
        return false;
    return has(t->function, list);
}

static bool is_missing(const struct trial *t, int list)
{
    return t->missing == list || t->missing > LISTS;
}

static size_t entries(enum function f, int list)
{
    switch (list) {
    case VALUES: case FLAGS: case LEVELS:
        return FRAMES;
    case LEFT: case RIGHT: case COST:
        return CANDIDATES;
    case PARENT:
        return f == PATH ? buchawzer_path_parent_length(CANDIDATES, COUNT) : buchawzer_parent_length(FRAMES, COUNT);
    case OUT:
        return f == SILENCES ? buchawzer_silences_length(FRAMES) : f == CANDIDATE_LIST ? buchawzer_ends_length(FRAMES)
            : f == PATH ? CANDIDATES : buchawzer_plan_length(FRAMES);
    case OUT_TOO:
        return f == CANDIDATE_LIST ? buchawzer_costs_length(FRAMES) : buchawzer_plan_length(FRAMES);
    default:
        return f == PATH ? buchawzer_path_work_length(CANDIDATES) : buchawzer_work_length(FRAMES);
    }
}

static size_t entry_size(enum function f, int list)
{
    switch (list) {
    case FLAGS:
        return 1;
    case VALUES: case U32S: case PARENT:
        return 4;
    case OUT:
        return f == PLAN ? 8 : 4;
    default:
        return 8;
    }
}

static const void *content(const struct trial *t, int list)
{
    switch (list) {
    case VALUES:
        return t->decibels ? decibels : scores;
    case FLAGS:
        return flags;
    case LEVELS:
        return levels;
    case LEFT: case RIGHT:
        return ends;
    case COST:
        return costs;
    default:
        return NULL;
    }
}

static void *got(size_t bytes)
{
    void *memory = malloc(bytes);
    if (!memory) {
        fputs("nulls: no memory\n", stderr);
        exit(2);
    }
    return memory;
}

static void lend(struct lent *l, const struct trial *t)
{
    for (int i = 0; i < LISTS; i++) {
        l->bytes[i] = entries(t->function, i) * entry_size(t->function, i);
        l->memory[i] = got(l->bytes[i]);
        l->before[i] = got(l->bytes[i]);
        if (content(t, i))
            memcpy(l->memory[i], content(t, i), l->bytes[i]);
        else
            memset(l->memory[i], MARK, l->bytes[i]);
        memcpy(l->before[i], l->memory[i], l->bytes[i]);
    }
    l->found = MARKED_FOUND;
    l->over = MARKED_OVER;
    l->score_cost = MARKED_COST;
}

static void give_back(struct lent *l)
{
    for (int i = 0; i < LISTS; i++) {
        free(l->memory[i]);
        free(l->before[i]);
    }
}

/* ---- the call */

static uint32_t path(const struct trial *t, struct lent *l, const struct buchawzer_work *work, void *const *p)
{
    struct buchawzer_lent_candidates c = {CANDIDATES, (uint64_t *)p[LEFT], (uint64_t *)p[RIGHT], (double *)p[COST]};
    struct buchawzer_preferences wanted = {0, 100, 200, 1, 0, t->by_count, COUNT};
    struct buchawzer_path_output out = {(uint32_t *)p[OUT], entries(PATH, OUT), l->found, l->over, l->score_cost};
    uint32_t refused = buchawzer_find_path(&c, &wanted, work, &out);
    l->found = out.length;
    l->over = out.over;
    l->score_cost = out.score_cost;
    return refused;
}

static uint32_t candidate_list(const struct buchawzer_recording *r, const struct buchawzer_settings *s, struct lent *l,
    const struct buchawzer_work *work, void *const *p)
{
    struct buchawzer_candidates_output out = {
        (uint32_t *)p[OUT], entries(CANDIDATE_LIST, OUT), (double *)p[OUT_TOO], entries(CANDIDATE_LIST, OUT_TOO), l->found};
    uint32_t refused = buchawzer_find_candidates(r, s, work, &out);
    l->found = out.found;
    return refused;
}

static uint32_t plan(const struct buchawzer_recording *r, const struct buchawzer_settings *s, struct lent *l,
    const struct buchawzer_work *work, void *const *p)
{
    struct buchawzer_plan_output out = {
        (uint64_t *)p[OUT], entries(PLAN, OUT), (uint64_t *)p[OUT_TOO], entries(PLAN, OUT_TOO), l->found};
    uint32_t refused = buchawzer_make_plan(r, s, work, &out);
    l->found = out.found;
    return refused;
}

/* The trial's call: every length stands, and a missing list is NULL. */
static uint32_t called(const struct trial *t, struct lent *l)
{
    void *p[LISTS];
    for (int i = 0; i < LISTS; i++)
        p[i] = is_missing(t, i) ? NULL : l->memory[i];
    struct buchawzer_recording r = {
        1000, 1, 10, 1, 100 * FRAMES, t->decibels, FRAMES, (float *)p[VALUES], (uint8_t *)p[FLAGS], (double *)p[LEVELS]};
    struct buchawzer_settings s = buchawzer_default_settings();
    s.min = 100000000;
    s.target = 300000000;
    s.max = 400000000;
    s.by_count = t->by_count;
    s.count = COUNT;
    size_t n = entries(t->function, U32S);
    struct buchawzer_work work = {(uint32_t *)p[U32S], n, (uint64_t *)p[U64S], n, (double *)p[F64S], n,
        (uint32_t *)p[PARENT], entries(t->function, PARENT)};
    switch (t->function) {
    case VALIDATE:
        return buchawzer_validate_recording(&r);
    case SILENCES:
        return buchawzer_find_silences(&r, &s, &work, (uint32_t *)p[OUT], entries(SILENCES, OUT), &l->found);
    case CANDIDATE_LIST:
        return candidate_list(&r, &s, l, &work, p);
    case PATH:
        return path(t, l, &work, p);
    default:
        return plan(&r, &s, l, &work, p);
    }
}

/* ---- what is expected */

static uint32_t expected(const struct trial *t)
{
    int list = t->missing;
    if (list > LISTS) /* no frames do not cover a length; no candidates */
        return t->function == PATH ? BUCHAWZER_REFUSED_CANDIDATES : BUCHAWZER_REFUSED_LENGTH;
    if (list == LISTS || !goes_over(t, list))
        return BUCHAWZER_ACCEPTED;
    if (list == PARENT)
        return t->by_count ? BUCHAWZER_REFUSED_PARENT : BUCHAWZER_ACCEPTED;
    return of_recording(list) ? BUCHAWZER_REFUSED_LISTS : of_candidates(list) ? BUCHAWZER_REFUSED_CANDIDATES
        : is_work(list) ? BUCHAWZER_REFUSED_WORK : BUCHAWZER_REFUSED_OUTPUT;
}

/* How much is found where nothing is missing. */
static uint64_t found(const struct trial *t)
{
    switch (t->function) {
    case SILENCES:
        return 2;
    case CANDIDATE_LIST:
        return 9;
    case PATH:
        return t->by_count ? COUNT + 1 : CANDIDATES;
    default:
        return t->by_count ? COUNT : 4;
    }
}

static bool holds(const unsigned char *list, int byte, size_t bytes)
{
    for (size_t i = 0; i < bytes; i++)
        if (list[i] != byte)
            return false;
    return true;
}

/* Whether a list is as document 01 says after this answer; `whole` is the same call with nothing missing. */
static bool as_it_should(const struct trial *t, const struct lent *l, const struct lent *whole, int list, uint32_t refused)
{
    bool tests_passed = !refused || refused == BUCHAWZER_REFUSED_OUTPUT || refused == BUCHAWZER_REFUSED_PARENT;
    if (goes_over(t, list) && !is_missing(t, list)) {
        if (is_work(list) && tests_passed)
            return holds(l->memory[list], 0, l->bytes[list]);
        if (is_output(list) && refused == BUCHAWZER_ACCEPTED)
            return !memcmp(l->memory[list], whole->memory[list], l->bytes[list]) &&
                memcmp(l->memory[list], l->before[list], l->bytes[list]);
    }
    return !memcmp(l->memory[list], l->before[list], l->bytes[list]);
}

static bool numbers_as_they_should(const struct trial *t, const struct lent *l, uint32_t refused)
{
    if (refused != BUCHAWZER_ACCEPTED || t->function == VALIDATE)
        return l->found == MARKED_FOUND && l->over == MARKED_OVER && l->score_cost == MARKED_COST;
    if (t->function == PATH)
        return l->found == found(t) && l->over == 0 && l->score_cost == (t->by_count ? 1.5 : 1);
    return l->found == found(t);
}

/* Whether a trial ends as it should; says so where it does not. */
static bool tried(const struct trial *t)
{
    struct trial nothing_missing = *t;
    nothing_missing.missing = LISTS;
    struct lent l, whole;
    lend(&l, t);
    lend(&whole, t);
    char what[120];
    snprintf(what, sizeof what, "%s, %s, %s, NULL for %s", function_names[t->function], t->decibels ? "decibels" : "scores",
        t->by_count ? "by count" : "by length", list_names[t->missing]);
    uint32_t refused = called(t, &l);
    bool good = called(&nothing_missing, &whole) == BUCHAWZER_ACCEPTED && refused == expected(t);
    if (!good)
        printf("nulls: %s: answered %u, and not %u\n", what, (unsigned)refused, (unsigned)expected(t));
    for (int i = 0; i < LISTS; i++)
        if (!as_it_should(t, &l, &whole, i, refused)) {
            printf("nulls: %s: answered %u, and %s is not as it should be\n", what, (unsigned)refused, list_names[i]);
            good = false;
        }
    if (!numbers_as_they_should(t, &l, refused)) {
        printf("nulls: %s: answered %u, and a number is not as it should be\n", what, (unsigned)refused);
        good = false;
    }
    give_back(&l);
    give_back(&whole);
    return good;
}

/* The trial of this number, if there is one: each function, over scores and decibels, by length and by count. */
static bool numbered(int number, struct trial *t)
{
    for (int f = 0; f < FUNCTIONS; f++)
        for (int mode = 0; mode < 4; mode++)
            for (int list = 0; list <= LISTS + 1; list++) {
                *t = (struct trial){(enum function)f, mode % 2 == 1, mode / 2 == 1, list};
                bool same = (f == PATH && t->decibels) || (f < PATH && t->by_count);
                if (!same && (list >= LISTS || has(t->function, list)) && number-- == 0)
                    return true;
            }
    return false;
}

int main(int words, char **word)
{
    struct trial t;
    if (words > 1) {
        if (!numbered(atoi(word[1]), &t))
            return 3;
        if (t.missing == LISTS || (t.missing < LISTS && !goes_over(&t, t.missing)))
            return 4;
        return tried(&t) ? 0 : 1;
    }
    int trials = 0, failed = 0;
    for (; numbered(trials, &t); trials++)
        failed += !tried(&t);
    printf("%d calls, %d of them not as they should be\n", trials, failed);
    return failed ? 1 : 0;
}
