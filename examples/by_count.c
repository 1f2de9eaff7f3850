/* Plans an hour of made-up speech by count, under a maximum below, near and well above length / count, and counts the
 * forced cuts. The parent list starts small and is doubled where the call asks for more. Built and run by tools/examples,
 * which also holds README.md to the marked lines. */
#include <stdio.h>
#include <stdlib.h>

#include "../include/buchawzer.h"

#define FRAME_RATE 10
#define FRAMES (3600 * FRAME_RATE)
#define SAMPLE_RATE 16000
#define COUNT 60
#define SECOND UINT64_C(1000000000) /* in nanoseconds */

/* Memory, or the end of the program. */
static void *got(size_t entries, size_t size)
{
    void *list = calloc(entries, size);
    if (!list && entries) {
        fprintf(stderr, "no memory for %zu entries\n", entries);
        exit(1);
    }
    return list;
}

/* The next of a row of numbers below `most`, the same at every run. */
static uint32_t next_below(uint32_t most)
{
    static uint32_t row = 1;
    row = row * 1664525 + 1013904223;
    return (row >> 16) % most;
}

/* Sentences of 2 to 8 seconds and pauses of 0.3 to 1.2 seconds, as scores. */
static void make_up(float *scores)
{
    size_t at = 0;
    while (at < FRAMES) {
        size_t sentence = at + 2 * FRAME_RATE + next_below(6 * FRAME_RATE);
        for (; at < sentence && at < FRAMES; at++)
            scores[at] = 0.6f + 0.004f * (float)next_below(100);
        size_t pause = at + 3 + next_below(10);
        for (; at < pause && at < FRAMES; at++)
            scores[at] = 0.001f * (float)next_below(100);
    }
}

/* Plans with as few parents as doubling finds. A refusal by 14 leaves the outputs as they were, and costs time alone. */
static uint32_t plan_by_count(const struct buchawzer_recording *recording, const struct buchawzer_settings *settings,
    struct buchawzer_work *work, struct buchawzer_plan_output *plan)
{
    /* README */
    size_t enough = buchawzer_parent_length(recording->frames, settings->count);
    size_t parents = 4096;
    uint32_t refused;
    do {
        work->parent_len = parents < enough ? parents : enough;
        work->parent = (uint32_t *)got(work->parent_len, sizeof *work->parent);
        refused = buchawzer_make_plan(recording, settings, work, plan);
        free(work->parent);
        work->parent = NULL; /* a call clears every list that it is lent */
        parents *= 2;
    } while (refused == BUCHAWZER_REFUSED_PARENT && work->parent_len < enough);
    /* end */
    return refused;
}

/* Prints what comes of this maximum. */
static void plan_under(uint64_t max, const struct buchawzer_recording *recording, struct buchawzer_work *work,
    struct buchawzer_plan_output *plan)
{
    struct buchawzer_settings settings = buchawzer_default_settings();
    settings.by_count = true;
    settings.count = COUNT;
    settings.max = max;
    uint32_t refused = plan_by_count(recording, &settings, work, plan);
    if (refused) {
        printf("refused %u: %s; %s\n", (unsigned)refused, buchawzer_refusal_meaning(refused),
            buchawzer_refusal_advice(refused));
        return;
    }
    size_t pieces = plan->found, cuts = pieces == 0 ? 0 : pieces - 1, forced = 0;
    for (size_t i = 0; i < cuts; i++)
        forced += plan->cuts[3 * i + 2] == BUCHAWZER_REASON_FORCED;
    printf("maximum %u s: %zu pieces, %zu of %zu cuts forced; %zu parents, where %zu are always enough\n",
        (unsigned)(max / SECOND), pieces, forced, cuts, work->parent_len,
        buchawzer_parent_length(recording->frames, COUNT));
}

int main(void)
{
    float *scores = (float *)got(FRAMES, sizeof *scores);
    uint8_t *flags = (uint8_t *)got(FRAMES, sizeof *flags);
    make_up(scores);
    struct buchawzer_recording recording = {
        SAMPLE_RATE, 1, FRAME_RATE, 1, UINT64_C(3600) * SAMPLE_RATE, BUCHAWZER_DOMAIN_SCORES, FRAMES, scores, flags, NULL};
    size_t n = buchawzer_work_length(FRAMES);
    struct buchawzer_work work = {(uint32_t *)got(n, sizeof(uint32_t)), n, (uint64_t *)got(n, sizeof(uint64_t)), n,
        (double *)got(n, sizeof(double)), n, NULL, 0};
    /* By count a plan has at most COUNT pieces, three numbers each. */
    struct buchawzer_plan_output plan = {(uint64_t *)got(3 * COUNT, sizeof(uint64_t)), 3 * COUNT,
        (uint64_t *)got(3 * COUNT, sizeof(uint64_t)), 3 * COUNT, 0};
    plan_under(30 * SECOND, &recording, &work, &plan); /* the default; length / count is 60 s */
    plan_under(61 * SECOND, &recording, &work, &plan);
    plan_under(65 * SECOND, &recording, &work, &plan);
    free(plan.cuts);
    free(plan.pieces);
    free(work.f64s);
    free(work.u64s);
    free(work.u32s);
    free(flags);
    free(scores);
    return 0;
}
