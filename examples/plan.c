/* Plans document 01's recording R and prints its listing; then tries a refusal, and says in words on standard error what it
 * is about; then prints the listings of a job of 0 bytes, an empty recording, and of one byte, which is no job. Built and run
 * by tools/examples, which also holds README.md to the marked lines. */
#include <stdio.h>

#include "../include/buchawzer.h"

#define FRAMES 7

static const float scores[FRAMES] = {1, 1, 0, 0, 0, 1, 1};
static const uint8_t flags[FRAMES] = {0};
static uint32_t work_u32[16 * (FRAMES + 1)];
static uint64_t work_u64[16 * (FRAMES + 1)];
static double work_f64[16 * (FRAMES + 1)];
static uint64_t pieces[3 * FRAMES];
static uint64_t cuts[3 * FRAMES];

static void print_refusal(uint32_t refused)
{
    printf("refused %u\n", (unsigned)refused);
    fprintf(stderr, "%s; %s\n", buchawzer_refusal_meaning(refused), buchawzer_refusal_advice(refused));
}

static void print_plan(size_t found)
{
    static const char *const reasons[] = {"silence", "quiet", "forced"};
    /* Static memory is zeroed, and so each bool in it is 0 or 1 before the call. */
    static struct buchawzer_piece piece[FRAMES];
    static struct buchawzer_cut cut[FRAMES];
    size_t cuts_found = found == 0 ? 0 : found - 1;
    uint32_t refused = buchawzer_piece_records(pieces, 3 * found, piece, FRAMES);
    if (!refused)
        refused = buchawzer_cut_records(cuts, 3 * cuts_found, cut, FRAMES);
    if (refused) {
        print_refusal(refused);
        return;
    }
    printf("plan %zu %zu\n", found, cuts_found);
    for (size_t i = 0; i < found; i++)
        printf("piece %llu %llu %s\n", (unsigned long long)piece[i].start, (unsigned long long)piece[i].end,
            piece[i].too_short ? piece[i].too_long ? "sl" : "s" : piece[i].too_long ? "l" : "-");
    for (size_t i = 0; i < cuts_found; i++)
        printf("cut %llu %llu %s\n", (unsigned long long)cut[i].previous_end, (unsigned long long)cut[i].next_start,
            reasons[cut[i].reason]);
}

/* Prints the plan of R at this sample rate, or its refusal. */
static void plan_at(uint32_t rate)
{
    /* README */
    struct buchawzer_recording recording = {
        .sample_rate = rate, .channels = 1, .frame_rate = 10, .hop = 1, .len = 700, .decibels = BUCHAWZER_DOMAIN_SCORES,
        .frames = FRAMES, .values = scores, .flags = flags, .levels = NULL};
    struct buchawzer_settings settings = buchawzer_default_settings();
    settings.min = 100000000; /* nanoseconds */
    settings.target = 300000000;
    settings.max = 400000000;
    size_t n = buchawzer_work_length(FRAMES);
    struct buchawzer_work work = {work_u32, n, work_u64, n, work_f64, n, NULL, 0};
    struct buchawzer_plan_output plan = {pieces, 3 * FRAMES, cuts, 3 * FRAMES, 0};
    uint32_t refused = buchawzer_make_plan(&recording, &settings, &work, &plan);
    /* end */
    if (refused)
        print_refusal(refused);
    else
        print_plan(plan.found);
}

int main(void)
{
    static const uint8_t job[1] = {0};
    static uint8_t listing[BUCHAWZER_LISTING_BYTES];
    plan_at(1000);
    plan_at(BUCHAWZER_MOST_SAMPLE_RATE + 1);
    for (size_t bytes = 0; bytes <= sizeof job; bytes++)
        fwrite(listing, 1, buchawzer_cutplan(job, bytes, listing, sizeof listing), stdout);
    return 0;
}
