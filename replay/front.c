#include "front.h"

#include "numbers.h"

bool domain_known(const unsigned char *r)
{
    return u32_at(r, 20) <= 1;
}

static bool is_decibels(const unsigned char *r)
{
    return u32_at(r, 20) == 1;
}

size_t recording_lists_bytes(const unsigned char *r)
{
    return (size_t)u32_at(r, 0) * (is_decibels(r) ? 4 + 1 + 8 : 4 + 1);
}

/* Numbers whose type is narrower than their field. One that does not fit becomes one that every operation refuses. */
static uint16_t channels_of(uint32_t channels)
{
    return channels <= UINT16_MAX ? (uint16_t)channels : 0;
}

static uint8_t kind_of(uint32_t kind)
{
    return kind <= UINT8_MAX ? (uint8_t)kind : UINT8_MAX;
}

struct buchawzer_recording recording_in(const unsigned char *r, const unsigned char *lists, struct lent *l)
{
    size_t frames = u32_at(r, 0);
    const unsigned char *flags = lists + 4 * frames, *levels = flags + frames;
    return (struct buchawzer_recording){
        .sample_rate = u32_at(r, 4),
        .channels = channels_of(u32_at(r, 8)),
        .frame_rate = u32_at(r, 12),
        .hop = u32_at(r, 16),
        .len = u64_at(r, 32),
        .decibels = is_decibels(r),
        .frames = frames,
        .values = lend_input(l, "values", lists, 4 * frames),
        .flags = lend_input(l, "flags", flags, frames),
        .levels = lend_input(l, "levels", levels, is_decibels(r) ? 8 * frames : 0),
    };
}

struct buchawzer_settings segment_in(const unsigned char *r)
{
    struct buchawzer_settings s = buchawzer_default_settings();
    s.threshold_kind = kind_of(u32_at(r, 24));
    s.threshold = f32_at(r, 28);
    s.min_silence = u64_at(r, 40);
    s.min_sound = u64_at(r, 48);
    s.pre = u64_at(r, 56);
    s.tail = u64_at(r, 64);
    return s;
}

struct buchawzer_settings settings_in(const unsigned char *r)
{
    struct buchawzer_settings s = segment_in(r);
    s.min = u64_at(r, 72);
    s.target = u64_at(r, 80);
    s.max = u64_at(r, 88);
    s.by_count = u32_at(r, 96) == 1;
    s.count = u32_at(r, 100);
    s.drop_gaps = u32_at(r, 104) == 1;
    s.placement_kind = kind_of(u32_at(r, 108));
    s.ratio = f32_at(r, 112);
    s.cut = f64_at(r, 116);
    s.level = f64_at(r, 124);
    s.pause = f64_at(r, 132);
    s.pause_ref = u64_at(r, 140);
    s.target_weight = f64_at(r, 148);
    s.short_weight = f64_at(r, 156);
    return s;
}

bool clears_work(uint32_t refusal)
{
    return refusal == BUCHAWZER_ACCEPTED || refusal == BUCHAWZER_REFUSED_OUTPUT || refusal == BUCHAWZER_REFUSED_PARENT;
}

struct buchawzer_work work_lent(struct lent *l, size_t entries, bool cleared)
{
    return (struct buchawzer_work){
        .u32s = lend_work(l, "work_u32", 4 * entries, cleared),
        .u32s_len = entries,
        .u64s = lend_work(l, "work_u64", 8 * entries, cleared),
        .u64s_len = entries,
        .f64s = lend_work(l, "work_f64", 8 * entries, cleared),
        .f64s_len = entries,
    };
}
