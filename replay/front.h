/* What the fronts of records have in common. A recording and its segment settings: from byte 0 on, of 32 bits each:
 * frames, sample rate, channels, frame rate, hop, domain (1 for decibels), kind of threshold, its number (a float);
 * from byte 32 on, of 64 bits each: length, min silence, min sound, pre, tail. Behind them the settings of a plan:
 * from byte 72 on, of 64 bits each: min, target, max; from byte 96 on, of 32 bits each: 1 by count, count, 1 where
 * gaps are dropped, kind of placement, its ratio (a float); from byte 116 on, of 64 bits each: cut, level, pause
 * (floats), pause reference, target weight, short weight (floats). */
#ifndef REPLAY_FRONT_H
#define REPLAY_FRONT_H

#include "../include/buchawzer.h"
#include "lent.h"

#define RECORDING_BYTES 72
#define SETTINGS_BYTES 164

/* Whether the domain is one that there is. */
bool domain_known(const unsigned char *r);

/* Bytes of a recording's lists, which stand together in a record: values (floats of 32 bits), flags (bytes) and, for
 * decibels alone, levels (floats of 64 bits). */
size_t recording_lists_bytes(const unsigned char *r);

/* The recording, its lists lent. */
struct buchawzer_recording recording_in(const unsigned char *r, const unsigned char *lists, struct lent *l);

/* The segment settings. */
struct buchawzer_settings segment_in(const unsigned char *r);

/* All settings. */
struct buchawzer_settings settings_in(const unsigned char *r);

/* Whether a call that ends with this number clears work memory. */
bool clears_work(uint32_t refusal);

/* Three work lists of so many entries each, and no parent list. */
struct buchawzer_work work_lent(struct lent *l, size_t entries, bool cleared);

#endif
