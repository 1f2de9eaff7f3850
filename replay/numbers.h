/* Numbers at a place of a record. The library is for x86-64, so that the sample's byte order is the machine's. */
#ifndef REPLAY_NUMBERS_H
#define REPLAY_NUMBERS_H

#include <stddef.h>
#include <stdint.h>
#include <string.h>

static inline uint32_t u32_at(const unsigned char *r, size_t at)
{
    uint32_t x;
    memcpy(&x, r + at, sizeof x);
    return x;
}

static inline uint64_t u64_at(const unsigned char *r, size_t at)
{
    uint64_t x;
    memcpy(&x, r + at, sizeof x);
    return x;
}

static inline float f32_at(const unsigned char *r, size_t at)
{
    float x;
    memcpy(&x, r + at, sizeof x);
    return x;
}

static inline double f64_at(const unsigned char *r, size_t at)
{
    double x;
    memcpy(&x, r + at, sizeof x);
    return x;
}

/* The bits of a float, so that a zero with a sign is another answer. */
static inline uint64_t bits_of(double x)
{
    uint64_t bits;
    memcpy(&bits, &x, sizeof bits);
    return bits;
}

#endif
