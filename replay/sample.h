/* The stored samples: what the Rust answers, one record after the other. All numbers are little-endian, with nothing
 * between them. reference/src/sample writes them, and says there what a record holds. */
#ifndef REPLAY_SAMPLE_H
#define REPLAY_SAMPLE_H

#include "lent.h"

struct sample {
    const char *name;
    /* Bytes of the record at r, of which `left` are there; 0 where that is no front of a record. */
    size_t (*size)(const unsigned char *r, size_t left);
    /* Calls the library as a whole record says. What it answers or leaves otherwise than is stored; else NULL. */
    const char *(*difference)(const unsigned char *r, struct lent *l);
};

extern const struct sample grid, silences, candidates, path, plan;

#endif
