/* The memory that a call is lent. Each list stands between two guards, so that what is written beside it is seen; and
 * with each goes what it should hold after the call, to its whole length. */
#ifndef REPLAY_LENT_H
#define REPLAY_LENT_H

#include <stdbool.h>
#include <stddef.h>
#include <stdint.h>

/* What a number holds before a call that may write it, and so every entry of a list: no frame, sample or count. */
#define UNTOUCHED UINT64_C(0x5a5a5a5a5a5a5a5a)

struct list {
    const char *name;
    bool read_only;
    unsigned char *memory; /* guard, list, guard */
    size_t bytes;
    const void *stored; /* what stands at its front afterwards */
    size_t stored_bytes;
    unsigned char beyond; /* and each byte behind that */
};

struct lent {
    struct list lists[12];
    size_t count;
};

/* A list that a call reads: the bytes of the record, before and after. */
const void *lend_input(struct lent *l, const char *name, const void *stored, size_t bytes);

/* A list that a call writes: afterwards the stored bytes at its front, and as it was beyond them. So too a number that
 * a call writes, or the struct that has it. What is stored is read by left_otherwise alone. */
void *lend_output(struct lent *l, const char *name, size_t bytes, const void *stored, size_t stored_bytes);

/* Work memory: afterwards all zeros where the call clears it, and as it was where it does not. */
void *lend_work(struct lent *l, const char *name, size_t bytes, bool cleared);

/* The name of a list beside which something was written, or of one that may only be read and was changed; else NULL. */
const char *harmed(const struct lent *l);

/* The name of a list that the call did not leave as it should; else NULL. */
const char *left_otherwise(const struct lent *l);

void give_back(struct lent *l);

#endif
