/* Replays a stored sample of the Rust's answers through the header and the library, as a C program calls them. Built
 * and run by tools/replay.
 *
 *   replay grid|silences|candidates|path|plan SAMPLE
 *
 * Prints how many records there are, how many of them agree before the first that differs, and how many differ. The
 * last records of a sample are spoiled on purpose, the very last by a byte that is missing: where these three numbers
 * are known, so is which records differ. Standard error says of each what is not as stored.
 *
 * Status 0: the sample was replayed. 1: a call harmed a list, that is, it wrote beside it, or changed one that may
 * only be read; or no record agrees. 2: there is no such sample, or the file is none. */
#include <stdio.h>
#include <string.h>

#include "sample.h"

#define MOST_BYTES 65536

static const struct sample *const samples[] = {&grid, &silences, &candidates, &path, &plan};

struct tally {
    unsigned records;
    unsigned agreeing; /* before the first that differs */
    unsigned differing;
    unsigned harmful;
};

static void count(struct tally *t, const char *difference)
{
    t->records++;
    if (difference) {
        t->differing++;
        fprintf(stderr, "record %u, not as stored: %s\n", t->records, difference);
    } else if (!t->differing) {
        t->agreeing++;
    }
}

static void replay_record(const struct sample *sample, const unsigned char *r, struct tally *t)
{
    struct lent lent = {.count = 0};
    count(t, sample->difference(r, &lent));
    const char *list = harmed(&lent);
    if (list) {
        t->harmful++;
        fprintf(stderr, "record %u, harmed: %s\n", t->records, list);
    }
    give_back(&lent);
}

/* Whether the bytes are a sample: whole records, and at the end one of which a byte is missing. */
static bool replay_all(const struct sample *sample, const unsigned char *bytes, size_t size, struct tally *t)
{
    for (size_t at = 0; at < size;) {
        size_t left = size - at, record = sample->size(bytes + at, left);
        if (record == left + 1) {
            count(t, "its last byte");
            return true;
        }
        if (!record || record > left) {
            fprintf(stderr, "no whole record at byte %zu\n", at);
            return false;
        }
        replay_record(sample, bytes + at, t);
        at += record;
    }
    fputs("no record cut short at the end\n", stderr);
    return false;
}

/* The bytes of a file; more than a sample has where it is longer or cannot be read. */
static size_t read_file(const char *name, unsigned char *bytes)
{
    FILE *file = fopen(name, "rb");
    if (!file)
        return MOST_BYTES + 1;
    size_t size = fread(bytes, 1, MOST_BYTES + 1, file);
    bool whole = !ferror(file);
    fclose(file);
    return whole ? size : MOST_BYTES + 1;
}

static const struct sample *sample_named(const char *name)
{
    for (size_t i = 0; i < sizeof samples / sizeof *samples; i++)
        if (!strcmp(samples[i]->name, name))
            return samples[i];
    return NULL;
}

int main(int words, char **word)
{
    static unsigned char bytes[MOST_BYTES + 1];
    const struct sample *sample = words == 3 ? sample_named(word[1]) : NULL;
    if (!sample) {
        fputs("usage: replay grid|silences|candidates|path|plan SAMPLE\n", stderr);
        return 2;
    }
    size_t size = read_file(word[2], bytes);
    if (size > MOST_BYTES) {
        fprintf(stderr, "%s cannot be read, or has more than %d bytes\n", word[2], MOST_BYTES);
        return 2;
    }
    struct tally t = {0, 0, 0, 0};
    bool whole = replay_all(sample, bytes, size, &t);
    printf("%s: %u stored answers, the first %u agree, %u differ\n", sample->name, t.records, t.agreeing, t.differing);
    return !whole ? 2 : t.harmful || !t.agreeing ? 1 : 0;
}
