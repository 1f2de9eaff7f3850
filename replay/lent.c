#include "lent.h"

#include <stdio.h>
#include <stdlib.h>
#include <string.h>

/* Eight entries of the longest type, so that the list between stays aligned. */
#define GUARD 64

/* Neither what lists hold before a call nor the zeros that clear them. */
#define GUARDED 0xa5
#define MARK ((unsigned char)UNTOUCHED)

static unsigned char *memory_for(size_t bytes)
{
    unsigned char *memory = malloc(GUARD + bytes + GUARD);
    if (!memory) {
        fputs("replay: no memory\n", stderr);
        exit(2);
    }
    memset(memory, GUARDED, GUARD + bytes + GUARD);
    memset(memory + GUARD, MARK, bytes);
    return memory;
}

static void *lend(struct lent *l, struct list list)
{
    if (l->count == sizeof l->lists / sizeof *l->lists) {
        fputs("replay: too many lists\n", stderr);
        exit(2);
    }
    list.memory = memory_for(list.bytes);
    l->lists[l->count++] = list;
    return list.memory + GUARD;
}

const void *lend_input(struct lent *l, const char *name, const void *stored, size_t bytes)
{
    void *list = lend(l, (struct list){name, true, NULL, bytes, stored, bytes, MARK});
    return memcpy(list, stored, bytes);
}

void *lend_output(struct lent *l, const char *name, size_t bytes, const void *stored, size_t stored_bytes)
{
    return lend(l, (struct list){name, false, NULL, bytes, stored, stored_bytes, MARK});
}

void *lend_work(struct lent *l, const char *name, size_t bytes, bool cleared)
{
    return lend(l, (struct list){name, false, NULL, bytes, NULL, 0, cleared ? 0 : MARK});
}

static bool holds(const unsigned char *list, unsigned char byte, size_t bytes)
{
    for (size_t i = 0; i < bytes; i++)
        if (list[i] != byte)
            return false;
    return true;
}

static bool guards_stand(const struct list *list)
{
    return holds(list->memory, GUARDED, GUARD) && holds(list->memory + GUARD + list->bytes, GUARDED, GUARD);
}

static bool as_it_should(const struct list *list)
{
    const unsigned char *held = list->memory + GUARD;
    if (list->stored_bytes > list->bytes || (list->stored_bytes && memcmp(held, list->stored, list->stored_bytes)))
        return false;
    return holds(held + list->stored_bytes, list->beyond, list->bytes - list->stored_bytes);
}

const char *harmed(const struct lent *l)
{
    for (size_t i = 0; i < l->count; i++) {
        const struct list *list = &l->lists[i];
        if (!guards_stand(list) || (list->read_only && !as_it_should(list)))
            return list->name;
    }
    return NULL;
}

const char *left_otherwise(const struct lent *l)
{
    for (size_t i = 0; i < l->count; i++)
        if (!l->lists[i].read_only && !as_it_should(&l->lists[i]))
            return l->lists[i].name;
    return NULL;
}

void give_back(struct lent *l)
{
    while (l->count)
        free(l->lists[--l->count].memory);
}
