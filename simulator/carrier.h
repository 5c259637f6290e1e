/*
 * A carrier in memory: for each dialogue two lines, one each way, first in first out. An entry is a primitive of the
 * dialogue service as one end invoked it, with its APDU.
 */
#ifndef CARRIER_H
#define CARRIER_H

#include <assert.h>

#include "peatribbon.h"

#define LINE_ENTRIES 32

struct entry {
    unsigned long serial; /* which entry of its dialogue this is, for the story */
    struct peat_primitive primitive;
    unsigned bits; /* of the APDU, for the capture */
    uint8_t apdu[PEAT_BUFFER_LEAST]; /* its user data */
};

struct line {
    unsigned oldest, entries;
    struct entry entry[LINE_ENTRIES];
};

/* whether n more entries fit */
static inline int line_has_room(const struct line *l, unsigned n) { return l->entries + n <= LINE_ENTRIES; }

/* the place for the next entry, which the caller fills */
static inline struct entry *line_put(struct line *l)
{
    assert(line_has_room(l, 1));
    return &l->entry[(l->oldest + l->entries++) % LINE_ENTRIES];
}

/* the oldest entry, which leaves the line; it stays readable until the next line_put */
static inline struct entry *line_take(struct line *l)
{
    struct entry *e = &l->entry[l->oldest];
    l->oldest = (l->oldest + 1) % LINE_ENTRIES;
    l->entries--;
    return e;
}

/* how many of the youngest entries are of the dialogue of this number */
static inline unsigned line_of_number(const struct line *l, uint64_t number)
{
    unsigned n = 0;
    while (n < l->entries && l->entry[(l->oldest + l->entries - 1 - n) % LINE_ENTRIES].primitive.number == number)
        n++;
    return n;
}

/* the youngest entry, which is lost */
static inline struct entry *line_lose(struct line *l) { return &l->entry[(l->oldest + --l->entries) % LINE_ENTRIES]; }

#endif
