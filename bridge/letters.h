/*
 * The letters of this process's dialogues in memory, for a journal that is far away: what was posted here, and what was found
 * in the journal when a dialogue was taken. They have turns, which rise as they come in.
 */
#ifndef LETTERS_H
#define LETTERS_H

#include "config.h"
#include "journal.h"

struct letters {
    struct letter *item; /* by turn, rising; body NULL: it is gone */
    size_t count, room, first; /* those before `first` are gone */
    uint64_t turn;             /* the last one given */
    uint64_t waiting, of[PLACES_MOST];
};

/* Puts a copy of a letter behind the others. */
void letters_add(struct letters *, const struct letter *);

/* The first letter behind a turn; NULL: there is none. */
const struct letter *letters_next(const struct letters *, uint64_t behind);

/* The letter of a turn; NULL: it is gone. */
const struct letter *letters_at(const struct letters *, uint64_t turn);

void letters_drop(struct letters *, uint64_t turn);
/* A dialogue is another's now: its letters are none of ours. */
void letters_forget(struct letters *, unsigned dialogue);
void letters_clear(struct letters *);

#endif
