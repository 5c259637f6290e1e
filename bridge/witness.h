/*
 * The witness: a small file, best on another disk than the journal, with the journal's id and how many commits it had at
 * some moment. A journal with fewer commits than its witness says is an old copy: it has forgotten jobs that it took, and
 * would take them again. The bridge does not run on it until the operator has raised the floor above those jobs.
 *
 * The witness is written when the bridge starts, when it stops, and at most once a second in between, so it may be a second
 * behind and is never ahead.
 *
 * Raising the floor gives such a journal another id. The witnesses of the other hosts then have an id that the journal had before:
 * the floor was raised for them too, and they are taken (journal.h, `knew`).
 */
#ifndef WITNESS_H
#define WITNESS_H

#include <stdint.h>

#include "journal.h"

enum witness_says { WITNESS_MISSING, WITNESS_DAMAGED, WITNESS_OTHER, WITNESS_NEWER, WITNESS_AGREES };

struct witness {
    enum witness_says says;
    char id[JOURNAL_ID]; /* of the journal that it knows; empty: it is missing or damaged */
};

/* What the witness says of a journal. */
struct witness witness_ask(const char *path, struct journal *);

/* Ends the process (EXIT_REFUSED) unless the witness agrees: a journal that is older than its witness, or has none, may have
   forgotten jobs that it took. */
void witness_admit(const char *path, struct journal *);

/* The entries of a file's folder are on stable storage; 0: they are not. */
int folder_sync(const char *path);

/* Writes it, durably; a failure ends the process. */
void witness_write(const char *path, const char *id, uint64_t commits);

#endif
