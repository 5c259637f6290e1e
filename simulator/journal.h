/*
 * The journal of an end: a file of changes, one behind the other, each with its number and a checksum. A change that
 * stands there whole has happened; one that was cut short by a failure of the power never did. The journal of an end is
 * begun once, when its record is made, and never again.
 *
 * This is a simulator, whose power fails in the simulation only: it writes to the file, and does not wait until the bytes
 * are on the disk. A host that has to outlive its machine calls fdatasync where `journal_append` says so, and pays some
 * milliseconds for it (or keeps one commit for a batch, as a data base does).
 */
#ifndef JOURNAL_H
#define JOURNAL_H

#include "memory.h"

struct journal {
    int file;
    uint64_t changes; /* that stand there whole */
    char path[256];
};

/* begins the journal of a record that was just made: 0, or -1 where there is one already or none can be made */
int journal_begin(struct journal *j, const char *folder, const char *name, const struct memory *m);

/* Puts a change behind the others. `power` is called where the power may fail, with part of the change written. */
int journal_append(struct journal *j, const struct change *c, void (*power)(void *), void *with);

/* what loading found */
enum loaded { LOADED, LOADED_TORN /* and cut off a change that the power had torn */, NOT_LOADED };

/* Makes the memory from the journal. A last change of too few bytes is cut off: it never happened. A whole one that is wrong
   is damage, and then nothing is loaded: a record that is not what the card left may not be used, and not replaced either. */
enum loaded journal_load(struct journal *j, struct memory *m);

void journal_end(struct journal *j);

#endif
