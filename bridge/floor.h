/*
 * The floor: no job up to it is taken unless it was decided before. The operator raises it when a journal was restored from a
 * copy, above every job that was given since: whether those were sent nobody knows any more, and they are laid aside and told.
 */
#ifndef FLOOR_H
#define FLOOR_H

#include "config.h"
#include "journal.h"

#define ALL_DIALOGUES UINT64_MAX

/* Raises the floor of one dialogue or of all, and says so on standard output. A journal that its witness does not know gets another
   id; the witness is written anew, and from then on the bridge takes the journal. So do the bridges of other hosts, whose
   witnesses know the id that it had: the floor is raised once, on any host. */
void floor_raise(struct journal *, const struct config *, uint64_t floor, uint64_t dialogue);

#endif
