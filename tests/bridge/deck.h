/*
 * A flight deck that the test itself plays: an air record, and the connection of the bridge. It calls the card as an aircraft's host does, one
 * primitive after the other, and shows what came with each.
 */
#ifndef DECK_H
#define DECK_H

#include "../../bridge/link.h"

struct deck {
    int listener, socket; /* -1: none */
    uint8_t record[PEAT_RECORD_BYTES];
    uint8_t data[PEAT_BUFFER_LEAST]; /* message data that the last call delivered */
    size_t bytes;
    unsigned bits; /* of those */
    unsigned parameter; /* of what it was told last */
};

/* Listens where the bridge looks for a dialogue's aircraft; of type 22, or of a type. 1: it does. */
int deck_begin(struct deck *, const char *path, unsigned dialogue);
int deck_begin_of(struct deck *, const char *path, unsigned dialogue, unsigned type);
/* Waits for the bridge's connection; 0: none came. */
int deck_meet(struct deck *);
/* Waits for a primitive and hands it to the record; what its user is told (enum peat_told), PEAT_UNTOLD where nothing comes, or the connection is gone. A
   start and an end are accepted. */
unsigned deck_hear(struct deck *);
/* Sends a message, as job `job` of the flight deck. 1: it was taken. */
int deck_send(struct deck *, uint64_t job, const struct peat_data *);
/* Starts a dialogue with a number, in a mode; ends one that is downstream; 1: it was taken. */
int deck_start(struct deck *, uint64_t number, unsigned mode, const struct peat_data *);
int deck_end_dsc(struct deck *);
/* A part of the message data of type 22 that came last: its bits, and they in `out` (PEAT_BUFFER_LEAST bytes); -1: it is not there. */
int deck_part(const struct deck *, unsigned part, uint8_t *out);
void deck_close(struct deck *); /* the connection, and the listener */

#endif
