/*
 * What the position of an end shows of its dialogues, by the answers of the calls that were taken and never by the record: how
 * often its user became active, and how often it was closed (Doc 9880 3.5.5.1.6, Doc 9705 2.3.5.3.1 Note 2). After every event
 * it is held to what is proved of them (crates/told_card): one closing for each activation, and no abort after a closing call.
 */
#ifndef POSITION_H
#define POSITION_H

#include "peatribbon.h"

/* what the user invoked by a call: nothing that opens or closes, a start or a forward request, a closing call */
enum invocation { NO_INVOCATION, STARTS, CLOSES };

struct position {
    unsigned long activations, closings;
    unsigned long since; /* closings since the last activation */
    int called;          /* the last closing was a call of its user, and no activation came since */
};

/* what an event does to what it shows: it opens the dialogue, it closes it */
int position_opens(enum invocation by, struct peat_answer answer);
int position_closes(enum invocation by, struct peat_answer answer);

/* It is shown an event: what its user invoked, and what the answer of the call told. */
void position_shows(struct position *p, enum invocation by, struct peat_answer answer);

/* Its counts are those of a user who is active, or not. */
void position_examine(const struct position *p, int active);

#endif
