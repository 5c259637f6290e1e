/*
 * The other centre: links between two ground ends, joined by the carrier as an aircraft and its centre are. One end of a link
 * forwards, always the same; half of the links are from this centre to the other, half the other way. They have records of their
 * own, apart from those of the dialogues: a forward that reaches a record which is busy with an aircraft breaks that dialogue.
 *
 * A controller forwards what an aircraft sent, or what it sent itself, by a job of its broker as every message. The card does not
 * know jobs of forwards, so the host keeps which ones it has taken: one that comes again is acknowledged and not sent again. What
 * became of it is told once: answered (and how), or broken, when nobody knows whether the other centre was shown it.
 */
#ifndef FORWARD_H
#define FORWARD_H

#include "dialogue.h"

#define LINKS 8 /* behind the dialogues: their numbers go on where those end */

/* makes the records of a link, and begins their journals; -1 where that does not go */
int forward_begin(struct dialogue *link, int number, unsigned type, const char *folder);

/* One thing happens on one link. */
void forward_step(struct dialogue *link);

/* A forward was taken, and that is kept. */
void forward_taken(struct end *e, uint64_t job);

/* The user of the receiving end is shown the forward that a call told. */
void forward_shown(struct end *e, struct peat_answer answer);

/* The user of the sending end was told what became of a forward. */
void forward_told(const struct end *e, const struct notice *n);

/* At the end of the run: each forward that was acknowledged has a fate, and it is the right one. */
void forward_audit(const struct end *sender);

#endif
