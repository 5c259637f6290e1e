/*
 * Forwards to another centre, and from it (docs/HOST.md, duties 13 to 15). Each centre has two places, with a record each: one forwards, one hears.
 *
 * A forward is a job of the centre's queue. It is kept as decided, with the record, before its D-START leaves, so one that comes again is not sent
 * again. One is under way at a time; what became of it is told once: forwarded, declined (by the other centre, and why), or broken.
 *
 * A forward that arrives becomes a letter. The record and the letter are kept in one commit, and the answer leaves behind it.
 */
#ifndef FORWARD_H
#define FORWARD_H

#include "bridge.h"

/* The place's turn in a round: it is connected, and what came is heard. */
void forward_tend(struct bridge *, struct dialogue *);
/* Told to stop: what is under way may be answered for a while; nothing is heard any more. */
void forward_wind_down(struct bridge *, struct dialogue *);

/* 1: the next job may be offered */
int forward_ready(struct bridge *, const struct dialogue *);
/* Offers a job to the card. *why: it is laid aside with this reason. */
void forward_offer(struct bridge *, struct dialogue *, const struct envelope *, const char *heads, const char **why);
/* What the answer of a call on such a record asks for, beside its primitive. */
void forward_act(struct bridge *, struct dialogue *, unsigned before, struct peat_answer answer, const char *why);

/* when it is to be looked at again; 0: when something comes */
uint64_t forward_at(struct bridge *, const struct dialogue *);

#endif
