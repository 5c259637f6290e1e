/*
 * A dialogue: an air end and a ground end, joined by the carrier, and what may happen to them. The steps are those of the
 * pair statement (docs/PAIR.md), and a restart of an end, which is one of them: the carrier fails. A link between two centres is
 * such a pair too, of two ground ends, with a start of its own (forward.h).
 */
#ifndef DIALOGUE_H
#define DIALOGUE_H

#include "end.h"

struct dialogue {
    struct end end[2]; /* the air end, the ground end; of a link the one that forwards, the one that gets it */
};

static inline struct end *air(struct dialogue *d) { return &d->end[0]; }
static inline struct end *ground(struct dialogue *d) { return &d->end[1]; }

/* the end whose power is that of this centre's rack: the ground end, and of a link (forward.h) either */
static inline struct end *in_rack(struct dialogue *d) { return of_link(&d->end[0]) ? &d->end[d->end[0].dialogue % 2] : ground(d); }

/* both lines are empty */
static inline int quiet(struct dialogue *d) { return air(d)->out.entries == 0 && ground(d)->out.entries == 0; }

/* ---- the users */

/* The end that starts, always the same one of a dialogue: its number is never below the other's. */
static inline struct end *starter(struct dialogue *d) { return &d->end[d->end[0].dialogue % 2]; }

/* Its user starts, when both ends are IDLE. Entries of old dialogues may be on the lines. */
void dialogue_start(struct dialogue *d);

/* A user answers what it was asked, and now and then asks for the end or aborts. */
void dialogue_respond(struct end *e);

/* ---- the host and the carrier */

/* The oldest entry of an end's line is handed over. One of an old dialogue is refused as STALE, and gone. */
void dialogue_hand_over(struct end *from);

/* A running timer expires. */
void dialogue_expire(struct end *e);

/* The carrier can not deliver a start: it removes it and tells the starting end. */
void dialogue_turn_back(struct end *e);

/* An end breaks down, and goes on. */
void dialogue_break_down(struct end *e);

/* The carrier fails: both lines are emptied, and each end that is not IDLE hears of it. */
void dialogue_fail(struct dialogue *d);

/* An end hears that the connection is lost, and the other one has not yet. Until it has, nothing reaches the first one, and no start is passed on. What the
   first one sent before may still arrive. */
void dialogue_part(struct end *e);

/* One of the two has heard, and the other not */
static inline int parted(struct dialogue *d) { return air(d)->apart || ground(d)->apart; }

/* The other one hears of it, now or later. */
void dialogue_rejoin(struct dialogue *d);

/* ---- what must hold */

/* With both lines empty the ends match (of a link: both are IDLE), nothing is missing, and a dialogue that is over has released its
   connection. */
void dialogue_examine(struct dialogue *d);

/* Lets the lines run empty. */
void dialogue_drain(struct dialogue *d);

/* At the end of the run: each job was shown, or its user knows, or it is still under way. */
void dialogue_audit(const struct end *e);

#endif
