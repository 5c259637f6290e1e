/*
 * What positions say of a dialogue, in a queue of its own: `close JOBS`, as `close 17` or `close 3,9-11`. The exchanges of these jobs are over, and
 * their message numbers are free. The queue of jobs can not say it: its first job may wait for just such a number.
 *
 * A word names jobs and no numbers, so it may come twice, or late: a number that was given to another job since then stays open.
 */
#ifndef WORDS_H
#define WORDS_H

#include "bridge.h"

/* A dialogue was taken; or the broker is lost. */
void words_begin(struct bridge *, struct dialogue *);

/* The queue is consumed while the dialogue is this bridge's. */
void words_choose(struct bridge *, struct dialogue *);

/* News of the queue, or a word. */
void words_hear(struct bridge *, struct dialogue *, const struct broker_event *);

/* Behind the commit: what was heard is acknowledged. */
void words_acknowledge(struct bridge *, struct dialogue *);

/* 1: the queue is not consumed, and nothing about it is waited for */
static inline int words_left(const struct dialogue *d) { return d->words.queue == QUEUE_LEFT; }

#endif
