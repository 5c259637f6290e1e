/*
 * Message identification numbers. Each message of a controller has a number from the book of its dialogue, which is part of
 * the memory of the ground end (memory.h), and the flight deck's reply closes it. Beside the book stands a watch, the
 * simulator's own list of what is open, made of what happened and not of the book's bytes. It holds the book to document 02
 * (E2): no two open messages of a dialogue have one number, and the number given is the lowest free one.
 */
#ifndef BOOK_H
#define BOOK_H

#include "peatribbon.h"

#define NO_NUMBER 255 /* no number is free, or a reply to none */

/* The number that the book gives a job's message: the lowest free one, or NO_NUMBER. The book stays: it is opened by the
   change that takes the job (memory_apply), so a message that is refused has taken none. */
unsigned book_next(const uint8_t *book, uint64_t job);

/* ---- the watch */

struct book_watch {
    uint64_t job[PEAT_BOOK_NUMBERS]; /* that each number is open for, 0 where it is not open */
};

/* a new dialogue: nothing is open */
void book_watch_begins(struct book_watch *w);

/* a job's message was taken with this number, and `open` are open by the book now */
void book_watch_gives(struct book_watch *w, unsigned number, uint64_t job, unsigned open);

/* the book had no number to give */
void book_watch_all_open(const struct book_watch *w);

/* a message with this number is shown: the job that it has by the watch; 0 where it has none, or the book another */
uint64_t book_watch_job(const struct book_watch *w, const uint8_t *book, unsigned number);

/* the reply to a number is shown, which closes it */
void book_watch_replied(struct book_watch *w, unsigned number);

/* ---- what a flight deck owes: a reply to each number that it was shown, the oldest first */

struct book_replies {
    unsigned oldest, owed;
    uint8_t number[PEAT_BOOK_NUMBERS];
};

void reply_owed(struct book_replies *r, unsigned number);

/* the number that its next message replies to, or NO_NUMBER */
unsigned reply_next(const struct book_replies *r);

void reply_sent(struct book_replies *r);

#endif
