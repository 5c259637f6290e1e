/*
 * What the host of an end remembers of it, and how that changes. Everything that has to outlive the power is here and
 * changes by `memory_apply` alone: the same function that runs when a change is made runs when the journal is loaded, so
 * what is loaded is what there was.
 */
#ifndef MEMORY_H
#define MEMORY_H

#include "peatribbon.h"

#define OPEN_MOST 256               /* jobs of one dialogue that are not yet reported; then the host takes no more */
#define OUTBOX_MOST (OPEN_MOST + 1) /* a job is only taken when the outbox is empty */
#define REFUSED_KEPT 256            /* how far back the refused jobs are known one by one */

/* what became of a job, as its user is told; a forward is answered by one of the last three, in the order of enum peat_forward_result, or broken */
enum fate { NOTHING_TOLD, REFUSED, ENDED, BROKEN, ANSWERED, ANSWERED_NOT_SUPPORTED, ANSWERED_NOT_EQUAL };

/* a word for whoever gave the job, until the broker has confirmed it */
struct notice {
    uint64_t id; /* 1 and up: a broker that gets an id twice drops the second */
    enum fate fate;
    uint64_t job;
    unsigned refusal; /* where the fate is REFUSED */
};

struct memory {
    uint8_t rec[PEAT_RECORD_BYTES];
    uint64_t wanted; /* the next job to decide: every job below it was decided, and is never decided again */
    uint8_t refused[REFUSED_KEPT]; /* 1: the job of this number, modulo, was refused. The taken ones the record knows. */
    uint8_t book[PEAT_BOOK_BYTES]; /* of a ground end: the numbers of its messages that are open in this dialogue */
    unsigned open;   /* the jobs that were taken in the dialogue that is open, or is closing, and not reported yet */
    uint64_t opened[OPEN_MOST];
    uint64_t notices; /* made so far */
    unsigned posts;   /* notices that the broker has not confirmed, the oldest first */
    struct notice post[OUTBOX_MOST];
};

/* what becomes of the book; a number that is opened is opened for the job that is decided */
enum numbering { BOOK_STAYS, BOOK_EMPTIED, NUMBER_OPENED, NUMBER_CLOSED };

/* one change, as a call and its decision make it; what is 0 did not happen */
struct change {
    uint8_t rec[PEAT_RECORD_BYTES]; /* after the call */
    uint64_t job;                   /* that was decided: its number, and the refusal or PEAT_TAKEN */
    unsigned outcome;
    enum numbering book;
    unsigned number;    /* opened or closed; and of a job that was taken, the number in its message (clearance.h) */
    enum fate over;     /* the dialogue is over, so: of all its jobs */
    unsigned confirmed; /* the oldest notices that the broker has confirmed */
};

/* the memory of an end whose record has just been made */
void memory_begin(struct memory *m, const uint8_t *rec);

/* The job was decided before, and refused: the record does not know it, and would take it. (Of one so far back that nothing
   is known, too: it may not be taken.) */
int memory_refused(const struct memory *m, uint64_t job);

/* a change that leaves the record as it is */
struct change no_change(const struct memory *m);

void memory_apply(struct memory *m, const struct change *c);

#endif
