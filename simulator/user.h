/*
 * The user of an end: a controller or a flight deck. It gives clearances to its broker while it believes that a dialogue is
 * open, gives one again, as a new job, when it is told that the job was refused, and remembers every clearance that it was
 * shown. Users outlive every failure of the power.
 */
#ifndef USER_H
#define USER_H

#include "book.h"
#include "broker.h"
#include "memory.h"

struct user {
    unsigned side;
    int talking;      /* it believes that a dialogue is open */
    uint64_t next;    /* the clearance that it composes next; no other user of its side composes that one */
    uint64_t apart;   /* and how many numbers later the one after it is */
    struct book_replies replies; /* of a flight deck: those that it owes in this dialogue */
    uint64_t heard;    /* the last notice that it was given: an older one comes a second time */
    uint64_t room_again, again_first, again_end; /* clearances whose job was refused, to give again */
    uint64_t *again;
    uint64_t room_shown; /* how often it was shown each clearance of the other side */
    unsigned char *shown;
    uint64_t room_told; /* the fate of each of its jobs, as it was told */
    unsigned char *told;
};

/* It gives the broker something to send, or does not. */
void user_gives(struct user *u, struct broker *b);

/* It is shown a clearance of the other side: how often by now. */
unsigned user_shown(struct user *u, uint64_t clearance);

/* It is told the fate of one of its jobs; 0 where that can not be right: the job has another fate already. */
int user_told_fate(struct user *u, const struct broker *b, const struct notice *n);

/* what it knows */
unsigned user_saw(const struct user *u, uint64_t clearance);
enum fate user_knows(const struct user *u, uint64_t job);

#endif
