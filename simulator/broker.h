/*
 * The broker of an end: the jobs that its user gave, until they are acknowledged. It is at least once and nothing more: it
 * hands out the jobs that are not acknowledged in no strict order, does not hear every acknowledgement, and hands a job out
 * again until it does. It outlives the power of every end.
 */
#ifndef BROKER_H
#define BROKER_H

#include "peatribbon.h"

struct job {
    uint64_t clearance;
    unsigned deliveries;
    unsigned deaf; /* acknowledgements that it will not hear */
    int acknowledged;
    int taken; /* for the account: an end took it */
};

struct broker {
    uint64_t jobs; /* given so far: jobs 1 to this, one series for the record */
    uint64_t done; /* jobs 1 to this are acknowledged */
    uint64_t room;
    struct job *job; /* from job 1 on */
};

/* a clearance becomes the next job */
void broker_give(struct broker *b, uint64_t clearance);

/* jobs that are not acknowledged, at least: those behind the first such */
uint64_t broker_waiting(const struct broker *b);

/* a job that it hands out now, one of the first few that are not acknowledged; 0: there is none */
uint64_t broker_hands_out(struct broker *b);

void broker_acknowledge(struct broker *b, uint64_t job);

/* whether a job of this number was ever given; and the job, where it was */
int broker_knows(const struct broker *b, uint64_t job);
struct job *broker_job(const struct broker *b, uint64_t job);

#endif
