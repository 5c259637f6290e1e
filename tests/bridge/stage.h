/*
 * The stage of a test: aircraft in a process of their own, a broker in memory, and a bridge in a process that is killed where
 * the plan says. The journal is a file in the stage's folder.
 */
#ifndef STAGE_H
#define STAGE_H

#include <sys/types.h>

#include "../../bridge/sim/account.h"
#include "memory_broker.h"

/* where a bridge's process kills itself; pass: the how-manieth time it comes there, 0: never */
struct plan {
    enum point point;
    unsigned pass;
    int power;            /* and the power is cut */
    unsigned failing_sync; /* its disk fails from this sync on */
};

struct stage {
    struct config config;
    struct memory *memory;
    char folder[90], account_file[160];
    pid_t aircraft;
    struct account account;
    struct verdict verdict;
    unsigned kills;
    uint64_t opened, disorder, damaged; /* of the aircraft */
    uint64_t numbers, twice;            /* CPDLC messages that the flight decks saw, and those with a number that was open there */
    unsigned reply;                     /* once in so many messages the flight decks answer what they have not answered; 0: never */
    char notify[100]; /* a socket for words to systemd; empty: none */
};

/* A fresh stage: an empty broker, a journal that was just made. plain: the dialogues of application type 2, as 0-3,7. */
void stage_set(struct stage *, const char *folder, struct memory *, unsigned dialogues, const char *plain);
void stage_aircraft(struct stage *, unsigned abort_once_in, unsigned down_once_in);

/* A job for a dialogue: a payload with one envelope, so many times; late: see memory_broker.h. */
void stage_job(struct stage *, unsigned dialogue, uint64_t job, unsigned times, int late);

/* A job that is a CPDLC message (clearance.h), with headers. */
void stage_clearance(struct stage *, unsigned dialogue, uint64_t job, unsigned times, const char *heads);

/* One bridge. Until it is told to stop, or dies by its plan. */
pid_t stage_bridge(struct stage *, struct plan);

/* Bridges, one after the other, by these plans and then without one, until everything is delivered and told; the last one is
   told to stop in order. 1: it did, in time. */
int stage_play(struct stage *, const struct plan *plans, unsigned count);

/* The status with which a process ends; a process that a signal ended: 256 and the signal. One that goes on for so many ms is
   killed, and its status is -1. */
int stage_wait(pid_t, unsigned ms);

/* The aircraft land; the account is drawn up. 1: its verdict is good. */
int stage_judge(struct stage *);

/* What is wrong with the last verdict, on standard output. */
void stage_explain(const struct stage *, const char *name);

#define KILLED (256 + 9)

/* the stage of this process: where at_point looks */
int stage_quiet(const struct stage *);

#endif
