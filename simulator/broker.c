#include "broker.h"

#include <stdio.h>
#include <stdlib.h>

#include "chance.h"

#define JITTER 4 /* a job may come before up to three older ones */
#define DEAF 3   /* up to two acknowledgements of a job are not heard */

int broker_knows(const struct broker *b, uint64_t job) { return job >= 1 && job <= b->jobs; }

struct job *broker_job(const struct broker *b, uint64_t job) { return &b->job[job - 1]; }

void broker_give(struct broker *b, uint64_t clearance)
{
    struct job fresh = {0};
    if (b->jobs == b->room) {
        b->room = 2 * b->room + 64;
        b->job = realloc(b->job, b->room * sizeof *b->job);
        if (b->job == NULL) {
            fputs("peat-host: there is no memory for the broker's jobs\n", stderr);
            exit(2);
        }
    }
    fresh.clearance = clearance;
    fresh.deaf = chance(DEAF);
    b->job[b->jobs++] = fresh;
}

uint64_t broker_waiting(const struct broker *b) { return b->jobs - b->done; }

uint64_t broker_hands_out(struct broker *b)
{
    uint64_t waiting[JITTER], job;
    unsigned n = 0;
    for (job = b->done + 1; job <= b->jobs && n < JITTER; job++)
        if (!broker_job(b, job)->acknowledged)
            waiting[n++] = job;
    if (n == 0)
        return 0;
    job = waiting[chance(n)];
    broker_job(b, job)->deliveries++;
    return job;
}

void broker_acknowledge(struct broker *b, uint64_t job)
{
    struct job *j;
    if (!broker_knows(b, job))
        return;
    j = broker_job(b, job);
    if (j->deaf > 0)
        j->deaf--;
    else
        j->acknowledged = 1;
    while (b->done < b->jobs && broker_job(b, b->done + 1)->acknowledged)
        b->done++;
}
