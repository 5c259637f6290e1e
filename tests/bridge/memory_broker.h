/*
 * A broker in memory, for the tests: a queue for each dialogue, and one for letters. It lies in memory that several processes
 * share, so it lives on when the bridge is killed, as a real broker does. It keeps what RabbitMQ keeps:
 *
 *   - payloads come in order, at most `prefetch` of them before one is acknowledged;
 *   - when the connection is lost, those that were not acknowledged come again, in their order;
 *   - a letter is stored when it is given, and confirmed later; or it is not stored, and refused later;
 *   - a queue that is deleted ends its consumer, who hears of it, and can't be consumed while it is gone;
 *   - a tag counts on its own connection only; one bridge has the queues.
 */
#ifndef MEMORY_BROKER_H
#define MEMORY_BROKER_H

#include "../../bridge/bridge.h"

#define MEMORY_PAYLOADS 512 /* of a queue */
#define MEMORY_BYTES 4096   /* of a payload */
#define MEMORY_LETTERS 8192
#define MEMORY_BODY 512     /* of a letter, as kept */
#define MEMORY_HEADS 256    /* of a payload's headers, and of a letter's as kept */

struct memory_payload {
    size_t bytes;
    int late; /* delivered only when its dialogue is not open any more, or after a while: as bad as a broker can be */
    uint64_t tag; /* 0: not delivered on this connection */
    char heads[MEMORY_HEADS];
    uint8_t byte[MEMORY_BYTES];
};

struct memory_queue {
    unsigned put, gone; /* payloads given, and acknowledged: the ones between wait */
    unsigned next;      /* the next to deliver */
    int consumed;
    int asked, handing;  /* what was asked and is not answered: 1 to consume it, 2 to leave it */
    int deleted;         /* there is no such queue: whoever consumes it hears of it */
    uint64_t waits_since;
    struct memory_payload payload[MEMORY_PAYLOADS];
};

struct memory_letter {
    char id[48], type[16], reason[16];
    unsigned dialogue;
    size_t bytes;
    char heads[MEMORY_HEADS];
    uint8_t body[MEMORY_BODY];
};

struct memory {
    int owner;              /* 1: a bridge has the queues */
    int cut;                /* 1: the next call finds the connection lost; 2: the call behind the next delivery */
    int away;               /* 1: nobody answers */
    int forgets;            /* 1: letters that were not confirmed are lost with the connection; 0: they are stored */
    int refuses;            /* so many letters from now on are refused; -1: all of them */
    int blocks;             /* 1: no letters are taken; the bridge hears of it, and of the end of it */
    unsigned refusals, tries; /* letters refused; times that a queue that is gone was asked for */
    uint64_t connection;    /* counted over all processes */
    uint64_t tag;           /* the last one of this connection */
    uint64_t given, confirmed; /* letters of this connection: given, and answered */
    uint8_t no[WINDOW];     /* by place: it is refused */
    unsigned rounds;        /* that the bridge went since it connected, */
    uint64_t outbox;        /* the letters that it has, */
    uint64_t missing;       /* and the dialogues that it has not */
    unsigned prefetch, letters, stale, deliveries, redeliveries;
    struct memory_queue queue[QUEUES_MOST]; /* by their numbers (config.h) */
    struct memory_letter letter[MEMORY_LETTERS];
};

/* the memory, shared with the processes that are forked later */
struct memory *memory_make(unsigned prefetch);
void memory_empty(struct memory *, unsigned prefetch);

/* A payload for a queue; with headers (heads.h). */
void memory_put(struct memory *, unsigned queue, const uint8_t *payload, size_t bytes, int late);
void memory_put_with(struct memory *, unsigned queue, const uint8_t *payload, size_t bytes, const char *heads);

/* The bridge's process is gone: its connection is lost. */
void memory_lost(struct memory *);

/* A bridge is there; everything was delivered and acknowledged, and every letter confirmed. */
int memory_idle(const struct memory *);

/* The broker's face of this memory, for the bridge that is given: a late payload looks at its dialogues. */
void memory_open(struct broker *, struct memory *, const struct bridge *);

#endif
