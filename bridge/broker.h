/*
 * The message broker. It delivers the payloads of a dialogue's queue at least once, in order, as many as the prefetch
 * allows before it hears of one; it takes letters, and confirms each when it has stored it.
 *
 * No call of this face waits: a call asks, and what comes of it is told by an event later. So a broker that is slow, silent or out
 * of memory costs the bridge nothing but its letters' time.
 *
 * A receipt belongs to the channel on which the payload came. After that one was closed, or its connection was lost, it means
 * nothing: another channel counts from one again, and the broker delivers the payload anew.
 *
 * The bridge sees this face only. broker_rabbit.c is one implementation; the tests have another, in memory.
 */
#ifndef BROKER_H
#define BROKER_H

#include <stddef.h>
#include <stdint.h>

#include "journal.h"

#define WINDOW 1024 /* letters under way to the broker, at most */

struct receipt {
    uint64_t channel; /* which channel of this process, counted from 1 over all that were opened */
    uint64_t tag;
};

enum broker_news {
    BROKER_QUIET,       /* nothing now */
    BROKER_DELIVERY,    /* a payload of a dialogue's queue */
    BROKER_CONFIRMED,   /* a letter is stored; `all`: and every one before it */
    BROKER_REFUSED,     /* a letter is not stored, and `why`; `all`: and none before it that has no answer yet. It may be given again */
    BROKER_CONSUMES,    /* a dialogue's queue is consumed now, as was asked for */
    BROKER_LEFT,        /* it is not any more, as was asked for */
    BROKER_QUEUE_TAKEN, /* it is not: another bridge consumes it */
    BROKER_QUEUE_AWAY,  /* it is not, or not any more: it was deleted, its node failed, or it may not be read; `why` */
    BROKER_HANDED_BACK, /* what was delivered of it and not acknowledged is in the queue again */
    BROKER_BLOCKED,     /* the broker takes no letters for now: it is short of memory or disk; `why` */
    BROKER_UNBLOCKED,   /* it takes them again */
    BROKER_LOST         /* the connection is gone, and with it every receipt and every letter that was not confirmed; `why` */
};

struct broker_event {
    enum broker_news news;
    unsigned dialogue; /* of a delivery, and of what is about a queue: the queue's number (config.h) */
    const char *why;   /* for the log; stands until the next call */
    /* of a delivery. Of a payload that is longer than payload_most that many bytes are there, and `bytes` is its length */
    struct receipt receipt;
    const uint8_t *payload; /* stands until the next call */
    size_t bytes;
    const char *heads;      /* its headers (heads.h) */
    /* of a letter: its place among those of this connection, from 1 on */
    uint64_t place;
    int all;
};

enum broker_state {
    BROKER_AWAY,   /* not connected: try again later */
    BROKER_TAKEN,  /* another bridge has these queues */
    BROKER_TRYING, /* under way: call again when there is news */
    BROKER_OURS
};

struct broker {
    void *ends;
    const char *why; /* of the last BROKER_AWAY or BROKER_TAKEN, for the log */

    /* connects, and claims the queues for this bridge alone, unless several bridges share them */
    enum broker_state (*connect)(struct broker *);
    /* Queues are named by their numbers (config.h): a dialogue's queue of jobs has the dialogue's own. */
    /* Asks to consume a dialogue's queue, or to leave it. One event answers: BROKER_CONSUMES or BROKER_LEFT, or why it is not so. */
    void (*consume)(struct broker *, unsigned dialogue, int on);
    /* Payloads of a dialogue that were delivered and not acknowledged go back to their queue, each in its place: the next bridge
       gets them before those behind. BROKER_HANDED_BACK answers; where the connection is lost they go back by that. */
    void (*hand_back)(struct broker *, unsigned dialogue);
    struct broker_event (*next)(struct broker *);
    /* Acknowledges a dialogue's payloads up to this receipt, unless it is of an earlier channel. */
    void (*acknowledge)(struct broker *, unsigned dialogue, struct receipt);
    /* Gives a letter; its place is one more than the last one's of this connection. 0: there is no room for it now, it was not taken */
    int (*publish)(struct broker *, const struct letter *);
    /* for poll, and whether news may be there without it; -1: there is none */
    int (*descriptor)(struct broker *);
    int (*buffered)(struct broker *);
    /* For how long the broker has been silent in the middle of something that it was asked, ms; 0: it is not. Too long costs the connection */
    uint64_t (*waits)(struct broker *);
    void (*disconnect)(struct broker *);
    /* disconnects and gives the memory back */
    void (*end)(struct broker *);
};

struct config;

/* RabbitMQ, by AMQP 0-9-1. Answers 0, and why, where this build has no AMQP library or a file can not be read. */
int broker_open_rabbit(struct broker *, const struct config *);

#endif
