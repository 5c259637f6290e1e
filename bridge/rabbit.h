/*
 * RabbitMQ behind the broker's face. Its library waits wherever it likes: for a name, for an answer, for the rest of a payload, for room on
 * its socket. So a thread of its own calls it (rabbit_thread.c), and the bridge's round (broker_rabbit.c) puts orders and letters
 * into mailboxes and takes events out of one.
 */
#ifndef RABBIT_H
#define RABBIT_H

#include "broker.h"
#include "config.h"
#include "mailbox.h"

enum order {
    ORDER_CONNECT,     /* answered by EVENT_STATE */
    ORDER_CONSUME,
    ORDER_LEAVE,
    ORDER_HAND_BACK,
    ORDER_ACKNOWLEDGE,
    ORDER_LETTER,      /* in the mailbox of letters: they wait where the broker takes none, and orders do not wait behind them */
    ORDER_DISCONNECT,
    ORDER_END
};

/* An event's kind is enum broker_news, or this one: `tag` is enum broker_state. */
#define EVENT_STATE 100

struct rabbit {
    const struct config *config;
    char password[CONFIG_TEXT];
    struct mailbox orders, letters, events;

    /* The thread says in what it is: what the guard guards is read and written by both. */
    pthread_mutex_t guard;
    pthread_cond_t rang; /* `ended` changed */
    int socket;          /* of the connection; -1: there is none */
    uint64_t since;      /* when the call of the library that is under way began; 0: none is */
    int ended;           /* the thread has done its last */
};

/* What the thread does, until ORDER_END. */
void *rabbit_serve(void *rabbit);

#endif
