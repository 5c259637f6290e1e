/*
 * Parcels from one thread to another, in order. Nobody waits at a mailbox: whoever puts goes on, and whoever takes finds the
 * next one or none. A descriptor says that there is one, for poll.
 */
#ifndef MAILBOX_H
#define MAILBOX_H

#include <pthread.h>
#include <stddef.h>
#include <stdint.h>

struct parcel {
    struct parcel *behind;
    int what;            /* an order's or an event's kind */
    uint64_t connection; /* which one it is about */
    unsigned dialogue;
    uint64_t channel, tag; /* a receipt; of a letter's answer `tag` is its place */
    int all;
    /* of a letter */
    char id[48], type[16], reason[24];
    uint64_t since;
    size_t length;       /* of the payload, which may be longer than what is here of it */
    size_t bytes;
    size_t heads;        /* bytes behind those: the headers' text with its zero; 0: there are none */
    uint8_t byte[];      /* a payload, a letter's body, or a text with its zero */
};

struct mailbox {
    pthread_mutex_t lock;
    struct parcel *first, *last;
    size_t bytes; /* of all that are in it */
    int bell[2];  /* a pipe; there is a byte in it while there is a parcel */
};

/* 0: there is no descriptor or no memory for it */
int mailbox_open(struct mailbox *);
void mailbox_close(struct mailbox *);

/* A parcel with room for so many bytes, all else zero. Ends the process where there is no memory. */
struct parcel *parcel_make(int what, size_t bytes);
/* The same, with headers (heads.h). */
struct parcel *parcel_with_heads(int what, size_t bytes, const char *heads);
const char *parcel_heads(const struct parcel *);

/* Puts a parcel, which is the mailbox's from now on. */
void mailbox_put(struct mailbox *, struct parcel *);
/* The next parcel, which is the caller's from now on; NULL: there is none. */
struct parcel *mailbox_take(struct mailbox *);
/* Throws away what is in it. */
void mailbox_empty(struct mailbox *);

size_t mailbox_bytes(struct mailbox *);
int mailbox_waits(struct mailbox *);
/* for poll */
int mailbox_bell(const struct mailbox *);

#endif
