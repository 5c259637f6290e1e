/*
 * The bridge: between a message broker and the card, for up to 48 dialogues.
 *
 * It goes round in batches. Whatever came in (payloads, primitives, expiries) is given to the card, and everything that the
 * card's answers ask for is collected. Then, in this order (`release` in bridge.c):
 *
 *     one commit     records, decisions, letters
 *     primitives     to the aircraft
 *     receipts       to the broker
 *     letters        to the broker, and those that it confirmed leave the outbox with a later commit
 *
 * So nothing leaves the process that it could forget. Nothing is ever sent a second time: a restart is a failure of the
 * carrier (docs/PAIR.md), the dialogue that was open is broken, and the jobs taken in it are reported.
 */
#ifndef BRIDGE_H
#define BRIDGE_H

#include <signal.h>

#include "broker.h"
#include "config.h"
#include "day.h"
#include "jobs.h"
#include "journal.h"
#include "link.h"
#include "payload.h"
#include "metrics.h"
#include "page.h"

/* primitives that wait to be sent, the oldest first */
struct queue {
    struct primitive *item;
    size_t oldest, count, room;
};

/* A payload that came and is not read to its end: what a round has no time for the next one goes on with. */
struct payload {
    struct payload *behind;
    struct receipt receipt;
    size_t length;  /* of the payload; longer than payload_most: so many bytes are here */
    const char *heads; /* its headers (heads.h), which stand behind the bytes */
    uint8_t byte[];
};

/* of a dialogue's queue */
enum queue_state {
    QUEUE_LEFT,     /* it is not consumed */
    QUEUE_ASKED,    /* the broker was asked to consume it */
    QUEUE_CONSUMED,
    QUEUE_LEAVING   /* it was asked to stop */
};

/* of a dialogue's queue of words (words.h) */
struct words {
    enum queue_state queue;
    uint64_t at, wait; /* when to try again, or until when an answer may come; and how long to wait after the next failure */
    int away;          /* it could not be consumed when it was tried last */
    struct receipt receipt; /* of the last word that was heard in this batch; tag 0: none */
};

struct dialogue {
    unsigned number;        /* its place */
    uint64_t lease;         /* under which number this bridge has it; 0: it is not ours, and nothing else here counts */
    struct kept kept;
    struct decision latest; /* the range of jobs that grows; first 0: none */
    struct jobs held;       /* the jobs taken in this run: their fate is told when the dialogue is over */
    int changed;            /* kept differs from the journal */
    int decided;            /* latest differs from the journal */
    struct queue out;
    int closing;            /* the dialogue is over: the connection goes when `out` is empty, */
    uint64_t close_by;      /* or at this time */
    uint64_t expires;       /* t-start; 0: it does not run */
    uint64_t start_at, wait; /* when to start again, and how long to wait after the next failure */
    enum queue_state queue;
    uint64_t asked_at;      /* since when an answer about the queue is waited for */
    uint64_t consume_at, consume_wait; /* when to try again, and how long to wait after the next failure */
    int queue_away;         /* it could not be consumed when it was tried last */
    enum { NOT_HANDED, HANDING, HANDED } handed; /* back to the queue: what was delivered and not read */
    struct payload *inbox, *inbox_last;
    struct payload_reader reader; /* the first payload, where it was begun */
    int reading;            /* it was */
    int waits;              /* its envelope that was read last waits for a message number: all are open */
    struct envelope envelope;
    struct receipt receipt; /* of the last payload that was read to its end in this batch; tag 0: none */
    struct words words;
    struct day day;
    int linked;             /* of a link: it was connected when that was said last */
    uint64_t unexpected, unexpected_at; /* starts that came from the aircraft since one was logged, and when the next may be */
    /* for the page: how the last run was over, and the last job that was refused (refusal 0: none) */
    struct { const char *fate, *why; uint64_t over_at, refused_job, refused_at; unsigned refusal; } shown;
};

/* Letters to one of the two queues. One queue that takes nothing does not hold up the other. */
struct lane {
    uint64_t behind;    /* letters up to this turn were given on this connection, or are the other lane's */
    uint64_t under_way; /* how many have no answer */
    uint64_t most;      /* how many may be: one after a refusal, and twice as many with each that is stored */
    uint64_t refused;   /* the lowest turn that the broker refused: from there on it is given again; 0: none */
    uint64_t again_at, wait;
    int held;           /* none was stored since one was refused */
};

enum { LANE_DOWN, LANE_DEAD, LANES };

/* The outbox on its way to the broker. Letters have places on a connection, from 1 on. */
struct publisher {
    uint64_t given;        /* the place of the last one */
    uint64_t oldest;       /* the first place that has no answer */
    uint64_t turn[WINDOW]; /* by place; 0: it has one */
    uint8_t in[WINDOW];    /* by place: its lane */
    struct lane lane[LANES];
    int more;              /* a round's share of letters was given, and there may be others */
};

struct bridge {
    const struct config *config;
    struct journal *journal;
    struct broker *broker;
    struct link *link;
    struct page *page;
    const volatile sig_atomic_t *stop;

    struct dialogue dialogue[PLACES_MOST]; /* by place (config.h): the dialogues, and what links this centre to others */
    struct publisher publisher;
    struct metrics metrics;
    struct status status;    /* what the page is shown */
    uint64_t shown_at, show_at; /* when it was shown last; when the next one is due, 0: none is */
    int staged;              /* there is something to commit at once */
    int again;               /* the next round comes at once */
    unsigned letters_left;   /* that this round may post, */
    uint64_t round_until;    /* and until when it may go on before it commits */
    unsigned turn;           /* the dialogue that is looked at first */
    uint64_t settled_since;  /* there are confirmed letters to delete, since then; 0: there are none */
    enum broker_state state;
    int blocked;             /* the broker takes no letters */
    uint64_t connected_at, connect_at, connect_wait, claim_until;
    uint64_t stop_by;        /* 0: not stopping */
    uint64_t witness_at, witnessed, word_at, take_at;
    uint64_t late_at;        /* what another session of the database holds up is tried again then; 0: nothing is */
};

/* Takes the dialogues of a journal that is this process's alone. Those that were open are broken now; that is committed. */
void bridge_begin(struct bridge *, const struct config *, struct journal *, struct broker *, struct link *, struct page *);

/* Runs until *stop is not 0, then ends the dialogues in order, empties the outbox and returns. */
void bridge_run(struct bridge *, const volatile sig_atomic_t *stop);

/* ---- calls.c: what comes in is given to the card, and what its answers ask for is collected */

static inline unsigned state_of(const struct dialogue *d) { return peat_record_state(d->kept.record); }

/* The round has done its share: what it has not looked at waits for the next one, behind a commit. */
int spent(const struct bridge *);

void call_start(struct bridge *, struct dialogue *);
void call_end(struct bridge *, struct dialogue *);
void call_abort(struct bridge *, struct dialogue *);
void call_expiry(struct bridge *, struct dialogue *);
void call_primitive(struct bridge *, struct dialogue *, const struct primitive *);
void call_failure(struct bridge *, struct dialogue *, const char *why);
/* Reads one envelope of a dialogue's first payload. 1: there are others in it; 0: it was read to its end */
int call_envelope(struct bridge *, struct dialogue *);
/* 1: it has to wait: the job has no message number before one is closed, or one is being forwarded */
int call_waits(struct bridge *, const struct dialogue *);
/* Lays bytes aside, with a reason. */
void call_dead(struct bridge *, const struct dialogue *, const char *reason, const uint8_t *bytes, size_t count);

/* 1: what comes from aircraft and centres is heard: there is room for its letters */
int bridge_hears(const struct bridge *);

/* The connection to the broker is of no use any more. */
void bridge_broker_lost(struct bridge *, const char *why);

/* ---- publisher.c */

void publisher_restart(struct bridge *);
void publisher_give(struct bridge *);
void publisher_confirmed(struct bridge *, uint64_t place, int all);
void publisher_refused(struct bridge *, uint64_t place, int all, const char *why);
/* Letters to one of the queues wait since the broker refuses them. */
int publisher_held(const struct bridge *);
/* when letters that were refused are given again; 0: there are none */
uint64_t publisher_again(const struct bridge *);

/* ---- points where the tests kill the process; in the bridge itself nothing happens there (points.c) */

enum point {
    AT_RECOVERY,     /* dialogues that were taken and were open are broken, but that is not committed */
    AT_RECOVERED,    /* it is */
    AT_COMMIT,       /* before the commit of a batch */
    AT_COMMITTED,    /* after it */
    AT_SENDING,      /* before each primitive */
    AT_SENT,         /* after all of them */
    AT_ACKNOWLEDGED, /* after the receipts */
    AT_PUBLISHED,    /* after a letter, before its confirmation */
    AT_CONFIRMED,    /* a letter is confirmed and not yet deleted */
    AT_STOPPING,     /* told to stop, dialogues are ending */
    POINTS
};

void at_point(const struct bridge *, enum point);

#endif
