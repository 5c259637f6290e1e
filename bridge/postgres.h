/*
 * The parts of the journal in PostgreSQL: its tables and statements (postgres_tables.c), the leases (postgres_lease.c), and the
 * journal itself (journal_postgres.c). Nobody else sees this.
 */
#ifndef POSTGRES_H
#define POSTGRES_H

#include "config.h"
#include "journal.h"
#include "letters.h"
#include "pg.h"

/* what this process knows of a dialogue */
struct hold {
    uint64_t lease; /* its number; 0: it is not ours */
    uint64_t top;   /* no job above this was decided */
    int written;    /* in this batch: its row, or a look at it, under its number, */
    int touched;    /* or something else of it */
    int leaves;     /* it is given back with this batch */
    uint64_t late;  /* its row was locked by another session at the last commit, and before, since then (ms); 0: it was not */
    int unsure;     /* its row was locked at the last renewal, and the lease had run out: whether it is ours is not known */
    uint64_t unkept; /* the turn of its first letter that is not kept yet; 0: all are */
};

struct store {
    const struct config *config;
    struct pg *pg;
    char owner[OWNER_TEXT];
    struct hold hold[PLACES_MOST];
    unsigned held;
    int making;              /* by `init`: the journal is whole when it is closed */
    int settles_ids;         /* the statement for that is prepared */
    uint64_t began, renewed; /* when this process opened the journal, and when it last asked for its leases */
    uint64_t position;       /* of the database's log, then */
    uint64_t id_next, id_end; /* ids of letters that are left */
    struct letters letters;
    struct decision *pending; /* the decisions of this batch, */
    unsigned *pending_of;     /* and of which dialogues they are */
    size_t pendings, pending_room, pending_of_room;
};

static inline struct store *store_of(struct journal *j) { return j->store; }

/* Ends the process: it may not run on this database. */
void postgres_refuse(const char *what, const char *why)
#ifdef __GNUC__
    __attribute__((noreturn))
#endif
    ;

/* ---- tables */

#define POSTGRES_VERSION 2   /* 1, up to 0.11.0: without books and headers. It is made 2 when it is opened */
#define POSTGRES_MOVING 0    /* the version of a journal that is being moved here and is not whole yet, */
#define POSTGRES_MAKING 1000 /* and of one whose `init` has not come to its end */

enum statement { KEEP, FENCE, LOAD, TOP, DECIDE, FIND, OF_RUN, POST, OUTBOX, SETTLE, LOOK, OUST, TAKE, RENEW, LOCK, GIVE_BACK, LEAVE, BLOCK, RENAME, STATEMENTS };

/* Outside the list: what `init` writes, and what a raised floor settles (a journal of 0.6.1 gets that table then). */
#define FRESH_DIALOGUE STATEMENTS
#define SETTLE_ID (STATEMENTS + 1)
#define POSTGRES_EARLIER "CREATE TABLE IF NOT EXISTS earlier(id text PRIMARY KEY);"

/* Gives the tables of a journal up to 0.11.0 what they have not, in one commit. */
void postgres_add(struct pg *);
/* Fresh records for the places from this one on that have none: they never were. */
void postgres_add_places(struct store *, unsigned first);
void postgres_prepare(struct pg *);
int postgres_is_there(struct pg *);
/* Makes the tables, with fresh records, and refuses to where they are; those of a move or an `init` that was broken off make room. */
void postgres_make(struct journal *, unsigned dialogues, int version);
/* What is stored of a dialogue, as parameters. */
void postgres_kept(struct pg *, unsigned dialogue, const struct kept *);

/* ---- leases */

unsigned postgres_take(struct journal *, struct taken *);
void postgres_renew(struct journal *);
void postgres_renew_now(struct store *);
int postgres_give_back(struct journal *, unsigned dialogue);
/* the parameters by which a statement is bound to a lease: the dialogue, and the number */
void postgres_lease(struct store *, unsigned dialogue);
/* Binds everything in the batch to the leases; what the batch gave back is gone when it is committed. */
void postgres_fence(struct store *);
void postgres_let_go(struct store *);
/* Begins the transaction of a batch and takes the rows of its dialogues, without waiting for one that another session has: what
   the batch has of such a dialogue is late, and waits for a later commit. How many are. */
unsigned postgres_lock(struct store *);
int postgres_is_late(void *store, unsigned dialogue);
/* The session is gone: ends the process where that is since other bridges take its dialogues. */
void postgres_look_again(void *store);
/* Ends the process: a dialogue of this one is another's. */
void postgres_fenced(const struct store *)
#ifdef __GNUC__
    __attribute__((noreturn))
#endif
    ;

#endif
