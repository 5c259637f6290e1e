/*
 * A connection to PostgreSQL that may not fail. No call answers a failure: whatever goes wrong ends the process (EXIT_JOURNAL),
 * and since nothing of a batch leaves the bridge before its commit, nothing has left. There is no second connection: a process
 * that lost the first can not know what became of its last commit, and begins anew.
 *
 * No call waits for longer than it may: an answer that does not come in time ends the process (EXIT_SLOW), and so does one that the
 * database gave up, since another session has a lock. While a call waits, what is due meanwhile is done.
 *
 * What is to be written is collected (pg_add) and goes out with pg_commit, as one transaction: one way there and back for all
 * statements, then the commit. Each statement says how many rows it must touch.
 */
#ifndef PG_H
#define PG_H

#include <stddef.h>
#include <stdint.h>

#define PG_PARAMETERS 10

struct pg;

/* Connects; `name` is what the database's own lists show. */
struct pg *pg_open(const char *database, const char *name);
void pg_close(struct pg *);

/* From now on an answer may take so many ms, and the database gives a statement or a lock up before; 0: as long as it likes. */
void pg_limit(struct pg *, uint64_t ms);
/* What is done now and then while a call waits for an answer. */
void pg_meanwhile(struct pg *, void (*meanwhile)(void *with), void *with);
/* What is asked when the connection is lost, before the process ends: it may end it with another status. */
void pg_on_loss(struct pg *, void (*lost)(void *with), void *with);

/* Statements have numbers, from 0 on; PG_BEGIN is the connection's own. */
#define PG_BEGIN 1000u
void pg_prepare(struct pg *, unsigned statement, const char *text);

/* ---- the parameters of the next statement, in their order */

void pg_text(struct pg *, const char *);
void pg_number(struct pg *, uint64_t);               /* as a bigint: below 2^63 */
void pg_bytes(struct pg *, const void *, size_t);    /* as a bytea */
void pg_job(struct pg *, uint64_t);                  /* 64 bits as eight bytes, the highest first: bytes compare as the numbers do */

/* ---- asking, at once */

/* Runs a statement with the parameters so far; its rows stand until the next. How many there are. */
int pg_ask(struct pg *, unsigned statement);
/* the same for a text without parameters */
int pg_say(struct pg *, const char *text);

/* The database warned of the last question: what it wrote may not be where it should be. */
int pg_warned(const struct pg *);

const char *pg_text_at(struct pg *, int row, int column);
uint64_t pg_number_at(struct pg *, int row, int column);
const uint8_t *pg_bytes_at(struct pg *, int row, int column, size_t *count);
uint64_t pg_job_at(struct pg *, int row, int column);

/* ---- a batch */

#define PG_ANY (-1)
#define PG_NO_GROUP UINT32_MAX

/* Puts a statement with the parameters so far into the batch. It must touch so many rows, or the dialogue is another's. It belongs
   to a group (its dialogue), or to none. */
void pg_add(struct pg *, unsigned statement, int rows, unsigned group);
int pg_pending(const struct pg *);

/* Begins the transaction, and asks a statement in it with the parameters so far; how many rows there are. */
int pg_begin(struct pg *, unsigned statement);

/* Ends it with the batch, on stable storage when this returns. Statements of a group that is late stay in the batch: `late` says it
   by number. 0: a statement did not touch its rows; nothing of the batch was kept. */
int pg_commit(struct pg *, int (*late)(void *with, unsigned group), void *with);

#endif
