/*
 * The journal in PostgreSQL, which several processes share (postgres.h).
 *
 * What is to be written is collected and goes out at the commit, so what this batch has decided and posted is known here and not
 * yet in the tables.
 */
#include <stdio.h>
#include <stdlib.h>
#include <string.h>

#include "clock.h"
#include "jobs.h"
#include "log.h"
#include "postgres.h"

#define ID_BLOCK 1000 /* ids of letters that a process draws at once */

/* ---- dialogues */

static void load_letters(struct store *s, unsigned dialogue)
{
    int i, n;
    pg_number(s->pg, dialogue);
    n = pg_ask(s->pg, OUTBOX);
    for (i = 0; i < n; i++) {
        struct letter l;
        l.turn = 0;
        l.id = pg_number_at(s->pg, i, 0);
        l.journal = pg_text_at(s->pg, i, 1);
        l.dialogue = dialogue;
        l.type = pg_text_at(s->pg, i, 2);
        l.reason = pg_text_at(s->pg, i, 3);
        l.since = pg_number_at(s->pg, i, 4);
        l.body = pg_bytes_at(s->pg, i, 5, &l.bytes);
        l.heads = pg_text_at(s->pg, i, 6);
        letters_add(&s->letters, &l);
    }
}

static uint64_t load_top(struct store *s, unsigned dialogue)
{
    pg_number(s->pg, dialogue);
    return pg_ask(s->pg, TOP) > 0 ? pg_job_at(s->pg, 0, 0) : 0;
}

static void load(struct journal *j, unsigned dialogue, struct kept *k)
{
    struct store *s = store_of(j);
    const uint8_t *record, *book;
    size_t bytes;
    postgres_renew(j); /* there may be many to load */
    pg_number(s->pg, dialogue);
    if (pg_ask(s->pg, LOAD) != 1)
        log_and_exit(EXIT_JOURNAL, "journal", "load", "a dialogue has no record");
    k->run = pg_number_at(s->pg, 0, 1);
    k->deliveries = pg_number_at(s->pg, 0, 2);
    k->floor = pg_job_at(s->pg, 0, 3);
    book = pg_bytes_at(s->pg, 0, 5, &bytes);
    journal_take_book(k, book, bytes);
    record = pg_bytes_at(s->pg, 0, 0, &bytes);
    journal_take_record(dialogue, k, record, bytes, (uint32_t)pg_number_at(s->pg, 0, 4));
    s->hold[dialogue].top = load_top(s, dialogue);
    letters_forget(&s->letters, dialogue);
    load_letters(s, dialogue);
}

static void keep(struct journal *j, unsigned dialogue, const struct kept *k)
{
    struct store *s = store_of(j);
    postgres_lease(s, dialogue);
    postgres_kept(s->pg, dialogue, k);
    pg_add(s->pg, KEEP, 1, dialogue);
    s->hold[dialogue].written = 1;
}

/* ---- decisions */

static void remember(struct store *s, unsigned dialogue, const struct decision *d)
{
    s->pending = grow(s->pending, &s->pending_room, s->pendings + 1, sizeof *s->pending);
    s->pending_of = grow(s->pending_of, &s->pending_of_room, s->pendings + 1, sizeof *s->pending_of);
    s->pending[s->pendings] = *d;
    s->pending_of[s->pendings++] = dialogue;
    if (d->last > s->hold[dialogue].top)
        s->hold[dialogue].top = d->last;
}

static void decide(struct journal *j, unsigned dialogue, const struct decision *d)
{
    struct store *s = store_of(j);
    pg_number(s->pg, dialogue);
    pg_job(s->pg, d->first);
    pg_job(s->pg, d->last);
    pg_number(s->pg, d->outcome);
    pg_number(s->pg, d->run);
    pg_add(s->pg, DECIDE, 1, dialogue);
    s->hold[dialogue].touched = 1;
    remember(s, dialogue, d);
}

static struct decision decision_at(struct pg *pg, int row)
{
    struct decision d;
    d.first = pg_job_at(pg, row, 0);
    d.last = pg_job_at(pg, row, 1);
    d.outcome = (unsigned)pg_number_at(pg, row, 2);
    d.run = pg_number_at(pg, row, 3);
    return d;
}

/* A job above all that were decided needs no question; what this batch decided is not in the tables yet. */
static int find(struct journal *j, unsigned dialogue, uint64_t job, struct decision *d)
{
    struct store *s = store_of(j);
    size_t i;
    if (job > s->hold[dialogue].top)
        return 0;
    for (i = s->pendings; i-- > 0;)
        if (s->pending_of[i] == dialogue && s->pending[i].first <= job && job <= s->pending[i].last) {
            *d = s->pending[i];
            return 1;
        }
    postgres_renew(j); /* there may be many questions in a round */
    pg_number(s->pg, dialogue);
    pg_job(s->pg, job);
    if (pg_ask(s->pg, FIND) == 0)
        return 0;
    *d = decision_at(s->pg, 0);
    return job <= d->last;
}

static void of_run(struct journal *j, unsigned dialogue, uint64_t run, void (*each)(void *, const struct decision *), void *with)
{
    struct store *s = store_of(j);
    int i, n;
    postgres_renew(j);
    pg_number(s->pg, dialogue);
    pg_number(s->pg, run);
    n = pg_ask(s->pg, OF_RUN);
    for (i = 0; i < n; i++) {
        struct decision d = decision_at(s->pg, i);
        each(with, &d);
    }
}

/* ---- the outbox */

static uint64_t new_id(struct store *s)
{
    if (s->id_next == s->id_end) {
        pg_ask(s->pg, BLOCK);
        s->id_next = pg_number_at(s->pg, 0, 0) * ID_BLOCK;
        s->id_end = s->id_next + ID_BLOCK;
    }
    return s->id_next++;
}

static void letter_parameters(struct pg *pg, const struct letter *l)
{
    pg_number(pg, l->id);
    pg_text(pg, l->journal);
    pg_number(pg, l->dialogue);
    pg_text(pg, l->type);
    pg_text(pg, l->reason);
    pg_number(pg, l->since);
    pg_bytes(pg, l->body, l->bytes);
    pg_text(pg, l->heads);
}

static void post(struct journal *j, const struct letter *l)
{
    struct store *s = store_of(j);
    struct letter mine = *l;
    if (mine.id == 0) {
        mine.id = new_id(s);
        mine.journal = j->id;
    }
    letter_parameters(s->pg, &mine);
    pg_add(s->pg, POST, 1, l->dialogue);
    s->hold[l->dialogue].touched = 1;
    letters_add(&s->letters, &mine);
    if (s->hold[l->dialogue].unkept == 0)
        s->hold[l->dialogue].unkept = s->letters.turn;
}

/* A letter that is not kept yet, since its dialogue is late, is not given to the broker, nor those behind it. */
static int next(struct journal *j, uint64_t behind, struct letter *l)
{
    struct store *s = store_of(j);
    const struct letter *found = letters_next(&s->letters, behind);
    const struct hold *h = found != NULL ? &s->hold[found->dialogue] : NULL;
    if (found == NULL || (postgres_is_late(s, found->dialogue) && h->unkept != 0 && found->turn >= h->unkept))
        return 0;
    *l = *found;
    return 1;
}

/* A letter of a dialogue that was given back is its next owner's. */
static void settle(struct journal *j, uint64_t turn)
{
    struct store *s = store_of(j);
    const struct letter *l = letters_at(&s->letters, turn);
    if (l == NULL)
        return;
    pg_text(s->pg, l->journal);
    pg_number(s->pg, l->id);
    pg_add(s->pg, SETTLE, 1, l->dialogue);
    s->hold[l->dialogue].touched = 1;
    letters_drop(&s->letters, turn);
}

static uint64_t waiting(struct journal *j, uint64_t *since)
{
    const struct letters *l = &store_of(j)->letters;
    const struct letter *oldest = letters_next(l, 0);
    *since = oldest != NULL ? oldest->since : 0;
    return l->waiting;
}

/* ---- commits */

/* What was decided is in the tables now, but for dialogues that are late. */
static void forget_decisions(struct store *s)
{
    size_t i, n = 0;
    for (i = 0; i < s->pendings; i++)
        if (postgres_is_late(s, s->pending_of[i])) {
            s->pending[n] = s->pending[i];
            s->pending_of[n++] = s->pending_of[i];
        }
    s->pendings = n;
}

static void commit(struct journal *j)
{
    struct store *s = store_of(j);
    postgres_renew(j); /* the batch may be a long one */
    postgres_fence(s);
    if (!pg_pending(s->pg))
        return;
    if (postgres_lock(s) > 0 && !j->patient)
        log_and_exit(EXIT_SLOW, "database slow", "commit", "another session has the row of a dialogue locked; nothing was changed");
    if (!pg_commit(s->pg, postgres_is_late, s))
        postgres_fenced(s);
    postgres_let_go(s);
    forget_decisions(s);
}

static int late(struct journal *j, unsigned dialogue) { return postgres_is_late(store_of(j), dialogue); }

static uint64_t commits(struct journal *j) { return store_of(j)->position; }

static void rename_journal(struct journal *j)
{
    journal_make_id(j->id);
    pg_text(store_of(j)->pg, j->id);
    pg_number(store_of(j)->pg, POSTGRES_VERSION);
    pg_add(store_of(j)->pg, RENAME, 1, PG_NO_GROUP);
}

/* A journal of 0.6.1 has no table for this: then it gets one. */
static void settle_id(struct journal *j, const char *id)
{
    struct pg *pg = store_of(j)->pg;
    if (!store_of(j)->settles_ids) {
        pg_say(pg, POSTGRES_EARLIER);
        pg_prepare(pg, SETTLE_ID, "INSERT INTO earlier VALUES($1) ON CONFLICT DO NOTHING");
        store_of(j)->settles_ids = 1;
    }
    pg_text(pg, id);
    pg_add(pg, SETTLE_ID, PG_ANY, PG_NO_GROUP);
}

/* `id` is of a witness: digits and letters up to f. */
static int knew(struct journal *j, const char *id)
{
    struct pg *pg = store_of(j)->pg;
    char text[80];
    if (pg_say(pg, "SELECT 1 WHERE to_regclass('earlier') IS NOT NULL") == 0)
        return 0;
    snprintf(text, sizeof text, "SELECT 1 FROM earlier WHERE id = '%.16s'", id);
    return pg_say(pg, text) > 0;
}

static void close_store(struct journal *j)
{
    struct store *s = store_of(j);
    if (s->making)
        pg_say(s->pg, "UPDATE journal SET version = 2"); /* its witness is written: it is whole */
    postgres_renew_now(s); /* where the log stands now, for the witness; and a last look at the leases */
    pg_text(s->pg, s->owner);
    pg_ask(s->pg, LEAVE);
    pg_close(s->pg);
    letters_clear(&s->letters);
    free(s->pending);
    free(s->pending_of);
    free(s);
    j->store = NULL;
}

/* ---- opening */

void postgres_refuse(const char *what, const char *why) { log_and_exit(EXIT_REFUSED, "database", what, why); }

static int setting_is(struct pg *pg, int column, const char *value) { return strcmp(pg_text_at(pg, 0, column), value) == 0; }

/* Commits are where they must be when the database says so: on its disk, and with a replica there too. */
static void check_durable(struct store *s)
{
    struct pg *pg = s->pg;
    int replicas;
    pg_say(pg, "SELECT pg_is_in_recovery(), current_setting('fsync'), current_setting('full_page_writes'), current_setting('synchronous_commit'),"
               " current_setting('synchronous_standby_names'), (SELECT count(*) FROM pg_stat_replication)");
    if (setting_is(pg, 0, "t"))
        postgres_refuse("pg_is_in_recovery", "this is a replica: the journal is where it can be written");
    if (!setting_is(pg, 1, "on") || !setting_is(pg, 2, "on"))
        postgres_refuse("fsync", "fsync and full_page_writes must be on: without them a power cut forgets commits");
    if (setting_is(pg, 3, "off"))
        postgres_refuse("synchronous_commit", "it is off: a commit would be told before it is kept. Set it to on");
    replicas = s->config->replicas > 0 || !setting_is(pg, 4, "") || pg_number_at(pg, 0, 5) > 0;
    if (replicas && setting_is(pg, 3, "local"))
        postgres_refuse("synchronous_commit", "it is local, and there is a replica that would lose commits. Set it to remote_write, on or remote_apply");
    if (replicas && setting_is(pg, 4, ""))
        postgres_refuse("synchronous_standby_names", "it is empty, and there is a replica that would lose commits. Name the replicas that must have a commit");
}

static void take_front(struct journal *j, unsigned dialogues, int version)
{
    struct pg *pg = store_of(j)->pg;
    if (pg_say(pg, "SELECT version, dialogues, id FROM journal") != 1)
        log_and_exit(EXIT_JOURNAL, "journal", "load", "the journal has no version");
    if (version == POSTGRES_VERSION && pg_number_at(pg, 0, 0) == POSTGRES_MAKING)
        postgres_refuse("journal", "its `init` was broken off: run `bridge init` again");
    if (version == POSTGRES_VERSION && pg_number_at(pg, 0, 0) == POSTGRES_MOVING)
        postgres_refuse("journal", "its `move` was broken off: run `bridge move` again");
    if (pg_number_at(pg, 0, 0) != (uint64_t)version)
        log_and_exit(EXIT_JOURNAL, "journal", "the journal has another version", pg_text_at(pg, 0, 0));
    if (pg_number_at(pg, 0, 1) != dialogues)
        log_and_exit(EXIT_JOURNAL, "journal", "the journal has another number of dialogues", pg_text_at(pg, 0, 1));
    snprintf(j->id, sizeof j->id, "%s", pg_text_at(pg, 0, 2));
}

/* A name that no process had before: the host's, and some digits. (The database's lists show 63 characters of it.) */
static void make_owner(struct store *s)
{
    char digits[JOURNAL_ID];
    journal_make_id(digits);
    snprintf(s->owner, sizeof s->owner, "%.40s/%s", s->config->host, digits);
}

static const struct journal face = {
    .shared = 1,
    .take = postgres_take,
    .renew = postgres_renew,
    .give_back = postgres_give_back,
    .load = load,
    .keep = keep,
    .decide = decide,
    .find = find,
    .of_run = of_run,
    .post = post,
    .next = next,
    .settle = settle,
    .waiting = waiting,
    .commit = commit,
    .commits = commits,
    .close = close_store,
    .rename = rename_journal,
    .settle_id = settle_id,
    .knew = knew,
    .late = late,
};

/* How far the log had come, once it is kept so far: on the replica too, where there is one. */
static void find_position(struct store *s)
{
    pg_say(s->pg, "SELECT (pg_current_wal_lsn() - '0/0')::bigint");
    s->position = pg_number_at(s->pg, 0, 0);
    pg_say(s->pg, "UPDATE journal SET version = version");
    if (pg_warned(s->pg))
        log_and_exit(EXIT_JOURNAL, "database", "a commit did not wait for the replica", "where the journal stands is not known");
}

#define LIMIT_LEAST 3000 /* ms: a lease that is shorter says nothing about the database */

/* An answer may take as long as a lease: then others have the dialogues. A command that makes or moves a journal takes its time. */
static void connect_to(struct store *s, enum journal_open how)
{
    uint64_t lease = s->config->lease;
    s->pg = pg_open(s->config->database, s->owner);
    pg_limit(s->pg, how != JOURNAL_RUN ? 0 : lease > LIMIT_LEAST ? lease : LIMIT_LEAST);
    pg_on_loss(s->pg, postgres_look_again, s);
    pg_say(s->pg, "SET default_transaction_isolation = 'read committed'"); /* a row's lock decides, whatever the database's standard is */
    check_durable(s);
}

void journal_open_postgres(struct journal *j, const struct config *c, enum journal_open how)
{
    int version = how == JOURNAL_MOVE ? POSTGRES_MOVING : how == JOURNAL_INIT ? POSTGRES_MAKING : POSTGRES_VERSION;
    struct store *s = calloc(1, sizeof *s);
    if (s == NULL)
        log_and_exit(EXIT_MEMORY, "memory", "journal", "out of memory");
    *j = face;
    j->store = s;
    s->config = c;
    s->began = now_ms();
    make_owner(s);
    connect_to(s, how);
    s->making = how == JOURNAL_INIT;
    if (how != JOURNAL_RUN)
        postgres_make(j, (unsigned)c->dialogues, version);
    else if (!postgres_is_there(s->pg))
        postgres_refuse("journal", "it is not there: `init` makes one, where no job was ever taken");
    else
        postgres_add(s->pg);
    if (how == JOURNAL_RUN && c->centres > 0)
        postgres_add_places(s, DIALOGUES_MOST);
    postgres_prepare(s->pg);
    take_front(j, (unsigned)c->dialogues, version);
    find_position(s);
    postgres_renew_now(s);
}
