/*
 * The tables of journal_sqlite.c in PostgreSQL, and with each dialogue the lease under which a process has it.
 *
 *     number   rises with every taking; what a process writes of a dialogue holds only where this is still its number
 *     owner    the process that has it; empty: nobody
 *     until    when the lease runs out, by the database's clock; with no owner, since when there is none
 *
 * The number stands in the dialogue's own row, so that the row's lock decides between a commit and a taking: whichever comes
 * second sees what the first one did.
 */
#include <stdio.h>

#include "postgres.h"

static const char *const texts[STATEMENTS] = {
    [KEEP] = "UPDATE dialogue SET record = $3, run = $4, deliveries = $5, floor = $6, sum = $7, book = $8 WHERE dialogue = $1 AND number = $2",
    [FENCE] = "SELECT 1 FROM dialogue WHERE dialogue = $1 AND number = $2 FOR UPDATE",
    [LOAD] = "SELECT record, run, deliveries, floor, sum, book FROM dialogue WHERE dialogue = $1",
    [TOP] = "SELECT last FROM decision WHERE dialogue = $1 ORDER BY first DESC LIMIT 1",
    [DECIDE] = "INSERT INTO decision(dialogue, first, last, outcome, run) VALUES($1, $2, $3, $4, $5)"
               " ON CONFLICT(dialogue, first) DO UPDATE SET last = excluded.last",
    [FIND] = "SELECT first, last, outcome, run FROM decision WHERE dialogue = $1 AND first <= $2 ORDER BY first DESC LIMIT 1",
    [OF_RUN] = "SELECT first, last, outcome, run FROM decision WHERE dialogue = $1 AND run = $2 ORDER BY first",
    [POST] = "INSERT INTO outbox(id, journal, dialogue, type, reason, since, body, heads) VALUES($1, $2, $3, $4, $5, $6, $7, $8)",
    [OUTBOX] = "SELECT id, journal, type, reason, since, body, heads FROM outbox WHERE dialogue = $1 ORDER BY since, id",
    [SETTLE] = "DELETE FROM outbox WHERE journal = $1 AND id = $2",
    [LOOK] = "SELECT 1 FROM dialogue WHERE owner <> $1 AND until < clock_timestamp() LIMIT 1",
    /* A process that stopped inside a transaction has its rows locked: its session goes with its lease. One that asked the database for
       something in the last $2 ms lives, and could not renew a lease since somebody else has that row. */
    [OUST] = "SELECT pg_terminate_backend(pid) FROM pg_stat_activity WHERE application_name IN"
             " (SELECT owner FROM dialogue WHERE owner NOT IN ('', $1) AND until < clock_timestamp())"
             " AND coalesce(query_start, '-infinity') < clock_timestamp() - $2 * interval '1 ms'",
    /* What ran out and has no owner that lives, and of what nobody has (for $3 ms at least) the first $4 dialogues, and links below $5; nothing from $6
       on. Every condition is on the
       row itself: a row that another process took after this statement began is looked at again as it is by then, and left alone. */
    [TAKE] = "WITH open AS (SELECT dialogue, number, owner FROM dialogue WHERE owner NOT IN ('', $1) AND until < clock_timestamp() AND dialogue < $6"
             " AND NOT EXISTS (SELECT FROM pg_stat_activity a WHERE a.application_name = dialogue.owner AND a.query_start >= clock_timestamp() - $2 * interval '1 ms')"
             " OR owner = '' AND until < clock_timestamp() - $3 * interval '1 ms' AND dialogue < $5 AND (dialogue >= 48 OR dialogue IN"
             " (SELECT dialogue FROM dialogue WHERE owner = '' AND until < clock_timestamp() - $3 * interval '1 ms' AND dialogue < 48 ORDER BY dialogue LIMIT $4))"
             " ORDER BY dialogue FOR UPDATE SKIP LOCKED)"
             " UPDATE dialogue d SET owner = $1, number = d.number + 1, until = clock_timestamp() + $2 * interval '1 ms'"
             " FROM open WHERE d.dialogue = open.dialogue AND d.number = open.number AND d.owner = open.owner RETURNING d.dialogue, d.number, open.owner",
    /* One row for each dialogue that this process has: whether it was renewed, and whether it ran out before. A row that another session
       has locked is not waited for. */
    [RENEW] = "WITH mine AS (SELECT dialogue FROM dialogue WHERE owner = $1 FOR UPDATE SKIP LOCKED),"
              " renewed AS (UPDATE dialogue d SET until = clock_timestamp() + $2 * interval '1 ms' FROM mine WHERE d.dialogue = mine.dialogue AND d.owner = $1"
              " RETURNING d.dialogue)"
              " SELECT d.dialogue, (r.dialogue IS NOT NULL)::integer, (d.until < clock_timestamp())::integer, (pg_current_wal_lsn() - '0/0')::bigint"
              " FROM dialogue d LEFT JOIN renewed r ON r.dialogue = d.dialogue WHERE d.owner = $1",
    /* Of the dialogues of this process, those whose rows it has now until its commit. */
    [LOCK] = "SELECT dialogue FROM dialogue WHERE dialogue = ANY($1::integer[]) FOR UPDATE SKIP LOCKED",
    [GIVE_BACK] = "UPDATE dialogue SET owner = '', until = clock_timestamp() WHERE dialogue = $1 AND number = $2",
    [LEAVE] = "UPDATE dialogue SET owner = '', until = clock_timestamp() WHERE dialogue IN (SELECT dialogue FROM dialogue WHERE owner = $1 FOR UPDATE SKIP LOCKED)",
    [BLOCK] = "SELECT nextval('letter_block')",
    [RENAME] = "UPDATE journal SET id = $1, version = $2",
};

#define BOOK "book bytea NOT NULL DEFAULT ''"
#define HEADS "heads text NOT NULL DEFAULT ''"

static const char schema[] =
    "CREATE TABLE journal(one integer PRIMARY KEY CHECK(one = 1), version integer NOT NULL, id text NOT NULL, dialogues integer NOT NULL);"
    "CREATE TABLE dialogue(dialogue integer PRIMARY KEY, record bytea NOT NULL, run bigint NOT NULL, deliveries bigint NOT NULL,"
    " floor bytea NOT NULL, sum bigint NOT NULL, number bigint NOT NULL DEFAULT 0, owner text NOT NULL DEFAULT '',"
    " until timestamptz NOT NULL DEFAULT '-infinity', " BOOK ") WITH (fillfactor = 50);"
    "CREATE TABLE decision(dialogue integer NOT NULL, first bytea NOT NULL, last bytea NOT NULL, outcome integer NOT NULL,"
    " run bigint NOT NULL, PRIMARY KEY(dialogue, first));"
    "CREATE INDEX decision_of_run ON decision(dialogue, run);"
    "CREATE TABLE outbox(id bigint NOT NULL, journal text NOT NULL, dialogue integer NOT NULL, type text NOT NULL,"
    " reason text NOT NULL, since bigint NOT NULL, body bytea NOT NULL, " HEADS ", PRIMARY KEY(journal, id));"
    "CREATE INDEX outbox_of_dialogue ON outbox(dialogue);"
    "CREATE SEQUENCE letter_block;"
    POSTGRES_EARLIER;

/* Bridges up to 0.11.0 that run on it go on with what they have: what they write leaves the new columns alone. */
void postgres_add(struct pg *pg)
{
    if (pg_say(pg, "SELECT 1 FROM pg_attribute WHERE attrelid = 'dialogue'::regclass AND attname = 'book' AND NOT attisdropped") > 0)
        return;
    pg_say(pg, "BEGIN");
    pg_say(pg, "ALTER TABLE dialogue ADD COLUMN IF NOT EXISTS " BOOK);
    pg_say(pg, "ALTER TABLE outbox ADD COLUMN IF NOT EXISTS " HEADS);
    pg_say(pg, "UPDATE journal SET version = 2 WHERE version = 1");
    pg_say(pg, "COMMIT");
}

void postgres_prepare(struct pg *pg)
{
    unsigned i;
    for (i = 0; i < STATEMENTS; i++)
        pg_prepare(pg, i, texts[i]);
}

void postgres_kept(struct pg *pg, unsigned dialogue, const struct kept *k)
{
    pg_bytes(pg, k->record, PEAT_RECORD_BYTES);
    pg_number(pg, k->run);
    pg_number(pg, k->deliveries);
    pg_job(pg, k->floor);
    pg_number(pg, journal_sum(dialogue, k));
    pg_bytes(pg, k->book, journal_book_bytes(k));
}

/* ---- making */

int postgres_is_there(struct pg *pg) { return pg_say(pg, "SELECT 1 WHERE to_regclass('journal') IS NOT NULL") > 0; }

static void make_tables(struct journal *j, unsigned dialogues, int version)
{
    struct store *s = store_of(j);
    char row[160];
    journal_make_id(j->id);
    pg_say(s->pg, "BEGIN");
    pg_say(s->pg, schema);
    snprintf(row, sizeof row, "INSERT INTO journal VALUES(1, %d, '%s', %u)", version, j->id, dialogues);
    pg_say(s->pg, row);
    postgres_add_places(s, 0);
    pg_say(s->pg, "COMMIT");
}

void postgres_add_places(struct store *s, unsigned first)
{
    unsigned d;
    pg_prepare(s->pg, FRESH_DIALOGUE,
        "INSERT INTO dialogue(dialogue, record, run, deliveries, floor, sum, book) VALUES($1, $2, $3, $4, $5, $6, $7) ON CONFLICT DO NOTHING");
    for (d = first; d < PLACES_MOST; d++)
        if (config_has_place(s->config, d)) {
            struct kept k = journal_fresh_place(s->config, d);
            pg_number(s->pg, d);
            postgres_kept(s->pg, d, &k);
            pg_ask(s->pg, FRESH_DIALOGUE);
        }
}

/* What did not come to its end is begun again: a move, or an `init`. */
static void drop_unfinished(struct pg *pg, int version)
{
    if (postgres_is_there(pg) && pg_say(pg, "SELECT version FROM journal") == 1 && pg_number_at(pg, 0, 0) == (uint64_t)version)
        pg_say(pg, "DROP TABLE journal, dialogue, decision, outbox; DROP TABLE IF EXISTS earlier; DROP SEQUENCE letter_block");
}

void postgres_make(struct journal *j, unsigned dialogues, int version)
{
    struct pg *pg = store_of(j)->pg;
    drop_unfinished(pg, version);
    if (postgres_is_there(pg))
        postgres_refuse("journal", "it is there already: a new one would take old jobs again. Another host joins it: `bridge join`");
    make_tables(j, dialogues, version);
}
