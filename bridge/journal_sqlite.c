/*
 * The journal in SQLite: write-ahead log, every commit synced, the file locked for this process alone.
 *
 * A job number has 64 bits and SQLite's integers have a sign, so jobs are stored as eight bytes, the highest first: bytes
 * compare as the numbers do.
 */
#include <errno.h>
#include <sqlite3.h>
#include <stdio.h>
#include <stdlib.h>
#include <string.h>
#include <unistd.h>

#include "clock.h"
#include "config.h"
#include "journal.h"
#include "log.h"
#include "witness.h"

#define VERSION 2 /* 1, up to 0.11.0: without books and headers. It is made 2 when it is opened */
#define EARLIER 1
#define MAKING 1000 /* the version of a journal whose `init` has not come to its end: it makes it anew */
#define MOVED 1001  /* the version of a journal that was moved to a database */
#define SYNCHRONOUS "2" /* FULL: each commit is synced. NORMAL (1) forgets commits at a power cut. */

enum statement { KEEP, LOAD, DECIDE, FIND, OF_RUN, POST, NEXT, SETTLE, WAITING, COUNT, BEGIN, COMMIT, STATEMENTS };

static const char *const texts[STATEMENTS] = {
    [KEEP] = "INSERT OR REPLACE INTO dialogue(dialogue, record, run, deliveries, floor, sum, book) VALUES(?, ?, ?, ?, ?, ?, ?)",
    [LOAD] = "SELECT record, run, deliveries, floor, sum, book FROM dialogue WHERE dialogue = ?",
    [DECIDE] = "INSERT INTO decision(dialogue, first, last, outcome, run) VALUES(?, ?, ?, ?, ?)"
               " ON CONFLICT(dialogue, first) DO UPDATE SET last = excluded.last",
    [FIND] = "SELECT first, last, outcome, run FROM decision WHERE dialogue = ? AND first <= ? ORDER BY first DESC LIMIT 1",
    [OF_RUN] = "SELECT first, last, outcome, run FROM decision WHERE dialogue = ? AND run = ? ORDER BY first",
    [POST] = "INSERT INTO outbox(journal, dialogue, type, reason, since, body, heads) VALUES(?, ?, ?, ?, ?, ?, ?)",
    [NEXT] = "SELECT id, journal, dialogue, type, reason, since, body, heads FROM outbox WHERE id > ? ORDER BY id LIMIT 1",
    [SETTLE] = "DELETE FROM outbox WHERE id = ?",
    [WAITING] = "SELECT since FROM outbox ORDER BY id LIMIT 1",
    [COUNT] = "UPDATE journal SET commits = ?",
    [BEGIN] = "BEGIN IMMEDIATE",
    [COMMIT] = "COMMIT",
};

#define BOOK "book BLOB NOT NULL DEFAULT x''"
#define HEADS "heads TEXT NOT NULL DEFAULT ''"

static const char schema[] =
    "CREATE TABLE journal(one INTEGER PRIMARY KEY CHECK(one = 1), version INTEGER NOT NULL, id TEXT NOT NULL,"
    " dialogues INTEGER NOT NULL, commits INTEGER NOT NULL);"
    "CREATE TABLE dialogue(dialogue INTEGER PRIMARY KEY, record BLOB NOT NULL, run INTEGER NOT NULL, deliveries INTEGER NOT NULL,"
    " floor BLOB NOT NULL, sum INTEGER NOT NULL, " BOOK ");"
    "CREATE TABLE decision(dialogue INTEGER NOT NULL, first BLOB NOT NULL, last BLOB NOT NULL, outcome INTEGER NOT NULL,"
    " run INTEGER NOT NULL, PRIMARY KEY(dialogue, first)) WITHOUT ROWID;"
    "CREATE TABLE outbox(id INTEGER PRIMARY KEY AUTOINCREMENT, journal TEXT NOT NULL, dialogue INTEGER NOT NULL, type TEXT NOT NULL,"
    " reason TEXT NOT NULL, since INTEGER NOT NULL, body BLOB NOT NULL, " HEADS ");";

/* What a journal up to 0.11.0 has not. */
static const char additions[] =
    "BEGIN IMMEDIATE;"
    "ALTER TABLE dialogue ADD COLUMN " BOOK ";"
    "ALTER TABLE outbox ADD COLUMN " HEADS ";"
    "UPDATE journal SET version = 2 WHERE version = 1;"
    "COMMIT";

struct store {
    sqlite3 *db;
    sqlite3_stmt *statement[STATEMENTS];
    const struct config *config;
    int taken;        /* by this process */
    int making;       /* by `init`: it is whole when it is closed */
    int open;         /* a transaction is under way */
    uint64_t commits; /* so far */
    uint64_t letters; /* in the outbox */
};

static struct store *store_of(struct journal *j) { return j->store; }

/* ---- what may not fail */

static void give_up(struct store *s, const char *what)
{
    enum exit_status status = (sqlite3_errcode(s->db) & 0xFF) == SQLITE_NOMEM ? EXIT_MEMORY : EXIT_JOURNAL;
    log_and_exit(status, "journal", what, sqlite3_errmsg(s->db));
}

static void execute(struct store *s, const char *text)
{
    if (sqlite3_exec(s->db, text, NULL, NULL, NULL) != SQLITE_OK)
        give_up(s, text);
}

/* Makes a step; 1: there is a row. A statement without one is ready for its next use. */
static int step(struct store *s, enum statement which)
{
    int got = sqlite3_step(s->statement[which]);
    if (got != SQLITE_ROW && got != SQLITE_DONE)
        give_up(s, texts[which]);
    if (got == SQLITE_DONE)
        sqlite3_reset(s->statement[which]);
    return got == SQLITE_ROW;
}

static sqlite3_stmt *ready(struct store *s, enum statement which)
{
    sqlite3_reset(s->statement[which]);
    return s->statement[which];
}

static void begin(struct store *s)
{
    if (!s->open) {
        step(s, BEGIN);
        s->open = 1;
    }
}

/* ---- the values of a statement. One that is not bound would be NULL, or what an earlier use left. */

static void bound(struct store *s, sqlite3_stmt *q, int answer)
{
    if (answer != SQLITE_OK)
        give_up(s, sqlite3_sql(q));
}

static void bind_integer(struct store *s, sqlite3_stmt *q, int at, uint64_t n) { bound(s, q, sqlite3_bind_int64(q, at, (sqlite3_int64)n)); }

static void bind_text(struct store *s, sqlite3_stmt *q, int at, const char *text) { bound(s, q, sqlite3_bind_text(q, at, text, -1, SQLITE_TRANSIENT)); }

/* SQLite takes no pointer for no bytes. */
static void bind_bytes(struct store *s, sqlite3_stmt *q, int at, const uint8_t *bytes, size_t count)
{
    bound(s, q, sqlite3_bind_blob64(q, at, count > 0 ? bytes : (const uint8_t *)"", count, SQLITE_TRANSIENT));
}

/* A number of 64 bits as bytes. */
static void bind_number(struct store *s, sqlite3_stmt *q, int at, uint64_t n)
{
    uint8_t b[8];
    int i;
    for (i = 0; i < 8; i++)
        b[i] = (uint8_t)(n >> (56 - 8 * i));
    bind_bytes(s, q, at, b, sizeof b);
}

/* ---- what a row has. No column is NULL: where SQLite has no pointer for a text, it has no memory. */

static const char *column_text(struct store *s, sqlite3_stmt *q, int at)
{
    const char *text = (const char *)sqlite3_column_text(q, at);
    if (text == NULL)
        give_up(s, sqlite3_sql(q));
    return text;
}

/* For no bytes SQLite has no pointer either. */
static const uint8_t *column_bytes(struct store *s, sqlite3_stmt *q, int at, size_t *count)
{
    const uint8_t *bytes = sqlite3_column_blob(q, at);
    *count = (size_t)sqlite3_column_bytes(q, at);
    if (bytes == NULL && ((sqlite3_errcode(s->db) & 0xFF) == SQLITE_NOMEM || *count > 0))
        give_up(s, sqlite3_sql(q));
    return bytes != NULL ? bytes : (const uint8_t *)"";
}

static uint64_t column_number(struct store *s, sqlite3_stmt *q, int at)
{
    size_t count, i;
    const uint8_t *b = column_bytes(s, q, at, &count);
    uint64_t n = 0;
    for (i = 0; i < count && i < 8; i++)
        n = n << 8 | b[i];
    return n;
}

/* ---- the file is this process's alone, and so is every dialogue, from the first time that it asks */

static unsigned take(struct journal *j, struct taken *to)
{
    struct store *s = store_of(j);
    unsigned d, n = 0;
    for (d = 0; d < PLACES_MOST && !s->taken; d++)
        if (config_has_place(s->config, d))
            to[n++] = (struct taken){d, 1, ""};
    s->taken = 1;
    return n;
}

static void renew(struct journal *j) { (void)j; }

static int give_back(struct journal *j, unsigned dialogue)
{
    (void)j;
    (void)dialogue;
    return 0;
}

/* ---- dialogues */

static void load(struct journal *j, unsigned dialogue, struct kept *k)
{
    struct store *s = store_of(j);
    sqlite3_stmt *q = ready(s, LOAD);
    const uint8_t *record, *book;
    size_t bytes;
    bind_integer(s, q, 1, dialogue);
    if (!step(s, LOAD))
        log_and_exit(EXIT_JOURNAL, "journal", "load", "a dialogue has no record");
    k->run = (uint64_t)sqlite3_column_int64(q, 1);
    k->deliveries = (uint64_t)sqlite3_column_int64(q, 2);
    k->floor = column_number(s, q, 3);
    book = column_bytes(s, q, 5, &bytes);
    journal_take_book(k, book, bytes);
    record = column_bytes(s, q, 0, &bytes);
    journal_take_record(dialogue, k, record, bytes, (uint32_t)sqlite3_column_int64(q, 4));
    sqlite3_reset(q);
}

static void keep(struct journal *j, unsigned dialogue, const struct kept *k)
{
    struct store *s = store_of(j);
    sqlite3_stmt *q = ready(s, KEEP);
    begin(s);
    bind_integer(s, q, 1, dialogue);
    bind_bytes(s, q, 2, k->record, PEAT_RECORD_BYTES);
    bind_integer(s, q, 3, k->run);
    bind_integer(s, q, 4, k->deliveries);
    bind_number(s, q, 5, k->floor);
    bind_integer(s, q, 6, journal_sum(dialogue, k));
    bind_bytes(s, q, 7, k->book, journal_book_bytes(k));
    step(s, KEEP);
}

/* ---- decisions */

static void decide(struct journal *j, unsigned dialogue, const struct decision *d)
{
    struct store *s = store_of(j);
    sqlite3_stmt *q = ready(s, DECIDE);
    begin(s);
    bind_integer(s, q, 1, dialogue);
    bind_number(s, q, 2, d->first);
    bind_number(s, q, 3, d->last);
    bind_integer(s, q, 4, d->outcome);
    bind_integer(s, q, 5, d->run);
    step(s, DECIDE);
}

static struct decision decision_at(struct store *s, sqlite3_stmt *q)
{
    struct decision d;
    d.first = column_number(s, q, 0);
    d.last = column_number(s, q, 1);
    d.outcome = (unsigned)sqlite3_column_int(q, 2);
    d.run = (uint64_t)sqlite3_column_int64(q, 3);
    return d;
}

static int find(struct journal *j, unsigned dialogue, uint64_t job, struct decision *d)
{
    struct store *s = store_of(j);
    sqlite3_stmt *q = ready(s, FIND);
    bind_integer(s, q, 1, dialogue);
    bind_number(s, q, 2, job);
    if (!step(s, FIND))
        return 0;
    *d = decision_at(s, q);
    sqlite3_reset(q);
    return job <= d->last;
}

static void of_run(struct journal *j, unsigned dialogue, uint64_t run, void (*each)(void *, const struct decision *), void *with)
{
    struct store *s = store_of(j);
    sqlite3_stmt *q = ready(s, OF_RUN);
    bind_integer(s, q, 1, dialogue);
    bind_integer(s, q, 2, run);
    while (step(s, OF_RUN)) {
        struct decision d = decision_at(s, q);
        each(with, &d);
    }
}

/* ---- the outbox */

static void post(struct journal *j, const struct letter *l)
{
    struct store *s = store_of(j);
    sqlite3_stmt *q = ready(s, POST);
    begin(s);
    bind_text(s, q, 1, j->id);
    bind_integer(s, q, 2, l->dialogue);
    bind_text(s, q, 3, l->type);
    bind_text(s, q, 4, l->reason);
    bind_integer(s, q, 5, l->since);
    bind_bytes(s, q, 6, l->body, l->bytes);
    bind_text(s, q, 7, l->heads);
    step(s, POST);
    s->letters++;
}

static int next(struct journal *j, uint64_t behind, struct letter *l)
{
    struct store *s = store_of(j);
    sqlite3_stmt *q = ready(s, NEXT);
    bind_integer(s, q, 1, behind);
    if (!step(s, NEXT))
        return 0;
    l->turn = l->id = (uint64_t)sqlite3_column_int64(q, 0);
    l->journal = column_text(s, q, 1);
    l->dialogue = (unsigned)sqlite3_column_int(q, 2);
    l->type = column_text(s, q, 3);
    l->reason = column_text(s, q, 4);
    l->since = (uint64_t)sqlite3_column_int64(q, 5);
    l->body = column_bytes(s, q, 6, &l->bytes);
    l->heads = column_text(s, q, 7);
    return 1; /* the row stays open, and with it the texts and the body */
}

static void settle(struct journal *j, uint64_t turn)
{
    struct store *s = store_of(j);
    sqlite3_stmt *q = ready(s, SETTLE);
    begin(s);
    bind_integer(s, q, 1, turn);
    step(s, SETTLE);
    s->letters -= (uint64_t)sqlite3_changes(s->db);
}

static uint64_t waiting(struct journal *j, uint64_t *since)
{
    struct store *s = store_of(j);
    *since = 0;
    if (s->letters > 0 && step(s, WAITING)) {
        *since = (uint64_t)sqlite3_column_int64(s->statement[WAITING], 0);
        ready(s, WAITING);
    }
    return s->letters;
}

/* ---- commits */

static void commit(struct journal *j)
{
    struct store *s = store_of(j);
    if (!s->open)
        return;
    ready(s, NEXT); /* an open row would keep the log from being written back */
    bind_integer(s, ready(s, COUNT), 1, ++s->commits);
    step(s, COUNT);
    step(s, COMMIT);
    s->open = 0;
}

static uint64_t commits(struct journal *j) { return store_of(j)->commits; }

/* What is committed is kept, and one host has one witness. */
static int late(struct journal *j, unsigned dialogue)
{
    (void)j;
    (void)dialogue;
    return 0;
}

static void settle_id(struct journal *j, const char *id)
{
    (void)j;
    (void)id;
}

static int knew(struct journal *j, const char *id)
{
    (void)j;
    (void)id;
    return 0;
}

static void set_version(struct store *s, int version)
{
    char text[80];
    snprintf(text, sizeof text, "UPDATE journal SET version = %d", version);
    execute(s, text);
}

static void close_store(struct journal *j)
{
    struct store *s = store_of(j);
    int i;
    if (s->making)
        set_version(s, VERSION); /* its witness is written: it is whole */
    for (i = 0; i < STATEMENTS; i++)
        sqlite3_finalize(s->statement[i]);
    if (sqlite3_close(s->db) != SQLITE_OK)
        give_up(s, "close");
    free(s);
    j->store = NULL;
}

/* ---- opening */

/* the first column of a text's first row */
static void ask(struct store *s, const char *text, char *answer, size_t room)
{
    sqlite3_stmt *q = NULL;
    int got;
    answer[0] = '\0';
    if (sqlite3_prepare_v2(s->db, text, -1, &q, NULL) != SQLITE_OK)
        give_up(s, text);
    got = sqlite3_step(q);
    if (got != SQLITE_DONE && got != SQLITE_ROW)
        give_up(s, text);
    if (got == SQLITE_ROW)
        snprintf(answer, room, "%s", column_text(s, q, 0));
    sqlite3_finalize(q);
}

static void expect(struct store *s, const char *text, const char *want, const char *why)
{
    char answer[200];
    ask(s, text, answer, sizeof answer);
    if (strcmp(answer, want) != 0)
        log_and_exit(EXIT_JOURNAL, "journal", why, answer);
}

/* What only the process that has the file alone can do. */
static void take_alone(struct store *s, const char *text)
{
    if (sqlite3_exec(s->db, text, NULL, NULL, NULL) == SQLITE_OK)
        return;
    if (sqlite3_errcode(s->db) == SQLITE_BUSY)
        log_and_exit(EXIT_REFUSED, "journal", "another process has this journal", sqlite3_errmsg(s->db));
    give_up(s, text);
}

/* The file is this process's alone, logged ahead and synced at each commit, or the process ends. */
static void make_durable(struct store *s)
{
    char mode[16];
    execute(s, "PRAGMA locking_mode = EXCLUSIVE");
    take_alone(s, "PRAGMA journal_mode = WAL");
    ask(s, "PRAGMA journal_mode", mode, sizeof mode);
    if (strcmp(mode, "wal") != 0)
        log_and_exit(EXIT_JOURNAL, "journal", "this file system gives no write-ahead log", mode);
    execute(s, "PRAGMA synchronous = " SYNCHRONOUS);
    expect(s, "PRAGMA synchronous", SYNCHRONOUS, "commits are not synced");
    take_alone(s, "BEGIN EXCLUSIVE; COMMIT");
    expect(s, "PRAGMA quick_check(1)", "ok", "the journal is damaged");
}

/* What an `init` that was broken off left makes room, in the same commit; anything else is a journal. */
static void refuse_journal(struct store *s, const char *path)
{
    char answer[40];
    ask(s, "SELECT count(*) FROM sqlite_master", answer, sizeof answer);
    if (strcmp(answer, "0") == 0)
        return;
    ask(s, "SELECT name FROM sqlite_master WHERE name = 'journal'", answer, sizeof answer);
    if (strcmp(answer, "journal") == 0)
        ask(s, "SELECT version FROM journal", answer, sizeof answer);
    if (atoi(answer) != MAKING)
        log_and_exit(EXIT_REFUSED, "journal", path, "it is there already: a new one would take old jobs again");
}

/* The tables; the records follow, in the same commit. */
static void make_tables(struct journal *j, unsigned dialogues)
{
    struct store *s = store_of(j);
    char row[160], id[JOURNAL_ID];
    journal_make_id(id);
    execute(s, texts[BEGIN]);
    s->open = 1;
    execute(s, "DROP TABLE IF EXISTS journal; DROP TABLE IF EXISTS dialogue; DROP TABLE IF EXISTS decision; DROP TABLE IF EXISTS outbox");
    execute(s, schema);
    snprintf(row, sizeof row, "INSERT INTO journal VALUES(1, %d, '%s', %u, 0)", MAKING, id, dialogues);
    execute(s, row);
    s->making = 1;
}

static int has_record(struct store *s, unsigned place)
{
    sqlite3_stmt *q = ready(s, LOAD);
    int has;
    bind_integer(s, q, 1, place);
    has = step(s, LOAD);
    sqlite3_reset(q);
    return has;
}

/* A place that has no record never was. */
static void make_records(struct journal *j, const struct config *c, unsigned first)
{
    unsigned d;
    for (d = first; d < PLACES_MOST; d++)
        if (config_has_place(c, d) && !has_record(store_of(j), d)) {
            struct kept k = journal_fresh_place(c, d);
            keep(j, d, &k);
        }
    commit(j);
}

static void rename_journal(struct journal *j)
{
    char row[80];
    begin(store_of(j));
    journal_make_id(j->id);
    snprintf(row, sizeof row, "UPDATE journal SET id = '%s'", j->id);
    execute(store_of(j), row);
}

static void prepare(struct store *s)
{
    int i;
    for (i = 0; i < STATEMENTS; i++)
        if (sqlite3_prepare_v3(s->db, texts[i], -1, SQLITE_PREPARE_PERSISTENT, &s->statement[i], NULL) != SQLITE_OK)
            give_up(s, texts[i]);
}

/* A journal that was moved is none any more, but for the command that moves it. */
static void check_version(struct store *s, enum journal_open how)
{
    char answer[40];
    int version;
    ask(s, "SELECT name FROM sqlite_master WHERE name = 'journal'", answer, sizeof answer);
    if (answer[0] != '\0')
        ask(s, "SELECT version FROM journal", answer, sizeof answer);
    version = answer[0] == '\0' ? MAKING : atoi(answer);
    if (version == MAKING)
        log_and_exit(EXIT_REFUSED, "journal", "its `init` was broken off", "run `bridge init` again");
    if (version == MOVED && how != JOURNAL_MOVE)
        log_and_exit(EXIT_REFUSED, "journal", "it was moved to a database", "a bridge that ran on it would take jobs again");
    if (version != VERSION && version != EARLIER && version != MOVED)
        log_and_exit(EXIT_JOURNAL, "journal", "the journal has another version", answer);
    ask(s, "SELECT name FROM pragma_table_info('dialogue') WHERE name = 'book'", answer, sizeof answer);
    if (answer[0] == '\0')
        execute(s, additions); /* in one commit */
}

void journal_mark_moved(struct journal *j) { set_version(store_of(j), MOVED); }

/* What the tables say of themselves. */
static void take_front(struct journal *j, unsigned dialogues)
{
    struct store *s = store_of(j);
    char answer[40], want[16];
    snprintf(want, sizeof want, "%u", dialogues);
    expect(s, "SELECT dialogues FROM journal", want, "the journal has another number of dialogues");
    ask(s, "SELECT id FROM journal", j->id, sizeof j->id);
    ask(s, "SELECT commits FROM journal", answer, sizeof answer);
    s->commits = strtoull(answer, NULL, 10);
    ask(s, "SELECT count(*) FROM outbox", answer, sizeof answer);
    s->letters = strtoull(answer, NULL, 10);
}

static const struct journal face = {
    .take = take,
    .renew = renew,
    .give_back = give_back,
    .load = load,
    .keep = keep,
    .decide = decide,
    .find = find,
    .of_run = of_run,
    .post = post,
    .next = next,
    .settle = settle,
    .waiting = waiting,
    .commit = commit,
    .commits = commits,
    .close = close_store,
    .rename = rename_journal,
    .settle_id = settle_id,
    .knew = knew,
    .late = late,
};

static void open_file(struct store *s, const char *path, enum journal_open how)
{
    int flags = SQLITE_OPEN_READWRITE | (how == JOURNAL_INIT ? SQLITE_OPEN_CREATE : 0), answer;
    if (how != JOURNAL_INIT && access(path, F_OK) != 0 && errno == ENOENT)
        log_and_exit(EXIT_REFUSED, "journal", path, "it is not there: `init` makes one, where no job was ever taken");
    answer = sqlite3_open_v2(path, &s->db, flags, NULL);
    if (answer == SQLITE_NOMEM || s->db == NULL)
        log_and_exit(EXIT_MEMORY, "memory", path, "out of memory");
    if (answer != SQLITE_OK)
        give_up(s, path);
}

void journal_open_sqlite(struct journal *j, const struct config *c, enum journal_open how)
{
    struct store *s = calloc(1, sizeof *s);
    if (s == NULL)
        log_and_exit(EXIT_MEMORY, "memory", "journal", "out of memory");
    open_file(s, c->journal, how);
    *j = face;
    j->store = s;
    s->config = c;
    sqlite3_busy_timeout(s->db, 500);
    make_durable(s);
    if (how == JOURNAL_INIT) {
        refuse_journal(s, c->journal);
        make_tables(j, (unsigned)c->dialogues);
    } else {
        check_version(s, how);
    }
    prepare(s);
    take_front(j, (unsigned)c->dialogues);
    make_records(j, c, how == JOURNAL_INIT ? 0 : DIALOGUES_MOST);
    if (how == JOURNAL_INIT) {
        if (!folder_sync(c->journal))
            log_and_exit(EXIT_JOURNAL, "journal", c->journal, "its folder can not be synced");
    }
}
