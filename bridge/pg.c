#include "pg.h"

#include <libpq-fe.h>
#include <poll.h>
#include <stdio.h>
#include <stdlib.h>
#include <string.h>

#include "clock.h"
#include "jobs.h"
#include "log.h"

#define FORMAT_BINARY 1
#define TICK_MS 20 /* between two looks at what is due meanwhile */
#define AT_ONCE 500 /* statements that are sent before their answers are read: neither side waits for the other with full hands */

/* one parameter: a range of the batch's bytes; text where `binary` is 0 */
struct parameter {
    size_t at, bytes;
    int binary;
};

struct statement {
    unsigned which, group;
    int rows;
    size_t first, count; /* its parameters */
};

struct pg {
    PGconn *to;
    PGresult *rows;     /* of the last question */
    uint64_t most, until; /* how long an answer may take, ms, and until when this one may; 0: as long as it likes */
    void (*meanwhile)(void *), (*lost)(void *);
    void *meanwhile_with, *lost_with;
    int warned;         /* the database said something that is not an error */
    char *byte;         /* the bytes of all parameters */
    size_t bytes, byte_room;
    struct parameter *parameter;
    size_t parameters, parameter_room, begun; /* those from `begun` on are the next statement's */
    struct statement *statement;
    size_t statements, statement_room;
};

/* ---- what may not fail */

/* The database gave a statement up: it waited for a lock, or took too long. */
static int is_slow(const PGresult *r)
{
    const char *code = PQresultErrorField(r, PG_DIAG_SQLSTATE);
    return code != NULL && (strcmp(code, "55P03") == 0 || strcmp(code, "57014") == 0);
}

/* The database ended the session: by the word of somebody, or since it stops. */
static int is_ended(const PGresult *r)
{
    const char *code = PQresultErrorField(r, PG_DIAG_SQLSTATE);
    return code != NULL && strncmp(code, "57P", 3) == 0;
}

/* Whoever has the connection may know more of it than that it is lost. */
static void ask_why(struct pg *p, const char *what)
{
    void (*lost)(void *) = p->lost;
    p->lost = NULL;
    if (lost == NULL)
        return;
    log_line(LOG_WARN, "database lost", TEXT("what", what), TEXT("why", PQerrorMessage(p->to)));
    lost(p->lost_with);
}

static void give_up(struct pg *p, const char *what)
{
    if (PQstatus(p->to) == CONNECTION_BAD)
        ask_why(p, what);
    log_and_exit(EXIT_JOURNAL, "database", what, PQerrorMessage(p->to));
}

/* An answer that is none. There is always one: where the library has none, it has no memory. */
static void refuse_answer(struct pg *p, const PGresult *r, const char *what)
{
    if (r == NULL && PQstatus(p->to) == CONNECTION_OK)
        log_and_exit(EXIT_MEMORY, "memory", what, "out of memory");
    if (is_slow(r))
        log_and_exit(EXIT_SLOW, "database slow", what, PQresultErrorMessage(r));
    if (is_ended(r))
        ask_why(p, what);
    give_up(p, what);
}

static void hear(void *with, const PGresult *r)
{
    struct pg *p = with;
    const char *code = PQresultErrorField(r, PG_DIAG_SEVERITY_NONLOCALIZED);
    if (code == NULL || strcmp(code, "WARNING") != 0)
        return;
    p->warned = 1;
    log_line(LOG_WARN, "database", TEXT("why", PQresultErrorMessage(r)));
}

static void forget_rows(struct pg *p)
{
    PQclear(p->rows);
    p->rows = NULL;
}

struct pg *pg_open(const char *database, const char *name)
{
    /* A database whose machine is gone says nothing: it is noticed after some ten seconds, unless the configuration says otherwise. */
    const char *const keys[] = {"connect_timeout", "keepalives_idle", "keepalives_interval", "keepalives_count", "tcp_user_timeout", "dbname", "application_name", NULL};
    const char *const values[] = {"5", "5", "2", "3", "10000", database, name, NULL};
    struct pg *p = calloc(1, sizeof *p);
    if (p == NULL || (p->to = PQconnectdbParams(keys, values, 1)) == NULL)
        log_and_exit(EXIT_MEMORY, "memory", "database", "out of memory");
    if (PQstatus(p->to) != CONNECTION_OK || PQsetnonblocking(p->to, 1) != 0)
        give_up(p, "it can not be reached");
    PQsetNoticeReceiver(p->to, hear, p);
    pg_prepare(p, PG_BEGIN, "BEGIN");
    return p;
}

void pg_meanwhile(struct pg *p, void (*meanwhile)(void *), void *with)
{
    p->meanwhile = meanwhile;
    p->meanwhile_with = with;
}

void pg_on_loss(struct pg *p, void (*lost)(void *), void *with)
{
    p->lost = lost;
    p->lost_with = with;
}

void pg_close(struct pg *p)
{
    forget_rows(p);
    PQfinish(p->to);
    free(p->byte);
    free(p->parameter);
    free(p->statement);
    free(p);
}

/* ---- waiting. The library is never asked for what it would have to wait for. */

static void start_clock(struct pg *p) { p->until = p->most != 0 ? now_ms() + p->most : 0; }

static void wait_for(struct pg *p, short what)
{
    struct pollfd one = {PQsocket(p->to), what, 0};
    if (p->until != 0 && now_ms() >= p->until)
        log_and_exit(EXIT_SLOW, "database slow", "no answer", "it took longer than a lease");
    if (poll(&one, 1, TICK_MS) == 0 && p->meanwhile != NULL)
        p->meanwhile(p->meanwhile_with);
}

/* The next answer; NULL: there are no more to this question. */
static PGresult *next_answer(struct pg *p)
{
    int unsent = PQflush(p->to);
    while (unsent > 0 || PQisBusy(p->to)) {
        wait_for(p, (short)(POLLIN | (unsent > 0 ? POLLOUT : 0)));
        if (!PQconsumeInput(p->to))
            give_up(p, "read");
        unsent = PQflush(p->to);
    }
    if (unsent < 0)
        give_up(p, "send");
    return PQgetResult(p->to);
}

/* What was asked has one answer: the last that comes, unless an earlier one is a failure. */
static PGresult *only_answer(struct pg *p, int sent, const char *what)
{
    PGresult *r = NULL, *more;
    if (!sent)
        give_up(p, what);
    while ((more = next_answer(p)) != NULL) {
        if (PQresultStatus(more) != PGRES_TUPLES_OK && PQresultStatus(more) != PGRES_COMMAND_OK)
            refuse_answer(p, more, what);
        PQclear(r);
        r = more;
    }
    if (r == NULL)
        refuse_answer(p, r, what);
    return r;
}

static void name_of(unsigned statement, char *name, size_t room) { snprintf(name, room, "s%u", statement); }

void pg_prepare(struct pg *p, unsigned statement, const char *text)
{
    char name[16];
    name_of(statement, name, sizeof name);
    start_clock(p);
    PQclear(only_answer(p, PQsendPrepare(p->to, name, text, 0, NULL), text));
}

void pg_limit(struct pg *p, uint64_t ms)
{
    char text[120];
    p->most = ms;
    /* the database gives up first: it knows what it waited for */
    snprintf(text, sizeof text, "SET statement_timeout = %llu; SET lock_timeout = %llu", (unsigned long long)ms * 3 / 4, (unsigned long long)ms * 3 / 4);
    pg_say(p, text);
}

/* ---- parameters */

static void add_parameter(struct pg *p, const void *bytes, size_t count, int binary)
{
    p->byte = grow(p->byte, &p->byte_room, p->bytes + count + 1, 1);
    p->parameter = grow(p->parameter, &p->parameter_room, p->parameters + 1, sizeof *p->parameter);
    memcpy(p->byte + p->bytes, bytes, count);
    p->byte[p->bytes + count] = '\0';
    p->parameter[p->parameters++] = (struct parameter){p->bytes, count, binary};
    p->bytes += count + 1;
}

void pg_text(struct pg *p, const char *text) { add_parameter(p, text, strlen(text), 0); }

void pg_number(struct pg *p, uint64_t n)
{
    char text[24];
    snprintf(text, sizeof text, "%llu", (unsigned long long)n);
    pg_text(p, text);
}

void pg_bytes(struct pg *p, const void *bytes, size_t count) { add_parameter(p, bytes, count, FORMAT_BINARY); }

void pg_job(struct pg *p, uint64_t n)
{
    uint8_t b[8];
    int i;
    for (i = 0; i < 8; i++)
        b[i] = (uint8_t)(n >> (56 - 8 * i));
    pg_bytes(p, b, sizeof b);
}

/* The parameters of a statement as the library takes them. */
struct lent {
    const char *value[PG_PARAMETERS];
    int length[PG_PARAMETERS], format[PG_PARAMETERS], count;
};

static struct lent lend(const struct pg *p, size_t first, size_t count)
{
    struct lent l;
    size_t i;
    l.count = (int)count;
    for (i = 0; i < count; i++) {
        const struct parameter *a = &p->parameter[first + i];
        l.value[i] = p->byte + a->at;
        l.length[i] = (int)a->bytes;
        l.format[i] = a->binary;
    }
    return l;
}

/* ---- asking. Rows come in binary only where bytes are asked for, so they come as text: a bytea as \x and digits. */

static int take_rows(struct pg *p, PGresult *r)
{
    forget_rows(p);
    p->rows = r;
    return PQresultStatus(r) == PGRES_TUPLES_OK ? PQntuples(r) : 0;
}

/* The parameters that were collected for the next statement are used. */
static void forget_parameters(struct pg *p)
{
    if (p->parameters > p->begun)
        p->bytes = p->parameter[p->begun].at;
    p->parameters = p->begun;
}

int pg_ask(struct pg *p, unsigned statement)
{
    struct lent l = lend(p, p->begun, p->parameters - p->begun);
    char name[16];
    int rows;
    name_of(statement, name, sizeof name);
    p->warned = 0;
    start_clock(p);
    rows = take_rows(p, only_answer(p, PQsendQueryPrepared(p->to, name, l.count, l.value, l.length, l.format, 0), name));
    forget_parameters(p);
    return rows;
}

/* as part of a question whose clock runs */
static int say_within(struct pg *p, const char *text)
{
    p->warned = 0;
    return take_rows(p, only_answer(p, PQsendQuery(p->to, text), text));
}

int pg_say(struct pg *p, const char *text)
{
    start_clock(p);
    return say_within(p, text);
}

int pg_warned(const struct pg *p) { return p->warned; }

const char *pg_text_at(struct pg *p, int row, int column) { return PQgetvalue(p->rows, row, column); }

uint64_t pg_number_at(struct pg *p, int row, int column) { return strtoull(pg_text_at(p, row, column), NULL, 10); }

static unsigned digit(char c) { return c <= '9' ? (unsigned)(c - '0') : (unsigned)(c - 'a' + 10); }

/* The digits are made bytes where they stand. */
const uint8_t *pg_bytes_at(struct pg *p, int row, int column, size_t *count)
{
    char *text = PQgetvalue(p->rows, row, column);
    size_t n = (size_t)PQgetlength(p->rows, row, column), i;
    uint8_t *bytes = (uint8_t *)text;
    if (n < 2 || text[0] != '\\' || text[1] != 'x')
        log_and_exit(EXIT_JOURNAL, "database", "bytes", "bytea_output is not hex");
    for (i = 0; i < (n - 2) / 2; i++)
        bytes[i] = (uint8_t)(digit(text[2 + 2 * i]) << 4 | digit(text[3 + 2 * i]));
    *count = (n - 2) / 2;
    return bytes;
}

uint64_t pg_job_at(struct pg *p, int row, int column)
{
    size_t count, i;
    const uint8_t *b = pg_bytes_at(p, row, column, &count);
    uint64_t n = 0;
    for (i = 0; i < count && i < 8; i++)
        n = n << 8 | b[i];
    return n;
}

/* ---- a batch */

void pg_add(struct pg *p, unsigned statement, int rows, unsigned group)
{
    p->statement = grow(p->statement, &p->statement_room, p->statements + 1, sizeof *p->statement);
    p->statement[p->statements++] = (struct statement){statement, group, rows, p->begun, p->parameters - p->begun};
    p->begun = p->parameters;
}

int pg_pending(const struct pg *p) { return p->statements > 0; }

static void enter_pipeline(struct pg *p)
{
    if (!PQenterPipelineMode(p->to))
        give_up(p, "pipeline");
}

static void send_one(struct pg *p, const struct statement *s)
{
    struct lent l = lend(p, s->first, s->count);
    char name[16];
    name_of(s->which, name, sizeof name);
    if (!PQsendQueryPrepared(p->to, name, l.count, l.value, l.length, l.format, 0))
        give_up(p, "send");
}

/* The answer to one statement, and the end of its answers. */
static PGresult *read_one(struct pg *p)
{
    PGresult *r = next_answer(p);
    if (PQresultStatus(r) != PGRES_COMMAND_OK && PQresultStatus(r) != PGRES_TUPLES_OK)
        refuse_answer(p, r, "a statement of a batch");
    if (next_answer(p) != NULL)
        give_up(p, "an answer too many");
    return r;
}

static void leave_pipeline(struct pg *p)
{
    PGresult *r = next_answer(p);
    if (PQresultStatus(r) != PGRES_PIPELINE_SYNC)
        refuse_answer(p, r, "the end of a batch");
    PQclear(r);
    if (!PQexitPipelineMode(p->to))
        give_up(p, "pipeline");
}

static void end_sending(struct pg *p)
{
    if (!PQpipelineSync(p->to))
        give_up(p, "send");
}

int pg_begin(struct pg *p, unsigned statement)
{
    const struct statement begins = {PG_BEGIN, PG_NO_GROUP, PG_ANY, p->begun, 0};
    const struct statement asks = {statement, PG_NO_GROUP, PG_ANY, p->begun, p->parameters - p->begun};
    int rows;
    start_clock(p);
    enter_pipeline(p);
    send_one(p, &begins);
    send_one(p, &asks);
    end_sending(p);
    PQclear(read_one(p));
    rows = take_rows(p, read_one(p));
    leave_pipeline(p);
    forget_parameters(p);
    return rows;
}

/* Sends statements one behind the other and reads their answers; 1: all touched their rows. */
static int exchange(struct pg *p, const struct statement *from, size_t count)
{
    size_t i;
    int good = 1;
    enter_pipeline(p);
    for (i = 0; i < count; i++)
        send_one(p, from + i);
    end_sending(p);
    for (i = 0; i < count; i++) {
        PGresult *r = read_one(p);
        good &= from[i].rows == PG_ANY || atoi(PQcmdTuples(r)) == from[i].rows;
        PQclear(r);
    }
    leave_pipeline(p);
    return good;
}

/* Statements of groups that are late go behind the others, each in its order; how many are not late. */
static size_t set_late_apart(struct pg *p, int (*late)(void *, unsigned), void *with)
{
    struct statement *behind = NULL;
    size_t room = 0, i, n = 0, count = 0;
    for (i = 0; i < p->statements; i++) {
        if (p->statement[i].group == PG_NO_GROUP || !late(with, p->statement[i].group)) {
            p->statement[n++] = p->statement[i];
        } else {
            behind = grow(behind, &room, count + 1, sizeof *behind);
            behind[count++] = p->statement[i];
        }
    }
    if (count > 0)
        memcpy(p->statement + n, behind, count * sizeof *behind);
    free(behind);
    return n;
}

/* What is behind the first `done` statements becomes the batch, its parameters at the front. */
static void keep_rest(struct pg *p, size_t done)
{
    size_t i, k, parameters = 0, bytes = 0;
    for (i = done; i < p->statements; i++) {
        struct statement s = p->statement[i];
        for (k = 0; k < s.count; k++) {
            struct parameter a = p->parameter[s.first + k];
            memmove(p->byte + bytes, p->byte + a.at, a.bytes + 1);
            p->parameter[parameters + k] = (struct parameter){bytes, a.bytes, a.binary};
            bytes += a.bytes + 1;
        }
        s.first = parameters;
        parameters += s.count;
        p->statement[i - done] = s;
    }
    p->statements -= done;
    p->parameters = p->begun = parameters;
    p->bytes = bytes;
}

/* A commit that only seems to be one (it was rolled back, or the wait for a replica was given up) is none. The database does not
   give that wait up by itself: what it gave up would be committed, and not on the replica. */
static void end_transaction(struct pg *p, int good)
{
    const char *how = good ? "COMMIT" : "ROLLBACK";
    say_within(p, good ? "SET LOCAL statement_timeout = 0; COMMIT" : "ROLLBACK");
    if (strcmp(PQcmdStatus(p->rows), how) != 0 || p->warned)
        log_and_exit(EXIT_JOURNAL, "database", how, p->warned ? "the database warns" : PQcmdStatus(p->rows));
}

int pg_commit(struct pg *p, int (*late)(void *, unsigned), void *with)
{
    size_t at, n, count = set_late_apart(p, late, with);
    int good = 1;
    start_clock(p);
    for (at = 0; at < count && good; at += n) {
        n = count - at < AT_ONCE ? count - at : AT_ONCE;
        good = exchange(p, p->statement + at, n);
    }
    end_transaction(p, good);
    keep_rest(p, count);
    return good;
}
