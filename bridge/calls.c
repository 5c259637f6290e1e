/*
 * The card's calls, and what their answers ask for. Nothing here leaves the process: primitives go into the dialogue's
 * queue, letters and decisions into the journal's open transaction, and `release` lets them out after its commit.
 */
#include <stdio.h>
#include <stdlib.h>
#include <string.h>

#include "book.h"
#include "calls.h"
#include "clock.h"
#include "forward.h"
#include "given.h"
#include "heads.h"
#include "log.h"
#include "payload.h"
#include "message.h"
#include "peatribbon_names.h"

uint8_t call_apdu[PEAT_BUFFER_LEAST], call_data[PEAT_BUFFER_LEAST];

#define CLOSE_MS 1000 /* how long a dialogue that is over waits for room on its connection */

/* The card refuses what it can not refuse: then nothing is known any more, and nothing of this batch may leave. */
static void the_card_refuses(const char *call, unsigned refusal)
{
    char words[40];
    snprintf(words, sizeof words, "it is refused with %u", refusal);
    log_and_exit(EXIT_JOURNAL, "card", call, words);
}

/* ---- letters */

static void post(struct bridge *b, const struct dialogue *d, const char *type, const char *reason, const char *heads, const void *body, size_t bytes)
{
    struct letter l = {0, 0, NULL, d->number, type, reason, heads, wall_ms(), body, bytes};
    b->journal->post(b->journal, &l);
    b->staged = 1;
    b->letters_left -= b->letters_left > 0;
}

void call_letter(struct bridge *b, const struct dialogue *d, const char *type, const char *heads, const void *body, size_t bytes)
{
    post(b, d, type, "", heads, body, bytes);
}

/* Its kind is what the day says of it. */
static unsigned post_envelope(
    struct bridge *b, const struct dialogue *d, const char *type, const char *heads, unsigned kind, uint64_t job, unsigned bits, const uint8_t *body)
{
    uint8_t e[PEAT_BUFFER_LEAST];
    struct peat_written_envelope written = peat_write_envelope(kind, job, bits, body, (bits + 7u) / 8u, e, sizeof e);
    if (peat_refusal(written) != PEAT_TAKEN)
        the_card_refuses("peat_write_envelope", peat_refusal(written));
    post(b, d, type, "", heads, e, peat_written_bytes(written));
    return kind;
}

/* What became of the jobs taken in a dialogue that is over. Ended: all were handed to the flight deck. Broken: each may or
   may not have been. */
static void post_fate(struct bridge *b, const struct dialogue *d, const char *how, const char *why)
{
    char *jobs = jobs_text(&d->held), *body;
    size_t room = strlen(jobs) + 160;
    int n;
    body = malloc(room);
    if (body == NULL)
        log_and_exit(EXIT_MEMORY, "memory", how, "out of memory");
    n = snprintf(body, room, "{\"dialogue\":%u,\"run\":%llu,\"fate\":\"%s\",\"why\":\"%s\",\"jobs\":\"%s\"}", d->number,
        (unsigned long long)d->kept.run, how, why, jobs);
    post(b, d, how, "", "", body, (size_t)n);
    free(body);
    free(jobs);
}

void call_dead(struct bridge *b, const struct dialogue *d, const char *reason, const uint8_t *bytes, size_t count)
{
    b->metrics.dead++;
    log_line(LOG_WARN, "dead letter", ABOUT(d), TEXT("reason", reason), NUMBER("bytes", count));
    post(b, d, "dead", reason, "", bytes, count < b->config->payload_most ? count : (size_t)b->config->payload_most);
}

/* ---- decisions */

static int covers(const struct decision *r, uint64_t job) { return r->first != 0 && r->first <= job && job <= r->last; }

static int decided(struct bridge *b, const struct dialogue *d, uint64_t job)
{
    struct decision found;
    return covers(&d->latest, job) || b->journal->find(b->journal, d->number, job, &found);
}

static void decide(struct bridge *b, struct dialogue *d, uint64_t job, unsigned outcome)
{
    struct decision *r = &d->latest;
    if (r->first != 0 && r->last + 1 == job && r->outcome == outcome && r->run == d->kept.run) {
        r->last = job;
    } else {
        if (d->decided)
            b->journal->decide(b->journal, d->number, r);
        *r = (struct decision){job, job, outcome, d->kept.run};
    }
    d->decided = 1;
    b->staged = 1;
}

/* ---- what an answer asks for */

static void enqueue(struct dialogue *d, struct peat_answer answer)
{
    struct queue *q = &d->out;
    struct primitive *p;
    if (q->oldest > 0 && q->oldest + q->count == q->room) {
        memmove(q->item, q->item + q->oldest, q->count * sizeof *q->item);
        q->oldest = 0;
    }
    q->item = grow(q->item, &q->room, q->oldest + q->count + 1, sizeof *q->item);
    p = &q->item[q->oldest + q->count++];
    p->is = peat_primitive_of(answer, d->kept.record);
    memcpy(p->data, call_apdu, p->is.user_data_len);
}

void call_add_head(char *heads, const char *name, const char *value)
{
    if (!heads_add(heads, HEADS_OF_LETTER, name, value))
        log_and_exit(EXIT_MEMORY, "memory", name, "a header does not fit");
}

void call_add_number(char *heads, const char *name, uint64_t number)
{
    char text[24];
    snprintf(text, sizeof text, "%llu", (unsigned long long)number);
    call_add_head(heads, name, text);
}

/* A refusal by its name, and the bit where bits are at fault. */
void call_add_refusal(char *heads, struct verdict v)
{
    call_add_head(heads, "x-peat-refusal", peat_refusal_name(v.refusal));
    if (v.refusal >= PEAT_SHORT && v.refusal <= PEAT_DEFAULT)
        call_add_number(heads, "x-peat-bit", v.position);
}

/* A reply ends the exchange of a number. */
static void close_number(struct bridge *b, struct dialogue *d, unsigned number)
{
    day_keeps(d, "replies %u", number);
    if (!book_close(d->kept.book, number))
        return;
    b->metrics.numbers_closed++;
    day_keeps(d, "closes %u", number);
}

/* What a message that came down says of itself: its number, the job that it replies to, whose number it may close, and all of it as JSON. It is
   passed on also where the card can not read it; then the letter says why. */
static void describe(struct bridge *b, struct dialogue *d, const uint8_t *bits, unsigned count, char *heads)
{
    static struct message m;
    static char json[MESSAGE_JSON];
    struct verdict v = VERDICT(message_read(&m, PEAT_DOWNLINK, bits, count));
    uint64_t job;
    if (v.refusal != PEAT_TAKEN) {
        call_add_refusal(heads, v);
        return;
    }
    call_add_number(heads, "x-peat-number", message_number(&m));
    job = message_replies(&m) ? book_job(d->kept.book, message_reference(&m)) : 0;
    if (job != 0)
        call_add_number(heads, "x-peat-job", job);
    if (message_closes(&m))
        close_number(b, d, message_reference(&m));
    if (b->config->delivered_json) {
        message_json(&m, json, sizeof json);
        call_add_head(heads, "x-peat-json", json);
    }
}

void call_delivered(struct bridge *b, struct dialogue *d, const char *type, const char *heads, unsigned bits, const uint8_t *message)
{
    d->day.posted = post_envelope(b, d, type, heads, PEAT_ENVELOPE_DELIVERED, ++d->kept.deliveries, bits, message);
}

/* The controllers get the message in an envelope, numbered among those of this dialogue's queue. */
static void pass_message(struct bridge *b, struct dialogue *d, struct peat_answer answer, const uint8_t *message, unsigned bits, char *heads)
{
    if (peat_told(answer) == PEAT_MESSAGE_INDICATION)
        day_bits(d, message, bits);
    if (!b->config->opaque)
        describe(b, d, message, bits, heads);
    b->metrics.delivered++;
    call_delivered(b, d, "delivered", heads, bits, message);
}

/* Message data came down: in type 2 they are the message, in type 22 it is one of their parts. */
static void pass_on(struct bridge *b, struct dialogue *d, struct peat_answer answer)
{
    static char heads[HEADS_OF_LETTER];
    uint8_t message[PEAT_BUFFER_LEAST];
    struct peat_part_answer part;
    heads[0] = '\0';
    if (peat_record_type(d->kept.record) == PEAT_PLAIN) {
        pass_message(b, d, answer, call_data, peat_data_bits(answer), heads);
        return;
    }
    part = peat_data_part(PEAT_PART_MESSAGE, call_data, peat_data_bytes(answer), message, sizeof message);
    if (peat_refusal(part) != PEAT_TAKEN)
        the_card_refuses("peat_data_part", peat_refusal(part));
    if (!peat_part_given(part))
        return; /* a start or an end without one */
    given_write(call_data, peat_data_bytes(answer), heads, sizeof heads);
    pass_message(b, d, answer, message, peat_part_bits(part), heads);
}

static void keep_timer(struct bridge *b, struct dialogue *d)
{
    if (!peat_record_timer(d->kept.record))
        d->expires = 0;
    else if (d->expires == 0)
        d->expires = now_ms() + b->config->t_start;
}

void call_wait_longer(struct bridge *b, struct dialogue *d)
{
    d->start_at = now_ms() + d->wait;
    d->wait = 2 * d->wait < b->config->retry_most ? 2 * d->wait : b->config->retry_most;
}

static void note_fate(struct dialogue *d, const char *how)
{
    size_t i;
    uint64_t job;
    for (i = 0; i < d->held.ranges && d->day.file >= 0; i++)
        for (job = d->held.range[i].first; job != 0 && job <= d->held.range[i].last; job++)
            day_tells(d, how, job);
}

/* The dialogue is over: the jobs taken in it get their fate, and its connection goes. */
static void over(struct bridge *b, struct dialogue *d, unsigned before, const char *how, const char *why)
{
    if (before == PEAT_DIALOGUE || before == PEAT_END)
        ++*(strcmp(how, "ended") == 0 ? &b->metrics.ended : &b->metrics.broken);
    note_fate(d, how);
    if (d->held.ranges > 0)
        post_fate(b, d, how, why);
    jobs_clear(&d->held);
    d->shown.fate = how;
    d->shown.why = why;
    d->shown.over_at = wall_ms();
    book_empty(d->kept.book);
    d->closing = 1;
    d->close_by = now_ms() + CLOSE_MS;
    call_wait_longer(b, d);
    log_line(LOG_INFO, "over", ABOUT(d), NUMBER("run", d->kept.run), TEXT("fate", how), TEXT("why", why));
}

static void opened(struct bridge *b, struct dialogue *d)
{
    b->metrics.opened++;
    book_empty(d->kept.book);
    d->wait = b->config->retry;
    log_line(LOG_INFO, "opened", ABOUT(d), NUMBER("run", d->kept.run));
}

unsigned call_act(struct bridge *b, struct dialogue *d, unsigned before, struct peat_answer answer, const char *why)
{
    int ended;
    if (peat_refusal(answer) != PEAT_TAKEN)
        return peat_refusal(answer);
    b->staged = d->changed = 1;
    keep_timer(b, d);
    if (peat_invoked(answer) != PEAT_SILENT)
        enqueue(d, answer);
    if (place_is_link(d->number)) {
        forward_act(b, d, before, answer, why);
        return PEAT_TAKEN;
    }
    if (peat_told(answer) >= PEAT_START_INDICATION && peat_told(answer) <= PEAT_END_CONFIRMATION && peat_data_bits(answer) > 0)
        pass_on(b, d, answer); /* a start and an end may bring a message, too */
    if ((before == PEAT_START_REQ || before == PEAT_START_IND) && state_of(d) == PEAT_DIALOGUE)
        opened(b, d);
    ended = peat_told(answer) == PEAT_END_CONFIRMATION;
    if (before != PEAT_IDLE && state_of(d) == PEAT_IDLE)
        over(b, d, before, ended ? "ended" : "broken", ended ? "end" : why);
    return PEAT_TAKEN;
}

/* ---- the user of the ground end: the bridge itself starts and ends dialogues */

/* The number of the next dialogue: above the record's, and by the clock, so that it is above the aircraft's too where the journal is an
   old copy (floor.h). */
uint64_t call_next_number(const struct dialogue *d)
{
    uint64_t above = peat_record_number(d->kept.record) + 1, clock = wall_ms();
    return above > clock ? above : clock;
}

/* A start that the card refuses is tried again, later each time: the record may hold the highest number there is (renumber.h). */
static void start_refused(struct bridge *b, struct dialogue *d, unsigned refusal)
{
    b->metrics.starts_refused++;
    log_line(LOG_WARN, "start refused", ABOUT(d), NUMBER("refusal", refusal), NUMBER("number", peat_record_number(d->kept.record)), NUMBER("wait_ms", d->wait),
        TEXT("why", refusal == PEAT_STALE ? "the record's number can not be raised: stop the bridge and run `bridge renumber`" : "the card"));
    d->closing = 1;
    d->close_by = now_ms();
    call_wait_longer(b, d);
}

void call_start(struct bridge *b, struct dialogue *d)
{
    unsigned refusal;
    d->kept.run++;
    refusal = call_act(b, d, PEAT_IDLE, peat_start(RECORD(d), call_next_number(d), PEAT_CPDLC, PEAT_CLASS_ANY, PEAT_NO_SECURITY, PEAT_NO_DATA, BUFFERS), "");
    if (refusal != PEAT_TAKEN) {
        d->kept.run--; /* it did not happen */
        start_refused(b, d, refusal);
        return;
    }
    day_keeps(d, "starts-cpdlc %llu", (unsigned long long)peat_record_number(d->kept.record));
}

void call_must(struct bridge *b, struct dialogue *d, const char *call, struct peat_answer answer, const char *why, unsigned before)
{
    if (call_act(b, d, before, answer, why) != PEAT_TAKEN)
        the_card_refuses(call, peat_refusal(answer));
}

void call_end(struct bridge *b, struct dialogue *d)
{
    unsigned before = state_of(d);
    day_keeps(d, "asks-end");
    call_must(b, d, "peat_end_request", peat_end_request(RECORD(d), PEAT_NO_DATA, BUFFERS), "", before);
}

void call_abort(struct bridge *b, struct dialogue *d)
{
    unsigned before = state_of(d);
    day_keeps(d, "aborts");
    call_must(b, d, "peat_user_abort", peat_user_abort(RECORD(d), PEAT_COMMANDED_TERMINATION, BUFFERS), "stopped", before);
}

void call_expiry(struct bridge *b, struct dialogue *d)
{
    unsigned before = state_of(d);
    b->metrics.expired++;
    day_keeps(d, "expires");
    call_must(b, d, "peat_timer_expiry", peat_timer_expiry(RECORD(d), BUFFERS), "t-start", before);
}

/* ---- the dialogue service */

/* An aircraft starts its dialogue. The answer is in the same batch as the start: a record that waits for it is never kept. */
static void answer_start(struct bridge *b, struct dialogue *d, int dsc)
{
    unsigned before = state_of(d), accepts = b->config->starts[d->number] == STARTS_AIR && b->stop_by == 0, result = accepts ? PEAT_ACCEPTED : PEAT_REJECTED;
    d->kept.run += accepts;
    ++*(accepts ? &b->metrics.starts_accepted : &b->metrics.starts_rejected);
    day_keeps(d, accepts ? "accepts-start" : "rejects-start");
    if (dsc)
        call_must(b, d, "peat_dsc_start_response", peat_dsc_start_response(RECORD(d), result, PEAT_NO_DATA, BUFFERS), "rejected", before);
    else
        call_must(b, d, "peat_start_response", peat_start_response(RECORD(d), result, PEAT_NO_DATA, BUFFERS), "rejected", before);
}

/* An aircraft ends a downstream dialogue. Whether the last messages arrive before the answer nobody will say: their jobs are told as broken. */
static void answer_end(struct bridge *b, struct dialogue *d)
{
    unsigned before = state_of(d);
    day_keeps(d, "accepts-end");
    day_keeps(d, "gives-up");
    call_must(b, d, "peat_dsc_end_response", peat_dsc_end_response(RECORD(d), PEAT_ACCEPTED, PEAT_NO_DATA, BUFFERS), "aircraft's end", before);
}

/* The connection is gone, or is of no use: what waits to be sent is lost with it. */
void call_failure(struct bridge *b, struct dialogue *d, const char *why)
{
    unsigned before = state_of(d);
    d->out.oldest = d->out.count = 0;
    d->closing = 1;
    d->close_by = now_ms();
    day_loses(d);
    if (before == PEAT_IDLE)
        call_wait_longer(b, d);
    if (before != PEAT_IDLE)
        call_must(b, d, "peat_d_p_abort_indication", peat_d_p_abort_indication(RECORD(d), peat_record_number(d->kept.record), BUFFERS), why, before);
    d->out.oldest = d->out.count = 0;
}

#define UNEXPECTED_MS 1000 /* between two lines about what a dialogue's aircraft may not send */

#define START_JUMP ((uint64_t)1 << 48) /* that the number of an aircraft's start may be above the last: one packet does not use up the numbers */

/* Of a dialogue that the bridge starts: a start from its aircraft is none that it can expect, and its number would be the record's. A number above
   the one that was given is nobody's. Neither reaches the record. */
static int unexpected(const struct bridge *b, const struct dialogue *d, const struct primitive *p)
{
    if (p->is.kind == PEAT_D_START_REQUEST && b->config->starts[d->number] != STARTS_GROUND)
        return p->is.number > peat_record_number(d->kept.record) && p->is.number - peat_record_number(d->kept.record) > START_JUMP;
    return p->is.kind == PEAT_D_START_REQUEST || p->is.number > peat_record_number(d->kept.record);
}

void call_turn_away(struct bridge *b, struct dialogue *d, const struct primitive *p, const char *why)
{
    b->metrics.unexpected++;
    d->unexpected++;
    if (now_ms() < d->unexpected_at)
        return;
    log_line(LOG_WARN, "unexpected primitive", ABOUT(d), NUMBER("primitive", p->is.kind), NUMBER("number", p->is.number), NUMBER("ours", peat_record_number(d->kept.record)),
        NUMBER("times", d->unexpected), TEXT("why", why));
    d->unexpected = 0;
    d->unexpected_at = now_ms() + UNEXPECTED_MS;
}

void call_primitive(struct bridge *b, struct dialogue *d, const struct primitive *p)
{
    unsigned before = state_of(d), refusal;
    struct peat_answer answer;
    b->metrics.received++;
    if (unexpected(b, d, p)) {
        call_turn_away(b, d, p, p->is.kind == PEAT_D_START_REQUEST ? "the aircraft starts a dialogue" : "its number was never given");
        return;
    }
    if (before == PEAT_IDLE && p->is.kind != PEAT_D_START_REQUEST) {
        day_hears(d, p, (struct peat_answer){PEAT_STALE});
        return;
    }
    answer = peat_hand_over(RECORD(d), p->is, PEAT_AIRCRAFT, p->data, BUFFERS);
    day_hears(d, p, answer);
    refusal = call_act(b, d, before, answer, "abort");
    day_shows(d, answer);
    if (refusal == PEAT_STALE)
        b->metrics.stale++; /* of an old dialogue: it changes nothing */
    else if (refusal != PEAT_TAKEN)
        call_failure(b, d, "no primitive");
    else if (peat_told(answer) == PEAT_START_INDICATION)
        answer_start(b, d, (int)peat_told_dsc(answer));
    else if (peat_told(answer) == PEAT_END_INDICATION)
        answer_end(b, d);
}

/* ---- jobs */

/* By the card's verdict: the letter has its number, its name, and the bit. */
void call_refused(struct bridge *b, struct dialogue *d, uint64_t job, struct verdict v)
{
    static char heads[HEADS_OF_LETTER];
    uint8_t number = (uint8_t)v.refusal;
    heads[0] = '\0';
    call_add_refusal(heads, v);
    b->metrics.refused[v.refusal]++;
    d->shown.refusal = v.refusal;
    d->shown.refused_job = job;
    d->shown.refused_at = wall_ms();
    b->metrics.overtaken += v.refusal == PEAT_REPEAT; /* it is not decided, so it was never sent: a later job was */
    log_line(LOG_INFO, "refused", ABOUT(d), NUMBER("job", job), NUMBER("refusal", v.refusal));
    decide(b, d, job, v.refusal);
    day_refuses(d, job, v.refusal, number);
    post_envelope(b, d, "refused", heads, PEAT_ENVELOPE_REFUSAL, job, 8, &number);
}

static void lay_aside(struct bridge *b, struct dialogue *d, const struct envelope *e, const char *reason, const uint8_t *bytes, size_t count)
{
    if (e->kind == PEAT_ENVELOPE_TO_SEND)
        decide(b, d, e->job, LAID_ASIDE); /* its fate is told: it is not sent when it comes again */
    if (e->kind == PEAT_ENVELOPE_TO_SEND)
        day_refuses(d, e->job, LAID_ASIDE, LAID_ASIDE);
    call_dead(b, d, reason, bytes, count);
}

/* A job as the card gets it. */
struct offer {
    struct peat_data data;
    uint8_t out[PEAT_BUFFER_LEAST], book[PEAT_BOOK_BYTES]; /* the message with its number, and the book with that number */
    unsigned opens;                                        /* that number; BOOK_NONE: none stays open */
    const uint8_t *asked;                                  /* the message that the envelope asks for, with its number */
    unsigned asked_bits;
};

/* The message is read, and gets its number from the book: it stands there when the card has taken the job. A message with an integrity check
   keeps its own, since the check is made over it. The card's verdict; *why: it is laid aside with this reason. */
static struct verdict number_message(struct dialogue *d, const struct envelope *e, const char *heads, struct offer *o, const char **why)
{
    static struct message m;
    struct verdict v = VERDICT(message_read(&m, PEAT_UPLINK, e->body, e->bits));
    int own = o->data.check_bits > 0, closes;
    char response[8];
    unsigned number;
    size_t length;
    if (v.refusal != PEAT_TAKEN)
        return v;
    closes = heads_take(heads, "x-peat-response", response, sizeof response) && strcmp(response, "none") == 0;
    if (!closes && heads_find(heads, "x-peat-response", &length) != NULL) {
        *why = "headers";
        return v;
    }
    number = own ? book_open_this(o->book, e->job, message_number(&m)) : book_open(o->book, e->job);
    if (number == BOOK_NONE) {
        *why = "number";
        return v;
    }
    if (!own) {
        o->asked = o->out;
        o->data.message_bits = o->asked_bits = message_write(&m, number, o->out);
        o->data.message_len = (o->data.message_bits + 7u) / 8u;
        o->data.message = o->out;
    }
    o->opens = closes ? BOOK_NONE : number;
    if (closes)
        memcpy(o->book, d->kept.book, sizeof o->book); /* it allows no reply, so the number is in use until the message is sent (Doc 9705, 2.3.7.4.2.2) */
    return v;
}

void call_taken(struct bridge *b, struct dialogue *d, uint64_t job)
{
    b->metrics.taken++;
    decide(b, d, job, PEAT_TAKEN);
    day_keeps(d, "takes %llu", (unsigned long long)job);
    jobs_add(&d->held, job, job);
    log_line(LOG_FINE, "taken", ABOUT(d), NUMBER("job", job));
}

static struct verdict request(struct bridge *b, struct dialogue *d, uint64_t job, const struct peat_data *data)
{
    struct peat_answer answer = peat_message_request(RECORD(d), job, PEAT_DATA(*data), BUFFERS);
    call_act(b, d, state_of(d), answer, "");
    return VERDICT(answer);
}

static void offer(struct bridge *b, struct dialogue *d, const struct envelope *e, const char *heads, const struct given *g, const char **why)
{
    static struct offer o;
    struct verdict v = {PEAT_TAKEN, 0};
    o.data = (struct peat_data){.identifier = g->identifier, .identifier_len = g->identifier_len, .message = e->body, .message_len = (e->bits + 7u) / 8u,
        .message_bits = e->bits, .check = g->check, .check_len = (g->check_bits + 7u) / 8u, .check_bits = g->check_bits};
    memcpy(o.book, d->kept.book, sizeof o.book);
    o.opens = BOOK_NONE;
    o.asked = e->body;
    o.asked_bits = e->bits;
    if (!b->config->opaque)
        v = number_message(d, e, heads, &o, why);
    if (*why != NULL)
        return;
    if (v.refusal == PEAT_TAKEN)
        v = request(b, d, e->job, &o.data);
    if (v.refusal == PEAT_TAKEN) {
        memcpy(d->kept.book, o.book, sizeof o.book);
        call_taken(b, d, e->job);
        day_bits(d, o.asked, o.asked_bits);
        if (o.opens != BOOK_NONE)
            day_keeps(d, "opens %u", o.opens);
    } else {
        call_refused(b, d, e->job, v);
    }
}

/* why an envelope is not even offered to the card; NULL: it is */
static const char *kept_out(const struct bridge *b, const struct dialogue *d, const struct envelope *e)
{
    uint64_t highest = peat_record_highest(d->kept.record);
    uint64_t from = highest > d->kept.floor ? highest : d->kept.floor;
    if (e->kind != PEAT_ENVELOPE_TO_SEND)
        return "another kind";
    if (e->job <= d->kept.floor)
        return "floor"; /* it may have been sent before the journal was restored */
    if (e->job > from && e->job - from > b->config->job_jump && !place_is_link(d->number))
        return "jump"; /* taken, it would make a REPEAT of every job below it */
    return NULL;
}

static const char *refusal_name(unsigned refusal)
{
    switch (refusal) {
    case PEAT_CUT: return "CUT";
    case PEAT_GROUPS: return "GROUPS";
    case PEAT_KIND: return "KIND";
    default: return "SIZE";
    }
}

/* An envelope of a payload, whose bytes are given: a repeat, laid aside, or offered to the card. */
static void sort_envelope(struct bridge *b, struct dialogue *d, const struct envelope *e, const char *heads, const uint8_t *bytes, size_t count)
{
    struct given g;
    const char *reason;
    if (e->kind == PEAT_ENVELOPE_TO_SEND && decided(b, d, e->job)) {
        b->metrics.repeats++;
        log_line(LOG_FINE, "repeat", ABOUT(d), NUMBER("job", e->job));
        day_reads(d, e->job);
        return;
    }
    reason = kept_out(b, d, e);
    if (reason == NULL && (!given_read(&g, heads) || (place_is_link(d->number) && (g.identifier_len > 0 || g.check_bits > 0))))
        reason = "headers"; /* a forward has no place for an identifier or a check */
    if (reason == NULL && !b->config->opaque && !place_is_link(d->number) && book_open_numbers(d->kept.book) == PEAT_BOOK_NUMBERS) {
        d->waits = 1;
        return;
    }
    if (reason == NULL && place_is_link(d->number))
        forward_offer(b, d, e, heads, &reason);
    else if (reason == NULL)
        offer(b, d, e, heads, &g, &reason);
    if (reason != NULL)
        lay_aside(b, d, e, reason, bytes, count);
    if (e->kind == PEAT_ENVELOPE_TO_SEND)
        day_reads(d, e->job);
}

int call_waits(struct bridge *b, const struct dialogue *d)
{
    return place_is_link(d->number) ? !forward_ready(b, d) : d->waits && book_open_numbers(d->kept.book) == PEAT_BOOK_NUMBERS;
}

/* One envelope of the payload that is read: it is taken, refused or laid aside, and what can't be read is laid aside with the rest
   behind it. So every payload is read to its end and acknowledged, and none comes back for ever. */
int call_envelope(struct bridge *b, struct dialogue *d)
{
    const struct payload *p = d->inbox;
    unsigned refusal = PEAT_TAKEN;
    size_t from;
    if (!d->reading) {
        b->metrics.payloads++;
        if (p->length > b->config->payload_most) {
            call_dead(b, d, "too long", p->byte, p->length);
            return 0;
        }
        payload_begin(&d->reader, p->byte, p->length);
        d->reading = 1;
    }
    if (!d->waits)
        refusal = payload_take(&d->reader, &d->envelope);
    d->waits = 0;
    from = payload_place(&d->reader);
    if (refusal != PEAT_TAKEN) {
        call_dead(b, d, refusal_name(refusal), p->byte + from, p->length - from);
        return 0;
    }
    sort_envelope(b, d, &d->envelope, p->heads, p->byte + from, d->reader.at - from);
    if (d->waits)
        return 1;
    return payload_waits(&d->reader);
}
