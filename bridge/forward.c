#include "forward.h"

#include <stdio.h>
#include <stdlib.h>
#include <string.h>

#include "calls.h"
#include "clock.h"
#include "heading.h"
#include "log.h"
#include "peatribbon_names.h"

#define PRIMITIVES 64                   /* of a place in a round, at most */
#define CLOSE_MS 1000                   /* how long a connection that is given up waits for its last primitive to go */
#define NUMBER_JUMP ((uint64_t)1 << 48) /* that the number of a forward may be above the last: one packet does not use up the numbers */

static int connected(struct bridge *b, const struct dialogue *d) { return b->link->connected(b->link, d->number); }

int forward_ready(struct bridge *b, const struct dialogue *d)
{
    return !place_hears(d->number) && state_of(d) == PEAT_IDLE && !d->closing && d->out.count == 0 && connected(b, d);
}

uint64_t forward_at(struct bridge *b, const struct dialogue *d)
{
    int listens = place_hears(d->number) && b->link->descriptor(b->link, d->number) >= 0;
    return connected(b, d) || b->stop_by != 0 || (listens && now_ms() >= d->start_at) ? 0 : d->start_at;
}

/* ---- forwarding */

static struct peat_answer request(struct dialogue *d, const struct heading *h, const struct envelope *e)
{
    const uint64_t *p = h->part;
    return peat_forward_request(RECORD(d), call_next_number(d), PEAT_CLASS_ANY, PEAT_NO_SECURITY, p[PEAT_FORWARD_YEAR], p[PEAT_FORWARD_MONTH], p[PEAT_FORWARD_DAY],
        p[PEAT_FORWARD_HOURS], p[PEAT_FORWARD_MINUTES], p[PEAT_FORWARD_SECONDS], p[PEAT_FORWARD_CHARACTERS], p[PEAT_FORWARD_FLIGHT], p[PEAT_FORWARD_ADDRESS],
        p[PEAT_FORWARD_DIRECTION], e->body, (e->bits + 7u) / 8u, e->bits, BUFFERS);
}

void forward_offer(struct bridge *b, struct dialogue *d, const struct envelope *e, const char *heads, const char **why)
{
    static struct message m;
    struct heading h;
    struct verdict v = {PEAT_TAKEN, 0};
    int good = heading_read(&h, heads);
    if (good && !b->config->opaque) {
        v = VERDICT(message_read(&m, heading_direction(&h), e->body, e->bits));
        if (v.refusal == PEAT_TAKEN)
            heading_date(&h, &m);
        else
            h.composed = 1;
    }
    if (!good || !h.composed) {
        *why = "heading";
        return;
    }
    d->kept.run++;
    if (v.refusal == PEAT_TAKEN) {
        struct peat_answer answer = request(d, &h, e);
        v = VERDICT(answer);
        call_act(b, d, PEAT_IDLE, answer, "");
    }
    if (v.refusal != PEAT_TAKEN) {
        d->kept.run--; /* it did not happen */
        call_refused(b, d, e->job, v);
        return;
    }
    call_taken(b, d, e->job);
    b->metrics.forwards_sent++;
}

/* What became of the forward that was under way. */
static void tell(struct bridge *b, struct dialogue *d, const char *type, const char *fate, const char *why, unsigned version)
{
    char name[FACILITY_MOST + 1], body[400], *jobs = jobs_text(&d->held);
    int n;
    config_centre(b->config, place_centre(d->number), name);
    n = snprintf(body, sizeof body, "{\"centre\":%u,\"facility\":\"%s\",\"run\":%llu,\"fate\":\"%s\",\"why\":\"%s\",\"version\":%u,\"jobs\":\"%.60s\"}", place_centre(d->number),
        name, (unsigned long long)d->kept.run, fate, why, version, jobs);
    if (d->held.ranges > 0)
        call_letter(b, d, type, "", body, (size_t)n);
    log_line(LOG_INFO, "forward over", ABOUT(d), NUMBER("run", d->kept.run), TEXT("fate", fate), TEXT("why", why));
    jobs_clear(&d->held);
    free(jobs);
}

/* The answer, or that there will be none. A connection on which something went wrong is made anew. */
static void over(struct bridge *b, struct dialogue *d, struct peat_answer answer, const char *why)
{
    unsigned result = peat_told_parameter(answer);
    if (peat_told(answer) == PEAT_FORWARD_CONFIRMATION && result <= PEAT_VERSION_NOT_EQUAL) {
        b->metrics.forwards_answered[result]++;
        tell(b, d, result == PEAT_FORWARD_SUCCESS ? "forwarded" : "declined", peat_forward_result_name(result), "answered", peat_version(answer));
        return;
    }
    b->metrics.forwards_broken++;
    tell(b, d, "broken", "broken", why, PEAT_NO_VERSION);
    d->closing = 1;
    d->close_by = now_ms() + CLOSE_MS;
    call_wait_longer(b, d);
}

/* ---- getting forwards */

static void deliver(struct bridge *b, struct dialogue *d, struct peat_answer answer)
{
    static char heads[HEADS_OF_LETTER], json[MESSAGE_JSON];
    static struct message m;
    uint8_t message[PEAT_BUFFER_LEAST];
    char name[FACILITY_MOST + 1];
    unsigned bits;
    heads[0] = '\0';
    config_centre(b->config, place_centre(d->number), name);
    call_add_head(heads, "x-peat-facility", name);
    bits = heading_write(call_data, peat_data_bytes(answer), heads, message);
    if (!b->config->opaque) {
        struct verdict v = VERDICT(message_read(&m, strstr(heads, "=downlink\n") != NULL ? PEAT_DOWNLINK : PEAT_UPLINK, message, bits));
        if (v.refusal != PEAT_TAKEN) {
            call_add_refusal(heads, v);
        } else if (b->config->delivered_json) {
            message_json(&m, json, sizeof json);
            call_add_head(heads, "x-peat-json", json);
        }
    }
    b->metrics.forwards_received++;
    call_delivered(b, d, "incoming", heads, bits, message);
}

void forward_act(struct bridge *b, struct dialogue *d, unsigned before, struct peat_answer answer, const char *why)
{
    if (peat_told(answer) == PEAT_FORWARD_INDICATION)
        deliver(b, d, answer);
    if (before == PEAT_FORWARD && state_of(d) == PEAT_IDLE)
        over(b, d, answer, why);
}

/* ---- what comes */

static void arrives(struct bridge *b, struct dialogue *d, const struct primitive *p)
{
    unsigned before = state_of(d), refusal = call_act(b, d, before, peat_hand_over(RECORD(d), p->is, PEAT_FACILITY, p->data, BUFFERS), "abort");
    if (refusal == PEAT_STALE)
        b->metrics.stale++; /* of an old forward: it changes nothing */
    else if (refusal != PEAT_TAKEN)
        call_failure(b, d, "no primitive");
}

static void hear_answer(struct bridge *b, struct dialogue *d, const struct primitive *p)
{
    if (p->is.number > peat_record_number(d->kept.record) || (p->is.kind != PEAT_D_START_RESPONSE && p->is.kind != PEAT_D_ABORT_REQUEST))
        call_turn_away(b, d, p, "it answers no forward of this centre");
    else if (state_of(d) != PEAT_IDLE)
        arrives(b, d, p);
}

/* A D-START that the card takes for something else than a forward is aborted in the same batch: the record stays IDLE. */
static void hear_forward(struct bridge *b, struct dialogue *d, const struct primitive *p)
{
    uint64_t ours = peat_record_number(d->kept.record);
    unsigned state;
    char name[FACILITY_MOST + 1];
    config_centre(b->config, place_centre(d->number), name);
    if (p->is.kind == PEAT_D_ABORT_REQUEST)
        return; /* the other centre has given up, and its user is told */
    if (p->is.kind != PEAT_D_START_REQUEST || strcmp(p->facility, name) != 0 || (p->is.number > ours && p->is.number - ours > NUMBER_JUMP)) {
        call_turn_away(b, d, p, "it is no forward, of another facility, or far ahead");
        return;
    }
    arrives(b, d, p);
    state = state_of(d);
    if (state != PEAT_IDLE)
        call_must(b, d, "peat_user_abort", peat_user_abort(RECORD(d), PEAT_UNDEFINED, BUFFERS), "", state);
}

/* ---- the place's turn */

static void say_linked(struct dialogue *d, int linked)
{
    if (linked != d->linked)
        log_line(linked ? LOG_INFO : LOG_WARN, linked ? "centre up" : "centre down", ABOUT(d), TEXT("as", place_hears(d->number) ? "hears" : "forwards"));
    d->linked = linked;
}

static void connect_place(struct bridge *b, struct dialogue *d)
{
    enum link_answer got;
    if (connected(b, d) || d->closing || b->stop_by != 0 || state_of(d) != PEAT_IDLE || now_ms() < d->start_at)
        return;
    got = b->link->open(b->link, d->number);
    if (got == LINK_BROKEN)
        call_wait_longer(b, d);
    if (got == LINK_DONE)
        d->wait = b->config->retry;
    if (got == LINK_DONE)
        say_linked(d, 1);
}

void forward_tend(struct bridge *b, struct dialogue *d)
{
    struct primitive p;
    int n;
    connect_place(b, d);
    for (n = 0; n < PRIMITIVES && connected(b, d) && !d->closing && (n == 0 || !spent(b)) && bridge_hears(b); n++) {
        enum link_answer got = b->link->receive(b->link, d->number, &p);
        if (got == LINK_LATER)
            break;
        if (got == LINK_BROKEN)
            say_linked(d, 0);
        if (got == LINK_BROKEN)
            call_failure(b, d, "carrier");
        else if (place_hears(d->number))
            hear_forward(b, d, &p);
        else
            hear_answer(b, d, &p);
    }
    if (d->expires != 0 && now_ms() >= d->expires)
        call_expiry(b, d);
}

void forward_wind_down(struct bridge *b, struct dialogue *d)
{
    if (place_hears(d->number) && d->out.count == 0)
        b->link->leave(b->link, d->number);
    if (state_of(d) != PEAT_IDLE && now_ms() + b->config->stop / 4 > b->stop_by)
        call_abort(b, d);
}
