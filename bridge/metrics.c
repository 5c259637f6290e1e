#include "metrics.h"

#include <stdarg.h>
#include <stdio.h>

#include "peatribbon_names.h"

/* the upper ends of the ranges in which commits are counted, in microseconds; the last range has none */
static const uint64_t upper[LATENCIES] = {250, 500, 1000, 2500, 5000, 10000, 25000, 100000, 500000, 2000000};

void metrics_commit(struct metrics *m, uint64_t us)
{
    int i;
    for (i = 0; i < LATENCIES && us > upper[i]; i++) {}
    m->commit_in[i]++;
    m->commits++;
    m->commit_us += us;
}

struct text {
    char *at;
    size_t room, used;
};

static void line(struct text *t, const char *form, ...)
{
    va_list a;
    int n;
    va_start(a, form);
    n = vsnprintf(t->at + t->used, t->room - t->used, form, a);
    va_end(a);
    if (n > 0 && (size_t)n < t->room - t->used)
        t->used += (size_t)n;
}

static void one(struct text *t, const char *name, const char *kind, const char *help, uint64_t value)
{
    line(t, "# HELP peat_%s %s\n# TYPE peat_%s %s\npeat_%s %llu\n", name, help, name, kind, name, (unsigned long long)value);
}

#define COUNTER "counter"
#define GAUGE "gauge"

static void jobs(struct text *t, const struct metrics *m)
{
    int i;
    one(t, "payloads_total", COUNTER, "Payloads that the broker delivered.", m->payloads);
    one(t, "jobs_taken_total", COUNTER, "Jobs taken by the card.", m->taken);
    one(t, "jobs_repeated_total", COUNTER, "Jobs that were decided before, acknowledged again.", m->repeats);
    one(t, "jobs_overtaken_total", COUNTER, "Jobs refused because a later one was taken before them.", m->overtaken);
    line(t, "# HELP peat_jobs_refused_total Jobs refused, by the number of the refusal.\n# TYPE peat_jobs_refused_total counter\n");
    for (i = 1; i < REFUSALS; i++)
        if (i <= 5 || m->refused[i] > 0)
            line(t, "peat_jobs_refused_total{refusal=\"%d\"} %llu\n", i, (unsigned long long)m->refused[i]);
    one(t, "dead_letters_total", COUNTER, "Payloads or envelopes laid aside with a reason.", m->dead);
    one(t, "messages_delivered_total", COUNTER, "Messages that came down from aircraft.", m->delivered);
}

static void dialogues(struct text *t, const struct metrics *m)
{
    one(t, "dialogues_open", GAUGE, "Dialogues open now.", m->open);
    one(t, "dialogues_opened_total", COUNTER, "Dialogues that an aircraft accepted.", m->opened);
    one(t, "dialogues_ended_total", COUNTER, "Dialogues ended in order.", m->ended);
    one(t, "dialogues_broken_total", COUNTER, "Dialogues broken by an abort, an expiry, the carrier or a restart.", m->broken);
    one(t, "t_start_expired_total", COUNTER, "Starts that no aircraft answered in time.", m->expired);
    one(t, "primitives_sent_total", COUNTER, "Primitives of the dialogue service sent.", m->sent);
    one(t, "primitives_received_total", COUNTER, "Primitives of the dialogue service received.", m->received);
    one(t, "primitives_stale_total", COUNTER, "Primitives of an old dialogue, which change nothing.", m->stale);
    one(t, "primitives_unsent", GAUGE, "Primitives that wait for room on a connection.", m->unsent);
}

/* Which host has which dialogue: each bridge's page names its own. */
static void owners(struct text *t, const struct metrics *m)
{
    unsigned d;
    one(t, "dialogues_owned", GAUGE, "Dialogues that this bridge has.", m->owned);
    one(t, "dialogues_taken_over_total", COUNTER, "Dialogues taken from a bridge whose lease ran out.", m->takeovers);
    one(t, "dialogues_given_back_total", COUNTER, "Dialogues given back in order.", m->given_back);
    one(t, "dialogues_held_up", GAUGE, "Dialogues whose row another session of the database has locked.", m->late);
    line(t, "# HELP peat_dialogue_lease The number of the lease under which a host has a dialogue.\n# TYPE peat_dialogue_lease gauge\n");
    for (d = 0; d < DIALOGUES_MOST; d++)
        if (m->lease[d] != 0)
            line(t, "peat_dialogue_lease{dialogue=\"%02u\",host=\"%s\"} %llu\n", d, m->host, (unsigned long long)m->lease[d]);
}

static void outbox(struct text *t, const struct metrics *m)
{
    one(t, "broker_up", GAUGE, "1 while the broker is connected and the queues are ours.", m->broker);
    one(t, "broker_connections_total", COUNTER, "Connections made to the broker.", m->connections);
    one(t, "broker_lost_total", COUNTER, "Connections to the broker lost.", m->lost);
    one(t, "letters_published_total", COUNTER, "Letters given to the broker, repeats among them.", m->published);
    one(t, "letters_confirmed_total", COUNTER, "Letters that the broker confirmed.", m->confirmed);
    one(t, "outbox_letters", GAUGE, "Letters in the outbox.", m->letters);
    line(t, "# HELP peat_outbox_age_seconds How long the oldest letter waits.\n# TYPE peat_outbox_age_seconds gauge\n");
    line(t, "peat_outbox_age_seconds %.3f\n", (double)m->oldest_ms / 1000.0);
}

/* What an operator must see: each of these is a dialogue or a letter that waits, or an aircraft that does what it may not. */
static void troubles(struct text *t, const struct metrics *m)
{
    unsigned d;
    one(t, "queues_consumed", GAUGE, "Queues of dialogues that are consumed now.", m->queues);
    one(t, "queues_away_total", COUNTER, "Times that a queue could not be consumed, or not any more.", m->queues_away);
    line(t, "# HELP peat_queue_away 1 where the queue of a dialogue could not be consumed when it was tried last.\n# TYPE peat_queue_away gauge\n");
    for (d = 0; d < DIALOGUES_MOST; d++)
        if (m->queue_away[d])
            line(t, "peat_queue_away{dialogue=\"%02u\"} 1\n", d);
    one(t, "payloads_unread", GAUGE, "Dialogues with a payload that is not read to its end.", m->unread);
    one(t, "broker_blocked", GAUGE, "1 while the broker takes no letters: it is short of memory or disk.", m->blocked);
    one(t, "letters_refused_total", COUNTER, "Times that the broker did not store a letter.", m->letters_refused);
    one(t, "letters_held", GAUGE, "1 while letters that the broker refused wait to be given again.", m->letters_held);
    line(t, "# HELP peat_broker_waits_seconds How long the broker has been silent in the middle of a call.\n# TYPE peat_broker_waits_seconds gauge\n");
    line(t, "peat_broker_waits_seconds %.3f\n", (double)m->broker_waits_ms / 1000.0);
    one(t, "starts_refused_total", COUNTER, "Starts of a dialogue that the card refused.", m->starts_refused);
    one(t, "primitives_unexpected_total", COUNTER, "Primitives that an aircraft may not send: starts, and numbers that were never given.", m->unexpected);
}

/* The book of each dialogue, and who started it. */
static void numbers(struct text *t, const struct metrics *m)
{
    unsigned d;
    line(t, "# HELP peat_numbers_open Message identification numbers open in the book of a dialogue, of 64.\n# TYPE peat_numbers_open gauge\n");
    for (d = 0; d < DIALOGUES_MOST; d++)
        if (m->numbers_open[d] > 0)
            line(t, "peat_numbers_open{dialogue=\"%02u\"} %u\n", d, m->numbers_open[d]);
    line(t, "# HELP peat_number_awaited 1 where all numbers are open, and a job waits for one.\n# TYPE peat_number_awaited gauge\n");
    for (d = 0; d < DIALOGUES_MOST; d++)
        if (m->number_awaited[d])
            line(t, "peat_number_awaited{dialogue=\"%02u\"} 1\n", d);
    one(t, "numbers_closed_total", COUNTER, "Numbers closed by a reply or by a position's word.", m->numbers_closed);
    one(t, "starts_accepted_total", COUNTER, "Starts of aircraft that were accepted.", m->starts_accepted);
    one(t, "starts_rejected_total", COUNTER, "Starts of aircraft that were rejected.", m->starts_rejected);
}

static void forwards(struct text *t, const struct metrics *m)
{
    unsigned i;
    one(t, "forwards_sent_total", COUNTER, "Forwards to other centres that were sent.", m->forwards_sent);
    line(t, "# HELP peat_forwards_answered_total Forwards that were answered, by the answer.\n# TYPE peat_forwards_answered_total counter\n");
    for (i = 0; i < sizeof m->forwards_answered / sizeof *m->forwards_answered; i++)
        line(t, "peat_forwards_answered_total{result=\"%s\"} %llu\n", peat_forward_result_name(i), (unsigned long long)m->forwards_answered[i]);
    one(t, "forwards_broken_total", COUNTER, "Forwards of which nobody knows whether they arrived.", m->forwards_broken);
    one(t, "forwards_received_total", COUNTER, "Forwards that other centres sent.", m->forwards_received);
    line(t, "# HELP peat_centre_up 1 while the link to a centre is up.\n# TYPE peat_centre_up gauge\n");
    for (i = 0; i < CENTRES_MOST; i++)
        if (m->centre[i] > 0)
            line(t, "peat_centre_up{centre=\"%u\"} %u\n", i, m->centre[i] == 2);
}

static void commits(struct text *t, const struct metrics *m)
{
    uint64_t so_far = 0;
    int i;
    line(t, "# HELP peat_commit_seconds How long a commit took.\n# TYPE peat_commit_seconds histogram\n");
    for (i = 0; i < LATENCIES; i++) {
        so_far += m->commit_in[i];
        line(t, "peat_commit_seconds_bucket{le=\"%g\"} %llu\n", (double)upper[i] / 1e6, (unsigned long long)so_far);
    }
    line(t, "peat_commit_seconds_bucket{le=\"+Inf\"} %llu\n", (unsigned long long)m->commits);
    line(t, "peat_commit_seconds_sum %.6f\npeat_commit_seconds_count %llu\n", (double)m->commit_us / 1e6, (unsigned long long)m->commits);
}

size_t metrics_text(const struct metrics *m, char *text, size_t room)
{
    struct text t = {text, room, 0};
    jobs(&t, m);
    dialogues(&t, m);
    owners(&t, m);
    outbox(&t, m);
    troubles(&t, m);
    numbers(&t, m);
    forwards(&t, m);
    commits(&t, m);
    return t.used;
}
