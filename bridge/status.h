/*
 * What the page shows: the bridge as it stood at the end of a round. The round draws it up (status_take) and hands a copy to the
 * page's thread (page.h); texts for people and programs are made from that copy alone.
 */
#ifndef STATUS_H
#define STATUS_H

#include <stddef.h>
#include <stdint.h>

#include "config.h"
#include "metrics.h"

#define EVENTS 50
#define EVENT_TEXT 512
#define MINUTES 60
#define STATUS_TEXT 120

enum status_consumer { CONSUMER_NONE, CONSUMER_ASKED, CONSUMER_THERE, CONSUMER_LEAVING, CONSUMER_LOST };

struct status_dialogue {
    uint8_t ours, state, consumer, late;
    uint64_t since;       /* when it came to this state; times of day are ms since 1970 */
    uint64_t run, lease;
    uint64_t t_start_ms;  /* what is left of t-start; 0: it does not run */
    uint64_t jobs_open;   /* taken in this run: their fate is not told yet */
    uint64_t jobs_waiting; /* payloads that came and are not read */
    uint64_t unsent;      /* primitives that wait for room on the connection */
    uint64_t refused_job, refused_at;
    unsigned refusal;     /* of the last job that was refused; 0: none */
    const char *fate, *why; /* of the run before this one; NULL: there was none in this process */
    uint64_t over_at;
};

/* Jobs, refusals and breaks by the minute. Minute m (since 1970) has place m % MINUTES. */
struct status_hour {
    uint64_t minute; /* the newest */
    uint64_t seen[3]; /* how far each was counted */
    uint32_t count[3][MINUTES];
};

enum { HOUR_JOBS, HOUR_REFUSED, HOUR_BROKEN };

struct status {
    /* as it was configured */
    char host[CONFIG_TEXT], broker_name[CONFIG_TEXT], aircraft[CONFIG_TEXT], journal_id[20];
    uint64_t dialogues, outbox_most, port, began_at;
    int shared, standby;
    /* as it is */
    struct metrics metrics;
    uint64_t round_ms;  /* when this was drawn up, by the clock that does not step (clock.h); 0: no round was made yet */
    uint64_t at;        /* the same as a time of day */
    int broker_state;   /* enum broker_state */
    uint64_t broker_since;
    char broker_why[STATUS_TEXT];
    int stopping;
    uint64_t commits;
    struct status_dialogue dialogue[DIALOGUES_MOST];
    struct status_hour hour;
    /* lines of the log, the newest last: event n has place n % EVENTS */
    uint64_t events;
    char event[EVENTS][EVENT_TEXT];
};

/* ---- the round's side */

struct bridge;

/* What does not change while the process runs. */
void status_begin(struct status *, const struct bridge *);

/* Draws up what is so now. */
void status_take(struct status *, const struct bridge *);

/* Why the broker is not there. */
void status_broker(struct status *, const char *why);

/* A line of the log. */
void status_event(void *with, const char *line, size_t bytes);

/* ---- the page's side: texts of a status that stands still. `now_ms`: by the clock of round_ms. Each answers its bytes */

size_t status_json(const struct status *, uint64_t now_ms, char *text, size_t room);

/* Whether the bridge does its work; the text has a reason a line, or "ok". *good: 1 or 0 */
size_t status_health(const struct status *, uint64_t now_ms, char *text, size_t room, int *good);

#endif
