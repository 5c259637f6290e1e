/*
 * What the bridge counts, and its text for Prometheus. The page shows it (page.h).
 */
#ifndef METRICS_H
#define METRICS_H

#include <stddef.h>
#include <stdint.h>

#include "config.h"

#define REFUSALS 24 /* document 01's numbers, 0 to 23 */
#define LATENCIES 10

struct metrics {
    uint64_t payloads, taken, repeats, overtaken, refused[REFUSALS], dead;
    uint64_t delivered, opened, ended, broken, expired;
    uint64_t sent, received, stale, published, confirmed, connections, lost;
    uint64_t commits, commit_us, commit_in[LATENCIES + 1];
    uint64_t takeovers, given_back;
    /* as they are now */
    uint64_t open, owned, late, letters, oldest_ms, broker, unsent;
    const char *host;
    uint64_t lease[DIALOGUES_MOST]; /* under which number this bridge has a dialogue; 0: it has it not */
    /* what goes wrong at the broker and at the aircraft */
    uint64_t queues_away, letters_refused, starts_refused, unexpected;
    /* as it is now */
    uint64_t queues, unread, blocked, letters_held, broker_waits_ms;
    uint8_t queue_away[DIALOGUES_MOST];
    /* message identification numbers, by dialogue as they are now: how many are open, and whether a job waits for one; closed so far */
    uint8_t numbers_open[DIALOGUES_MOST], number_awaited[DIALOGUES_MOST];
    uint64_t numbers_closed;
    /* starts of aircraft; forwards, by their answers (enum peat_forward_result); links to other centres: 0 there is none, 1 it is down, 2 up */
    uint64_t starts_accepted, starts_rejected;
    uint64_t forwards_sent, forwards_answered[3], forwards_broken, forwards_received;
    uint8_t centre[CENTRES_MOST];
};

/* A commit took so long. */
void metrics_commit(struct metrics *, uint64_t us);

/* The text; how many bytes it has. */
size_t metrics_text(const struct metrics *, char *text, size_t room);

#endif
