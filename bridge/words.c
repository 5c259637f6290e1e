#include "words.h"

#include <stdlib.h>
#include <string.h>

#include "book.h"
#include "clock.h"
#include "log.h"

#define ANSWER_MS 30000 /* that an answer about a queue may take */
#define TAKEN_MS 200    /* until a queue that another bridge consumes is tried again */
#define CLOSE "close "

static unsigned queue_of(const struct dialogue *d) { return PLACES_MOST + d->number; }

void words_begin(struct bridge *b, struct dialogue *d)
{
    memset(&d->words, 0, sizeof d->words);
    d->words.wait = b->config->reconnect;
    d->words.at = now_ms();
}

static void ask(struct bridge *b, struct dialogue *d, int on)
{
    b->broker->consume(b->broker, queue_of(d), on);
    d->words.queue = on ? QUEUE_ASKED : QUEUE_LEAVING;
    d->words.at = now_ms() + ANSWER_MS;
}

void words_choose(struct bridge *b, struct dialogue *d)
{
    struct words *w = &d->words;
    int want = config_has_queue(b->config, queue_of(d)) && b->stop_by == 0;
    if (want && w->queue == QUEUE_LEFT && now_ms() >= w->at)
        ask(b, d, 1);
    else if (!want && w->queue == QUEUE_CONSUMED)
        ask(b, d, 0);
    else if ((w->queue == QUEUE_ASKED || w->queue == QUEUE_LEAVING) && (b->blocked || now_ms() < w->at))
        w->at = b->blocked ? now_ms() + ANSWER_MS : w->at;
    else if (w->queue == QUEUE_ASKED || w->queue == QUEUE_LEAVING)
        bridge_broker_lost(b, "no answer about a queue of words");
}

/* It is tried again, later each time. */
static void away(struct bridge *b, struct dialogue *d, const char *why)
{
    struct words *w = &d->words;
    w->queue = QUEUE_LEFT;
    w->at = now_ms() + w->wait;
    if (!w->away)
        log_line(LOG_WARN, "words away", ABOUT(d), TEXT("why", why));
    w->away = 1;
    w->wait = 2 * w->wait < b->config->reconnect_most ? 2 * w->wait : b->config->reconnect_most;
}

/* ---- a word */

struct closing {
    struct bridge *bridge;
    struct dialogue *dialogue;
    int only_look;
};

/* The numbers of these jobs, for the recorded day. */
static void note_numbers(struct dialogue *d, uint64_t first, uint64_t last)
{
    unsigned n;
    for (n = 0; n < PEAT_BOOK_NUMBERS; n++) {
        uint64_t job = book_job(d->kept.book, n);
        if (job != 0 && first <= job && job <= last)
            day_keeps(d, "discards %u", n);
    }
}

static void close_range(void *with, uint64_t first, uint64_t last)
{
    struct closing *c = with;
    struct dialogue *d = c->dialogue;
    unsigned closed;
    if (c->only_look)
        return;
    note_numbers(d, first, last);
    closed = book_close_jobs(d->kept.book, first, last);
    if (closed == 0)
        return;
    c->bridge->metrics.numbers_closed += closed;
    c->bridge->staged = d->changed = 1;
    log_line(LOG_FINE, "closed", ABOUT(d), NUMBER("job", first), NUMBER("numbers", closed));
}

/* A text that is no word changes nothing, not with the part of it that is one. */
static int obey(struct bridge *b, struct dialogue *d, const char *text)
{
    struct closing c = {b, d, 1};
    if (strncmp(text, CLOSE, strlen(CLOSE)) != 0 || text[strlen(CLOSE)] == '\0' || !jobs_read(text + strlen(CLOSE), close_range, &c))
        return 0;
    c.only_look = 0;
    return jobs_read(text + strlen(CLOSE), close_range, &c);
}

static void hear_word(struct bridge *b, struct dialogue *d, const struct broker_event *e)
{
    size_t bytes = e->bytes < b->config->payload_most ? e->bytes : (size_t)b->config->payload_most;
    char *text = malloc(bytes + 1);
    if (text == NULL)
        log_and_exit(EXIT_MEMORY, "memory", "a word does not fit", "out of memory");
    memcpy(text, e->payload, bytes);
    text[bytes] = '\0';
    if (bytes < e->bytes || strlen(text) != bytes || !obey(b, d, text))
        call_dead(b, d, "no word", e->payload, e->bytes);
    free(text);
    d->words.receipt = e->receipt;
    b->again = 1;
}

void words_hear(struct bridge *b, struct dialogue *d, const struct broker_event *e)
{
    struct words *w = &d->words;
    if (e->news == BROKER_CONSUMES) {
        w->queue = QUEUE_CONSUMED;
        w->away = 0;
        w->wait = b->config->reconnect;
    } else if (e->news == BROKER_LEFT) {
        w->queue = QUEUE_LEFT;
    } else if (e->news == BROKER_QUEUE_TAKEN) {
        w->queue = QUEUE_LEFT;
        w->at = now_ms() + TAKEN_MS;
    } else if (e->news == BROKER_QUEUE_AWAY) {
        away(b, d, e->why);
    } else if (e->news == BROKER_DELIVERY && d->lease != 0 && b->stop_by == 0) {
        hear_word(b, d, e);
    }
}

void words_acknowledge(struct bridge *b, struct dialogue *d)
{
    if (d->words.receipt.tag == 0)
        return;
    b->broker->acknowledge(b->broker, queue_of(d), d->words.receipt);
    d->words.receipt.tag = 0;
}
