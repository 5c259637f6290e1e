/*
 * Letters go to the broker in the order of their turns. A letter stays in the outbox until the broker has confirmed it; after
 * a lost connection all that are there are given again, each under the id that it had.
 *
 * Positions' letters and dead ones go to two queues, and each has its lane. Where a queue refuses a letter (it is full, it is gone) its
 * lane waits, longer each time, and then goes on from that letter, one at first and then more; the connection and the other lane stay.
 */
#include <string.h>

#include "bridge.h"
#include "clock.h"
#include "log.h"

#define LOOKED_AT 256 /* letters of a lane in a round, at most */

void publisher_restart(struct bridge *b)
{
    struct publisher *p = &b->publisher;
    int i;
    memset(p, 0, sizeof *p);
    p->oldest = 1;
    for (i = 0; i < LANES; i++) {
        p->lane[i].most = WINDOW;
        p->lane[i].wait = b->config->reconnect;
    }
}

static unsigned lane_of(const struct letter *l) { return strcmp(l->type, "dead") == 0 ? LANE_DEAD : LANE_DOWN; }

/* What was refused is given again when its wait is over and all that were under way have an answer. */
static int may_give(struct lane *l)
{
    if (l->refused == 0)
        return 1;
    if (l->under_way > 0 || now_ms() < l->again_at)
        return 0;
    l->behind = l->refused - 1;
    l->refused = 0;
    return 1;
}

static void give_lane(struct bridge *b, unsigned which)
{
    struct publisher *p = &b->publisher;
    struct lane *lane = &p->lane[which];
    struct letter l;
    unsigned n;
    if (!may_give(lane))
        return;
    for (n = 0; p->given + 1 - p->oldest < WINDOW && lane->under_way < lane->most && b->journal->next(b->journal, lane->behind, &l); n++) {
        if (n == LOOKED_AT) {
            p->more = 1;
            return;
        }
        if (lane_of(&l) == which) {
            if (!b->broker->publish(b->broker, &l))
                return;
            p->turn[++p->given % WINDOW] = l.turn;
            p->in[p->given % WINDOW] = (uint8_t)which;
            lane->under_way++;
            b->metrics.published++;
            at_point(b, AT_PUBLISHED);
        }
        lane->behind = l.turn;
    }
}

void publisher_give(struct bridge *b)
{
    unsigned i;
    b->publisher.more = 0;
    for (i = 0; i < LANES && !b->blocked; i++)
        give_lane(b, i);
}

static void close_up(struct publisher *p)
{
    while (p->oldest <= p->given && p->turn[p->oldest % WINDOW] == 0)
        p->oldest++;
}

static void stored(struct bridge *b, uint64_t place)
{
    struct publisher *p = &b->publisher;
    struct lane *lane = &p->lane[p->in[place % WINDOW]];
    at_point(b, AT_CONFIRMED);
    b->journal->settle(b->journal, p->turn[place % WINDOW]);
    b->metrics.confirmed++;
    if (b->settled_since == 0)
        b->settled_since = now_ms();
    lane->held = 0;
    lane->most = 2 * lane->most < WINDOW ? 2 * lane->most : WINDOW;
    lane->wait = lane->wait / 2 > b->config->reconnect ? lane->wait / 2 : b->config->reconnect;
}

static void not_stored(struct bridge *b, uint64_t place, const char *why)
{
    struct publisher *p = &b->publisher;
    unsigned which = p->in[place % WINDOW];
    struct lane *lane = &p->lane[which];
    uint64_t turn = p->turn[place % WINDOW];
    b->metrics.letters_refused++;
    lane->held = 1;
    lane->most = 1;
    if (lane->refused == 0) {
        log_line(LOG_WARN, "letter refused", TEXT("queue", which == LANE_DEAD ? b->config->queue_dead : b->config->queue_down), TEXT("why", why),
            NUMBER("wait_ms", lane->wait));
        lane->again_at = now_ms() + lane->wait;
        lane->wait = 2 * lane->wait < b->config->reconnect_most ? 2 * lane->wait : b->config->reconnect_most;
    }
    if (lane->refused == 0 || turn < lane->refused)
        lane->refused = turn;
}

/* The broker answers a letter, or all up to it that have no answer. What it was not given it can not answer. */
static void answered(struct bridge *b, uint64_t place, int all, const char *why)
{
    struct publisher *p = &b->publisher;
    uint64_t at = all ? p->oldest : place;
    if (place > p->given)
        return;
    for (; at <= place; at++) {
        uint64_t *turn = &p->turn[at % WINDOW];
        if (at < p->oldest || *turn == 0)
            continue;
        if (why == NULL)
            stored(b, at);
        else
            not_stored(b, at, why);
        p->lane[p->in[at % WINDOW]].under_way--;
        *turn = 0;
    }
    close_up(p);
}

void publisher_confirmed(struct bridge *b, uint64_t place, int all) { answered(b, place, all, NULL); }

void publisher_refused(struct bridge *b, uint64_t place, int all, const char *why) { answered(b, place, all, why); }

int publisher_held(const struct bridge *b) { return b->publisher.lane[LANE_DOWN].held || b->publisher.lane[LANE_DEAD].held; }

uint64_t publisher_again(const struct bridge *b)
{
    uint64_t at = 0;
    int i;
    for (i = 0; i < LANES; i++) {
        const struct lane *l = &b->publisher.lane[i];
        if (l->refused != 0 && l->under_way == 0 && (at == 0 || l->again_at < at))
            at = l->again_at;
    }
    return at;
}
