#include "bridge.h"

#include <poll.h>
#include <stdlib.h>
#include <string.h>

#include "book.h"
#include "clock.h"
#include "forward.h"
#include "log.h"
#include "notify.h"
#include "witness.h"
#include "words.h"

#define PAYLOADS 256      /* that are fetched from the broker in a round, at most */
#define ENVELOPES 64      /* of a dialogue, before the others have their turn */
#define LETTERS_ROUND 512 /* that a round may post */
#define ROUND_MS 100      /* that it may take before it commits */
#define PRIMITIVES 64     /* of a dialogue in a batch, at most */
#define BACKLOG 64        /* primitives that wait on a connection before its queue is left alone */
#define SETTLE_MS 200     /* how long confirmed letters wait for a commit of their own */
#define WITNESS_MS 1000
#define LONGEST_SLEEP 500 /* so that nothing is forgotten */
#define LOOKS 6           /* for dialogues that nobody has, in the time of a lease, */
#define LOOK_MS 500       /* and as often as this */
#define QUEUE_MS 200      /* until a queue that another bridge consumes is tried again */
#define ANSWER_MS 30000   /* that an answer about a queue may take */
#define LATE_MS 50        /* until what another session of the database holds up is tried again */
#define GIVE_BACK_MS 10   /* until it is looked again whether a dialogue can be given back */
#define SHOW_MS 20        /* between two statuses for the page */

/* the first dialogue from here on that is ours */
static struct dialogue *ours_from(struct bridge *b, struct dialogue *d)
{
    while (d < b->dialogue + PLACES_MOST && d->lease == 0)
        d++;
    return d;
}

#define EACH(b, d) ((d) = ours_from(b, (b)->dialogue); (d) < (b)->dialogue + PLACES_MOST; (d) = ours_from(b, (d) + 1))

static int stopping(const struct bridge *b) { return b->stop_by != 0; }

/* What was decided of a dialogue is not kept yet: nothing of it leaves, and nothing more of it is heard. */
static int is_late(const struct bridge *b, const struct dialogue *d) { return b->journal->late(b->journal, d->number); }

int spent(const struct bridge *b) { return b->letters_left == 0 || now_ms() >= b->round_until; }

/* Above this no letter is made that can wait: no payload is read, and no aircraft is heard. */
static int outbox_full(const struct bridge *b) { return b->metrics.letters >= b->config->outbox_most; }

/* the dialogue that has the i-th turn in this round */
static struct dialogue *in_turn(struct bridge *b, unsigned i) { return &b->dialogue[(b->turn + i) % PLACES_MOST]; }

static void grow_wait(uint64_t *wait, uint64_t most) { *wait = 2 * *wait < most ? 2 * *wait : most; }

/* ---- payloads that wait to be read */

static void inbox_put(struct bridge *b, struct dialogue *d, const struct broker_event *e)
{
    size_t bytes = e->bytes < b->config->payload_most ? e->bytes : (size_t)b->config->payload_most;
    size_t heads = strlen(e->heads) + 1;
    struct payload *p = malloc(sizeof *p + bytes + heads);
    if (p == NULL)
        log_and_exit(EXIT_MEMORY, "memory", "a payload does not fit", "out of memory");
    p->heads = memcpy(p->byte + bytes, e->heads, heads);
    p->behind = NULL;
    p->receipt = e->receipt;
    p->length = e->bytes;
    memcpy(p->byte, e->payload, bytes);
    if (d->inbox == NULL)
        d->inbox = p;
    else
        d->inbox_last->behind = p;
    d->inbox_last = p;
}

static void inbox_drop(struct dialogue *d)
{
    struct payload *p = d->inbox;
    d->inbox = p->behind;
    d->reading = d->waits = 0;
    free(p);
}

/* Without a receipt what is dropped comes again, here or elsewhere. */
static void inbox_empty(struct dialogue *d)
{
    while (d->inbox != NULL)
        inbox_drop(d);
}

/* Some envelopes of a dialogue. A payload that was read to its end has its receipt with the next commit. */
static int read_some(struct bridge *b, struct dialogue *d)
{
    int n;
    if (d->lease == 0 || is_late(b, d))
        return 0;
    for (n = 0; n < ENVELOPES && d->inbox != NULL && !spent(b) && !call_waits(b, d); n++)
        if (!call_envelope(b, d)) {
            d->receipt = d->inbox->receipt;
            day_payload_read(d);
            inbox_drop(d);
        }
    return n;
}

static void read_payloads(struct bridge *b)
{
    unsigned i;
    int n = 1;
    while (n > 0 && !outbox_full(b))
        for (i = 0, n = 0; i < PLACES_MOST; i++)
            n += read_some(b, in_turn(b, i));
}

static int payloads_wait(struct bridge *b)
{
    struct dialogue *d;
    for EACH (b, d)
        if (d->inbox != NULL && !is_late(b, d) && !call_waits(b, d))
            return 1;
    return 0;
}

/* ---- the broker comes and goes */

static void connect_later(struct bridge *b)
{
    b->broker->disconnect(b->broker);
    b->connect_at = now_ms() + b->connect_wait;
    grow_wait(&b->connect_wait, b->config->reconnect_most);
}

/* A connection that did not last is no reason to try at once. */
void bridge_broker_lost(struct bridge *b, const char *why)
{
    struct dialogue *d;
    if (now_ms() - b->connected_at >= b->config->reconnect_most)
        b->connect_wait = b->config->reconnect;
    status_broker(&b->status, why);
    log_line(LOG_WARN, "broker lost", TEXT("why", why), NUMBER("wait_ms", b->connect_wait));
    b->metrics.lost += b->state == BROKER_OURS;
    b->state = BROKER_AWAY;
    b->blocked = 0;
    connect_later(b);
    for EACH (b, d) {
        inbox_empty(d); /* what was not read comes again, with another receipt */
        d->queue = QUEUE_LEFT;
        d->handed = NOT_HANDED;
        d->receipt.tag = 0; /* it meant something on that connection only */
        day_forgets(d);
        words_begin(b, d);
    }
}

static void broker_ours(struct bridge *b)
{
    b->metrics.connections++;
    b->connected_at = now_ms();
    b->claim_until = 0;
    publisher_restart(b); /* what is in the outbox is given again, under the same ids */
    log_line(LOG_INFO, "broker ours", NUMBER("connection", b->metrics.connections));
    notify("READY=1");
}

/* While a call waits for the journal the watchdog hears of us. The page has a thread of its own, and says that the round stands still. */
static void meanwhile_journal(void *with)
{
    struct bridge *b = with;
    if (b->word_at != 0 && now_ms() >= b->word_at) {
        notify("WATCHDOG=1");
        b->word_at = now_ms() + notify_period();
    }
}

/* Another bridge has the queues. The broker may not have noticed yet that an earlier connection of ours is gone, so this one
   is patient for a while. */
static void broker_taken(struct bridge *b)
{
    if (b->claim_until == 0)
        b->claim_until = now_ms() + b->config->claim;
    else if (now_ms() > b->claim_until)
        log_and_exit(EXIT_REFUSED, "broker", b->config->queue_owner, "another bridge has these queues");
}

static void keep_connected(struct bridge *b)
{
    if (b->state == BROKER_OURS || (b->state != BROKER_TRYING && now_ms() < b->connect_at))
        return;
    b->state = b->broker->connect(b->broker);
    if (b->state == BROKER_TRYING)
        return;
    if (b->state == BROKER_OURS) {
        broker_ours(b);
        return;
    }
    if (b->state == BROKER_TAKEN)
        broker_taken(b);
    status_broker(&b->status, b->broker->why);
    log_line(LOG_WARN, "broker away", TEXT("why", b->broker->why != NULL ? b->broker->why : ""), NUMBER("wait_ms", b->connect_wait));
    connect_later(b);
}

/* A queue is consumed while its dialogue is open, the aircraft keeps up and the outbox has room; one of forwards while its centre is there. */
static int wanted(const struct bridge *b, const struct dialogue *d)
{
    if (place_is_link(d->number))
        return config_has_queue(b->config, d->number) && !stopping(b) && !is_late(b, d) && b->link->connected(b->link, d->number) && !outbox_full(b);
    return !stopping(b) && !is_late(b, d) && state_of(d) == PEAT_DIALOGUE && d->out.count < BACKLOG && !outbox_full(b);
}

static void ask_queue(struct bridge *b, struct dialogue *d, int on)
{
    b->broker->consume(b->broker, d->number, on);
    d->queue = on ? QUEUE_ASKED : QUEUE_LEAVING;
    d->asked_at = now_ms();
}

static void choose_queue(struct bridge *b, struct dialogue *d)
{
    int want = wanted(b, d), waits = d->queue == QUEUE_ASKED || d->queue == QUEUE_LEAVING;
    if (want && d->queue == QUEUE_LEFT && now_ms() >= d->consume_at)
        ask_queue(b, d, 1);
    else if (!want && d->queue == QUEUE_CONSUMED)
        ask_queue(b, d, 0);
    else if (waits && b->blocked)
        d->asked_at = now_ms(); /* a broker that takes nothing does not answer either */
    else if (waits && now_ms() - d->asked_at > ANSWER_MS)
        bridge_broker_lost(b, "no answer about a queue");
}

static void choose_queues(struct bridge *b)
{
    struct dialogue *d;
    for EACH (b, d) {
        if (b->state == BROKER_OURS)
            choose_queue(b, d);
        if (b->state == BROKER_OURS)
            words_choose(b, d);
    }
}

static void queue_consumed(struct bridge *b, struct dialogue *d)
{
    d->queue = QUEUE_CONSUMED;
    d->consume_wait = b->config->reconnect;
    if (d->queue_away)
        log_line(LOG_INFO, "queue back", ABOUT(d));
    d->queue_away = 0;
}

/* A bridge that is gone, or hangs, has its queues until the broker has noticed. */
static void queue_taken(struct dialogue *d, const char *why)
{
    if (d->queue != QUEUE_LEAVING)
        d->queue = QUEUE_LEFT;
    d->consume_at = now_ms() + QUEUE_MS;
    log_line(LOG_INFO, "queue taken", ABOUT(d), TEXT("why", why));
}

/* The queue is gone, or may not be read: its jobs wait, or are lost with it, and the operator hears of it. It is tried again. */
static void queue_away(struct bridge *b, struct dialogue *d, const char *why)
{
    if (d->queue != QUEUE_LEAVING)
        d->queue = QUEUE_LEFT;
    b->metrics.queues_away++;
    d->queue_away = 1;
    d->consume_at = now_ms() + d->consume_wait;
    log_line(LOG_WARN, "queue away", ABOUT(d), TEXT("why", why), NUMBER("wait_ms", d->consume_wait));
    grow_wait(&d->consume_wait, b->config->reconnect_most);
}

static void broker_blocked(struct bridge *b, int blocked, const char *why)
{
    if (blocked)
        log_line(LOG_WARN, "broker blocked", TEXT("why", why), NUMBER("letters", b->metrics.letters));
    else
        log_line(LOG_INFO, "broker unblocked", NUMBER("letters", b->metrics.letters));
    b->blocked = blocked;
}

static void hear_queue(struct bridge *b, struct dialogue *d, const struct broker_event *e)
{
    b->again = 1; /* there may be something to do about it */
    if (e->news == BROKER_CONSUMES)
        queue_consumed(b, d);
    else if (e->news == BROKER_LEFT)
        d->queue = QUEUE_LEFT;
    else if (e->news == BROKER_QUEUE_TAKEN)
        queue_taken(d, e->why);
    else if (e->news == BROKER_QUEUE_AWAY)
        queue_away(b, d, e->why);
    else if (e->news == BROKER_HANDED_BACK)
        d->handed = HANDED;
    else if (!stopping(b) && d->lease != 0)
        inbox_put(b, d, e); /* else it goes back to its queue without a receipt, for the next bridge */
}

static void hear_broker(struct bridge *b)
{
    int payloads = 0;
    while (b->state == BROKER_OURS && payloads < PAYLOADS) {
        struct broker_event e = b->broker->next(b->broker);
        switch (e.news) {
        case BROKER_QUIET: return;
        case BROKER_LOST: bridge_broker_lost(b, e.why); return;
        case BROKER_CONFIRMED: publisher_confirmed(b, e.place, e.all); break;
        case BROKER_REFUSED: publisher_refused(b, e.place, e.all, e.why); break;
        case BROKER_BLOCKED:
        case BROKER_UNBLOCKED: broker_blocked(b, e.news == BROKER_BLOCKED, e.why); break;
        default:
            payloads += e.news == BROKER_DELIVERY;
            if (e.dialogue < PLACES_MOST && config_has_place(b->config, e.dialogue))
                hear_queue(b, &b->dialogue[e.dialogue], &e);
            else if (e.dialogue >= PLACES_MOST && e.dialogue - PLACES_MOST < b->config->dialogues)
                words_hear(b, &b->dialogue[e.dialogue - PLACES_MOST], &e);
        }
    }
}

/* ---- the aircraft */

/* What comes down becomes a letter. A bridge that stops hears its aircraft all the same: they answer the end. */
int bridge_hears(const struct bridge *b) { return !outbox_full(b) || stopping(b); }

/* Half of a round is for what comes down, so that aircraft that send without an end do not hold up jobs. */
static int half_spent(const struct bridge *b) { return b->letters_left <= LETTERS_ROUND / 2 || now_ms() + ROUND_MS / 2 >= b->round_until; }

static void hear_aircraft(struct bridge *b, struct dialogue *d)
{
    struct primitive p;
    int n;
    for (n = 0; n < PRIMITIVES && !d->closing && (n == 0 || !half_spent(b)) && bridge_hears(b); n++) {
        enum link_answer got = b->link->receive(b->link, d->number, &p);
        if (got == LINK_LATER)
            return;
        if (got == LINK_BROKEN)
            call_failure(b, d, "carrier");
        else
            call_primitive(b, d, &p);
    }
}

/* It is IDLE, and connected: its aircraft starts it. */
static int awaits_start(struct bridge *b, const struct dialogue *d)
{
    return b->config->starts[d->number] != STARTS_GROUND && state_of(d) == PEAT_IDLE && b->link->descriptor(b->link, d->number) >= 0;
}

/* A dialogue is started where it is IDLE, nothing of the last one is left, and the broker is there for its jobs. One that its aircraft starts is
   connected then, and waits. */
static void start(struct bridge *b, struct dialogue *d)
{
    if (state_of(d) != PEAT_IDLE || d->closing || stopping(b) || b->state != BROKER_OURS || now_ms() < d->start_at || awaits_start(b, d))
        return;
    if (b->link->open(b->link, d->number) == LINK_DONE) {
        day_meets(d);
        if (b->config->starts[d->number] == STARTS_GROUND)
            call_start(b, d);
        return;
    }
    d->start_at = now_ms() + d->wait;
    grow_wait(&d->wait, b->config->retry_most);
}

/* Payloads that came too late for this bridge are in their queue again. */
static int handed_back(struct bridge *b, struct dialogue *d)
{
    if (b->state != BROKER_OURS || !b->journal->shared || d->handed == HANDED || !config_has_queue(b->config, d->number))
        return 1;
    if (d->handed == NOT_HANDED)
        b->broker->hand_back(b->broker, d->number);
    d->handed = HANDING;
    return 0;
}

/* A dialogue that is over, with all of it committed and told, is another bridge's; and so are payloads that came too late for
   this one, before the commit that gives it away. */
static void give_back(struct bridge *b, struct dialogue *d)
{
    if (d->closing || d->queue != QUEUE_LEFT || d->changed || d->decided || !handed_back(b, d) || !b->journal->give_back(b->journal, d->number))
        return;
    log_line(LOG_INFO, "gave back", ABOUT(d), NUMBER("lease", d->lease));
    b->metrics.given_back++;
    b->staged = 1;
    b->link->leave(b->link, d->number);
    d->lease = 0;
}

/* Told to stop: a dialogue is ended in order once its queue is left alone, or the broker does not answer; one that does not end in time
   is aborted, and a downstream one at once: its aircraft alone can end that. */
static void wind_down(struct bridge *b, struct dialogue *d)
{
    int left = d->queue == QUEUE_LEFT || now_ms() + b->config->stop / 4 * 3 > b->stop_by;
    if (state_of(d) == PEAT_DIALOGUE && left && peat_record_dsc(d->kept.record))
        call_abort(b, d);
    else if (state_of(d) == PEAT_DIALOGUE && left)
        call_end(b, d);
    else if (state_of(d) == PEAT_START_REQ || (state_of(d) != PEAT_IDLE && now_ms() + b->config->stop / 4 > b->stop_by))
        call_abort(b, d);
    else if (state_of(d) == PEAT_IDLE)
        give_back(b, d);
}

static void tend_link(struct bridge *b, struct dialogue *d)
{
    forward_tend(b, d);
    if (stopping(b))
        forward_wind_down(b, d);
    if (stopping(b) && state_of(d) == PEAT_IDLE)
        give_back(b, d);
}

static void tend(struct bridge *b, struct dialogue *d)
{
    if (place_is_link(d->number)) {
        tend_link(b, d);
        return;
    }
    hear_aircraft(b, d);
    if (d->expires != 0 && now_ms() >= d->expires)
        call_expiry(b, d);
    start(b, d);
    if (stopping(b))
        wind_down(b, d);
}

/* ---- release: the order that everything here is about */

static unsigned count_late(const struct bridge *b)
{
    unsigned d, n = 0;
    for (d = 0; d < PLACES_MOST; d++)
        n += b->journal->late(b->journal, d) != 0;
    return n;
}

static void commit(struct bridge *b)
{
    uint64_t began = now_us();
    struct dialogue *d;
    int settles = b->settled_since != 0 && (stopping(b) || now_ms() - b->settled_since >= SETTLE_MS);
    if (!b->staged && !settles && (b->late_at == 0 || now_ms() < b->late_at))
        return;
    day_commit(b);
    for EACH (b, d) {
        if (d->changed)
            b->journal->keep(b->journal, d->number, &d->kept);
        if (d->decided)
            b->journal->decide(b->journal, d->number, &d->latest);
        d->changed = d->decided = 0;
    }
    b->journal->commit(b->journal);
    b->late_at = count_late(b) > 0 ? now_ms() + LATE_MS : 0;
    b->staged = 0;
    b->settled_since = 0;
    metrics_commit(&b->metrics, now_us() - began);
}

/* What the connection has no room for stays in the queue: it is committed, and goes later or is lost with the connection. */
static void send_primitives(struct bridge *b)
{
    struct dialogue *d;
    for EACH (b, d) {
        struct queue *q = &d->out;
        enum link_answer sent = LINK_DONE;
        if (q->count > 0)
            b->journal->renew(b->journal); /* a process that slept since its commit may have lost its dialogues */
        if (is_late(b, d))
            continue;
        while (q->count > 0 && sent == LINK_DONE) {
            at_point(b, AT_SENDING);
            sent = b->link->send(b->link, d->number, &q->item[q->oldest]);
            if (sent != LINK_DONE)
                break;
            b->metrics.sent++;
            day_says(d, "sends");
            q->oldest++;
            q->count--;
        }
        if (sent == LINK_BROKEN)
            call_failure(b, d, "carrier"); /* which the next round commits */
        if (d->closing && (q->count == 0 || now_ms() >= d->close_by)) {
            b->link->close(b->link, d->number);
            day_loses(d);
            q->count = 0;
            d->closing = 0;
        }
        if (q->count == 0)
            q->oldest = 0;
    }
}

static void acknowledge(struct bridge *b)
{
    struct dialogue *d;
    for EACH (b, d) {
        if (b->state != BROKER_OURS || is_late(b, d))
            continue;
        words_acknowledge(b, d);
        if (d->receipt.tag == 0)
            continue;
        day_acknowledges(d);
        b->broker->acknowledge(b->broker, d->number, d->receipt);
        d->receipt.tag = 0;
    }
}

/* Letters that were posted since the commit wait for the next one. */
static void publish(struct bridge *b)
{
    if (b->state == BROKER_OURS && !b->staged)
        publisher_give(b);
}

static void release(struct bridge *b)
{
    at_point(b, AT_COMMIT);
    commit(b);
    at_point(b, AT_COMMITTED);
    send_primitives(b);
    at_point(b, AT_SENT);
    b->journal->renew(b->journal);
    acknowledge(b);
    at_point(b, AT_ACKNOWLEDGED);
    publish(b);
}

/* ---- the round */

static uint64_t earlier(uint64_t a, uint64_t b) { return b != 0 && b < a ? b : a; }

/* how long nothing is due, ms */
static int sleep_ms(struct bridge *b)
{
    uint64_t now = now_ms(), at = now + LONGEST_SLEEP;
    struct dialogue *d;
    if (b->staged || b->again || (b->state == BROKER_OURS && b->broker->buffered(b->broker)) || (payloads_wait(b) && !outbox_full(b)))
        return 0;
    if (b->state == BROKER_OURS)
        at = earlier(at, b->publisher.more ? now : publisher_again(b));
    else if (b->state != BROKER_TRYING)
        at = earlier(at, b->connect_at);
    if (b->settled_since != 0)
        at = earlier(at, stopping(b) ? now : b->settled_since + SETTLE_MS);
    if (stopping(b) && b->journal->shared)
        at = earlier(at, now + GIVE_BACK_MS);
    at = earlier(at, b->word_at);
    at = earlier(at, b->take_at);
    at = earlier(at, b->late_at);
    at = earlier(at, b->show_at);
    for EACH (b, d) {
        if (is_late(b, d))
            continue;
        at = earlier(at, d->expires);
        if (d->closing)
            at = earlier(at, d->close_by);
        if (place_is_link(d->number))
            at = earlier(at, forward_at(b, d));
        else if (state_of(d) == PEAT_IDLE && !stopping(b) && b->state == BROKER_OURS && !awaits_start(b, d))
            at = earlier(at, d->start_at);
        if (d->queue == QUEUE_LEFT && b->state == BROKER_OURS && wanted(b, d))
            at = earlier(at, d->consume_at);
        if (b->state == BROKER_OURS && words_left(d) && config_has_queue(b->config, PLACES_MOST + d->number) && !stopping(b))
            at = earlier(at, d->words.at);
    }
    return at > now ? (int)(at - now) : 0;
}

/* A listener that is not looked at for now would wake the round again and again. */
static int rests(struct bridge *b, const struct dialogue *d) { return d->closing || is_late(b, d) || (place_is_link(d->number) && forward_at(b, d) != 0); }

static void wait_for_news(struct bridge *b)
{
    struct pollfd polls[PLACES_MOST + 1];
    struct dialogue *d;
    size_t n = 0;
    int ms = sleep_ms(b);
    if (b->state == BROKER_OURS || b->state == BROKER_TRYING)
        polls[n++] = (struct pollfd){b->broker->descriptor(b->broker), POLLIN, 0};
    for EACH (b, d)
        polls[n++] = (struct pollfd){rests(b, d) ? -1 : b->link->descriptor(b->link, d->number), (short)((bridge_hears(b) ? POLLIN : 0) | (d->out.count > 0 ? POLLOUT : 0)), 0};
    poll(polls, (nfds_t)n, ms);
}

static void take_stock(struct bridge *b)
{
    struct dialogue *d;
    uint64_t since;
    b->metrics.letters = b->journal->waiting(b->journal, &since);
    b->metrics.oldest_ms = since != 0 && wall_ms() > since ? wall_ms() - since : 0;
    b->metrics.broker = b->state == BROKER_OURS;
    b->metrics.late = count_late(b);
    b->metrics.blocked = (uint64_t)b->blocked;
    b->metrics.broker_waits_ms = b->broker->waits(b->broker);
    b->metrics.letters_held = (uint64_t)publisher_held(b);
    b->metrics.open = b->metrics.unsent = b->metrics.owned = b->metrics.queues = b->metrics.unread = 0;
    memset(b->metrics.lease, 0, sizeof b->metrics.lease);
    memset(b->metrics.queue_away, 0, sizeof b->metrics.queue_away);
    memset(b->metrics.numbers_open, 0, sizeof b->metrics.numbers_open);
    memset(b->metrics.number_awaited, 0, sizeof b->metrics.number_awaited);
    memset(b->metrics.centre, 0, sizeof b->metrics.centre);
    for EACH (b, d) {
        if (place_is_link(d->number)) {
            if (!place_hears(d->number))
                b->metrics.centre[place_centre(d->number)] = (uint8_t)(1 + b->link->connected(b->link, d->number));
            continue;
        }
        b->metrics.owned++;
        b->metrics.lease[d->number] = d->lease;
        b->metrics.open += state_of(d) == PEAT_DIALOGUE;
        b->metrics.unsent += d->out.count;
        b->metrics.queues += d->queue == QUEUE_CONSUMED;
        b->metrics.unread += d->inbox != NULL;
        b->metrics.queue_away[d->number] = (uint8_t)d->queue_away;
        b->metrics.numbers_open[d->number] = (uint8_t)book_open_numbers(d->kept.book);
        b->metrics.number_awaited[d->number] = (uint8_t)call_waits(b, d);
    }
}

/* The page gets a status some times a second; where it is busy with the last one, a little later. */
static void show(struct bridge *b, uint64_t now)
{
    if (b->page == NULL)
        return;
    b->show_at = b->shown_at + SHOW_MS;
    if (now < b->show_at)
        return;
    status_take(&b->status, b);
    b->show_at = page_show(b->page, &b->status) ? 0 : now + SHOW_MS;
    b->shown_at = now;
}

/* What is due now and then: the witness, a word to the watchdog, the page. */
static void housekeeping(struct bridge *b)
{
    uint64_t now = now_ms(), commits = b->journal->commits(b->journal);
    take_stock(b);
    if (commits != b->witnessed && now >= b->witness_at && !b->staged && b->settled_since == 0) {
        witness_write(b->config->witness, b->journal->id, commits);
        b->witnessed = commits;
        b->witness_at = now + WITNESS_MS;
    }
    if (b->word_at != 0 && now >= b->word_at) {
        notify("WATCHDOG=1");
        b->word_at = now + notify_period();
    }
    show(b, now);
}

static int finished(struct bridge *b)
{
    struct dialogue *d;
    if (!stopping(b) || b->staged)
        return 0;
    if (now_ms() >= b->stop_by)
        return 1;
    for EACH (b, d)
        if (state_of(d) != PEAT_IDLE || d->closing || b->journal->shared) /* what is shared is given back first */
            return 0;
    return b->metrics.letters == 0 && b->settled_since == 0;
}

/* Payloads that were not read to their end go back to their queues. */
static void hear_stop(struct bridge *b, const volatile sig_atomic_t *stop)
{
    struct dialogue *d;
    if (!*stop || stopping(b))
        return;
    b->stop_by = now_ms() + b->config->stop;
    for EACH (b, d)
        inbox_empty(d);
    notify("STOPPING=1");
    log_line(LOG_INFO, "stopping", NUMBER("open", b->metrics.open), NUMBER("letters", b->metrics.letters));
}

/* ---- taking dialogues */

static void hold(void *with, const struct decision *r)
{
    struct dialogue *d = with;
    if (r->outcome == PEAT_TAKEN)
        jobs_add(&d->held, r->first, r->last);
}

/* What a record of a link says of this centre is the configuration's: it may be another than when the record was made. */
static void configure_link(struct bridge *b, struct dialogue *d)
{
    if (!place_is_link(d->number))
        return;
    d->kept.record[PEAT_RECORD_FORWARDS] = b->config->forwards ? PEAT_FORWARDS : PEAT_FORWARDS_NOT;
    d->kept.record[PEAT_RECORD_VERSION] = (uint8_t)b->config->forward_version;
}

/* The application type of a record is that of its first day: an aircraft of the other type would not be understood, nor understand. */
static void check_type(const struct bridge *b, const struct dialogue *d)
{
    if (peat_record_type(d->kept.record) != b->config->type[d->number])
        log_and_exit(EXIT_REFUSED, "journal", "a dialogue's record is of another application type than the configuration says",
            "a record keeps the type that it was made with: set `plain` as it was");
}

/* That another process had it is a failure of the carrier: a record that is not IDLE hears of it. */
static void recover(struct bridge *b, struct dialogue *d, const char *why)
{
    b->journal->load(b->journal, d->number, &d->kept);
    check_type(b, d);
    configure_link(b, d);
    d->changed = 1;
    if (state_of(d) == PEAT_IDLE)
        return;
    b->journal->of_run(b->journal, d->number, d->kept.run, hold, d);
    call_failure(b, d, why);
    d->closing = 0; /* the connection went with the process that had it */
}

static void begin_dialogue(struct bridge *b, const struct taken *t)
{
    struct dialogue *d = &b->dialogue[t->dialogue];
    d->lease = t->lease;
    d->latest.first = 0;
    d->queue = QUEUE_LEFT;
    d->handed = NOT_HANDED;
    d->consume_wait = b->config->reconnect;
    d->consume_at = now_ms();
    d->queue_away = 0;
    words_begin(b, d);
    d->wait = b->config->retry;
    d->start_at = now_ms();
    jobs_clear(&d->held);
    if (b->journal->shared)
        log_line(LOG_INFO, "took", ABOUT(d), NUMBER("lease", d->lease), TEXT("was", t->was), TEXT("host", b->config->host));
    b->metrics.takeovers += t->was[0] != '\0';
    day_begin(b, d);
    recover(b, d, t->was[0] != '\0' ? "takeover" : "restart");
}

static uint64_t next_look(const struct bridge *b)
{
    uint64_t part = b->config->lease / LOOKS;
    return now_ms() + (part < LOOK_MS ? part : LOOK_MS);
}

/* Takes what it may have, and commits what that broke. */
static void take_dialogues(struct bridge *b)
{
    struct taken taken[PLACES_MOST];
    unsigned n = b->journal->take(b->journal, taken), i;
    b->take_at = b->journal->shared ? next_look(b) : 0;
    if (n == 0)
        return;
    for (i = 0; i < n; i++)
        begin_dialogue(b, &taken[i]);
    at_point(b, AT_RECOVERY);
    b->staged = 1; /* also where nothing was open: the journal can be written, or the bridge ends here */
    commit(b);
    for (i = 0; i < n; i++)
        day_began(b, &b->dialogue[taken[i].dialogue]);
    at_point(b, AT_RECOVERED);
}

/* In a journal that others share, a bridge takes dialogues while it has a broker for them. */
static void look_for_dialogues(struct bridge *b)
{
    if (b->take_at == 0 || now_ms() < b->take_at)
        return;
    if (b->state == BROKER_OURS && !stopping(b))
        take_dialogues(b);
    else
        b->take_at = next_look(b);
}

/* ---- beginning and end */

void bridge_begin(struct bridge *b, const struct config *c, struct journal *j, struct broker *broker, struct link *link, struct page *page)
{
    unsigned d;
    memset(b, 0, sizeof *b);
    b->config = c;
    b->journal = j;
    b->broker = broker;
    b->link = link;
    b->page = page;
    b->connect_wait = c->reconnect;
    b->connect_at = now_ms();
    b->word_at = notify_period() != 0 ? now_ms() : 0;
    b->metrics.host = c->host;
    status_begin(&b->status, b);
    log_tap(status_event, &b->status);
    publisher_restart(b);
    j->meanwhile = meanwhile_journal;
    j->with = b;
    j->patient = 1;
    for (d = 0; d < PLACES_MOST; d++) {
        b->dialogue[d].number = d;
        b->dialogue[d].day.file = -1;
    }
    if (j->shared)
        b->take_at = now_ms();
    else
        take_dialogues(b);
    witness_write(c->witness, j->id, j->commits(j));
    b->witnessed = j->commits(j);
    log_line(LOG_INFO, "began", TEXT("journal", j->id), TEXT("host", c->host), TEXT("as", c->standby ? "standby" : "bridge"), NUMBER("commits", b->witnessed),
        NUMBER("broken", b->metrics.broken));
}

static void forget(struct bridge *b)
{
    unsigned d;
    for (d = 0; d < PLACES_MOST; d++) {
        free(b->dialogue[d].out.item);
        free(b->dialogue[d].held.range);
        inbox_empty(&b->dialogue[d]);
        day_end(&b->dialogue[d]);
    }
}

/* A round has a share of letters and of time; whoever it has no time for is the first in the next one. */
static void begin_round(struct bridge *b)
{
    b->again = 0;
    b->letters_left = LETTERS_ROUND;
    b->round_until = now_ms() + ROUND_MS;
    b->turn = (b->turn + 1) % PLACES_MOST;
}

void bridge_run(struct bridge *b, const volatile sig_atomic_t *stop)
{
    unsigned i;
    while (!finished(b)) {
        wait_for_news(b);
        begin_round(b);
        hear_stop(b, stop);
        keep_connected(b);
        look_for_dialogues(b);
        choose_queues(b);
        for (i = 0; i < PLACES_MOST; i++)
            if (in_turn(b, i)->lease != 0 && !is_late(b, in_turn(b, i)))
                tend(b, in_turn(b, i));
        if (stopping(b))
            at_point(b, AT_STOPPING);
        hear_broker(b);
        read_payloads(b);
        release(b);
        housekeeping(b);
    }
    day_commit(b);
    b->journal->commit(b->journal);
    witness_write(b->config->witness, b->journal->id, b->journal->commits(b->journal));
    log_line(LOG_INFO, "stopped", NUMBER("taken", b->metrics.taken), NUMBER("repeats", b->metrics.repeats), NUMBER("letters", b->metrics.letters));
    b->broker->end(b->broker);
    b->link->end(b->link);
    b->journal->close(b->journal);
    log_tap(NULL, NULL);
    page_close(b->page);
    forget(b);
}
