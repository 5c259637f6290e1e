#define _DEFAULT_SOURCE
#include "memory_broker.h"

#include <stdio.h>
#include <stdlib.h>
#include <string.h>
#include <sys/mman.h>

#include "../../bridge/clock.h"

#define LATE_MS 60      /* a late payload comes after this in any case */
#define SLOW_ROUNDS 2   /* a new connection gets nothing at first: a broker takes its time */
#define QUIET_ROUNDS 6  /* in so many rounds a bridge has begun its dialogues and looked into its outbox */

/* What the process has of it. The events' payloads stand in the shared memory. */
struct ends {
    struct memory *memory;
    const struct bridge *bridge;
    unsigned turn; /* the queue that is looked at first */
    int ours, blocked;
};

enum { ASKED_ON = 1, ASKED_OFF };

static struct ends *ends_of(struct broker *b) { return b->ends; }

struct memory *memory_make(unsigned prefetch)
{
    struct memory *m = mmap(NULL, sizeof *m, PROT_READ | PROT_WRITE, MAP_SHARED | MAP_ANONYMOUS, -1, 0);
    if (m == MAP_FAILED)
        abort();
    m->prefetch = prefetch;
    return m;
}

void memory_empty(struct memory *m, unsigned prefetch)
{
    unsigned d;
    m->owner = m->cut = m->away = m->forgets = m->refuses = m->blocks = 0;
    m->refusals = m->tries = 0;
    m->prefetch = prefetch;
    m->letters = m->stale = m->deliveries = m->redeliveries = 0;
    m->given = m->confirmed = 0;
    for (d = 0; d < QUEUES_MOST; d++)
        m->queue[d].put = m->queue[d].gone = m->queue[d].next = m->queue[d].deleted = 0;
}

static void put(struct memory *m, unsigned queue, const uint8_t *payload, size_t bytes, int late, const char *heads)
{
    struct memory_queue *q = &m->queue[queue];
    struct memory_payload *p = &q->payload[q->put];
    if (q->put == MEMORY_PAYLOADS || bytes > MEMORY_BYTES || strlen(heads) >= sizeof p->heads)
        abort();
    p->bytes = bytes;
    p->late = late;
    strcpy(p->heads, heads);
    p->tag = 0;
    memcpy(p->byte, payload, bytes);
    __atomic_store_n(&q->put, q->put + 1, __ATOMIC_RELEASE);
}

void memory_put(struct memory *m, unsigned queue, const uint8_t *payload, size_t bytes, int late) { put(m, queue, payload, bytes, late, ""); }

void memory_put_with(struct memory *m, unsigned queue, const uint8_t *payload, size_t bytes, const char *heads) { put(m, queue, payload, bytes, 0, heads); }

void memory_lost(struct memory *m)
{
    unsigned d;
    if (m->forgets)
        m->letters -= (unsigned)(m->given - m->confirmed);
    m->owner = m->cut = 0;
    m->given = m->confirmed = 0;
    for (d = 0; d < QUEUES_MOST; d++) {
        struct memory_queue *q = &m->queue[d];
        m->redeliveries += q->next - q->gone;
        q->next = q->gone;
        q->consumed = q->asked = q->handing = 0;
        q->waits_since = 0;
    }
}

int memory_idle(const struct memory *m)
{
    unsigned d;
    for (d = 0; d < QUEUES_MOST; d++)
        if (m->queue[d].gone != m->queue[d].put)
            return 0;
    return m->owner && m->rounds > QUIET_ROUNDS && m->missing == 0 && m->outbox == 0 && m->given == m->confirmed;
}

/* ---- the face */

static enum broker_state memory_connect(struct broker *b)
{
    struct memory *m = ends_of(b)->memory;
    b->why = m->away ? "nobody answers" : "there is another bridge";
    if (m->away)
        return BROKER_AWAY;
    if (m->owner)
        return BROKER_TAKEN;
    m->owner = ends_of(b)->ours = 1;
    m->connection++;
    m->tag = 0;
    m->rounds = 0;
    return BROKER_OURS;
}

static int lost(struct broker *b)
{
    b->why = "cut";
    return ends_of(b)->memory->cut == 1 || ends_of(b)->memory->away;
}

static void memory_consume(struct broker *b, unsigned dialogue, int on) { ends_of(b)->memory->queue[dialogue].asked = on ? ASKED_ON : ASKED_OFF; }

static void memory_hand_back(struct broker *b, unsigned dialogue) { ends_of(b)->memory->queue[dialogue].handing = 1; }

/* What was asked about a queue is answered, and what became of it is told. 1: there was something */
static int about_queue(struct memory *m, unsigned dialogue, struct broker_event *event)
{
    struct memory_queue *q = &m->queue[dialogue];
    int asked = q->asked;
    event->dialogue = dialogue;
    event->why = "deleted";
    if (q->handing) {
        q->handing = 0;
        q->next = q->gone;
        event->news = BROKER_HANDED_BACK;
        return 1;
    }
    if (q->deleted ? asked == ASKED_ON || (q->consumed && asked == 0) : 0) {
        m->tries += asked == ASKED_ON;
        q->asked = q->consumed = 0;
        event->news = BROKER_QUEUE_AWAY;
        return 1;
    }
    if (asked == 0)
        return 0;
    q->asked = 0;
    q->consumed = asked == ASKED_ON;
    event->news = q->consumed ? BROKER_CONSUMES : BROKER_LEFT;
    return 1;
}

static int about_queues(struct memory *m, struct broker_event *event)
{
    unsigned d;
    for (d = 0; d < QUEUES_MOST; d++)
        if (about_queue(m, d, event))
            return 1;
    return 0;
}

/* A letter has its answer: one by one, or all at once where all are stored. */
static void answer_letter(struct memory *m, struct broker_event *event)
{
    uint64_t place;
    int refused = 0;
    for (place = m->confirmed + 1; place <= m->given; place++)
        refused |= m->no[place % WINDOW];
    event->all = !refused && m->given - m->confirmed > 1;
    event->place = m->confirmed = event->all ? m->given : m->confirmed + 1;
    event->news = m->no[event->place % WINDOW] ? BROKER_REFUSED : BROKER_CONFIRMED;
    event->why = "its queue is full";
}

/* Whether a late payload may come now. */
static int may_come(struct ends *e, unsigned dialogue, struct memory_queue *q)
{
    if (!q->payload[q->next].late)
        return 1;
    if (q->waits_since == 0)
        q->waits_since = now_ms();
    if (state_of(&e->bridge->dialogue[dialogue]) != PEAT_IDLE && now_ms() - q->waits_since < LATE_MS)
        return 0;
    q->waits_since = 0;
    return 1;
}

static int deliver(struct ends *e, unsigned dialogue, struct broker_event *event)
{
    struct memory *m = e->memory;
    struct memory_queue *q = &m->queue[dialogue];
    struct memory_payload *p = &q->payload[q->next];
    if (!q->consumed || q->next == __atomic_load_n(&q->put, __ATOMIC_ACQUIRE) || q->next - q->gone >= m->prefetch || !may_come(e, dialogue, q))
        return 0;
    q->next++;
    m->deliveries++;
    p->tag = ++m->tag;
    event->news = BROKER_DELIVERY;
    event->dialogue = dialogue;
    event->receipt = (struct receipt){m->connection, p->tag};
    event->payload = p->byte;
    event->bytes = p->bytes;
    event->heads = p->heads;
    return 1;
}

static struct broker_event memory_next(struct broker *b)
{
    struct ends *e = ends_of(b);
    struct broker_event event;
    unsigned n;
    e->memory->outbox = e->bridge->metrics.letters;
    e->memory->missing = e->bridge->config->dialogues - e->bridge->metrics.owned;
    memset(&event, 0, sizeof event);
    event.why = "";
    if (lost(b)) {
        event.news = BROKER_LOST;
        event.why = "cut";
    } else if (e->blocked != e->memory->blocks) {
        e->blocked = e->memory->blocks;
        event.news = e->blocked ? BROKER_BLOCKED : BROKER_UNBLOCKED;
    } else if (e->memory->confirmed < e->memory->given) {
        answer_letter(e->memory, &event);
    } else if (!about_queues(e->memory, &event)) {
        e->memory->rounds++;
        for (n = 0; n < QUEUES_MOST && e->memory->rounds > SLOW_ROUNDS; n++)
            if (deliver(e, e->turn = (e->turn + 1) % QUEUES_MOST, &event))
                break;
        if (event.news == BROKER_DELIVERY && e->memory->cut == 2)
            e->memory->cut = 1;
    }
    return event;
}

static void memory_acknowledge(struct broker *b, unsigned dialogue, struct receipt r)
{
    struct memory *m = ends_of(b)->memory;
    struct memory_queue *q = &m->queue[dialogue];
    if (r.channel != m->connection) {
        m->stale++; /* the bridge kept a receipt of another connection */
        return;
    }
    while (q->gone < q->next && q->payload[q->gone].tag <= r.tag)
        q->gone++;
}

static void store(struct memory *m, const struct letter *l)
{
    struct memory_letter *to = &m->letter[m->letters];
    if (m->letters == MEMORY_LETTERS)
        abort();
    snprintf(to->id, sizeof to->id, "%s-%llu", l->journal, (unsigned long long)l->id);
    snprintf(to->type, sizeof to->type, "%s", l->type);
    snprintf(to->reason, sizeof to->reason, "%s", l->reason);
    to->dialogue = l->dialogue;
    snprintf(to->heads, sizeof to->heads, "%s", l->heads);
    to->bytes = l->bytes < MEMORY_BODY ? l->bytes : MEMORY_BODY;
    memcpy(to->body, l->body, to->bytes);
    m->letters++;
}

static int memory_publish(struct broker *b, const struct letter *l)
{
    struct memory *m = ends_of(b)->memory;
    if (lost(b))
        return 0;
    if (m->blocks && ends_of(b)->blocked)
        abort(); /* it knows that no letters are taken */
    m->no[++m->given % WINDOW] = m->refuses != 0;
    if (m->refuses == 0) {
        store(m, l);
        return 1;
    }
    m->refusals++;
    m->refuses -= m->refuses > 0;
    return 1;
}

static uint64_t memory_waits(struct broker *b)
{
    (void)b;
    return 0;
}

static int memory_descriptor(struct broker *b)
{
    (void)b;
    return -1;
}

/* There is no descriptor to wait for, so the bridge may not sleep while something waits. */
static int memory_buffered(struct broker *b)
{
    struct ends *e = ends_of(b);
    unsigned d;
    for (d = 0; d < QUEUES_MOST; d++) {
        struct memory_queue *q = &e->memory->queue[d];
        if (q->asked != 0 || q->handing || (q->consumed && (q->deleted || (q->next < q->put && q->next - q->gone < e->memory->prefetch))))
            return 1;
    }
    return e->memory->confirmed < e->memory->given || e->blocked != e->memory->blocks || e->memory->rounds <= QUIET_ROUNDS || lost(b);
}

static void memory_disconnect(struct broker *b)
{
    if (ends_of(b)->ours)
        memory_lost(ends_of(b)->memory);
    ends_of(b)->ours = 0;
}

void memory_open(struct broker *b, struct memory *m, const struct bridge *bridge)
{
    static struct ends e;
    e = (struct ends){m, bridge, 0, 0, 0};
    memset(b, 0, sizeof *b);
    b->ends = &e;
    b->connect = memory_connect;
    b->consume = memory_consume;
    b->hand_back = memory_hand_back;
    b->next = memory_next;
    b->acknowledge = memory_acknowledge;
    b->publish = memory_publish;
    b->descriptor = memory_descriptor;
    b->buffered = memory_buffered;
    b->waits = memory_waits;
    b->disconnect = b->end = memory_disconnect;
}
