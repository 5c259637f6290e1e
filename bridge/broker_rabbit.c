/*
 * The broker's face for RabbitMQ: orders and letters go to the thread that has the library (rabbit.h), and its events are handed on.
 * Nothing here waits, but for the end, which waits a moment for the thread.
 */
#include <signal.h>
#include <stdio.h>
#include <stdlib.h>
#include <string.h>
#include <sys/socket.h>
#include <time.h>

#include "clock.h"
#include "log.h"
#include "rabbit.h"

#define LETTERS_BYTES 1048576 /* of letters that wait for the thread, beside one */
#define CALL_MS 30000         /* that one call of the library may take */
#define END_MS 2000           /* that the thread may take to end, and then once more when its connection is cut */

struct ends {
    struct rabbit rabbit;
    pthread_t thread;
    int running, asked;    /* asked: it connects, and what comes of it is not known */
    uint64_t connection;   /* the one that is ours; 0: none */
    struct parcel *latest; /* the event that was handed out last */
    char why[CONFIG_TEXT + 200];
};

static struct ends *ends_of(struct broker *b) { return b->ends; }

/* ---- orders */

static void order(struct broker *b, int what, unsigned dialogue)
{
    struct parcel *o = parcel_make(what, 0);
    o->dialogue = dialogue;
    o->connection = ends_of(b)->connection;
    mailbox_put(&ends_of(b)->rabbit.orders, o);
}

static void rabbit_consume(struct broker *b, unsigned dialogue, int on) { order(b, on ? ORDER_CONSUME : ORDER_LEAVE, dialogue); }

static void rabbit_hand_back(struct broker *b, unsigned dialogue) { order(b, ORDER_HAND_BACK, dialogue); }

static void rabbit_acknowledge(struct broker *b, unsigned dialogue, struct receipt r)
{
    struct parcel *o = parcel_make(ORDER_ACKNOWLEDGE, 0);
    o->dialogue = dialogue;
    o->connection = ends_of(b)->connection;
    o->channel = r.channel;
    o->tag = r.tag;
    mailbox_put(&ends_of(b)->rabbit.orders, o);
}

static int rabbit_publish(struct broker *b, const struct letter *l)
{
    struct mailbox *letters = &ends_of(b)->rabbit.letters;
    struct parcel *o;
    if (mailbox_bytes(letters) > LETTERS_BYTES)
        return 0;
    o = parcel_with_heads(ORDER_LETTER, l->bytes, l->heads);
    o->connection = ends_of(b)->connection;
    o->dialogue = l->dialogue;
    o->since = l->since;
    snprintf(o->id, sizeof o->id, "%s-%llu", l->journal, (unsigned long long)l->id);
    snprintf(o->type, sizeof o->type, "%s", l->type);
    snprintf(o->reason, sizeof o->reason, "%s", l->reason);
    memcpy(o->byte, l->body, l->bytes);
    mailbox_put(letters, o);
    return 1;
}

static void rabbit_disconnect(struct broker *b)
{
    order(b, ORDER_DISCONNECT, 0);
    ends_of(b)->connection = 0; /* what is told of it still is old */
}

/* ---- events */

static void forget_latest(struct ends *e)
{
    free(e->latest);
    e->latest = NULL;
}

/* The first event is whether the connection came about; others that stand before it are of an older one. */
static enum broker_state rabbit_connect(struct broker *b)
{
    struct ends *e = ends_of(b);
    enum broker_state state = BROKER_TRYING;
    struct parcel *p;
    if (!e->asked)
        order(b, ORDER_CONNECT, 0);
    e->asked = 1;
    while (state == BROKER_TRYING && (p = mailbox_take(&e->rabbit.events)) != NULL) {
        if (p->what == EVENT_STATE) {
            state = (enum broker_state)p->tag;
            e->connection = state == BROKER_OURS ? p->connection : 0;
            e->asked = 0;
            memcpy(e->why, p->byte, p->bytes < sizeof e->why ? p->bytes : sizeof e->why);
            e->why[sizeof e->why - 1] = '\0';
            b->why = e->why;
        }
        free(p);
    }
    return state;
}

static struct broker_event rabbit_next(struct broker *b)
{
    struct ends *e = ends_of(b);
    struct broker_event event;
    struct parcel *p;
    memset(&event, 0, sizeof event);
    forget_latest(e);
    while ((p = mailbox_take(&e->rabbit.events)) != NULL && (p->what == EVENT_STATE || p->connection != e->connection))
        free(p);
    e->latest = p;
    if (p == NULL)
        return event;
    event.news = (enum broker_news)p->what;
    event.dialogue = p->dialogue;
    if (event.news == BROKER_DELIVERY) {
        event.receipt = (struct receipt){p->channel, p->tag};
        event.payload = p->byte;
        event.bytes = p->length;
        event.heads = parcel_heads(p);
    } else {
        event.why = p->bytes > 0 ? (const char *)p->byte : "";
        event.place = p->tag;
        event.all = p->all;
    }
    return event;
}

static int rabbit_descriptor(struct broker *b) { return mailbox_bell(&ends_of(b)->rabbit.events); }

static int rabbit_buffered(struct broker *b) { return mailbox_waits(&ends_of(b)->rabbit.events); }

/* A call of the library that takes too long is ended: its connection is cut, and the bridge hears that it is lost. */
static uint64_t rabbit_waits(struct broker *b)
{
    struct rabbit *r = &ends_of(b)->rabbit;
    uint64_t waits, now = now_ms();
    pthread_mutex_lock(&r->guard);
    waits = r->since != 0 && now > r->since ? now - r->since : 0;
    if (waits > CALL_MS && r->socket >= 0)
        shutdown(r->socket, SHUT_RDWR);
    pthread_mutex_unlock(&r->guard);
    return waits;
}

/* ---- the end */

/* Waits a moment for the thread's last word. 1: it came */
static int ends_soon(struct rabbit *r)
{
    struct timespec until;
    int late = 0, ended;
    clock_gettime(CLOCK_MONOTONIC, &until);
    until.tv_sec += END_MS / 1000;
    pthread_mutex_lock(&r->guard);
    while (!r->ended && !late)
        late = pthread_cond_timedwait(&r->rang, &r->guard, &until) != 0;
    ended = r->ended;
    if (!ended && r->socket >= 0)
        shutdown(r->socket, SHUT_RDWR); /* then whatever it waits for fails */
    pthread_mutex_unlock(&r->guard);
    return ended;
}

static void close_boxes(struct rabbit *r)
{
    mailbox_close(&r->orders);
    mailbox_close(&r->letters);
    mailbox_close(&r->events);
}

/* A thread that does not end is left where it is: the process ends, and it with it. */
static void rabbit_end(struct broker *b)
{
    struct ends *e = ends_of(b);
    forget_latest(e);
    if (e->running) {
        order(b, ORDER_END, 0);
        if (!ends_soon(&e->rabbit) && !ends_soon(&e->rabbit))
            return;
        pthread_join(e->thread, NULL);
    }
    close_boxes(&e->rabbit);
    pthread_mutex_destroy(&e->rabbit.guard);
    pthread_cond_destroy(&e->rabbit.rang);
    free(e);
    b->ends = NULL;
    b->why = NULL;
}

/* ---- opening */

/* The first line of the password's file. */
static int read_password(struct rabbit *r)
{
    FILE *f;
    int read;
    if (r->config->password_file[0] == '\0')
        return 1;
    f = fopen(r->config->password_file, "r");
    if (f == NULL)
        return 0;
    read = fgets(r->password, sizeof r->password, f) != NULL;
    fclose(f);
    r->password[strcspn(r->password, "\r\n")] = '\0';
    return read;
}

/* Signals are the round's: the thread gets none. */
static int start_thread(struct ends *e)
{
    sigset_t all, before;
    sigfillset(&all);
    if (pthread_sigmask(SIG_SETMASK, &all, &before) != 0)
        return 0;
    e->running = pthread_create(&e->thread, NULL, rabbit_serve, &e->rabbit) == 0;
    return pthread_sigmask(SIG_SETMASK, &before, NULL) == 0 && e->running;
}

/* It goes by a clock that nobody sets. */
static int make_bell(pthread_cond_t *bell)
{
    pthread_condattr_t steady;
    int good;
    if (pthread_condattr_init(&steady) != 0)
        return 0;
    good = pthread_condattr_setclock(&steady, CLOCK_MONOTONIC) == 0 && pthread_cond_init(bell, &steady) == 0;
    pthread_condattr_destroy(&steady);
    return good;
}

static const char *open_ends(struct ends *e)
{
    struct rabbit *r = &e->rabbit;
    if (!read_password(r))
        return "password_file can not be read, or has no line";
    if (pthread_mutex_init(&r->guard, NULL) != 0 || !make_bell(&r->rang) || !mailbox_open(&r->orders) || !mailbox_open(&r->letters) ||
        !mailbox_open(&r->events) || !start_thread(e))
        log_and_exit(EXIT_MEMORY, "memory", "broker", "there is no descriptor, no thread or no memory for it");
    return NULL;
}

int broker_open_rabbit(struct broker *b, const struct config *c)
{
    struct ends *e = calloc(1, sizeof *e);
    memset(b, 0, sizeof *b);
    if (e == NULL)
        log_and_exit(EXIT_MEMORY, "memory", "broker", "out of memory");
    e->rabbit.config = c;
    e->rabbit.socket = -1;
    b->why = open_ends(e);
    if (b->why != NULL) {
        free(e);
        return 0;
    }
    b->ends = e;
    b->connect = rabbit_connect;
    b->consume = rabbit_consume;
    b->hand_back = rabbit_hand_back;
    b->next = rabbit_next;
    b->acknowledge = rabbit_acknowledge;
    b->publish = rabbit_publish;
    b->descriptor = rabbit_descriptor;
    b->buffered = rabbit_buffered;
    b->waits = rabbit_waits;
    b->disconnect = rabbit_disconnect;
    b->end = rabbit_end;
    return 1;
}
