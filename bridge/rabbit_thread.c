/*
 * The one file that calls the AMQP library (librabbitmq), and that in a thread of its own (rabbit.h): no call here holds up the
 * bridge's round, whatever the broker, the network or the name service do. Every wait for an answer has a limit all the same, and
 * one that goes beyond it costs the connection.
 *
 * One connection; a channel for letters, with confirmations, and a channel for each dialogue's queue, so that receipts and prefetch
 * are the dialogue's own. The queues are claimed by a queue that only one connection may have (`queue_owner`); besides, each
 * queue's consumer is exclusive. What goes wrong on a dialogue's channel costs that channel, which is opened anew.
 */
#include <amqp.h>
#include <amqp_framing.h>
#include <amqp_ssl_socket.h>
#include <amqp_tcp_socket.h>
#include <poll.h>
#include <stdio.h>
#include <stdlib.h>
#include <string.h>
#include <sys/time.h>

#include "clock.h"
#include "heads.h"
#include "rabbit.h"

#define FRAME_MOST 131072
#define LETTERS 1 /* the channel of letters; that of queue q (config.h) is FIRST_QUEUE + q */
#define FIRST_QUEUE 2
#define CHANNELS (FIRST_QUEUE + QUEUES_MOST)
#define HEADS_OF_LETTER 16 /* headers, at most */
#define PERSISTENT 2
#define OPEN_MS 5000      /* that a connection may take to come about */
#define ANSWER_MS 5000    /* that an answer of the broker may take */
#define CONNECT_MS 20000  /* that all answers together may take when a connection is made */
#define CONTENT_MS 60000  /* that a payload may take from its first frame to its last */
#define FRAMES 256        /* that are read before orders are looked at again */
#define EVENTS_BYTES 8388608 /* that wait for the round; above it nothing is read */
#define REST_MS 200       /* so that heartbeats go out */

/* what comes of a channel in several frames: a payload, or a letter that was returned */
struct content {
    enum { NOTHING, DELIVERY, RETURNED } what;
    struct parcel *parcel;
    uint64_t left; /* bytes that have not come */
    size_t used;
    uint64_t since;
};

struct channel {
    uint64_t opening; /* counted over all channels; a receipt has it */
    int closed;       /* what comes still is of the channel that was closed */
    int leaving;      /* the broker was asked to end its consumer */
    struct content content;
};

struct thread {
    struct rabbit *rabbit;
    const struct config *config;
    amqp_connection_state_t amqp; /* NULL: not connected */
    uint64_t connections, openings, given;
    int blocked, more;
    struct channel channel[CHANNELS];
    char id[WINDOW][48]; /* of the letters under way, by place */
    char why[CONFIG_TEXT + 200];
};

/* ---- how long a call of the library takes, for the round to see */

static void begins(struct thread *t)
{
    pthread_mutex_lock(&t->rabbit->guard);
    t->rabbit->since = now_ms();
    pthread_mutex_unlock(&t->rabbit->guard);
}

static void ends(struct thread *t)
{
    pthread_mutex_lock(&t->rabbit->guard);
    t->rabbit->since = 0;
    pthread_mutex_unlock(&t->rabbit->guard);
}

static void show_socket(struct thread *t, int s)
{
    pthread_mutex_lock(&t->rabbit->guard);
    t->rabbit->socket = s;
    pthread_mutex_unlock(&t->rabbit->guard);
}

/* ---- events */

static struct parcel *event(struct thread *t, int what, size_t bytes)
{
    struct parcel *p = parcel_make(what, bytes);
    p->connection = t->connections;
    return p;
}

/* an event with a text */
static void tell(struct thread *t, int what, unsigned dialogue, const char *why)
{
    struct parcel *p = event(t, what, strlen(why) + 1);
    p->dialogue = dialogue;
    memcpy(p->byte, why, p->bytes);
    mailbox_put(&t->rabbit->events, p);
}

static void because(struct thread *t, const char *what, const char *why) { snprintf(t->why, sizeof t->why, "%s: %s", what, why); }

/* ---- what went wrong */

static void copy_text(amqp_bytes_t said, char *text, size_t room)
{
    snprintf(text, room, "%.*s", (int)said.len, said.len > 0 ? (const char *)said.bytes : "");
}

/* the text of a close by the broker, and its number; 0: it is none */
static int closed_with(amqp_method_number_t id, const void *method, char *text, size_t room)
{
    text[0] = '\0';
    if (id == AMQP_CONNECTION_CLOSE_METHOD) {
        const amqp_connection_close_t *m = method;
        copy_text(m->reply_text, text, room);
        return m->reply_code;
    }
    if (id == AMQP_CHANNEL_CLOSE_METHOD) {
        const amqp_channel_close_t *m = method;
        copy_text(m->reply_text, text, room);
        return m->reply_code;
    }
    return 0;
}

/* 1: an answer is no failure. Else `why` has what it is, and *closed whether the broker closed the channel with it, and no more. */
static int good(struct thread *t, amqp_rpc_reply_t r, const char *what, int *number, int *closed)
{
    char text[200];
    *number = *closed = 0;
    if (r.reply_type == AMQP_RESPONSE_NORMAL)
        return 1;
    if (r.reply_type == AMQP_RESPONSE_SERVER_EXCEPTION) {
        *number = closed_with(r.reply.id, r.reply.decoded, text, sizeof text);
        *closed = r.reply.id == AMQP_CHANNEL_CLOSE_METHOD;
        because(t, what, text);
    } else {
        because(t, what, r.reply_type == AMQP_RESPONSE_LIBRARY_EXCEPTION ? amqp_error_string2(r.library_error) : "no answer");
    }
    return 0;
}

static int worked(struct thread *t, const char *what)
{
    int number, closed;
    return good(t, amqp_get_rpc_reply(t->amqp), what, &number, &closed);
}

static int sent(struct thread *t, int status, const char *what)
{
    if (status != AMQP_STATUS_OK)
        because(t, what, amqp_error_string2(status));
    return status == AMQP_STATUS_OK;
}

static void forget_content(struct content *c)
{
    free(c->parcel);
    *c = (struct content){NOTHING, NULL, 0, 0, 0};
}

static void disconnect(struct thread *t)
{
    unsigned i;
    show_socket(t, -1);
    if (t->amqp != NULL)
        amqp_destroy_connection(t->amqp); /* the socket is closed: the broker needs no word of it */
    t->amqp = NULL;
    t->blocked = 0;
    for (i = 0; i < CHANNELS; i++)
        forget_content(&t->channel[i].content);
    mailbox_empty(&t->rabbit->letters);
}

/* The connection is gone, for the reason that stands in `why`. */
static void lose(struct thread *t)
{
    if (t->amqp == NULL)
        return;
    disconnect(t);
    tell(t, BROKER_LOST, 0, t->why);
}

/* ---- connecting */

static struct timeval milliseconds(uint64_t ms)
{
    struct timeval t;
    t.tv_sec = (time_t)(ms / 1000);
    t.tv_usec = (suseconds_t)(ms % 1000 * 1000);
    return t;
}

/* With TLS where the configuration names whom to trust. The broker's certificate must be of that authority and of the name that is
   connected to. NULL: `why` says what can not be read. */
static amqp_socket_t *make_socket(struct thread *t)
{
    const struct config *c = t->config;
    amqp_socket_t *s = c->tls_ca[0] == '\0' ? amqp_tcp_socket_new(t->amqp) : amqp_ssl_socket_new(t->amqp);
    because(t, "socket", "out of memory");
    if (s == NULL || c->tls_ca[0] == '\0')
        return s;
    if (amqp_ssl_socket_set_cacert(s, c->tls_ca) != AMQP_STATUS_OK) {
        because(t, c->tls_ca, "tls_ca can not be read");
        return NULL;
    }
    amqp_ssl_socket_set_verify_peer(s, 1);
    amqp_ssl_socket_set_verify_hostname(s, 1);
    if (amqp_ssl_socket_set_ssl_versions(s, AMQP_TLSv1_2, AMQP_TLSvLATEST) != AMQP_STATUS_OK) {
        because(t, "TLS", "version 1.2 is not to be had");
        return NULL;
    }
    if (c->tls_certificate[0] != '\0' && amqp_ssl_socket_set_key(s, c->tls_certificate, c->tls_key) != AMQP_STATUS_OK) {
        because(t, c->tls_certificate, "tls_certificate or tls_key can not be read, or they are no pair");
        return NULL;
    }
    return s;
}

static int open_socket(struct thread *t)
{
    const struct config *c = t->config;
    struct timeval wait = milliseconds(OPEN_MS);
    char address[CONFIG_TEXT + 16];
    amqp_socket_t *s;
    int status;
    t->amqp = amqp_new_connection();
    if (t->amqp == NULL) {
        because(t, "connection", "out of memory");
        return 0;
    }
    s = make_socket(t);
    if (s == NULL)
        return 0;
    snprintf(address, sizeof address, "%s port %u", c->broker, (unsigned)c->port);
    status = amqp_socket_open_noblock(s, c->broker, (int)c->port, &wait);
    if (sent(t, status, address))
        show_socket(t, amqp_get_sockfd(t->amqp));
    return status == AMQP_STATUS_OK;
}

static amqp_table_entry_t entry(const char *name, char kind)
{
    amqp_table_entry_t e;
    memset(&e, 0, sizeof e);
    e.key = amqp_cstring_bytes(name);
    e.value.kind = (uint8_t)kind;
    return e;
}

/* Without a password the certificate says who we are. The broker is asked to tell when it ends a consumer of its own accord, and when it
   takes no letters. */
static int log_in(struct thread *t)
{
    const struct config *c = t->config;
    struct timeval wait = milliseconds(ANSWER_MS);
    amqp_table_entry_t can[2] = {entry("consumer_cancel_notify", AMQP_FIELD_KIND_BOOLEAN), entry("connection.blocked", AMQP_FIELD_KIND_BOOLEAN)};
    amqp_table_entry_t say[2] = {entry("capabilities", AMQP_FIELD_KIND_TABLE), entry("connection_name", AMQP_FIELD_KIND_UTF8)};
    amqp_table_t properties = {2, say};
    amqp_rpc_reply_t r;
    int number, closed, set;
    can[0].value.value.boolean = can[1].value.value.boolean = 1;
    say[0].value.value.table = (amqp_table_t){2, can};
    say[1].value.value.bytes = amqp_cstring_bytes(c->host);
    set = amqp_set_handshake_timeout(t->amqp, &wait) == AMQP_STATUS_OK && amqp_set_rpc_timeout(t->amqp, &wait) == AMQP_STATUS_OK;
    if (!set) {
        because(t, "login", "a wait has no limit");
        return 0;
    }
    if (t->rabbit->password[0] == '\0' && c->tls_certificate[0] != '\0')
        r = amqp_login_with_properties(t->amqp, c->host_name, 0, FRAME_MOST, (int)c->heartbeat, &properties, AMQP_SASL_METHOD_EXTERNAL, c->user);
    else
        r = amqp_login_with_properties(
            t->amqp, c->host_name, 0, FRAME_MOST, (int)c->heartbeat, &properties, AMQP_SASL_METHOD_PLAIN, c->user, t->rabbit->password);
    return good(t, r, "login", &number, &closed);
}

/* The queue that one connection may have: RESOURCE_LOCKED where another has it. Bridges that share a journal have their
   dialogues, and with them their queues, by leases. */
static enum broker_state claim(struct thread *t)
{
    int number, closed;
    if (t->config->database[0] != '\0')
        return BROKER_OURS;
    amqp_queue_declare(t->amqp, LETTERS, amqp_cstring_bytes(t->config->queue_owner), 0, 0, 1, 0, amqp_empty_table);
    if (good(t, amqp_get_rpc_reply(t->amqp), t->config->queue_owner, &number, &closed))
        return BROKER_OURS;
    return number == AMQP_RESOURCE_LOCKED ? BROKER_TAKEN : BROKER_AWAY;
}

/* The queue is there. */
static int known(struct thread *t, const char *queue)
{
    amqp_queue_declare(t->amqp, LETTERS, amqp_cstring_bytes(queue), 1, 0, 0, 0, amqp_empty_table);
    return worked(t, queue);
}

/* A frame while the channels are opened: 1: an answer that is waited for; 0: something else; -1: bad news */
static int is_answer(struct thread *t, const amqp_frame_t *f, amqp_method_number_t answer, const char *what)
{
    char text[200];
    if (f->frame_type != AMQP_FRAME_METHOD)
        return 0;
    if (closed_with(f->payload.method.id, f->payload.method.decoded, text, sizeof text) != 0) {
        because(t, what, text);
        return -1;
    }
    t->blocked |= f->payload.method.id == AMQP_CONNECTION_BLOCKED_METHOD;
    return f->payload.method.id == answer;
}

/* Asks the same of every queue's channel, and then hears the answers: all of them together cost one round trip. */
static int ask_all(struct thread *t, amqp_method_number_t method, void *words, amqp_method_number_t answer, const char *what, uint64_t until)
{
    unsigned q, asked = 0, heard = 0;
    for (q = 0; q < QUEUES_MOST; q++) {
        if (!config_has_queue(t->config, q))
            continue;
        if (!sent(t, amqp_send_method(t->amqp, (amqp_channel_t)(FIRST_QUEUE + q), method, words), what))
            return 0;
        asked++;
    }
    while (heard < asked) {
        struct timeval wait = milliseconds(ANSWER_MS);
        amqp_frame_t f;
        int is, status;
        amqp_maybe_release_buffers(t->amqp);
        status = amqp_simple_wait_frame_noblock(t->amqp, &f, &wait);
        if (status == AMQP_STATUS_OK && now_ms() > until)
            status = AMQP_STATUS_TIMEOUT;
        is = sent(t, status, what) ? is_answer(t, &f, answer, what) : -1;
        if (is < 0)
            return 0;
        heard += (unsigned)is;
    }
    return 1;
}

static int open_channels(struct thread *t)
{
    const struct config *c = t->config;
    uint64_t until = now_ms() + CONNECT_MS;
    amqp_channel_open_t open = {amqp_empty_bytes};
    amqp_basic_qos_t prefetch = {0, (uint16_t)c->prefetch, 0};
    unsigned q;
    if (!known(t, c->queue_down) || !known(t, c->queue_dead))
        return 0;
    if (!ask_all(t, AMQP_CHANNEL_OPEN_METHOD, &open, AMQP_CHANNEL_OPEN_OK_METHOD, "channels", until) ||
        !ask_all(t, AMQP_BASIC_QOS_METHOD, &prefetch, AMQP_BASIC_QOS_OK_METHOD, "prefetch", until))
        return 0;
    for (q = 0; q < QUEUES_MOST; q++)
        t->channel[FIRST_QUEUE + q] = (struct channel){++t->openings, 0, 0, {NOTHING, NULL, 0, 0, 0}};
    amqp_confirm_select(t->amqp, LETTERS);
    return worked(t, "confirmations");
}

static enum broker_state connect_once(struct thread *t)
{
    enum broker_state claimed;
    t->connections++;
    t->given = 0;
    t->channel[LETTERS].closed = 0;
    if (!open_socket(t) || !log_in(t))
        return BROKER_AWAY;
    amqp_channel_open(t->amqp, LETTERS);
    if (!worked(t, "channel"))
        return BROKER_AWAY;
    claimed = claim(t);
    if (claimed != BROKER_OURS || !open_channels(t))
        return claimed == BROKER_OURS ? BROKER_AWAY : claimed;
    return BROKER_OURS;
}

static void connect_now(struct thread *t)
{
    struct parcel *p;
    enum broker_state state;
    disconnect(t);
    state = connect_once(t);
    if (state != BROKER_OURS)
        disconnect(t);
    p = event(t, EVENT_STATE, sizeof t->why);
    memcpy(p->byte, t->why, sizeof t->why);
    p->tag = (uint64_t)state;
    mailbox_put(&t->rabbit->events, p);
    if (t->blocked)
        tell(t, BROKER_BLOCKED, 0, "when it was connected");
}

/* ---- a channel is opened anew */

static void take_frame(struct thread *t, const amqp_frame_t *f);

/* What came on a channel before it was closed counts no more; what came on others is heard. */
static void drain(struct thread *t, amqp_channel_t channel)
{
    struct timeval at_once = {0, 0};
    amqp_frame_t f;
    t->channel[channel].closed = 1;
    forget_content(&t->channel[channel].content);
    while (t->amqp != NULL && amqp_frames_enqueued(t->amqp) && amqp_simple_wait_frame_noblock(t->amqp, &f, &at_once) == AMQP_STATUS_OK)
        take_frame(t, &f);
}

static int open_again(struct thread *t, amqp_channel_t channel)
{
    drain(t, channel);
    if (t->amqp == NULL)
        return 0;
    amqp_channel_open(t->amqp, channel);
    if (!worked(t, "channel"))
        return 0;
    amqp_basic_qos(t->amqp, channel, 0, (uint16_t)t->config->prefetch, 0);
    if (!worked(t, "prefetch"))
        return 0;
    t->channel[channel].opening = ++t->openings;
    t->channel[channel].closed = 0;
    return 1;
}

/* The broker has closed a dialogue's channel, for the reason that stands in `why`; then the dialogue's queue is not consumed. */
static void channel_closed(struct thread *t, amqp_channel_t channel, int what)
{
    amqp_channel_close_ok_t yes = {0};
    char why[sizeof t->why];
    memcpy(why, t->why, sizeof why);
    if (t->channel[channel].leaving)
        what = BROKER_LEFT; /* no other answer comes */
    t->channel[channel].leaving = 0;
    if (sent(t, amqp_send_method(t->amqp, channel, AMQP_CHANNEL_CLOSE_OK_METHOD, &yes), "channel") && open_again(t, channel))
        tell(t, what, (unsigned)(channel - FIRST_QUEUE), why);
    else
        lose(t);
}

/* ---- queues */

/* A queue has one consumer: payloads that two had would overtake each other. What comes of it is heard later, as a frame. */
static void consume(struct thread *t, unsigned dialogue, int on)
{
    amqp_channel_t channel = (amqp_channel_t)(FIRST_QUEUE + dialogue);
    char queue[CONFIG_TEXT + 2], tag[16];
    amqp_basic_consume_t begin;
    amqp_basic_cancel_t leave;
    snprintf(tag, sizeof tag, "%u", dialogue);
    config_queue(t->config, dialogue, queue, sizeof queue);
    memset(&begin, 0, sizeof begin);
    memset(&leave, 0, sizeof leave);
    begin.queue = amqp_cstring_bytes(queue);
    begin.consumer_tag = leave.consumer_tag = amqp_cstring_bytes(tag);
    begin.exclusive = 1;
    t->channel[channel].leaving = !on;
    if ((t->channel[channel].closed && !open_again(t, channel)) ||
        !sent(t, amqp_send_method(t->amqp, channel, on ? AMQP_BASIC_CONSUME_METHOD : AMQP_BASIC_CANCEL_METHOD, on ? (void *)&begin : (void *)&leave), queue))
        lose(t);
}

/* A channel that is closed returns what was not acknowledged: the broker says so when it has. It is opened when it is needed again. */
static void hand_back(struct thread *t, unsigned dialogue)
{
    amqp_channel_t channel = (amqp_channel_t)(FIRST_QUEUE + dialogue);
    amqp_channel_close_t words;
    memset(&words, 0, sizeof words);
    words.reply_code = AMQP_REPLY_SUCCESS;
    words.reply_text = amqp_empty_bytes;
    t->channel[channel].closed = 1;
    forget_content(&t->channel[channel].content);
    if (!sent(t, amqp_send_method(t->amqp, channel, AMQP_CHANNEL_CLOSE_METHOD, &words), "channel"))
        lose(t);
}

static void acknowledge(struct thread *t, const struct parcel *o)
{
    amqp_channel_t channel = (amqp_channel_t)(FIRST_QUEUE + o->dialogue);
    if (o->channel != t->channel[channel].opening)
        return; /* of an earlier channel: on this one the number is another payload's */
    if (!sent(t, amqp_basic_ack(t->amqp, channel, o->tag, 1), "acknowledge"))
        lose(t);
}

/* ---- frames */

static void hear_blocked(struct thread *t, int blocked, const char *why)
{
    t->blocked = blocked;
    tell(t, blocked ? BROKER_BLOCKED : BROKER_UNBLOCKED, 0, why);
}

/* The first frame of a payload, or of a letter that comes back. */
static void begin_content(struct thread *t, amqp_channel_t channel, const amqp_method_t *m)
{
    struct content *c = &t->channel[channel].content;
    forget_content(c);
    c->what = m->id == AMQP_BASIC_DELIVER_METHOD ? DELIVERY : RETURNED;
    c->since = now_ms();
    c->parcel = event(t, c->what == DELIVERY ? BROKER_DELIVERY : BROKER_REFUSED, 200);
    if (c->what == DELIVERY) {
        c->parcel->tag = ((const amqp_basic_deliver_t *)m->decoded)->delivery_tag;
        c->parcel->channel = t->channel[channel].opening;
        c->parcel->dialogue = (unsigned)(channel - FIRST_QUEUE);
    } else {
        copy_text(((const amqp_basic_return_t *)m->decoded)->reply_text, (char *)c->parcel->byte, c->parcel->bytes);
    }
}

/* the place of a letter under way that has this id; 0: there is none */
static uint64_t place_of(const struct thread *t, amqp_bytes_t id)
{
    uint64_t place = t->given, least = t->given > WINDOW ? t->given - WINDOW : 0;
    for (; place > least; place--) {
        const char *mine = t->id[place % WINDOW];
        if (strlen(mine) == id.len && memcmp(mine, id.bytes, id.len) == 0)
            return place;
    }
    return 0;
}

static void finish_content(struct thread *t, struct content *c)
{
    mailbox_put(&t->rabbit->events, c->parcel);
    *c = (struct content){NOTHING, NULL, 0, 0, 0};
}

/* Headers that are ours, and are texts. Others would be lost without a word: then none of them is readable. */
static void take_heads(const amqp_basic_properties_t *p, char *heads, size_t room)
{
    int i, n = p->_flags & AMQP_BASIC_HEADERS_FLAG ? p->headers.num_entries : 0;
    char name[64], value[HEADS_MOST];
    heads[0] = '\0';
    for (i = 0; i < n; i++) {
        const amqp_table_entry_t *e = &p->headers.entries[i];
        if (e->key.len < 7 || memcmp(e->key.bytes, "x-peat-", 7) != 0)
            continue;
        copy_text(e->key, name, sizeof name);
        copy_text(e->value.kind == AMQP_FIELD_KIND_UTF8 ? e->value.value.bytes : amqp_empty_bytes, value, sizeof value);
        if (e->value.kind != AMQP_FIELD_KIND_UTF8 || e->value.value.bytes.len != strlen(value) || e->key.len != strlen(name) || !heads_add(heads, room, name, value)) {
            snprintf(heads, room, HEADS_UNREADABLE);
            return;
        }
    }
}

/* The second one: how long it is, and of a letter which one. Of a payload that is too long the bridge needs no more than the beginning. */
static void take_header(struct thread *t, struct content *c, const amqp_frame_t *f)
{
    uint64_t size = f->payload.properties.body_size, here = size < t->config->payload_most ? size : t->config->payload_most;
    const amqp_basic_properties_t *p = f->payload.properties.decoded;
    c->left = size;
    if (c->what == DELIVERY) {
        char heads[HEADS_MOST];
        struct parcel *whole;
        take_heads(p, heads, sizeof heads);
        whole = parcel_with_heads(BROKER_DELIVERY, (size_t)here, heads);
        whole->connection = c->parcel->connection;
        whole->dialogue = c->parcel->dialogue;
        whole->channel = c->parcel->channel;
        whole->tag = c->parcel->tag;
        whole->length = (size_t)size;
        free(c->parcel);
        c->parcel = whole;
    } else {
        c->parcel->tag = p->_flags & AMQP_BASIC_MESSAGE_ID_FLAG ? place_of(t, p->message_id) : 0;
        if (c->parcel->tag == 0) { /* its confirmation would be taken for one that it is stored */
            because(t, "letter", "one that is not under way comes back");
            lose(t);
            return;
        }
    }
    if (size == 0)
        finish_content(t, c);
}

static void take_body(struct thread *t, struct content *c, amqp_bytes_t part)
{
    size_t room = c->what == DELIVERY ? c->parcel->bytes - c->used : 0, n = part.len < room ? part.len : room;
    memcpy(c->parcel->byte + c->used, part.bytes, n);
    c->used += n;
    c->left -= part.len < c->left ? part.len : c->left;
    if (c->left == 0)
        finish_content(t, c);
}

static void answer_letter(struct thread *t, int what, uint64_t place, int all, const char *why)
{
    struct parcel *p = event(t, what, strlen(why) + 1);
    p->tag = place;
    p->all = all;
    memcpy(p->byte, why, p->bytes);
    mailbox_put(&t->rabbit->events, p);
}

/* The broker ended a consumer of its own accord. */
static void cancelled(struct thread *t, amqp_channel_t channel, const amqp_basic_cancel_t *m)
{
    amqp_basic_cancel_ok_t yes = {m->consumer_tag};
    if (!m->nowait && !sent(t, amqp_send_method(t->amqp, channel, AMQP_BASIC_CANCEL_OK_METHOD, &yes), "cancel")) {
        lose(t);
        return;
    }
    tell(t, BROKER_QUEUE_AWAY, (unsigned)(channel - FIRST_QUEUE), "the broker ended the consumer: the queue was deleted, or its node failed");
}

#define IN_USE "in exclusive use" /* what the broker says of a queue that another consumes; where it may not be read it says something else */

static void take_close(struct thread *t, amqp_channel_t channel, const amqp_method_t *m)
{
    char text[200];
    int number = closed_with(m->id, m->decoded, text, sizeof text);
    because(t, "closed by the broker", text);
    if (m->id == AMQP_CHANNEL_CLOSE_METHOD && channel >= FIRST_QUEUE)
        channel_closed(t, channel, number == AMQP_ACCESS_REFUSED && strstr(text, IN_USE) != NULL ? BROKER_QUEUE_TAKEN : BROKER_QUEUE_AWAY);
    else
        lose(t);
}

static void take_method(struct thread *t, amqp_channel_t channel, const amqp_method_t *m)
{
    const amqp_basic_ack_t *yes = m->decoded;
    const amqp_basic_nack_t *no = m->decoded;
    char text[200];
    switch (m->id) {
    case AMQP_BASIC_DELIVER_METHOD:
    case AMQP_BASIC_RETURN_METHOD: begin_content(t, channel, m); break;
    case AMQP_BASIC_ACK_METHOD: answer_letter(t, BROKER_CONFIRMED, yes->delivery_tag, yes->multiple != 0, ""); break;
    case AMQP_BASIC_NACK_METHOD: answer_letter(t, BROKER_REFUSED, no->delivery_tag, no->multiple != 0, "the broker did not store it: its queue is full, or failed"); break;
    case AMQP_BASIC_CANCEL_METHOD: cancelled(t, channel, m->decoded); break;
    case AMQP_BASIC_CONSUME_OK_METHOD: tell(t, BROKER_CONSUMES, (unsigned)(channel - FIRST_QUEUE), ""); break;
    case AMQP_BASIC_CANCEL_OK_METHOD:
        t->channel[channel].leaving = 0;
        tell(t, BROKER_LEFT, (unsigned)(channel - FIRST_QUEUE), "");
        break;
    case AMQP_CONNECTION_BLOCKED_METHOD:
        copy_text(((const amqp_connection_blocked_t *)m->decoded)->reason, text, sizeof text);
        hear_blocked(t, 1, text);
        break;
    case AMQP_CONNECTION_UNBLOCKED_METHOD: hear_blocked(t, 0, ""); break;
    case AMQP_CHANNEL_CLOSE_METHOD:
    case AMQP_CONNECTION_CLOSE_METHOD: take_close(t, channel, m); break;
    default:
        because(t, "frame", amqp_method_name(m->id) != NULL ? amqp_method_name(m->id) : "of no method");
        lose(t);
    }
}

/* Of a channel that is closed nothing counts but that it is. */
static void take_last(struct thread *t, const amqp_frame_t *f)
{
    if (f->frame_type == AMQP_FRAME_METHOD && f->payload.method.id == AMQP_CHANNEL_CLOSE_OK_METHOD && f->channel >= FIRST_QUEUE)
        tell(t, BROKER_HANDED_BACK, (unsigned)(f->channel - FIRST_QUEUE), "");
}

/* whether frames of this kind have a place on this channel */
static int in_place(const amqp_frame_t *f)
{
    if (f->frame_type != AMQP_FRAME_METHOD)
        return f->channel >= LETTERS && f->channel < CHANNELS;
    switch (f->payload.method.id) {
    case AMQP_BASIC_DELIVER_METHOD:
    case AMQP_BASIC_CONSUME_OK_METHOD:
    case AMQP_BASIC_CANCEL_OK_METHOD:
    case AMQP_BASIC_CANCEL_METHOD: return f->channel >= FIRST_QUEUE && f->channel < CHANNELS;
    case AMQP_BASIC_RETURN_METHOD:
    case AMQP_BASIC_ACK_METHOD:
    case AMQP_BASIC_NACK_METHOD: return f->channel == LETTERS;
    default: return f->channel < CHANNELS;
    }
}

static void take_frame(struct thread *t, const amqp_frame_t *f)
{
    struct content *c = &t->channel[f->channel < CHANNELS ? f->channel : 0].content;
    if (!in_place(f)) {
        because(t, "frame", "out of its place");
        lose(t);
    } else if (t->channel[f->channel].closed) {
        take_last(t, f);
    } else if (f->frame_type == AMQP_FRAME_METHOD) {
        take_method(t, f->channel, &f->payload.method);
    } else if (c->what != NOTHING && f->frame_type == AMQP_FRAME_HEADER) {
        take_header(t, c, f);
    } else if (c->what != NOTHING && f->frame_type == AMQP_FRAME_BODY) {
        take_body(t, c, f->payload.body_fragment);
    } else {
        because(t, "frame", "out of its place");
        lose(t);
    }
}

/* A broker that sends heartbeats in the middle of a payload, and never its rest, is as good as none. */
static void end_old(struct thread *t)
{
    unsigned i;
    for (i = 0; i < CHANNELS && t->amqp != NULL; i++) {
        const struct content *c = &t->channel[i].content;
        if (c->what != NOTHING && now_ms() - c->since > CONTENT_MS && mailbox_bytes(&t->rabbit->events) < EVENTS_BYTES) {
            because(t, "payload", "it does not come to its end");
            lose(t);
        }
    }
}

/* Takes what is there. What is there of a frame, or of a payload, is kept until its rest comes. */
static void hear(struct thread *t)
{
    struct timeval at_once = {0, 0};
    amqp_frame_t f;
    int n, status;
    t->more = 0;
    for (n = 0; t->amqp != NULL && mailbox_bytes(&t->rabbit->events) < EVENTS_BYTES; n++) {
        if (n == FRAMES) {
            t->more = 1;
            return;
        }
        amqp_maybe_release_buffers(t->amqp);
        status = amqp_simple_wait_frame_noblock(t->amqp, &f, &at_once);
        if (status == AMQP_STATUS_TIMEOUT)
            return;
        if (sent(t, status, "frame"))
            take_frame(t, &f);
        else
            lose(t);
    }
}

/* ---- letters */

/* The headers of a letter, as the library takes them. Their texts stand in the parcel. How many they are. */
static int give_heads(const struct parcel *l, int dead, amqp_table_entry_t *entries)
{
    const char *line = parcel_heads(l);
    int n = 0;
    if (dead) {
        entries[n] = entry("x-peat-reason", AMQP_FIELD_KIND_UTF8);
        entries[n++].value.value.bytes = amqp_cstring_bytes(l->reason);
    }
    for (; *line != '\0' && n < HEADS_OF_LETTER; line += strcspn(line, "\n") + 1) {
        size_t name = strcspn(line, "="), all = strcspn(line, "\n");
        entries[n] = entry("", AMQP_FIELD_KIND_UTF8);
        entries[n].key = (amqp_bytes_t){name, (void *)(uintptr_t)line};
        entries[n++].value.value.bytes = (amqp_bytes_t){all - name - 1, (void *)(uintptr_t)(line + name + 1)};
    }
    return n;
}

/* A letter has its id as message-id, the dialogue as correlation-id, its type, and why it was laid aside. */
static void publish(struct thread *t, const struct parcel *l)
{
    int dead = strcmp(l->type, "dead") == 0, notice = strcmp(l->type, "ended") == 0 || strcmp(l->type, "broken") == 0 || strcmp(l->type, "forwarded") == 0 || strcmp(l->type, "declined") == 0;
    char dialogue[24];
    amqp_table_entry_t entries[HEADS_OF_LETTER];
    int heads = give_heads(l, dead, entries);
    amqp_bytes_t body, queue = amqp_cstring_bytes(dead ? t->config->queue_dead : t->config->queue_down);
    amqp_basic_properties_t p;
    memset(&p, 0, sizeof p);
    snprintf(dialogue, sizeof dialogue, place_is_link(l->dialogue) ? "centre-%u" : "%u", place_is_link(l->dialogue) ? place_centre(l->dialogue) : l->dialogue);
    p._flags = AMQP_BASIC_DELIVERY_MODE_FLAG | AMQP_BASIC_MESSAGE_ID_FLAG | AMQP_BASIC_TYPE_FLAG | AMQP_BASIC_CORRELATION_ID_FLAG |
               AMQP_BASIC_CONTENT_TYPE_FLAG | AMQP_BASIC_TIMESTAMP_FLAG | (heads > 0 ? AMQP_BASIC_HEADERS_FLAG : 0);
    p.delivery_mode = PERSISTENT;
    p.message_id = amqp_cstring_bytes(l->id);
    p.correlation_id = amqp_cstring_bytes(dialogue);
    p.type = amqp_cstring_bytes(l->type);
    p.content_type = amqp_cstring_bytes(notice ? "application/json" : "application/octet-stream");
    p.timestamp = l->since / 1000;
    p.headers.num_entries = heads;
    p.headers.entries = entries;
    body.bytes = (void *)(uintptr_t)l->byte;
    body.len = l->bytes;
    memcpy(t->id[++t->given % WINDOW], l->id, sizeof l->id);
    if (!sent(t, amqp_basic_publish(t->amqp, LETTERS, amqp_empty_bytes, queue, 1, 0, &p, body), "publish"))
        lose(t);
}

static int writable(struct thread *t)
{
    struct pollfd p = {amqp_get_sockfd(t->amqp), POLLOUT, 0};
    return poll(&p, 1, 0) > 0;
}

/* One letter, where the broker takes letters and its socket has room. 1: one went. */
static int post_one(struct thread *t)
{
    struct parcel *l;
    int fits;
    if (t->amqp == NULL || t->blocked || !mailbox_waits(&t->rabbit->letters) || !writable(t))
        return 0;
    l = mailbox_take(&t->rabbit->letters);
    fits = l != NULL && l->connection == t->connections;
    if (fits)
        publish(t, l);
    free(l);
    return fits;
}

/* ---- orders */

/* An order that was given to a connection that is gone is none any more. */
static void obey_connected(struct thread *t, const struct parcel *o)
{
    switch (o->what) {
    case ORDER_CONSUME: consume(t, o->dialogue, 1); break;
    case ORDER_LEAVE: consume(t, o->dialogue, 0); break;
    case ORDER_HAND_BACK: hand_back(t, o->dialogue); break;
    case ORDER_ACKNOWLEDGE: acknowledge(t, o); break;
    case ORDER_DISCONNECT: disconnect(t); break;
    default: break;
    }
}

/* 0: that was the last one */
static int obey(struct thread *t, const struct parcel *o)
{
    if (o->what == ORDER_CONNECT)
        connect_now(t);
    else if (t->amqp != NULL && o->connection == t->connections)
        obey_connected(t, o);
    return o->what != ORDER_END;
}

static int obey_all(struct thread *t)
{
    struct parcel *o;
    int goes_on = 1;
    while (goes_on && (o = mailbox_take(&t->rabbit->orders)) != NULL) {
        begins(t);
        goes_on = obey(t, o);
        free(o);
    }
    return goes_on;
}

/* ---- the thread */

/* Until an order, a letter that may go, or something of the broker is there. While the round does not take its events nothing is read. */
static void rest(struct thread *t)
{
    int full = mailbox_bytes(&t->rabbit->events) >= EVENTS_BYTES, letters = t->amqp != NULL && !t->blocked, waits = letters && mailbox_waits(&t->rabbit->letters);
    struct pollfd polls[3] = {{mailbox_bell(&t->rabbit->orders), POLLIN, 0}, {letters && !waits ? mailbox_bell(&t->rabbit->letters) : -1, POLLIN, 0},
        {t->amqp != NULL ? amqp_get_sockfd(t->amqp) : -1, (short)((full ? 0 : POLLIN) | (waits ? POLLOUT : 0)), 0}};
    if (!t->more)
        poll(polls, 3, REST_MS);
}

/* The library sends heartbeats when it reads. */
static void heartbeat(struct thread *t)
{
    amqp_frame_t beat;
    memset(&beat, 0, sizeof beat);
    beat.frame_type = AMQP_FRAME_HEARTBEAT;
    if (!sent(t, amqp_send_frame(t->amqp, &beat), "heartbeat"))
        lose(t);
}

static void round_once(struct thread *t, uint64_t *beat_at)
{
    int n = 0;
    while (n++ < FRAMES && post_one(t)) {}
    if (t->amqp != NULL && mailbox_bytes(&t->rabbit->events) >= EVENTS_BYTES && now_ms() >= *beat_at) {
        heartbeat(t);
        *beat_at = now_ms() + 500 * t->config->heartbeat;
    }
    hear(t);
    end_old(t);
}

void *rabbit_serve(void *rabbit)
{
    static struct thread t; /* one bridge in a process */
    uint64_t beat_at = 0;
    int goes_on = 1;
    memset(&t, 0, sizeof t);
    t.rabbit = rabbit;
    t.config = t.rabbit->config;
    while (goes_on) {
        goes_on = obey_all(&t);
        begins(&t);
        round_once(&t, &beat_at);
        ends(&t);
        if (goes_on)
            rest(&t);
    }
    disconnect(&t);
    pthread_mutex_lock(&t.rabbit->guard);
    t.rabbit->ended = 1;
    pthread_cond_signal(&t.rabbit->rang);
    pthread_mutex_unlock(&t.rabbit->guard);
    return NULL;
}
