/*
 * The controllers' position, for tests with a real broker (RabbitMQ on the loopback address, user guest).
 *
 *     position PORT declare DIALOGUES [CENTRES]    makes the queues peat.up.00 .., peat.words.00 .., peat.forward.00 .., peat.down and peat.dead, or
 *                                                  empties them
 *     position PORT run DIALOGUES JOBS RATE FILE   gives jobs 1 to JOBS of each dialogue, each three times, RATE of them a
 *                                                  second (0: as fast as it goes), and writes each letter that comes to FILE;
 *                                                  prints `given` when the broker has stored all; until SIGTERM
 *     position PORT put DIALOGUE TIMES HEX         one payload, so many times; HEX: its digits, or @ and a file that has them
 *     position PORT clear DIALOGUE FIRST LAST [NAME=VALUE ..]   jobs that are CPDLC messages (clearance.h), with headers
 *     position PORT forward CENTRE FIRST LAST      forwards, each twice, of flights that are named by the jobs
 *     position PORT word DIALOGUE TEXT             a word about a dialogue
 *     position PORT depth DIALOGUES                prints how many payloads wait
 *     position PORT count QUEUE                    prints how many letters wait in it
 *     position PORT delete QUEUE                   deletes a queue, whatever is in it
 *     position PORT make QUEUE [MOST]              makes it; MOST: it holds so many, and what is given to it then is refused
 *     position verdict DIALOGUES JOBS DECKS FILE   draws up the account; status 0: its verdict is good
 *
 * PEAT_QUEUES has another word than peat for the names of the queues.
 *
 * A connection that is lost is made again. Jobs that were not confirmed are given again: a broker's client can not know.
 */
#include <amqp.h>
#include <amqp_tcp_socket.h>
#include <poll.h>
#include <signal.h>
#include <stdio.h>
#include <stdlib.h>
#include <string.h>
#include <sys/time.h>

#include "../clock.h"
#include "../jobs.h"
#include "../log.h"
#include "account.h"
#include "clearance.h"
#include "pattern.h"
#include "peatribbon.h"
#include "usage.h"

#define CHANNEL 1
#define WINDOW 2000 /* payloads that the broker may have to confirm */
#define COPIES 3
#define PATIENCE_MS 600000 /* a broker that was killed may take minutes to come back on a busy machine */

static amqp_connection_state_t amqp;
static int port;
static volatile sig_atomic_t done;

static void on_stop(int signal)
{
    (void)signal;
    done = 1;
}

static int fine(void) { return amqp_get_rpc_reply(amqp).reply_type == AMQP_RESPONSE_NORMAL; }

static void disconnect(void)
{
    if (amqp != NULL)
        amqp_destroy_connection(amqp);
    amqp = NULL;
}

static int connect_once(void)
{
    struct timeval wait = {2, 0}, longer = {20, 0};
    amqp_socket_t *s;
    disconnect();
    amqp = amqp_new_connection();
    s = amqp_tcp_socket_new(amqp);
    if (s == NULL || amqp_socket_open_noblock(s, "127.0.0.1", port, &wait) != AMQP_STATUS_OK)
        return 0;
    amqp_set_handshake_timeout(amqp, &longer);
    amqp_set_rpc_timeout(amqp, &longer);
    if (amqp_login(amqp, "/", 0, 131072, 0, AMQP_SASL_METHOD_PLAIN, "guest", "guest").reply_type != AMQP_RESPONSE_NORMAL)
        return 0;
    amqp_channel_open(amqp, CHANNEL);
    return fine();
}

static int connect_soon(void)
{
    uint64_t until = now_ms() + PATIENCE_MS;
    while (!done && now_ms() < until) {
        if (connect_once())
            return 1;
        poll(NULL, 0, 50);
    }
    return 0;
}

/* ---- queues */

static const char *prefix(void) { return getenv("PEAT_QUEUES") != NULL ? getenv("PEAT_QUEUES") : "peat"; }

static amqp_bytes_t queue_of(const char *kind, unsigned number)
{
    static char name[64];
    snprintf(name, sizeof name, "%.20s.%s.%02u", prefix(), kind, number);
    return amqp_cstring_bytes(name);
}

static amqp_bytes_t up(unsigned dialogue) { return queue_of("up", dialogue); }

static amqp_bytes_t words(unsigned dialogue) { return queue_of("words", dialogue); }

static amqp_bytes_t queue_called(const char *kind)
{
    static char name[64];
    snprintf(name, sizeof name, "%.20s.%s", prefix(), kind);
    return amqp_cstring_bytes(name);
}

/* A durable classic queue, with nothing in it. */
static int make_queue(amqp_bytes_t name)
{
    amqp_queue_declare(amqp, CHANNEL, name, 0, 1, 0, 0, amqp_empty_table);
    if (!fine())
        return 0;
    amqp_queue_purge(amqp, CHANNEL, name);
    return fine();
}

static int declare(unsigned dialogues, unsigned centres)
{
    unsigned d;
    for (d = 0; d < centres; d++)
        if (!make_queue(queue_of("forward", d)))
            return 1;
    for (d = 0; d < dialogues; d++)
        if (!make_queue(up(d)) || !make_queue(words(d)))
            return 1;
    return !make_queue(queue_called("down")) || !make_queue(queue_called("dead"));
}

static int depth(unsigned dialogues)
{
    unsigned long waiting = 0;
    unsigned d;
    for (d = 0; d < dialogues; d++) {
        amqp_queue_declare_ok_t *q = amqp_queue_declare(amqp, CHANNEL, up(d), 1, 0, 0, 0, amqp_empty_table);
        if (q == NULL)
            return 1;
        waiting += q->message_count;
    }
    printf("%lu\n", waiting);
    return 0;
}

static int count_in(const char *name)
{
    const amqp_queue_declare_ok_t *q = amqp_queue_declare(amqp, CHANNEL, amqp_cstring_bytes(name), 1, 0, 0, 0, amqp_empty_table);
    if (q == NULL)
        return 1;
    printf("%lu\n", (unsigned long)q->message_count);
    return 0;
}

static int delete_queue(const char *name)
{
    amqp_queue_delete(amqp, CHANNEL, amqp_cstring_bytes(name), 0, 0);
    return !fine();
}

static int make_limited(const char *name, const char *most)
{
    amqp_table_entry_t limit[2];
    amqp_table_t arguments = {most != NULL ? 2 : 0, limit};
    memset(limit, 0, sizeof limit);
    limit[0].key = amqp_cstring_bytes("x-max-length");
    limit[0].value.kind = AMQP_FIELD_KIND_I32;
    limit[0].value.value.i32 = most != NULL ? (int32_t)strtol(most, NULL, 10) : 0;
    limit[1].key = amqp_cstring_bytes("x-overflow");
    limit[1].value.kind = AMQP_FIELD_KIND_UTF8;
    limit[1].value.value.bytes = amqp_cstring_bytes("reject-publish");
    amqp_queue_declare(amqp, CHANNEL, amqp_cstring_bytes(name), 0, 1, 0, 0, arguments);
    return !fine();
}

#define HEADS 16

/* A payload with headers, each NAME=VALUE. */
static int give_with(amqp_bytes_t queue, const uint8_t *payload, size_t bytes, int heads, char **head)
{
    amqp_table_entry_t entries[HEADS];
    amqp_basic_properties_t p;
    amqp_bytes_t body = {bytes, (void *)(uintptr_t)payload};
    int i;
    memset(&p, 0, sizeof p);
    memset(entries, 0, sizeof entries);
    for (i = 0; i < heads && i < HEADS; i++) {
        size_t name = strcspn(head[i], "=");
        entries[i].key = (amqp_bytes_t){name, head[i]};
        entries[i].value.kind = AMQP_FIELD_KIND_UTF8;
        entries[i].value.value.bytes = amqp_cstring_bytes(head[i] + name + (head[i][name] == '='));
    }
    p._flags = AMQP_BASIC_DELIVERY_MODE_FLAG | (heads > 0 ? AMQP_BASIC_HEADERS_FLAG : 0);
    p.delivery_mode = 2;
    p.headers = (amqp_table_t){i, entries};
    return amqp_basic_publish(amqp, CHANNEL, amqp_empty_bytes, queue, 0, 0, &p, body) == AMQP_STATUS_OK;
}

static int give(unsigned dialogue, const uint8_t *payload, size_t bytes) { return give_with(up(dialogue), payload, bytes, 0, NULL); }

static int stored(int gave)
{
    amqp_frame_t f;
    return gave && amqp_simple_wait_frame(amqp, &f) == AMQP_STATUS_OK;
}

static int word(unsigned dialogue, const char *text)
{
    amqp_confirm_select(amqp, CHANNEL);
    return !fine() || !stored(give_with(words(dialogue), (const uint8_t *)text, strlen(text), 0, NULL));
}

static int forward(unsigned centre, uint64_t first, uint64_t last)
{
    uint8_t message[PEAT_BUFFER_LEAST], e[PEAT_BUFFER_LEAST];
    char flight[32], address[] = "x-peat-address=3c65a1", direction[] = "x-peat-direction=uplink", *head[] = {flight, address, direction};
    amqp_confirm_select(amqp, CHANNEL);
    if (!fine())
        return 1;
    for (; first <= last; first++) {
        unsigned bits = clearance_make(message, 0, first, 0);
        struct peat_written_envelope written = peat_write_envelope(PEAT_ENVELOPE_TO_SEND, first, bits, message, (bits + 7u) / 8u, e, sizeof e);
        snprintf(flight, sizeof flight, "x-peat-flight=J%06u", (unsigned)(first % 1000000));
        if (!stored(give_with(queue_of("forward", centre), e, peat_written_bytes(written), 3, head)) ||
            !stored(give_with(queue_of("forward", centre), e, peat_written_bytes(written), 3, head)))
            return 1;
    }
    return 0;
}

static int clear(unsigned dialogue, uint64_t first, uint64_t last, int heads, char **head)
{
    uint8_t message[PEAT_BUFFER_LEAST], e[PEAT_BUFFER_LEAST];
    amqp_confirm_select(amqp, CHANNEL);
    if (!fine())
        return 1;
    for (; first <= last; first++) {
        unsigned bits = clearance_make(message, dialogue, first, 7);
        struct peat_written_envelope written = peat_write_envelope(PEAT_ENVELOPE_TO_SEND, first, bits, message, (bits + 7u) / 8u, e, sizeof e);
        if (!stored(give_with(up(dialogue), e, peat_written_bytes(written), heads, head)))
            return 1;
    }
    return 0;
}

static int put(unsigned dialogue, unsigned times, const char *hex)
{
    static uint8_t payload[131072]; /* from a file, where the word begins with @ */
    static char text[2 * sizeof payload + 1];
    amqp_frame_t f;
    size_t n;
    unsigned byte;
    if (*hex == '@') {
        FILE *file = fopen(hex + 1, "r");
        if (file == NULL)
            return 1;
        n = fread(text, 1, sizeof text - 1, file);
        text[n] = '\0';
        hex = text;
        fclose(file);
    }
    for (n = 0; n < sizeof payload && sscanf(hex + 2 * n, "%2x", &byte) == 1; n++)
        payload[n] = (uint8_t)byte;
    amqp_confirm_select(amqp, CHANNEL);
    if (!fine())
        return 1;
    while (times-- > 0)
        if (!give(dialogue, payload, n) || amqp_simple_wait_frame(amqp, &f) != AMQP_STATUS_OK)
            return 1;
    return 0;
}

/* ---- running: job j of every dialogue is one step; a step is given in copies, the later ones among later steps */

struct giving {
    unsigned dialogues;
    uint64_t steps, next;      /* the next step */
    uint64_t sent, confirmed;  /* payloads of this connection: all up to this one are confirmed */
    uint64_t per_second, began;
    uint64_t step_of[WINDOW];  /* the step in which a payload was given, by its place; 0: confirmed */
    FILE *letters;
};

static int give_job(struct giving *g, unsigned dialogue, uint64_t job)
{
    uint8_t message[PATTERN_MOST], e[PEAT_BUFFER_LEAST];
    size_t n;
    struct peat_written_envelope written;
    if (job < 1 || job > g->steps)
        return 1;
    n = pattern_make(message, dialogue, job, now_us());
    written = peat_write_envelope(PEAT_ENVELOPE_TO_SEND, job, 8 * n, message, n, e, sizeof e);
    g->step_of[++g->sent % WINDOW] = g->next;
    return give(dialogue, e, peat_written_bytes(written));
}

/* The jobs of this step, and copies of those of the two steps before. */
static int give_step(struct giving *g)
{
    unsigned d;
    for (d = 0; d < g->dialogues; d++)
        if (!give_job(g, d, g->next) || !give_job(g, d, g->next - 1) || !give_job(g, d, g->next - 2))
            return 0;
    g->next++;
    return 1;
}

static int may_give(const struct giving *g)
{
    if (g->next > g->steps + 2 || g->sent - g->confirmed + COPIES * g->dialogues >= WINDOW)
        return 0;
    return g->per_second == 0 || g->next <= 1 + (now_ms() - g->began) * g->per_second / 1000 / g->dialogues;
}

/* a word and a space; a space in it becomes a line */
static void put_word(FILE *f, amqp_bytes_t word)
{
    size_t i;
    for (i = 0; i < word.len; i++)
        fputc(((const char *)word.bytes)[i] == ' ' ? '_' : ((const char *)word.bytes)[i], f);
    fputc(' ', f);
}

static void keep_letter(struct giving *g, const amqp_envelope_t *e)
{
    const amqp_basic_properties_t *p = &e->message.properties;
    const uint8_t *body = e->message.body.bytes;
    static char reason[20000]; /* of a dead one; of others all their headers, each behind a semicolon */
    int n = p->_flags & AMQP_BASIC_HEADERS_FLAG ? p->headers.num_entries : 0;
    size_t i, used = 0;
    strcpy(reason, "-");
    for (i = 0; i < (size_t)n && used < sizeof reason - 1; i++) {
        const amqp_table_entry_t *h = &p->headers.entries[i];
        if (h->value.kind != AMQP_FIELD_KIND_UTF8)
            continue;
        if (h->key.len == 13 && memcmp(h->key.bytes, "x-peat-reason", 13) == 0)
            snprintf(reason, sizeof reason, "%.*s", (int)h->value.value.bytes.len, (const char *)h->value.value.bytes.bytes);
        else
            used += (size_t)snprintf(reason + used, sizeof reason - used, ";%.*s=%.*s", (int)h->key.len, (const char *)h->key.bytes, (int)h->value.value.bytes.len,
                (const char *)h->value.value.bytes.bytes);
    }
    put_word(g->letters, p->message_id);
    put_word(g->letters, p->correlation_id);
    put_word(g->letters, p->type);
    put_word(g->letters, amqp_cstring_bytes(reason));
    for (i = 0; i < e->message.body.len; i++)
        fprintf(g->letters, "%02x", body[i]);
    fputs(".\n", g->letters);
    fflush(g->letters);
}

/* The broker stored a payload, or all up to it. Payloads of different queues may be confirmed in another order. */
static void confirmed(struct giving *g, uint64_t place, int all)
{
    uint64_t at;
    for (at = all ? g->confirmed + 1 : place; at <= place && at <= g->sent; at++)
        g->step_of[at % WINDOW] = 0;
    while (g->confirmed < g->sent && g->step_of[(g->confirmed + 1) % WINDOW] == 0)
        g->confirmed++;
}

/* 1: something came; 0: nothing; -1: the connection is lost. A letter is written down before it is acknowledged. */
static int hear(struct giving *g)
{
    struct timeval now = {0, 0}, again = {0, 0};
    amqp_envelope_t e;
    amqp_rpc_reply_t r;
    amqp_frame_t f;
    amqp_maybe_release_buffers(amqp);
    r = amqp_consume_message(amqp, &e, &now, 0);
    if (r.reply_type == AMQP_RESPONSE_NORMAL) {
        uint64_t tag = e.delivery_tag;
        keep_letter(g, &e);
        amqp_destroy_envelope(&e);
        return amqp_basic_ack(amqp, CHANNEL, tag, 0) == AMQP_STATUS_OK ? 1 : -1;
    }
    if (r.reply_type != AMQP_RESPONSE_LIBRARY_EXCEPTION)
        return -1;
    if (r.library_error == AMQP_STATUS_TIMEOUT)
        return 0;
    if (r.library_error != AMQP_STATUS_UNEXPECTED_STATE || amqp_simple_wait_frame_noblock(amqp, &f, &again) != AMQP_STATUS_OK)
        return -1;
    if (f.frame_type == AMQP_FRAME_METHOD && f.payload.method.id == AMQP_BASIC_ACK_METHOD) {
        const amqp_basic_ack_t *a = f.payload.method.decoded;
        confirmed(g, a->delivery_tag, a->multiple);
        return 1;
    }
    return -1;
}

static int begin(struct giving *g)
{
    if (g->sent > g->confirmed) /* steps that were not confirmed are given again */
        g->next = g->step_of[(g->confirmed + 1) % WINDOW];
    memset(g->step_of, 0, sizeof g->step_of);
    g->sent = g->confirmed = 0;
    if (!connect_soon())
        return 0;
    amqp_basic_qos(amqp, CHANNEL, 0, 500, 0);
    amqp_confirm_select(amqp, CHANNEL);
    amqp_basic_consume(amqp, CHANNEL, queue_called("down"), amqp_empty_bytes, 0, 0, 0, amqp_empty_table);
    amqp_basic_consume(amqp, CHANNEL, queue_called("dead"), amqp_empty_bytes, 0, 0, 0, amqp_empty_table);
    return 1;
}

static int run(unsigned dialogues, uint64_t jobs, uint64_t rate, const char *file)
{
    static struct giving g;
    int said = 0;
    g.dialogues = dialogues;
    g.steps = jobs;
    g.next = 1;
    g.per_second = rate;
    g.began = now_ms();
    g.letters = fopen(file, "a");
    if (g.letters == NULL || !begin(&g))
        return 1;
    while (!done) {
        struct pollfd p = {amqp_get_sockfd(amqp), POLLIN, 0};
        int heard = hear(&g), gave = 1;
        if (heard >= 0 && may_give(&g))
            gave = give_step(&g);
        else if (heard == 0 && !amqp_frames_enqueued(amqp) && !amqp_data_in_buffer(amqp))
            poll(&p, 1, 5);
        if ((heard < 0 || !gave) && !begin(&g))
            return 1;
        if (!said && g.next > g.steps + 2 && g.sent == g.confirmed) {
            puts("given");
            fflush(stdout);
            said = 1;
        }
    }
    disconnect();
    return fclose(g.letters) != 0;
}

/* ---- the account */

static int read_letters(struct account *a, const char *path)
{
    FILE *f = fopen(path, "r");
    static char hex[4000000], id[64], type[32], reason[20001];
    static uint8_t body[2000000];
    char of[32];
    unsigned byte;
    size_t n;
    if (f == NULL)
        return 0;
    while (fscanf(f, "%63s %31s %31s %20000s %3999999[0-9a-f.]", id, of, type, reason, hex) == 5) {
        for (n = 0; sscanf(hex + 2 * n, "%2x", &byte) == 1; n++)
            body[n] = (uint8_t)byte;
        if (of[0] >= '0' && of[0] <= '9') /* else it is of another centre */
            account_letter(a, id, (unsigned)strtoul(of, NULL, 10), type, body, n);
    }
    fclose(f);
    return 1;
}

static int verdict(unsigned dialogues, uint64_t jobs, const char *decks, const char *letters)
{
    static struct account a;
    struct verdict v;
    unsigned d;
    uint64_t j;
    for (d = 0; d < dialogues; d++)
        for (j = 1; j <= jobs; j++)
            account_job(&a, d, j)->given = COPIES;
    if (!account_decks(&a, decks) || !read_letters(&a, letters))
        return 2;
    v = account_verdict(&a);
    verdict_print(&v, &a, stdout);
    return verdict_good(&v) ? 0 : 1;
}

static unsigned number(const char *text) { return (unsigned)strtoul(text, NULL, 10); }

int main(int argc, char **argv)
{
    struct sigaction s;
    const char *verb = argc > 2 ? argv[2] : "";
    know_words(argc, argv, "position", "usage: position PORT WORD ..; the top of bridge/sim/position.c has the words");
    memset(&s, 0, sizeof s);
    s.sa_handler = on_stop;
    sigaction(SIGTERM, &s, NULL);
    signal(SIGPIPE, SIG_IGN);
    if (argc == 6 && strcmp(argv[1], "verdict") == 0)
        return verdict(number(argv[2]), number(argv[3]), argv[4], argv[5]);
    if (argc > 2)
        port = (int)number(argv[1]);
    if (argc == 7 && strcmp(verb, "run") == 0)
        return run(number(argv[3]), number(argv[4]), number(argv[5]), argv[6]);
    if (argc < 4 || !connect_soon())
        return 2;
    if (strcmp(verb, "declare") == 0)
        return declare(number(argv[3]), argc > 4 ? number(argv[4]) : 0);
    if (strcmp(verb, "depth") == 0)
        return depth(number(argv[3]));
    if (strcmp(verb, "count") == 0)
        return count_in(argv[3]);
    if (strcmp(verb, "delete") == 0)
        return delete_queue(argv[3]);
    if (strcmp(verb, "clear") == 0 && argc >= 6)
        return clear(number(argv[3]), number(argv[4]), number(argv[5]), argc - 6, argv + 6);
    if (strcmp(verb, "forward") == 0 && argc == 6)
        return forward(number(argv[3]), number(argv[4]), number(argv[5]));
    if (strcmp(verb, "word") == 0 && argc == 5)
        return word(number(argv[3]), argv[4]);
    if (strcmp(verb, "make") == 0)
        return make_limited(argv[3], argc > 4 ? argv[4] : NULL);
    if (strcmp(verb, "put") == 0 && argc == 6)
        return put(number(argv[3]), number(argv[4]), argv[5]);
    return 2;
}
