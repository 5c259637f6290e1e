/*
 * Aircraft: up to 48, each with an air record and a flight deck that counts what it sees.
 *
 *     aircraft PATH DIALOGUES ACCOUNT [ABORT [DOWN [REPLY [START [PLAIN [MOVES]]]]]]
 *
 * PATH has {} where the number of the aircraft goes: a packet socket for each, on which the bridge connects. ABORT: once in
 * so many messages the flight deck aborts. DOWN: once in so many it sends a message down. REPLY: once in so many it answers with WILCO all
 * CPDLC messages that it has not answered; it counts a message whose number is that of one it has not answered. START: 1, the aircraft start
 * the dialogues. PLAIN: those of application type 2, as 0-3,7. MOVES: a folder, for the moves of each aircraft (docs/HOST.md, "A recorded day"). SIGUSR1: every connection is
 * dropped, as by a carrier that fails. SIGUSR2: the account so far is written. SIGTERM: the account is written and the program ends.
 *
 * The account: a line with what was counted; then for each job that a flight deck saw `NUMBER JOB TIMES`.
 */
#include <errno.h>
#include <poll.h>
#include <signal.h>
#include <stdarg.h>
#include <stdio.h>
#include <stdlib.h>
#include <string.h>
#include <sys/socket.h>
#include <sys/un.h>
#include <unistd.h>

#include "../clock.h"
#include "../config.h"
#include "../digest.h"
#include "../jobs.h"
#include "../link.h"
#include "clearance.h"
#include "pattern.h"
#include "usage.h"

struct aircraft {
    unsigned number;
    uint8_t record[PEAT_RECORD_BYTES];
    int listener, socket; /* socket -1: not connected */
    FILE *moves;          /* NULL: they are not recorded */
    uint32_t *seen;       /* times, by job */
    size_t room;
    uint64_t last, down;
    uint64_t open; /* bit n: a message with the number n was not answered */
};

static struct aircraft fleet[DIALOGUES_MOST];
static unsigned aircraft_count, abort_once_in, down_once_in, reply_once_in, starts;
static unsigned char plain[DIALOGUES_MOST]; /* 1: it is of application type 2 */
static const char *path;
static struct { unsigned long delivered, duplicates, disorder, damaged, opened, ended, aborted, failed, refused, down, numbers, twice; } account;
static uint32_t *latency_us;
static size_t latencies, latency_room;
static volatile sig_atomic_t drop, asked, done;

static uint8_t apdu[PEAT_BUFFER_LEAST], delivered[PEAT_BUFFER_LEAST];

#define RECORD(a) (a)->record, sizeof (a)->record
#define BUFFERS PEAT_BUFFERS(apdu, delivered)
#define JOBS_MOST 10000000

static void on_signal(int signal)
{
    if (signal == SIGUSR1)
        drop = 1;
    else if (signal == SIGUSR2)
        asked = 1;
    else
        done = 1;
}

/* ---- the recorded day: an aircraft is never killed, so a line is written when it is true */

static void note(struct aircraft *a, const char *format, ...)
{
    va_list more;
    if (a->moves == NULL)
        return;
    va_start(more, format);
    vfprintf(a->moves, format, more);
    va_end(more);
    fputc('\n', a->moves);
}

static void note_hears(struct aircraft *a, const struct primitive *p, struct peat_answer answer)
{
    static const char *const words[][2] = {[PEAT_D_START_REQUEST] = {"start", "start"}, [PEAT_D_START_RESPONSE] = {"start-accepted", "start-rejected"},
        [PEAT_D_DATA_REQUEST] = {"data", "data"}, [PEAT_D_END_REQUEST] = {"end", "end"}, [PEAT_D_END_RESPONSE] = {"end-accepted", "end-rejected"},
        [PEAT_D_ABORT_REQUEST] = {"abort", "abort"}};
    int aborts = peat_refusal(answer) == PEAT_TAKEN && peat_invoked(answer) == PEAT_D_ABORT_REQUEST;
    if (p->is.kind != PEAT_SILENT && p->is.kind < sizeof words / sizeof *words)
        note(a, "hears-%s %llu%s", words[p->is.kind][p->is.parameter != PEAT_ACCEPTED], (unsigned long long)p->is.number, aborts ? " aborts" : "");
}

static int once_in(unsigned n) { return n > 0 && rand() % (int)n == 0; }

/* ---- the flight deck */

static uint32_t *seen_of(struct aircraft *a, uint64_t job)
{
    size_t before = a->room;
    a->seen = grow(a->seen, &a->room, (size_t)job + 1, sizeof *a->seen);
    memset(a->seen + before, 0, (a->room - before) * sizeof *a->seen);
    return &a->seen[job];
}

/* The job of a CPDLC message, whose number is open here until the flight deck has answered it. */
static uint64_t see_clearance(struct aircraft *a, const uint8_t *message, unsigned bits)
{
    unsigned number = 0;
    uint64_t job = clearance_job(message, bits, a->number, &number), bit = (uint64_t)1 << number % 64;
    if (job == 0)
        return 0;
    account.numbers++;
    account.twice += (a->open & bit) != 0;
    a->open |= bit;
    return job;
}

/* The message of what was delivered: all of it in type 2, else a part; its bits, or 0. */
static unsigned message_in(const struct aircraft *a, const uint8_t *data, struct peat_answer answer, uint8_t *message)
{
    struct peat_part_answer part;
    if (peat_record_type(a->record) == PEAT_PLAIN) {
        memcpy(message, data, peat_data_bytes(answer));
        return peat_data_bits(answer);
    }
    part = peat_data_part(PEAT_PART_MESSAGE, data, peat_data_bytes(answer), message, PEAT_BUFFER_LEAST);
    return peat_refusal(part) == PEAT_TAKEN ? peat_part_bits(part) : 0;
}

static void see(struct aircraft *a, const uint8_t *data, struct peat_answer answer)
{
    uint8_t message[PEAT_BUFFER_LEAST];
    unsigned bits = message_in(a, data, answer, message);
    uint64_t given = 0, job = bits > 0 ? pattern_job(message, (bits + 7u) / 8u, a->number, &given) : 0;
    note(a, "bits %llu", (unsigned long long)digest_of(message, bits));
    if (job == 0 && bits > 0)
        job = see_clearance(a, message, bits);
    if (job == 0 || job > JOBS_MOST) {
        account.damaged++;
        return;
    }
    if (++*seen_of(a, job) > 1) {
        account.duplicates++;
        return;
    }
    account.delivered++;
    account.disorder += job <= a->last;
    a->last = job;
    if (given != 0) {
        latency_us = grow(latency_us, &latency_room, latencies + 1, sizeof *latency_us);
        latency_us[latencies++] = (uint32_t)(now_us() - given);
    }
}

/* ---- the air machine */

static void lose(struct aircraft *a);

static void act(struct aircraft *a, struct peat_answer answer)
{
    struct primitive p;
    if (peat_refusal(answer) != PEAT_TAKEN) {
        account.refused++;
        return;
    }
    if (peat_invoked(answer) != PEAT_SILENT && a->socket >= 0) {
        p.is = peat_primitive_of(answer, a->record);
        memcpy(p.data, apdu, p.is.user_data_len);
        if (packet_send(a->socket, &p) == LINK_DONE)
            note(a, "sends");
        else
            lose(a); /* the ground does not read: for this aircraft the carrier has failed */
    }
    switch (peat_told(answer)) {
    case PEAT_START_INDICATION:
        account.opened++;
        a->open = 0; /* a new dialogue: all numbers are free */
        note(a, "accepts-start");
        act(a, peat_start_response(RECORD(a), PEAT_ACCEPTED, PEAT_NO_DATA, BUFFERS));
        break;
    case PEAT_START_CONFIRMATION:
        account.opened += peat_told_parameter(answer) == PEAT_ACCEPTED;
        a->open = 0;
        break;
    case PEAT_MESSAGE_INDICATION:
        see(a, delivered, answer);
        note(a, "shows");
        break;
    case PEAT_END_INDICATION:
        account.ended++;
        note(a, "accepts-end");
        act(a, peat_end_response(RECORD(a), PEAT_ACCEPTED, PEAT_NO_DATA, BUFFERS));
        break;
    }
}

/* The connection is gone. */
static void lose(struct aircraft *a)
{
    if (a->socket >= 0) {
        close(a->socket);
        note(a, "lost");
    }
    a->socket = -1;
    if (peat_record_state(a->record) != PEAT_IDLE) {
        account.failed++;
        act(a, peat_d_p_abort_indication(RECORD(a), peat_record_number(a->record), BUFFERS));
    }
}

static void say(struct aircraft *a, uint64_t job, const struct peat_data *data)
{
    struct peat_answer answer = peat_message_request(RECORD(a), job, PEAT_DATA(*data), BUFFERS);
    if (peat_refusal(answer) == PEAT_TAKEN) {
        note(a, "takes %llu", (unsigned long long)job);
        note(a, "bits %llu", (unsigned long long)digest_of(data->message, (unsigned)data->message_bits));
    }
    act(a, answer);
}

/* The flight deck answers every message that it has not answered. */
static void reply(struct aircraft *a)
{
    uint8_t message[PEAT_BUFFER_LEAST];
    unsigned n;
    for (n = 0; n < PEAT_BOOK_NUMBERS && peat_record_state(a->record) == PEAT_DIALOGUE; n++)
        if (a->open >> n & 1) {
            unsigned bits = clearance_reply(message, (unsigned)(a->down % 64), n, CLEARANCE_WILCO);
            const struct peat_data data = {.message = message, .message_len = (bits + 7u) / 8u, .message_bits = bits};
            a->open &= ~((uint64_t)1 << n);
            account.down++;
            say(a, ++a->down, &data);
        }
}

/* Now and then the flight deck answers a message with something of its own: in type 22 bits that are no message, in type 2 a message. */
static void fly(struct aircraft *a)
{
    uint8_t message[PEAT_BUFFER_LEAST];
    struct peat_data data = {.message = message, .message_len = 9, .message_bits = 72};
    if (peat_record_state(a->record) != PEAT_DIALOGUE)
        return;
    if (once_in(abort_once_in)) {
        account.aborted++;
        note(a, "aborts");
        act(a, peat_user_abort(RECORD(a), PEAT_COMMANDED_TERMINATION, BUFFERS));
    } else if (once_in(down_once_in)) {
        account.down++;
        pattern_number(message, ++a->down);
        message[8] = (uint8_t)a->number;
        if (peat_record_type(a->record) == PEAT_PLAIN) {
            data.message_bits = clearance_reply(message, (unsigned)(a->down % 64), 0, CLEARANCE_STANDBY);
            data.message_len = (data.message_bits + 7u) / 8u;
        }
        say(a, a->down, &data);
    } else if (once_in(reply_once_in)) {
        reply(a);
    }
}

static void hear(struct aircraft *a)
{
    struct primitive p;
    int n;
    for (n = 0; n < 64 && a->socket >= 0; n++) {
        enum link_answer got = packet_receive(a->socket, &p);
        if (got == LINK_LATER)
            return;
        if (got == LINK_BROKEN) {
            lose(a);
        } else if (peat_record_state(a->record) == PEAT_IDLE && p.is.kind != PEAT_D_START_REQUEST) {
            note_hears(a, &p, (struct peat_answer){PEAT_STALE});
        } else {
            struct peat_answer answer = peat_hand_over(RECORD(a), p.is, PEAT_FACILITY, p.data, BUFFERS);
            note_hears(a, &p, answer);
            act(a, answer);
            if (p.is.kind == PEAT_D_DATA_REQUEST)
                fly(a);
        }
    }
}

/* A new connection: what was left of an old one is gone with it. */
static void meet(struct aircraft *a)
{
    int s = accept(a->listener, NULL, NULL);
    if (s < 0)
        return;
    lose(a);
    a->socket = s;
    note(a, "meets");
    if (starts) {
        struct peat_answer answer = peat_start(RECORD(a), peat_record_number(a->record) + 1, PEAT_CPDLC, PEAT_CLASS_ANY, PEAT_NO_SECURITY, PEAT_NO_DATA, BUFFERS);
        if (peat_refusal(answer) == PEAT_TAKEN)
            note(a, "starts-cpdlc %llu", (unsigned long long)peat_record_number(a->record));
        act(a, answer);
    }
}

/* ---- beginning and end */

static int record_moves(struct aircraft *a, const char *folder)
{
    char name[4096];
    int n = snprintf(name, sizeof name, "%s/%02u.air", folder, a->number);
    a->moves = n > 0 && (size_t)n < sizeof name ? fopen(name, "w") : NULL;
    note(a, "from %c 0 0", starts ? 'a' : 'g');
    return a->moves != NULL;
}

static int end_moves(struct aircraft *a) { return a->moves == NULL || (ferror(a->moves) | fclose(a->moves)) == 0; }

static int board(struct aircraft *a, unsigned number)
{
    struct sockaddr_un address;
    a->number = number;
    a->socket = -1;
    a->listener = packet_socket(path, number, &address);
    peat_fresh(RECORD(a), PEAT_AIR, PEAT_NO_SECURITY, PEAT_FORWARDS_NOT, 1, plain[number] ? PEAT_PLAIN : PEAT_PROTECTED);
    unlink(address.sun_path);
    return a->listener >= 0 && bind(a->listener, (const struct sockaddr *)&address, sizeof address) == 0 && listen(a->listener, 4) == 0;
}

static void mark_plain(void *with, uint64_t first_of, uint64_t last)
{
    (void)with;
    for (; first_of <= last && first_of < DIALOGUES_MOST; first_of++)
        plain[first_of] = 1;
}

static int by_size(const void *a, const void *b)
{
    uint32_t x = *(const uint32_t *)a, y = *(const uint32_t *)b;
    return x < y ? -1 : x > y;
}

/* The account takes its name when it is whole: a reader finds all of one, or all of the one before. */
static int write_account(const char *to)
{
    char part[4096];
    FILE *f;
    unsigned n;
    size_t job;
    if (snprintf(part, sizeof part, "%s.part", to) >= (int)sizeof part || (f = fopen(part, "w")) == NULL)
        return 1;
    fprintf(f, "# delivered %lu duplicates %lu disorder %lu damaged %lu opened %lu ended %lu aborted %lu failed %lu refused %lu down %lu numbers %lu twice %lu", account.delivered,
        account.duplicates, account.disorder, account.damaged, account.opened, account.ended, account.aborted, account.failed, account.refused, account.down, account.numbers, account.twice);
    if (latencies > 0) {
        qsort(latency_us, latencies, sizeof *latency_us, by_size);
        fprintf(f, " p50_us %u p99_us %u most_us %u", latency_us[latencies / 2], latency_us[latencies * 99 / 100], latency_us[latencies - 1]);
    }
    fputc('\n', f);
    for (n = 0; n < aircraft_count; n++)
        for (job = 0; job < fleet[n].room; job++)
            if (fleet[n].seen[job] > 0)
                fprintf(f, "%u %lu %u\n", n, (unsigned long)job, fleet[n].seen[job]);
    return fclose(f) != 0 || rename(part, to) != 0;
}

static void round_once(void)
{
    struct pollfd polls[2 * DIALOGUES_MOST];
    unsigned n;
    for (n = 0; n < aircraft_count; n++) {
        polls[2 * n] = (struct pollfd){fleet[n].listener, POLLIN, 0};
        polls[2 * n + 1] = (struct pollfd){fleet[n].socket, POLLIN, 0};
    }
    if (poll(polls, 2 * aircraft_count, 1000) < 0 && errno != EINTR)
        done = 1;
    for (n = 0; n < aircraft_count; n++) {
        hear(&fleet[n]);
        meet(&fleet[n]);
        if (drop)
            lose(&fleet[n]);
    }
    drop = 0;
}

int main(int argc, char **argv)
{
    struct sigaction a;
    unsigned n;
    know_words(argc, argv, "aircraft", "usage: aircraft PATH DIALOGUES ACCOUNT [ABORT [DOWN [REPLY [START [PLAIN [MOVES]]]]]]; the top of bridge/sim/aircraft.c says what they are");
    if (argc < 4 || argc > 10 || (argc > 8 && !jobs_read(argv[8], mark_plain, NULL)) || strtoul(argv[2], NULL, 10) < 1 || strtoul(argv[2], NULL, 10) > DIALOGUES_MOST) {
        fputs("usage: aircraft PATH DIALOGUES ACCOUNT [ABORT [DOWN [REPLY [START [PLAIN [MOVES]]]]]]\n", stderr);
        return 2;
    }
    path = argv[1];
    aircraft_count = (unsigned)strtoul(argv[2], NULL, 10);
    abort_once_in = argc > 4 ? (unsigned)strtoul(argv[4], NULL, 10) : 0;
    down_once_in = argc > 5 ? (unsigned)strtoul(argv[5], NULL, 10) : 0;
    reply_once_in = argc > 6 ? (unsigned)strtoul(argv[6], NULL, 10) : 0;
    starts = argc > 7 ? (unsigned)strtoul(argv[7], NULL, 10) : 0;
    memset(&a, 0, sizeof a);
    a.sa_handler = on_signal;
    sigaction(SIGTERM, &a, NULL);
    sigaction(SIGUSR1, &a, NULL);
    sigaction(SIGUSR2, &a, NULL);
    srand((unsigned)getpid());
    for (n = 0; n < aircraft_count; n++)
        if (!board(&fleet[n], n)) {
            fprintf(stderr, "aircraft: %s: no socket for number %u\n", path, n);
            return 2;
        }
    for (n = 0; argc > 9 && n < aircraft_count; n++)
        if (!record_moves(&fleet[n], argv[9])) {
            fprintf(stderr, "aircraft: %s: no file for the moves of number %u\n", argv[9], n);
            return 2;
        }
    puts("ready");
    fflush(stdout);
    while (!done) {
        round_once();
        if (asked) {
            asked = 0;
            if (write_account(argv[3]) != 0)
                return 1;
        }
    }
    for (n = 0; n < aircraft_count; n++)
        if (!end_moves(&fleet[n]))
            return 1;
    return write_account(argv[3]);
}
