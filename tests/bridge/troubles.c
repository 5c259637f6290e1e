/*
 * What must not stall the bridge, nor lock up a dialogue: an aircraft that starts dialogues, a record that is jammed, queues that are deleted,
 * letters that are refused, a broker that takes none, payloads of thousands of envelopes, jobs that are laid aside and come again.
 */
#define _DEFAULT_SOURCE
#include <poll.h>
#include <signal.h>
#include <stdio.h>
#include <stdlib.h>
#include <string.h>
#include <sys/socket.h>
#include <sys/un.h>
#include <unistd.h>

#include "../../bridge/clock.h"
#include "../../bridge/log.h"
#include "../../bridge/renumber.h"
#include "../../bridge/witness.h"
#include "matrix.h"

#define SOON 15000 /* ms: what comes at all has come */

static const struct plan none[1] = {{0}};

/* Waits until it holds, ms at most. */
static int becomes(int (*holds)(void), unsigned ms)
{
    uint64_t until = now_ms() + ms;
    while (!holds() && now_ms() < until)
        poll(NULL, 0, 1);
    return holds();
}

static int quiet(void) { return stage_quiet(&stage); }

/* how often the bridges' log of this stage has a text */
static unsigned logged(const char *text)
{
    char path[160], line[2048];
    unsigned n = 0;
    FILE *f;
    snprintf(path, sizeof path, "%s/log", stage.folder);
    f = fopen(path, "r");
    while (f != NULL && fgets(line, sizeof line, f) != NULL)
        n += strstr(line, text) != NULL;
    if (f != NULL)
        fclose(f);
    return n;
}

/* A page row's number; -1: it is not there. */
static double shown(const char *row)
{
    static char page[65536];
    char *at;
    read_page((unsigned)stage.config.metrics_port, page, sizeof page);
    at = strstr(page, row);
    return at != NULL ? atof(at + strlen(row)) : -1;
}

static void stop(pid_t bridge, const char *name)
{
    kill(bridge, SIGTERM);
    judged(stage_wait(bridge, PLENTY) == 0, name);
    memory_lost(memory);
}

/* ---- a start from the aircraft */

/* A connection of the bridge's at an aircraft that is played here; -1: none came */
static int meet(int listener)
{
    struct pollfd p = {listener, POLLIN, 0};
    return poll(&p, 1, PLENTY) == 1 ? accept(listener, NULL, NULL) : -1;
}

static void say(int to, unsigned kind, uint64_t number)
{
    struct primitive p;
    memset(&p, 0, sizeof p);
    p.is.kind = kind;
    p.is.number = number;
    p.is.has_user_data = PEAT_NO_USER_DATA;
    packet_send(to, &p);
}

/* An aircraft answers the bridge's start with a start of its own, with the highest number there is; then with a confirmation of that number. Then
   another one flies: its dialogue opens, and its job arrives. */
static void start_from_aircraft(void)
{
    const char *name = "start from aircraft";
    struct sockaddr_un a;
    struct pollfd p;
    int listener, s, i;
    pid_t bridge;
    if (!chosen(name))
        return;
    set(1);
    stage.config.metrics_port = free_port();
    listener = packet_socket(stage.config.link, 0, &a);
    check(bind(listener, (struct sockaddr *)&a, sizeof a) == 0 && listen(listener, 4) == 0, name, "no socket");
    bridge = stage_bridge(&stage, none[0]);
    s = meet(listener);
    p = (struct pollfd){s, POLLIN, 0};
    check(s >= 0 && poll(&p, 1, PLENTY) == 1, name, "the bridge starts nothing");
    for (i = 0; i < 50; i++)
        say(s, PEAT_D_START_REQUEST, UINT64_MAX);
    say(s, PEAT_D_START_RESPONSE, UINT64_MAX);
    for (i = 0; HAS_PAGE && i < SOON && shown("\npeat_primitives_unexpected_total ") < 51; i += SHOWN_MS)
        poll(NULL, 0, 1);
    check(!HAS_PAGE || shown("\npeat_primitives_unexpected_total ") == 51, name, "they are not counted");
    check(logged("\"event\":\"unexpected primitive\"") >= 1 && logged("\"event\":\"unexpected primitive\"") < 10, name, "no line says so, or too many do");
    close(s);
    close(listener);
    unlink(a.sun_path);
    stage_aircraft(&stage, 0, 0);
    stage_job(&stage, 0, 1, 3, 0);
    check(becomes(quiet, SOON), name, "the dialogue is locked up");
    stop(bridge, name);
    check(stage.verdict.ended == 1, name, "the job does not arrive");
    check(logged("\"event\":\"start refused\"") == 0, name, "a start is refused");
}

/* ---- a record that is jammed already */

/* In a process of its own: the journal's record gets this number; or the command is run. */
static int on_journal(uint64_t number)
{
    pid_t pid;
    fflush(stdout);
    pid = fork();
    if (pid == 0) {
        struct journal j;
        struct kept k;
        struct taken taken[DIALOGUES_MOST];
        int i, good = 1;
        if (freopen("/dev/null", "w", stdout) == NULL)
            _exit(99);
        journal_open(&j, &stage.config, JOURNAL_RUN);
        if (number == 0) {
            good = renumber(&j, &stage.config, 0);
        } else {
            j.take(&j, taken);
            j.load(&j, 0, &k);
            for (i = 0; i < 8; i++)
                k.record[PEAT_RECORD_NUMBER + i] = (uint8_t)(number >> (56 - 8 * i));
            j.keep(&j, 0, &k);
            j.commit(&j);
            witness_write(stage.config.witness, j.id, j.commits(&j));
        }
        j.close(&j);
        _exit(good ? 0 : 1);
    }
    return stage_wait(pid, PLENTY);
}

static void jammed(void)
{
    const char *name = "jammed";
    unsigned refused;
    pid_t bridge;
    if (!chosen(name))
        return;
    set(1);
    stage.config.retry = 20;
    stage.config.retry_most = 200;
    stage_aircraft(&stage, 0, 0);
    stage_job(&stage, 0, 1, 1, 0);
    check(stage_play(&stage, none, 0), name, "the first job does not arrive");
    check(on_journal(UINT64_MAX) == 0, name, "the number is not written");
    stage_job(&stage, 0, 1, 1, 0);
    stage_job(&stage, 0, 2, 1, 0);
    bridge = stage_bridge(&stage, none[0]);
    poll(NULL, 0, 1000);
    refused = logged("\"event\":\"start refused\"");
    check(refused >= 3 && refused <= 12, name, "starts that are refused are not logged, or tried without a wait");
    check(logged("bridge renumber") == refused, name, "the way out is not named");
    kill(bridge, SIGTERM);
    check(stage_wait(bridge, PLENTY) == 0, name, "it does not stop in order");
    memory_lost(memory);
    check(on_journal(0) == 0 && on_journal(0) == 1, name, "the command does not lower the number, or lowers it twice");
    judged(stage_play(&stage, none, 0), name);
    check(stage.verdict.ended == 2 && stage.verdict.seen == 2, name, "not every job was seen once");
}

/* ---- a queue that is deleted */

static int consumed(void) { return memory->queue[0].consumed; }
static int left(void) { return !memory->queue[0].consumed; }
static int tried_thrice(void) { return memory->tries >= 3; }
static int others_done(void) { return memory->queue[1].gone == memory->queue[1].put; }

static void queue_deleted(void)
{
    const char *name = "queue deleted";
    pid_t bridge;
    unsigned tries;
    if (!chosen(name))
        return;
    set(2);
    stage.config.reconnect = 10;
    stage.config.reconnect_most = 100;
    stage.config.metrics_port = free_port();
    stage_aircraft(&stage, 0, 0);
    bridge = stage_bridge(&stage, none[0]);
    check(becomes(consumed, PLENTY), name, "the queue is never consumed");
    memory->queue[0].deleted = 1;
    check(becomes(left, PLENTY), name, "the queue is consumed though it is gone");
    stage_job(&stage, 0, 1, 1, 0);
    stage_job(&stage, 1, 1, 1, 0);
    check(becomes(tried_thrice, PLENTY), name, "it is not tried again");
    poll(NULL, 0, 500);
    tries = memory->tries;
    check(tries <= 15, name, "it is tried again without a wait that grows");
    check(becomes(others_done, PLENTY), name, "the other dialogue waits");
    check(logged("\"event\":\"queue away\"") >= tries, name, "no line says so");
    check(!HAS_PAGE || shown("\npeat_queue_away{dialogue=\"00\"} ") == 1, name, "the page does not say so");
    memory->queue[0].deleted = 0;
    check(becomes(quiet, PLENTY), name, "its jobs wait though it is there again");
    check(logged("\"event\":\"queue back\"") == 1, name, "no line says that it is there again");
    check(!HAS_PAGE || (shown("\npeat_queues_consumed ") == 2 && shown("\npeat_queue_away{dialogue=\"00\"} ") == -1), name, "the page does not say so");
    stop(bridge, name);
}

/* ---- letters that are refused, and a broker that takes none */

static int refused_thrice(void) { return memory->refusals >= 3; }

static void letters_refused(void)
{
    const char *name = "letters refused";
    uint64_t connection;
    pid_t bridge;
    if (!chosen(name))
        return;
    set(1);
    stage.config.reconnect = 10;
    stage.config.reconnect_most = 100;
    stage.config.metrics_port = free_port();
    stage_aircraft(&stage, 0, 0);
    bridge = stage_bridge(&stage, none[0]);
    check(becomes(quiet, PLENTY), name, "the bridge does not begin");
    connection = memory->connection;
    memory->refuses = -1;
    memory_put(memory, 0, (const uint8_t *)"\004\001", 2, 0); /* laid aside */
    stage_job(&stage, 0, 1, 1, 0);
    check(becomes(refused_thrice, SOON), name, "they are not given again");
    poll(NULL, 0, 500);
    check(memory->refusals <= 15, name, "they are given again without a wait that grows");
    check(!HAS_PAGE || shown("\npeat_letters_held ") == 1, name, "the page does not say so");
    memory->refuses = 0;
    check(becomes(quiet, PLENTY), name, "they wait though they are taken again");
    check(letters_of("dead", "KIND") == 1 && memory->connection == connection, name, "a letter is lost or doubled, or the connection is");
    stop(bridge, name);
}

static int told_blocked(void) { return logged("\"event\":\"broker blocked\"") == 1; }
static int job_gone(void) { return memory->queue[0].gone == 1; }

static void broker_blocked(void)
{
    const char *name = "broker blocked";
    uint64_t began;
    pid_t bridge;
    if (!chosen(name))
        return;
    set(1);
    stage.config.metrics_port = free_port();
    stage.config.stop = 500;
    stage_aircraft(&stage, 0, 0);
    bridge = stage_bridge(&stage, none[0]);
    check(becomes(quiet, PLENTY), name, "the bridge does not begin");
    memory->blocks = 1;
    check(becomes(told_blocked, PLENTY) && (!HAS_PAGE || shown("\npeat_broker_blocked ") == 1), name, "nobody says so");
    stage_job(&stage, 0, 1, 1, 0);
    check(becomes(job_gone, SOON), name, "jobs wait for letters");
    began = now_ms();
    kill(bridge, SIGTERM);
    check(stage_wait(bridge, PLENTY) == 0 && now_ms() - began < 5000, name, "it does not stop");
    memory_lost(memory);
    check(memory->letters == 0, name, "a letter was given though none are taken");
    memory->blocks = 0;
    judged(stage_play(&stage, none, 0), name);
    check(stage.verdict.ended == 1, name, "the letter is lost");
}

/* ---- many letters */

#define SMALLEST 3 /* bytes of the smallest envelope */

/* A payload of the smallest envelopes, each of which is laid aside: it is read over several rounds, each with its commit, and the bridge that is killed
   between two of them has told the first ones only. */
static void many_letters(void)
{
    const char *name = "many letters";
    const struct plan killed[1] = {{AT_COMMITTED, 1, 0, 0}};
    uint8_t payload[MEMORY_BYTES];
    size_t n;
    unsigned each, after_kill;
    if (!chosen(name))
        return;
    set(2);
    for (n = 0; n + SMALLEST <= stage.config.payload_most; n += SMALLEST)
        memcpy(payload + n, "\002\001\000", SMALLEST);
    each = (unsigned)(n / SMALLEST);
    stage_aircraft(&stage, 0, 0);
    memory_put(memory, 0, payload, n, 0);
    stage_job(&stage, 0, 1, 1, 0);
    stage_job(&stage, 1, 1, 1, 0);
    check(stage_play(&stage, killed, 1), name, "they are not told");
    judged(1, name);
    after_kill = memory->letters - letters_of("ended", "") - letters_of("broken", "") - each;
    check(stage.kills == 1 && after_kill > 0 && after_kill <= 600, name, "a round has no end: all letters of a payload are one commit");
    check(letters_of("dead", "another kind") == each + after_kill, name, "an envelope is forgotten");
    check(stage.verdict.ended + stage.verdict.broken == 2, name, "jobs behind them wait");
    printf("bridge: a payload of %u envelopes that are laid aside; the first commit had %u\n", each, after_kill);
}

/* ---- jobs that are laid aside */

/* A job that was laid aside for its jump comes again when it is not far ahead any more: its fate is told. */
static void jump_again(void)
{
    const char *name = "jump again";
    const struct fate *f;
    if (!chosen(name))
        return;
    set(1);
    stage_aircraft(&stage, 0, 0);
    stage_job(&stage, 0, 1, 1, 0);
    stage_job(&stage, 0, 1002, 1, 0);
    stage_job(&stage, 0, 2, 1, 0);
    stage_job(&stage, 0, 1002, 2, 0);
    stage_job(&stage, 0, 3, 1, 0);
    stage_job(&stage, 0, 1004, 1, 0); /* it jumps by 1001 too */
    stage_job(&stage, 0, 4, 1, 0);
    stage_job(&stage, 0, 1004, 1, 0);
    judged(stage_play(&stage, none, 0), name);
    f = account_job(&stage.account, 0, 1002);
    check(f->dead == 1 && f->seen == 0 && f->ended == 0, name, "a job that was laid aside is sent when it comes again");
    check(letters_of("dead", "jump") == 2, name, "a job is laid aside twice");
    check(stage.verdict.ended == 4, name, "the others do not arrive");
}

void troubles(void)
{
    start_from_aircraft();
    jammed();
    queue_deleted();
    letters_refused();
    broker_blocked();
    many_letters();
    jump_again();
}
