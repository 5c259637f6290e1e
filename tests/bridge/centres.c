/*
 * Two centres, each with a bridge and a broker of its own: forwards in both directions, kills of either at each point, centres that do not support
 * forwarding or have another version, and what is no forward.
 */
#define _DEFAULT_SOURCE
#include <poll.h>
#include <signal.h>
#include <stdio.h>
#include <stdlib.h>
#include <string.h>
#include <sys/socket.h>
#include <sys/stat.h>
#include <sys/un.h>
#include <sys/wait.h>
#include <unistd.h>

#include "../../bridge/clock.h"
#include "../../bridge/jobs.h"
#include "../../bridge/payload.h"
#include "../../bridge/sim/clearance.h"
#include "matrix.h"

#define SOON 10000
#define SAID_MS 4000 /* until a line stands in the log */
#define QUIET_MS 300 /* that nothing is under way */
#define JOBS 32
#define OUT_PLACE DIALOGUES_MOST
#define HEADING "x-peat-flight=DLH12A\nx-peat-address=3c65a1\nx-peat-direction=uplink\n"

static struct stage other;
static struct memory *theirs;
static const struct plan none;

/* ---- the two centres */

static void join(struct stage *s, const char *facility, const char *name, const char *out, const char *in)
{
    struct config *c = &s->config;
    c->opaque = 0;
    c->centres = c->forwards = c->forward_version = 1;
    snprintf(c->queue_words, sizeof c->queue_words, "words{}");
    snprintf(c->queue_forward, sizeof c->queue_forward, "forward{}");
    snprintf(c->facility, sizeof c->facility, "%s", facility);
    snprintf(c->centre_names, sizeof c->centre_names, "%s", name);
    snprintf(c->centre_out, sizeof c->centre_out, "%s/%s{}", stage.folder, out);
    snprintf(c->centre_in, sizeof c->centre_in, "%s/%s{}", stage.folder, in);
}

static void set_two(void)
{
    char folder[sizeof stage.folder + 2];
    if (theirs == NULL)
        theirs = memory_make(8);
    set(1);
    snprintf(folder, sizeof folder, "%.80sb", stage.folder);
    account_clear(&other.account);
    stage_set(&other, folder, theirs, 1, "");
    join(&stage, "EDAA", "EDBB", "x", "y");
    join(&other, "EDBB", "EDAA", "y", "x");
}

static void give(struct stage *s, uint64_t job, unsigned times, const char *heads)
{
    uint8_t message[PEAT_BUFFER_LEAST], e[PEAT_BUFFER_LEAST];
    unsigned bits = clearance_make(message, 0, job, 0);
    struct peat_written_envelope written = peat_write_envelope(PEAT_ENVELOPE_TO_SEND, job, bits, message, (bits + 7u) / 8u, e, sizeof e);
    while (times-- > 0)
        memory_put_with(s->memory, OUT_PLACE, e, peat_written_bytes(written), heads);
}

/* ---- what was shown, and what was told: letters that come again under their id count once */

struct counts {
    unsigned seen[JOBS + 1], forwarded[JOBS + 1], declined[JOBS + 1], broken[JOBS + 1], refused[JOBS + 1], dead[JOBS + 1];
};

static int came_before(const struct memory *m, unsigned i)
{
    unsigned j;
    for (j = 0; j < i; j++)
        if (strcmp(m->letter[j].id, m->letter[i].id) == 0)
            return 1;
    return 0;
}

static void count_range(void *with, uint64_t first, uint64_t last)
{
    unsigned *counts = with;
    for (; first <= last && first <= JOBS; first++)
        counts[first]++;
}

static void count_fate(const struct memory_letter *l, unsigned *counts)
{
    static const char mark[] = "\"jobs\":\"";
    char text[MEMORY_BODY + 1], *jobs;
    memcpy(text, l->body, l->bytes);
    text[l->bytes] = '\0';
    jobs = strstr(text, mark);
    if (jobs == NULL)
        return;
    jobs += sizeof mark - 1;
    jobs[strcspn(jobs, "\"")] = '\0';
    jobs_read(jobs, count_range, counts);
}

/* the job of an envelope; of a delivered one that of its message */
static uint64_t job_of(const struct memory_letter *l, int delivered)
{
    struct payload_reader m;
    struct envelope e;
    unsigned number;
    uint64_t job;
    payload_begin(&m, l->body, l->bytes);
    if (payload_take(&m, &e) != PEAT_TAKEN)
        return 0;
    job = delivered ? clearance_job(e.body, e.bits, 0, &number) : e.job;
    return job <= JOBS ? job : 0;
}

static struct counts counted(const struct stage *from, const struct stage *to)
{
    struct counts c;
    unsigned i;
    memset(&c, 0, sizeof c);
    for (i = 0; i < to->memory->letters; i++)
        if (strcmp(to->memory->letter[i].type, "incoming") == 0 && !came_before(to->memory, i))
            c.seen[job_of(&to->memory->letter[i], 1)]++;
    for (i = 0; i < from->memory->letters; i++) {
        const struct memory_letter *l = &from->memory->letter[i];
        if (l->dialogue < DIALOGUES_MOST || came_before(from->memory, i))
            continue;
        if (strcmp(l->type, "forwarded") == 0)
            count_fate(l, c.forwarded);
        else if (strcmp(l->type, "declined") == 0)
            count_fate(l, c.declined);
        else if (strcmp(l->type, "broken") == 0)
            count_fate(l, c.broken);
        else if (strcmp(l->type, "refused") == 0)
            c.refused[job_of(l, 0)]++;
        else if (strcmp(l->type, "dead") == 0)
            c.dead[job_of(l, 0)]++;
    }
    return c;
}

static unsigned told(const struct counts *c, unsigned job) { return c->forwarded[job] + c->declined[job] + c->broken[job] + c->refused[job] + c->dead[job]; }

static int all_told(const struct stage *from, const struct stage *to, unsigned jobs)
{
    struct counts c = counted(from, to);
    unsigned j;
    for (j = 1; j <= jobs; j++)
        if (told(&c, j) == 0)
            return 0;
    return 1;
}

/* At most once, one fate each, and the right one. */
static struct counts verdict(const struct stage *from, const struct stage *to, unsigned jobs, const char *name)
{
    struct counts c = counted(from, to);
    unsigned j, twice = 0, silent = 0, two = 0, unseen = 0, wrong = 0;
    for (j = 1; j <= jobs; j++) {
        twice += c.seen[j] > 1;
        silent += told(&c, j) == 0;
        two += told(&c, j) > 1;
        unseen += c.forwarded[j] > 0 && c.seen[j] == 0;
        wrong += c.declined[j] + c.refused[j] + c.dead[j] > 0 && c.seen[j] > 0;
    }
    check(twice == 0, name, "a forward was shown twice");
    check(silent == 0, name, "a forward's fate is not told");
    check(two == 0, name, "a forward has two fates");
    check(unseen == 0, name, "a forward was told as forwarded that nobody was shown");
    check(wrong == 0, name, "a forward was told as declined, refused or laid aside that was shown");
    return c;
}

/* ---- playing */

/* 1: it was killed, and is started again, without a plan */
static int revived(struct stage *s, pid_t *bridge)
{
    int status;
    if (waitpid(*bridge, &status, WNOHANG) != *bridge)
        return 0;
    memory_lost(s->memory);
    *bridge = stage_bridge(s, none);
    return WIFSIGNALED(status) && WTERMSIG(status) == SIGKILL;
}

static unsigned deaths;

/* Two bridges, each killed by its plan; both are told to stop when all is told and quiet. */
static void play(struct plan here, struct plan there, unsigned ours, unsigned of_theirs, const char *name)
{
    pid_t a = stage_bridge(&stage, here), b = stage_bridge(&other, there);
    uint64_t until = now_ms() + SOON, since = now_ms();
    deaths = 0;
    while (now_ms() < until && now_ms() - since < QUIET_MS) {
        unsigned dead = (unsigned)revived(&stage, &a) + (unsigned)revived(&other, &b);
        deaths += dead;
        if (dead > 0 || !stage_quiet(&stage) || !stage_quiet(&other) || !all_told(&stage, &other, ours) || !all_told(&other, &stage, of_theirs))
            since = now_ms();
        poll(NULL, 0, 2);
    }
    check(now_ms() < until, name, "forwards wait for ever");
    kill(a, SIGTERM);
    kill(b, SIGTERM);
    check(stage_wait(a, PLENTY) == 0 && stage_wait(b, PLENTY) == 0, name, "a bridge does not stop in order");
    memory_lost(memory);
    memory_lost(theirs);
}

/* One forward, given twice, and one kill: of the centre that forwards, or of the one that hears. */
static const struct row {
    const char *name;
    int hears;
    enum point at;
    const char *fate;
    int seen; /* -1: either */
} rows[] = {
    {"forward: sender before the commit", 0, AT_COMMIT, "forwarded", 1},
    {"forward: sender after the commit", 0, AT_COMMITTED, "broken", 0},
    {"forward: sender during the sends", 0, AT_SENDING, "broken", 0},
    {"forward: sender sent", 0, AT_SENT, "broken", -1},
    {"forward: sender acknowledged", 0, AT_ACKNOWLEDGED, "broken", -1},
    {"forward: hearer before the commit", 1, AT_COMMIT, "broken", 0},
    {"forward: hearer after the commit", 1, AT_COMMITTED, "broken", 1},
    {"forward: hearer during the sends", 1, AT_SENDING, "broken", 1},
    {"forward: hearer sent", 1, AT_SENT, "forwarded", 1},
    {"forward: hearer published", 1, AT_PUBLISHED, "forwarded", 1},
};

static void play_row(const struct row *r)
{
    const struct plan dies = {r->at, 1, 0, 0};
    struct counts c;
    set_two();
    give(&stage, 1, 2, HEADING);
    play(r->hears ? none : dies, r->hears ? dies : none, 1, 0, r->name);
    c = verdict(&stage, &other, 1, r->name);
    check(deaths == 1, r->name, "the kill did not come");
    check((strcmp(r->fate, "broken") == 0 ? c.broken[1] : c.forwarded[1]) == 1, r->name, "another fate was told");
    check(r->seen < 0 || c.seen[1] == (unsigned)r->seen, r->name, "it was shown another number of times");
}

/* Both directions at once, many forwards, several kills of either. */
static void both_ways(void)
{
    const char *name = "forward: both ways";
    struct plan here = {AT_ACKNOWLEDGED, 9, 0, 0}, there = {AT_SENDING, 7, 0, 0};
    struct counts c;
    unsigned j, sent = 0;
    if (!chosen(name))
        return;
    set_two();
    for (j = 1; j <= JOBS; j++) {
        give(&stage, j, 1 + j % 2, HEADING);
        give(&other, j, 2 - j % 2, HEADING "x-peat-composed=2026-11-16T09:08:07Z\n");
    }
    play(here, there, JOBS, JOBS, name);
    check(deaths == 2, name, "not every kill came");
    c = verdict(&stage, &other, JOBS, name);
    for (j = 1; j <= JOBS; j++)
        sent += c.forwarded[j];
    check(sent >= JOBS - 3, name, "hardly any forward succeeds");
    verdict(&other, &stage, JOBS, name);
    for (j = 0; j < memory->letters && strstr(memory->letter[j].heads, "x-peat-facility=EDBB\nx-peat-flight=DLH12A\nx-peat-address=3c65a1\nx-peat-direction=uplink\nx-peat-composed=2026-11-16T09:08:07Z\n") == NULL; j++) {}
    check(j < memory->letters, name, "a letter does not have the heading");
}

/* How the other centre answers: by its version, and by whether it supports forwarding; jobs without a heading, and that are no message. */
static void answers(void)
{
    const char *name = "forward: answers";
    struct counts c;
    if (!chosen(name))
        return;
    set_two();
    other.config.forward_version = 2;
    give(&stage, 1, 1, HEADING);
    give(&stage, 2, 1, "x-peat-flight=DLH12A\n");
    give(&stage, 3, 1, "x-peat-flight=DLH12A\nx-peat-address=3c65a1\nx-peat-direction=downlink\n"); /* its bits are no downlink */
    play(none, none, 3, 0, name);
    c = verdict(&stage, &other, 3, name);
    check(c.declined[1] == 1 && c.dead[2] == 1 && c.refused[3] == 1, name, "another version is not told, or what is no forward is sent");
    other.config.forward_version = 1; /* the same journal: the record says what the configuration says */
    other.config.forwards = 0;
    give(&stage, 4, 1, HEADING);
    play(none, none, 4, 0, name);
    c = verdict(&stage, &other, 4, name);
    check(c.declined[4] == 1, name, "a centre that does not support forwarding is not told");
    other.config.forwards = 1;
    give(&stage, 5, 1, HEADING);
    play(none, none, 5, 0, name);
    c = verdict(&stage, &other, 5, name);
    check(c.forwarded[5] == 1, name, "no forward succeeds any more");
}

static unsigned logged(const struct stage *s, const char *text)
{
    char path[160], line[2048];
    unsigned n = 0;
    FILE *f;
    snprintf(path, sizeof path, "%s/log", s->folder);
    f = fopen(path, "r");
    while (f != NULL && fgets(line, sizeof line, f) != NULL)
        n += strstr(line, text) != NULL;
    if (f != NULL)
        fclose(f);
    return n;
}

/* A stranger at the socket: another facility, a number far ahead, bytes that are no forward. The record stays as it is, and a forward succeeds then. */
static void stranger(void)
{
    const char *name = "forward: stranger";
    struct sockaddr_un a;
    struct primitive p;
    struct stat there;
    struct counts c;
    pid_t bridge;
    unsigned i;
    int s;
    if (!chosen(name))
        return;
    set_two();
    bridge = stage_bridge(&other, none);
    s = packet_socket(other.config.centre_in, 0, &a);
    for (i = 0; i < SOON && stat(a.sun_path, &there) != 0; i++)
        poll(NULL, 0, 1);
    for (i = 0; i < SOON && connect(s, (struct sockaddr *)&a, sizeof a) != 0; i++)
        poll(NULL, 0, 1);
    memset(&p, 0, sizeof p);
    p.is.kind = PEAT_D_START_REQUEST;
    p.is.number = 1;
    memcpy(p.facility, "EDCC", 4);
    packet_send_centre(s, &p);
    memcpy(p.facility, "EDAA", 4);
    p.is.number = UINT64_MAX;
    packet_send_centre(s, &p);
    p.is.number = 1;
    p.is.has_user_data = PEAT_USER_DATA;
    p.is.user_data_len = 3;
    memset(p.data, 0xFF, 3);
    packet_send_centre(s, &p); /* which the card answers as the protocol says */
    for (i = 0; i < SAID_MS / 10 && logged(&other, "unexpected primitive") == 0; i++)
        poll(NULL, 0, 10);
    check(logged(&other, "unexpected primitive") >= 1, name, "no line says so");
    close(s);
    kill(bridge, SIGTERM);
    check(stage_wait(bridge, PLENTY) == 0, name, "the bridge does not stop in order");
    memory_lost(theirs);
    give(&stage, 1, 1, HEADING);
    play(none, none, 1, 0, name);
    c = verdict(&stage, &other, 1, name);
    check(c.forwarded[1] == 1, name, "a forward does not succeed any more");
}

/* Nobody is there: jobs wait in their queue. Somebody is there and does not answer: t-start. */
static void silent_centre(void)
{
    const char *name = "forward: silence";
    struct sockaddr_un a;
    struct counts c;
    pid_t bridge;
    int listener, s = -1;
    unsigned i;
    if (!chosen(name))
        return;
    set_two();
    stage.config.t_start = 300;
    give(&stage, 1, 1, HEADING);
    bridge = stage_bridge(&stage, none);
    poll(NULL, 0, 700);
    check(memory->queue[OUT_PLACE].next == 0, name, "a job is taken though nobody is there");
    listener = packet_socket(stage.config.centre_out, 0, &a);
    check(bind(listener, (struct sockaddr *)&a, sizeof a) == 0 && listen(listener, 4) == 0, name, "no socket");
    for (i = 0; i < SOON && !all_told(&stage, &other, 1); i++) {
        s = s < 0 ? accept(listener, NULL, NULL) : s;
        poll(NULL, 0, 1);
    }
    c = verdict(&stage, &other, 1, name);
    check(c.broken[1] == 1, name, "a forward that nobody answers is not told as broken");
    close(s);
    close(listener);
    kill(bridge, SIGTERM);
    check(stage_wait(bridge, PLENTY) == 0, name, "the bridge does not stop in order");
    memory_lost(memory);
}

void centres(void)
{
    size_t i;
    for (i = 0; i < sizeof rows / sizeof *rows; i++)
        if (chosen(rows[i].name))
            play_row(&rows[i]);
    both_ways();
    answers();
    stranger();
    silent_centre();
}
