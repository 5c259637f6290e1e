#include "stage.h"

#include <fcntl.h>
#include <signal.h>
#include <stdio.h>
#include <stdlib.h>
#include <string.h>
#include <sys/prctl.h>
#include <sys/stat.h>
#include <sys/wait.h>
#include <time.h>
#include <unistd.h>

#include "../../bridge/clock.h"
#include "../../bridge/log.h"
#include "../../bridge/sim/clearance.h"
#include "../../bridge/sim/pattern.h"
#include "../../bridge/witness.h"
#include "disk.h"

int aircraft_main(int argc, char **argv);

static void doze(unsigned ms)
{
    struct timespec t = {ms / 1000, (long)(ms % 1000) * 1000000L};
    nanosleep(&t, NULL);
}

/* ---- processes */

#define PLENTY 60000 /* ms: a machine may be busy */

/* A child that ends with this process, whatever ends it. */
static pid_t spawn(void)
{
    pid_t parent = getpid(), pid;
    fflush(stdout);
    pid = fork();
    if (pid == 0) {
        prctl(PR_SET_PDEATHSIG, SIGKILL);
        if (getppid() != parent)
            _exit(97);
    }
    return pid;
}

int stage_wait(pid_t pid, unsigned ms)
{
    uint64_t until = now_ms() + ms;
    int status;
    while (waitpid(pid, &status, WNOHANG) == 0) {
        if (now_ms() > until) {
            kill(pid, SIGKILL);
            waitpid(pid, &status, 0);
            return -1;
        }
        doze(1);
    }
    return WIFSIGNALED(status) ? 256 + WTERMSIG(status) : WEXITSTATUS(status);
}

/* What a child says goes to a file of the folder. */
static void redirect(const struct stage *s, const char *name, int from)
{
    char path[160];
    int f;
    snprintf(path, sizeof path, "%s/%s", s->folder, name);
    f = open(path, O_WRONLY | O_CREAT | O_APPEND, 0600);
    if (f < 0 || dup2(f, from) < 0)
        _exit(99);
    close(f);
}

/* ---- the bridge's process */

static struct plan plan;
static unsigned passes;
static volatile sig_atomic_t stop;

static void on_stop(int signal)
{
    (void)signal;
    stop = 1;
}

static int decided_a_job(const struct bridge *b)
{
    uint64_t n = b->metrics.taken + b->metrics.dead + b->metrics.forwards_received;
    int i;
    for (i = 0; i < REFUSALS; i++)
        n += b->metrics.refused[i];
    return n > 0;
}

/* A point of a batch counts once a job was decided. */
void at_point(const struct bridge *b, enum point p)
{
    int of_batch = p == AT_COMMIT || p == AT_COMMITTED || p == AT_SENDING || p == AT_SENT || p == AT_ACKNOWLEDGED;
    if (plan.pass == 0 || p != plan.point || (of_batch && !decided_a_job(b)))
        return;
    if (++passes == plan.pass)
        kill(getpid(), SIGKILL);
}

static void run_bridge(struct stage *s)
{
    static struct bridge b;
    struct journal j;
    struct broker broker;
    struct link link;
    struct page *page;
    const char *why;
    struct sigaction a;
    memset(&a, 0, sizeof a);
    a.sa_handler = on_stop;
    sigaction(SIGTERM, &a, NULL);
    redirect(s, "log", STDERR_FILENO);
    page = page_open(&s->config, &why);
#ifndef NO_PAGE
    if (why != NULL)
        _exit(98);
#endif
    if (s->notify[0] != '\0') {
        setenv("NOTIFY_SOCKET", s->notify, 1);
        setenv("WATCHDOG_USEC", "40000", 1);
    }
    disk_install(plan.failing_sync);
    journal_open(&j, &s->config, JOURNAL_RUN);
    witness_admit(s->config.witness, &j);
    link_open_packet(&link, &s->config);
    memory_open(&broker, s->memory, &b);
    bridge_begin(&b, &s->config, &j, &broker, &link, page);
    bridge_run(&b, &stop);
}

pid_t stage_bridge(struct stage *s, struct plan p)
{
    pid_t pid = spawn();
    if (pid == 0) {
        plan = p;
        passes = 0;
        run_bridge(s);
        exit(0); /* by way of the sanitizer, which looks for memory that was lost */
    }
    return pid;
}

/* ---- setting */

static void make_journal(struct stage *s)
{
    pid_t pid = spawn();
    if (pid == 0) {
        struct journal j;
        disk_install(0);
        journal_open(&j, &s->config, JOURNAL_INIT);
        witness_write(s->config.witness, j.id, j.commits(&j));
        j.close(&j);
        _exit(0);
    }
    if (stage_wait(pid, PLENTY) != 0)
        abort();
}

/* The journal: a file of the folder; or, where PEAT_DATABASE names a database, the schema of it that is called as the folder. */
static void choose_store(struct stage *s)
{
    struct config *c = &s->config;
    const char *database = getenv("PEAT_DATABASE");
    if (database == NULL) {
        snprintf(c->journal, sizeof c->journal, "%s/journal", s->folder);
        snprintf(c->moves, sizeof c->moves, "%s/moves", s->folder);
        mkdir(c->moves, 0700);
    } else
        snprintf(c->database, sizeof c->database, "%s options=-csearch_path=play%s", database, strrchr(s->folder, '/') + 1);
    snprintf(c->host, sizeof c->host, "here");
    c->lease = 300;
    c->share = DIALOGUES_MOST;
}

static void mark_plain(void *with, uint64_t first, uint64_t last)
{
    struct config *c = with;
    for (; first <= last; first++)
        c->type[first] = PEAT_PLAIN;
}

static void configure(struct stage *s, unsigned dialogues, const char *plain)
{
    struct config *c = &s->config;
    memset(c, 0, sizeof *c);
    choose_store(s);
    snprintf(c->witness, sizeof c->witness, "%s/witness", s->folder);
    snprintf(c->link, sizeof c->link, "%s/a{}", s->folder);
    snprintf(c->queue_owner, sizeof c->queue_owner, "owner");
    snprintf(c->page_address, sizeof c->page_address, "127.0.0.1");
    c->dialogues = dialogues;
    snprintf(c->plain, sizeof c->plain, "%s", plain);
    memset(c->type, PEAT_PROTECTED, sizeof c->type);
    jobs_read(c->plain, mark_plain, c);
    c->opaque = 1; /* the jobs of most tests are patterns, which no card reads (pattern.h) */
    c->t_start = 2000;
    c->retry = c->reconnect = 2;
    c->retry_most = c->reconnect_most = 20;
    c->claim = 300;
    c->job_jump = 1000;
    c->payload_most = 3000;
    c->outbox_most = 100000;
    c->stop = 8000;
}

void stage_set(struct stage *s, const char *folder, struct memory *m, unsigned dialogues, const char *plain)
{
    memset(s, 0, sizeof *s);
    snprintf(s->folder, sizeof s->folder, "%s", folder);
    snprintf(s->account_file, sizeof s->account_file, "%s/decks", folder);
    mkdir(folder, 0700);
    configure(s, dialogues, plain);
    s->memory = m;
    memory_empty(m, 8);
    make_journal(s);
}

void stage_aircraft(struct stage *s, unsigned abort_once_in, unsigned down_once_in)
{
    char number[12], aborts[12], down[12], reply[12];
    char *words[] = {"aircraft", s->config.link, number, s->account_file, aborts, down, reply, s->config.starts[0] != STARTS_GROUND ? "1" : "0", s->config.plain, s->config.moves, NULL};
    char last[160];
    struct stat there;
    uint64_t until = now_ms() + PLENTY;
    snprintf(number, sizeof number, "%u", (unsigned)s->config.dialogues);
    snprintf(aborts, sizeof aborts, "%u", abort_once_in);
    snprintf(down, sizeof down, "%u", down_once_in);
    snprintf(reply, sizeof reply, "%u", s->reply);
    s->aircraft = spawn();
    if (s->aircraft == 0) {
        redirect(s, "aircraft", STDOUT_FILENO);
        exit(aircraft_main(s->config.moves[0] != '\0' ? 10 : 9, words));
    }
    config_name(s->config.link, (unsigned)s->config.dialogues - 1, last, sizeof last);
    while (stat(last, &there) != 0 && now_ms() < until)
        doze(1);
}

void stage_job(struct stage *s, unsigned dialogue, uint64_t job, unsigned times, int late)
{
    uint8_t message[PATTERN_MOST], e[PEAT_BUFFER_LEAST];
    size_t n = pattern_make(message, dialogue, job, 0);
    struct peat_written_envelope written = peat_write_envelope(PEAT_ENVELOPE_TO_SEND, job, 8 * n, message, n, e, sizeof e);
    while (times-- > 0) {
        memory_put(s->memory, dialogue, e, peat_written_bytes(written), late);
        account_job(&s->account, dialogue, job)->given++;
    }
}

void stage_clearance(struct stage *s, unsigned dialogue, uint64_t job, unsigned times, const char *heads)
{
    uint8_t message[PEAT_BUFFER_LEAST], e[PEAT_BUFFER_LEAST];
    unsigned bits = clearance_make(message, dialogue, job, 7); /* every position's number is 7 */
    struct peat_written_envelope written = peat_write_envelope(PEAT_ENVELOPE_TO_SEND, job, bits, message, (bits + 7u) / 8u, e, sizeof e);
    while (times-- > 0) {
        memory_put_with(s->memory, dialogue, e, peat_written_bytes(written), heads);
        account_job(&s->account, dialogue, job)->given++;
    }
}

/* ---- playing */

int stage_quiet(const struct stage *s) { return memory_idle(s->memory); }

/* 1: quiet for a moment; 0: the bridge ended, or it takes too long */
static int settle(struct stage *s, pid_t bridge, unsigned ms)
{
    uint64_t until = now_ms() + ms;
    int status;
    while (now_ms() < until) {
        if (waitpid(bridge, &status, WNOHANG) != 0) {
            s->kills += WIFSIGNALED(status);
            return 0;
        }
        if (stage_quiet(s))
            return 1;
        doze(1);
    }
    return 1;
}

/* A plan at AT_STOPPING needs a bridge that is told to stop. */
static void play_one(struct stage *s, struct plan p)
{
    pid_t bridge = stage_bridge(s, p);
    if (settle(s, bridge, PLENTY)) {
        kill(bridge, SIGTERM);
        s->kills += stage_wait(bridge, PLENTY) == KILLED;
    }
    memory_lost(s->memory);
    if (p.power)
        disk_power_cut(s->config.journal);
}

int stage_play(struct stage *s, const struct plan *plans, unsigned count)
{
    struct plan none = {AT_COMMIT, 0, 0, 0};
    unsigned i;
    pid_t bridge;
    int quiet;
    for (i = 0; i < count; i++)
        play_one(s, plans[i]);
    bridge = stage_bridge(s, none);
    if (!settle(s, bridge, PLENTY))
        return 0;
    quiet = stage_quiet(s);
    kill(bridge, SIGTERM);
    if (stage_wait(bridge, PLENTY) != 0)
        return 0;
    memory_lost(s->memory);
    return quiet;
}

static void read_deck_line(struct stage *s)
{
    FILE *f = fopen(s->account_file, "r");
    unsigned long delivered, duplicates, disorder = 0, damaged = 0, opened = 0, numbers = 0, twice = 0;
    if (f != NULL && fscanf(f, "# delivered %lu duplicates %lu disorder %lu damaged %lu opened %lu ended %*u aborted %*u failed %*u refused %*u down %*u numbers %lu twice %lu",
                         &delivered, &duplicates, &disorder, &damaged, &opened, &numbers, &twice) == 7) {
        s->disorder = disorder;
        s->damaged = damaged;
        s->opened = opened;
        s->numbers = numbers;
        s->twice = twice;
    }
    if (f != NULL)
        fclose(f);
}

int stage_judge(struct stage *s)
{
    unsigned i;
    kill(s->aircraft, SIGTERM);
    if (stage_wait(s->aircraft, PLENTY) != 0 || !account_decks(&s->account, s->account_file))
        return 0;
    read_deck_line(s);
    for (i = 0; i < s->memory->letters; i++) {
        const struct memory_letter *l = &s->memory->letter[i];
        if (l->dialogue < DIALOGUES_MOST)
            account_letter(&s->account, l->id, l->dialogue, l->type, l->body, l->bytes);
    }
    s->verdict = account_verdict(&s->account);
    return verdict_good(&s->verdict) && s->damaged == 0 && s->disorder == 0 && s->account.odd == 0 && s->memory->stale == 0;
}

void stage_explain(const struct stage *s, const char *name)
{
    printf("bridge: %s: %u kills, %llu in disorder, %llu damaged, %u stale receipts, %llu odd letters\n", name, s->kills,
        (unsigned long long)s->disorder, (unsigned long long)s->damaged, s->memory->stale, (unsigned long long)s->account.odd);
    verdict_print(&s->verdict, &s->account, stdout);
}
