/*
 * The bridge on a broker in memory: the crash matrix, and what else the bridge promises.
 *
 *     matrix FOLDER [NAME]    all tests, or those whose names begin so
 *
 * The last line is `N passed, M failed`.
 */
#include <arpa/inet.h>
#include <netinet/in.h>
#include <poll.h>
#include <signal.h>
#include <stddef.h>
#include <stdio.h>
#include <stdlib.h>
#include <string.h>
#include <sys/socket.h>
#include <sys/un.h>
#include <sys/wait.h>
#include <unistd.h>

#include "../../bridge/checksum.h"
#include "../../bridge/clock.h"
#include "../../bridge/floor.h"
#include "../../bridge/log.h"
#include "../../bridge/notify.h"
#include "disk.h"
#include "matrix.h"

#define SOON 15000   /* what must end at once has ended */

struct memory *memory;
static const char *room, *only;
static unsigned passed, failed, plays;
struct stage stage;

void check(int good, const char *name, const char *what)
{
    if (good) {
        passed++;
        return;
    }
    failed++;
    printf("bridge: %s: %s\n", name, what);
}

/* Says how long the tests before took, and whether this one is to run. */
int chosen(const char *name)
{
    static uint64_t began;
    static const char *before;
    if (getenv("TIMES") != NULL && before != NULL)
        printf("%6llu ms  %s\n", (unsigned long long)(now_ms() - began), before);
    began = now_ms();
    before = name;
    return only == NULL || strncmp(name, only, strlen(only)) == 0;
}

void set_types(unsigned dialogues, const char *plain)
{
    char folder[90];
    account_clear(&stage.account);
    snprintf(folder, sizeof folder, "%s/%u", room, plays++);
    stage_set(&stage, folder, memory, dialogues, plain);
}

void set(unsigned dialogues) { set_types(dialogues, ""); }

/* Ends a play: it stopped in order, and its verdict is good. */
void judged(int stopped, const char *name)
{
    int good = stage_judge(&stage);
    check(stopped, name, "the last bridge did not deliver and stop in order");
    check(good, name, "the verdict is bad");
    if (!good)
        stage_explain(&stage, name);
}

/* ---- the matrix: one dialogue, one job given three times, one crash (or one after another) */

#define KILL(point) {point, 1, 0, 0}

static const struct row {
    const char *name;
    struct plan plan[2];
    unsigned plans, seen;
    const char *told;
    int again;   /* the broker delivers the job again */
    int forgets; /* the broker loses letters that it did not confirm */
} rows[] = {
    {"row none", {{0}}, 0, 1, "ended", 0, 0},
    {"row before the commit", {KILL(AT_COMMIT)}, 1, 1, "ended", 1, 0},
    {"row after the commit", {KILL(AT_COMMITTED)}, 1, 0, "broken", 1, 0},
    {"row during the sends", {KILL(AT_SENDING)}, 1, 0, "broken", 1, 0},
    {"row sent", {KILL(AT_SENT)}, 1, 1, "broken", 1, 0},
    {"row acknowledged", {KILL(AT_ACKNOWLEDGED)}, 1, 1, "broken", 0, 0},
    {"row published", {KILL(AT_ACKNOWLEDGED), KILL(AT_PUBLISHED)}, 2, 1, "broken", 0, 0},
    {"row published and lost", {KILL(AT_ACKNOWLEDGED), KILL(AT_PUBLISHED)}, 2, 1, "broken", 0, 1},
    {"row confirmed", {KILL(AT_ACKNOWLEDGED), KILL(AT_CONFIRMED)}, 2, 1, "broken", 0, 0},
    {"row recovery", {KILL(AT_ACKNOWLEDGED), KILL(AT_RECOVERY)}, 2, 1, "broken", 0, 0},
    {"row recovered", {KILL(AT_ACKNOWLEDGED), KILL(AT_RECOVERED)}, 2, 1, "broken", 0, 0},
    {"row stopping", {KILL(AT_STOPPING)}, 1, 1, "broken", 0, 0},
};

static void play_row(const struct row *r)
{
    const struct fate *f;
    int stopped;
    set(1);
    memory->forgets = r->forgets;
    stage_aircraft(&stage, 0, 0);
    stage_job(&stage, 0, 1, 3, 0);
    stopped = stage_play(&stage, r->plan, r->plans);
    judged(stopped, r->name);
    f = account_job(&stage.account, 0, 1);
    check(stage.kills == r->plans, r->name, "not every kill came");
    check(f->seen == r->seen, r->name, "the flight deck saw it another number of times");
    check((strcmp(r->told, "ended") == 0 ? f->ended : f->broken) == 1, r->name, "another fate was told");
    check((memory->redeliveries > 0) == r->again, r->name, "the broker should know better whether to deliver again");
}

static void the_matrix(void)
{
    size_t i;
    for (i = 0; i < sizeof rows / sizeof *rows; i++)
        if (chosen(rows[i].name))
            play_row(&rows[i]);
}

/* ---- many dialogues */

/* Jobs 1 to n of each dialogue, each one to three times, copies now and then behind later jobs or late. */
static void give_jobs(unsigned dialogues, unsigned n, int late)
{
    unsigned d, j;
    for (d = 0; d < dialogues; d++)
        for (j = 1; j <= n; j++) {
            stage_job(&stage, d, j, 1 + (d + j) % 2, late && (d + j) % 5 == 0);
            if (j > 1 && (d + j) % 3 == 0)
                stage_job(&stage, d, j - 1, 1, late && d % 2 == 0);
        }
}

static void each_point(void)
{
    static const char *const names[POINTS] = {"point recovery", "point recovered", "point commit", "point committed", "point sending", "point sent",
        "point acknowledged", "point published", "point confirmed", "point stopping"};
    int p;
    for (p = 0; p < POINTS; p++) {
        struct plan plan[2] = {KILL(AT_ACKNOWLEDGED), {(enum point)p, p == AT_SENDING ? 40 : 1, 0, 0}};
        if (!chosen(names[p]))
            continue;
        set(DIALOGUES_MOST);
        stage_aircraft(&stage, 0, 0);
        give_jobs(DIALOGUES_MOST, 4, 0);
        judged(stage_play(&stage, plan, 2), names[p]);
        check(stage.kills == 2, names[p], "not every kill came");
        check(stage.verdict.jobs == 4 * DIALOGUES_MOST, names[p], "jobs are missing from the account");
    }
}

/* Kills at points drawn by chance, aircraft that abort and send, late copies, and power cuts. */
static void rough(const char *name, unsigned seed, int power)
{
    struct plan plan[8];
    unsigned i;
    if (!chosen(name))
        return;
    srand(seed);
    set(DIALOGUES_MOST);
    stage_aircraft(&stage, 60, 20);
    give_jobs(DIALOGUES_MOST, 10, 1);
    for (i = 0; i < 8; i++)
        plan[i] = (struct plan){(enum point)(AT_COMMIT + rand() % 7), 1 + (unsigned)rand() % 4, power, 0};
    judged(stage_play(&stage, plan, 8), name);
    check(stage.kills >= 2, name, "hardly any kill came");
    check(stage.verdict.broken > 0, name, "nothing broke");
}

/* Power cuts where the most is at stake: the job is sent and acknowledged. */
static void power_cuts(void)
{
    static const enum point points[] = {AT_COMMITTED, AT_SENT, AT_ACKNOWLEDGED};
    unsigned i, d;
    for (i = 0; i < 3; i++) {
        struct plan plan = {points[i], 1, 1, 0};
        const char *name = "power cut";
        if (!chosen(name))
            return;
        set(8);
        stage_aircraft(&stage, 0, 0);
        give_jobs(8, 3, 0);
        for (d = 0; d < 8; d++)
            stage_job(&stage, d, 1, 1, 0); /* a copy that comes long after */
        judged(stage_play(&stage, &plan, 1), name);
        check(stage.kills == 1, name, "the kill did not come");
    }
}

/* ---- decisions are looked up before the card is called */

/* A job that is new and one that was sent come when the dialogue has closed already: PROHIBITED both, and the first is told
   so. In the next dialogue they come again. */
static void refusals(void)
{
    const char *name = "refusals";
    const struct plan none[1] = {{0}};
    int stopped;
    unsigned d;
    if (!chosen(name))
        return;
    set(16);
    stage_aircraft(&stage, 1, 0); /* every flight deck aborts at every message */
    for (d = 0; d < 16; d++) {
        stage_job(&stage, d, 1, 1, 0);
        stage_job(&stage, d, 2, 1, 1);
        stage_job(&stage, d, 1, 1, 0);
        stage_job(&stage, d, 2, 1, 0);
        stage_job(&stage, d, 4, 1, 0);
        stage_job(&stage, d, 3, 2, 0); /* overtaken by 4 */
    }
    stopped = stage_play(&stage, none, 0);
    judged(stopped, name);
    check(stage.verdict.refused >= 16, name, "hardly any refusal came");
}

/* ---- a disk that fails */

static int has_ended(pid_t pid)
{
    siginfo_t s;
    s.si_pid = 0;
    return waitid(P_PID, (id_t)pid, &s, WEXITED | WNOHANG | WNOWAIT) == 0 && s.si_pid == pid;
}

/* The status of a bridge that may not go on; -1: it does, and has delivered everything or goes on for too long. */
static int ends_at_once(pid_t bridge)
{
    int i;
    for (i = 0; i < SOON && !has_ended(bridge) && !stage_quiet(&stage); i++)
        poll(NULL, 0, 1);
    return stage_wait(bridge, 0);
}

/* Each of the first syncs fails: the bridge ends, and the next one finds nothing lost. */
static void failing_disk(void)
{
    const char *name = "failing disk";
    unsigned at;
    if (!chosen(name))
        return;
    for (at = 1; at <= 3; at++) {
        struct plan bad = {AT_COMMIT, 0, 0, at};
        const struct plan none[1] = {{0}};
        int status;
        set(4);
        stage_aircraft(&stage, 0, 0);
        give_jobs(4, 3, 0);
        status = ends_at_once(stage_bridge(&stage, bad));
        check(status == EXIT_JOURNAL, name, "a bridge whose commit fails goes on");
        memory_lost(memory);
        judged(stage_play(&stage, none, 0), name);
    }
}

/* ---- one bridge for a journal, one for the queues */

static void second_bridge(void)
{
    const char *name = "second bridge";
    const struct plan none = {0};
    static struct stage other;
    pid_t one, two;
    int tries;
    if (!chosen(name))
        return;
    set(2);
    stage_aircraft(&stage, 0, 0);
    one = stage_bridge(&stage, none);
    for (tries = 0; tries < PLENTY && !memory->owner; tries++)
        poll(NULL, 0, 1);
    two = stage_bridge(&stage, none);
    check(stage_wait(two, SOON) == EXIT_REFUSED, name, "two bridges have one journal");
    other = stage;
    snprintf(other.config.journal, sizeof other.config.journal, "%s/another", stage.folder);
    snprintf(other.config.witness, sizeof other.config.witness, "%s/another.witness", stage.folder);
    {
        struct journal j;
        journal_open(&j, &other.config, JOURNAL_INIT);
        j.close(&j);
    }
    two = stage_bridge(&other, none);
    check(stage_wait(two, SOON) == EXIT_REFUSED, name, "a journal without a witness is taken");
    kill(one, SIGTERM);
    check(stage_wait(one, PLENTY) == 0, name, "the first bridge does not stop in order");
    memory_lost(memory);
    stage_judge(&stage);
}

static void init_journal(struct config *c)
{
    pid_t pid = fork();
    if (pid == 0) {
        struct journal j;
        if (freopen("/dev/null", "w", stderr) == NULL)
            _exit(99);
        journal_open(&j, c, JOURNAL_INIT);
        _exit(0);
    }
    check(stage_wait(pid, SOON) == EXIT_REFUSED, "journal", "init takes a journal that is there");
}

/* A bridge without its journal, and init where there is one. */
static void missing_journal(void)
{
    const char *name = "journal";
    const struct plan none = {0};
    if (!chosen(name))
        return;
    set(2);
    stage_aircraft(&stage, 0, 0);
    init_journal(&stage.config);
    unlink(stage.config.journal);
    check(stage_wait(stage_bridge(&stage, none), SOON) == EXIT_REFUSED, name, "a missing journal is made up");
    stage_judge(&stage);
}

/* ---- an old copy of the journal */

static void copy_file(const char *from, const char *to)
{
    char block[65536];
    FILE *in = fopen(from, "rb"), *out = fopen(to, "wb");
    size_t n;
    if (in == NULL || out == NULL)
        abort();
    while ((n = fread(block, 1, sizeof block, in)) > 0)
        if (fwrite(block, 1, n, out) != n)
            abort();
    fclose(in);
    fclose(out);
}

static void restored(void)
{
    const char *name = "restored";
    const struct plan none[1] = {{0}};
    char copy[CONFIG_TEXT + 8];
    pid_t pid;
    if (!chosen(name))
        return;
    set(2);
    stage_aircraft(&stage, 0, 0);
    snprintf(copy, sizeof copy, "%s.old", stage.config.journal);
    copy_file(stage.config.journal, copy);
    give_jobs(2, 5, 0);
    check(stage_play(&stage, none, 0), name, "the jobs are not taken");
    copy_file(copy, stage.config.journal);
    check(ends_at_once(stage_bridge(&stage, none[0])) == EXIT_REFUSED, name, "an old copy is taken for the journal");
    memory_lost(memory);
    fflush(stdout);
    pid = fork();
    if (pid == 0) {
        struct journal j;
        if (freopen("/dev/null", "w", stdout) == NULL)
            _exit(99);
        journal_open(&j, &stage.config, JOURNAL_RUN);
        floor_raise(&j, &stage.config, 5, ALL_DIALOGUES);
        j.close(&j);
        _exit(0);
    }
    check(stage_wait(pid, PLENTY) == 0, name, "the floor is not raised");
    /* the same jobs once more, as by a position that got no answer, and one above the floor */
    stage_job(&stage, 0, 3, 1, 0);
    stage_job(&stage, 0, 6, 1, 0);
    check(stage_play(&stage, none, 0), name, "a journal with a raised floor is not taken");
    stage_judge(&stage);
    check(stage.verdict.duplicates == 0, name, "a job was seen twice");
    check(account_job(&stage.account, 0, 3)->dead == 1, name, "a job under the floor was not laid aside");
    check(account_job(&stage.account, 0, 6)->seen == 1, name, "a job above the floor was not sent");
}

/* ---- journals of version 0.3.0, whose records have no dialogue number, and of 0.4.0, whose records have no version */

enum { WITHOUT_NUMBER = 16, WITHOUT_VERSION = 24 };

static uint32_t sum_of(unsigned dialogue, const struct kept *k, const uint8_t *record, size_t bytes)
{
    uint32_t sum = checksum(checksum(0, &dialogue, sizeof dialogue), record, bytes);
    return checksum(checksum(checksum(sum, &k->run, sizeof k->run), &k->deliveries, sizeof k->deliveries), &k->floor, sizeof k->floor);
}

/* How a process ends that takes so many bytes as a record with this sum, and must find in it what k has, with this number. */
static int takes_record(const struct kept *k, const uint8_t *record, size_t bytes, uint32_t sum, uint64_t number)
{
    pid_t pid;
    fflush(stdout);
    pid = fork();
    if (pid == 0) {
        struct kept taken = *k;
        if (freopen("/dev/null", "w", stdout) == NULL || freopen("/dev/null", "w", stderr) == NULL)
            _exit(99);
        memset(taken.record, 0xAA, sizeof taken.record);
        journal_take_record(1, &taken, record, bytes, sum);
        _exit(memcmp(taken.record, k->record, PEAT_RECORD_NUMBER) != 0 || peat_record_number(taken.record) != number);
    }
    return stage_wait(pid, SOON);
}

static void earlier_journal(void)
{
    const char *name = "earlier journal";
    struct kept k = journal_fresh(PEAT_PROTECTED);
    uint8_t old[WITHOUT_VERSION + 1] = {0}; /* the record as it stood */
    uint32_t shorter, short_sum;
    if (!chosen(name))
        return;
    k.run = 3;
    k.record[PEAT_RECORD_STATE] = PEAT_DIALOGUE;
    k.record[PEAT_RECORD_ACTIVE] = 1;
    k.record[PEAT_RECORD_HIGHEST + 7] = 9;
    k.record[PEAT_RECORD_NUMBER + 7] = 5;
    memcpy(old, k.record, PEAT_RECORD_FORWARDS);
    memcpy(old + 8, k.record + PEAT_RECORD_HIGHEST, 16);
    shorter = sum_of(1, &k, old, WITHOUT_NUMBER), short_sum = sum_of(1, &k, old, WITHOUT_VERSION);
    check(takes_record(&k, old, WITHOUT_NUMBER, shorter, 0) == 0, name, "a record of 0.3.0 is not taken, or with another number than 0");
    check(takes_record(&k, old, WITHOUT_VERSION, short_sum, 5) == 0, name, "a record of 0.4.0 is not taken, or with another number or version");
    check(takes_record(&k, k.record, sizeof k.record, journal_sum(1, &k), 5) == 0, name, "a record is not taken");
    check(takes_record(&k, old, WITHOUT_NUMBER, shorter ^ 1u, 0) == EXIT_JOURNAL, name, "a damaged record of 0.3.0 is taken");
    check(takes_record(&k, old, WITHOUT_VERSION, short_sum ^ 1u, 5) == EXIT_JOURNAL, name, "a damaged record of 0.4.0 is taken");
    check(takes_record(&k, k.record, sizeof k.record, shorter, 5) == EXIT_JOURNAL, name, "a record is taken under the sum of a shorter one");
    check(takes_record(&k, old, WITHOUT_NUMBER + 1, shorter, 0) == EXIT_JOURNAL, name, "17 bytes are taken for a record");
}

/* ---- job numbers that have no place in SQLite's integers */

static void large_numbers(void)
{
    const char *name = "large numbers";
    static const char jobs[] = "\"jobs\":\"9223372036854775807-9223372036854775809\"";
    const uint64_t low = UINT64_C(0x7FFFFFFFFFFFFFFF);
    const struct plan plan[2] = {KILL(AT_ACKNOWLEDGED), KILL(AT_PUBLISHED)};
    unsigned i, exact = 0;
    pid_t pid;
    if (!chosen(name))
        return;
    set(1);
    stage_aircraft(&stage, 0, 0);
    fflush(stdout);
    pid = fork();
    if (pid == 0) {
        struct journal j;
        if (freopen("/dev/null", "w", stdout) == NULL)
            _exit(99);
        journal_open(&j, &stage.config, JOURNAL_RUN);
        floor_raise(&j, &stage.config, low - 1, ALL_DIALOGUES);
        j.close(&j);
        _exit(0);
    }
    check(stage_wait(pid, PLENTY) == 0, name, "the floor is not raised");
    for (i = 0; i < 6; i++)
        stage_job(&stage, 0, low + i % 3, 1, 0); /* the copies behind all of them */
    check(stage_play(&stage, plan, 2), name, "the jobs are not taken");
    stage_judge(&stage);
    for (i = 0; i < memory->letters; i++)
        exact += strcmp(memory->letter[i].type, "broken") == 0 && memcmp(memory->letter[i].body + memory->letter[i].bytes - sizeof jobs, jobs, sizeof jobs - 1) == 0;
    check(exact >= 1 && stage.account.repeated == exact - 1, name, "the exact jobs are not told, or under several ids");
    check(stage.damaged == 3, name, "not every job was seen once"); /* the aircraft count what they do not know as damaged */
}

/* ---- an aircraft that does not keep up */

static void slow_aircraft(void)
{
    const char *name = "slow aircraft";
    const struct plan none = {0};
    pid_t bridge;
    unsigned j, i, gone;
    if (!chosen(name))
        return;
    set(1);
    stage_aircraft(&stage, 0, 0);
    for (j = 1; j <= 3; j++)
        stage_job(&stage, 0, j, 1, 0);
    bridge = stage_bridge(&stage, none);
    for (i = 0; i < PLENTY && !stage_quiet(&stage); i++)
        poll(NULL, 0, 1);
    kill(stage.aircraft, SIGSTOP);
    for (; j <= MEMORY_PAYLOADS; j++)
        stage_job(&stage, 0, j, 1, 0);
    for (i = 0, gone = 0; i < 40 || memory->queue[0].gone != gone; i++) { /* until it stands still */
        gone = memory->queue[0].gone;
        poll(NULL, 0, 10);
    }
    check(gone < MEMORY_PAYLOADS, name, "jobs are taken for an aircraft that does not read");
    kill(stage.aircraft, SIGCONT);
    for (i = 0; i < PLENTY && !stage_quiet(&stage); i++)
        poll(NULL, 0, 1);
    kill(bridge, SIGTERM);
    judged(stage_wait(bridge, PLENTY) == 0, name);
    check(stage.verdict.ended == MEMORY_PAYLOADS, name, "not every job arrived");
    memory_lost(memory);
}

/* ---- a broker that goes and comes */

/* Waits until the bridge has connected so often. */
static int connected(uint64_t times)
{
    int tries;
    for (tries = 0; tries < PLENTY && memory->connection < times; tries++)
        poll(NULL, 0, 1);
    return memory->connection >= times;
}

static void broker_cut(void)
{
    const char *name = "broker cut";
    const struct plan none = {0};
    uint64_t before;
    pid_t bridge;
    unsigned i;
    if (!chosen(name))
        return;
    set(16);
    stage_aircraft(&stage, 0, 10);
    give_jobs(16, 20, 0);
    memory->prefetch = 2;
    before = memory->connection;
    bridge = stage_bridge(&stage, none);
    for (i = 1; i <= 6; i++) {
        check(connected(before + i), name, "the bridge does not connect again");
        memory->cut = 2; /* behind a delivery, so that the bridge has receipts of that connection */
    }
    check(connected(before + 7), name, "the bridge does not connect again");
    memory->away = 1;
    poll(NULL, 0, 50);
    memory->away = 0;
    for (i = 0; i < PLENTY && !stage_quiet(&stage); i++)
        poll(NULL, 0, 1);
    kill(bridge, SIGTERM);
    judged(stage_wait(bridge, PLENTY) == 0, name);
    check(stage.verdict.broken == 0, name, "a lost broker broke a dialogue");
}

/* ---- odd payloads */

static size_t put_envelope(uint8_t *at, unsigned kind, uint64_t job, unsigned bits)
{
    static const uint8_t body[256];
    uint8_t e[PEAT_BUFFER_LEAST];
    struct peat_written_envelope written = peat_write_envelope(kind, job, bits, body, sizeof body, e, sizeof e);
    memcpy(at, e, peat_written_bytes(written));
    return peat_written_bytes(written);
}

/* a letter that was laid aside with exactly these bytes */
static int laid_aside(const uint8_t *bytes, size_t count)
{
    unsigned i;
    for (i = 0; i < memory->letters; i++)
        if (strcmp(memory->letter[i].type, "dead") == 0 && memory->letter[i].bytes == count && memcmp(memory->letter[i].body, bytes, count) == 0)
            return 1;
    return 0;
}

unsigned letters_of(const char *type, const char *reason)
{
    unsigned i, n = 0;
    for (i = 0; i < memory->letters; i++)
        n += strcmp(memory->letter[i].type, type) == 0 && strcmp(memory->letter[i].reason, reason) == 0;
    return n;
}

static void odd_payloads(void)
{
    const char *name = "odd payloads";
    static const struct { const char *reason; uint8_t byte[8]; size_t bytes; } bad[] = {
        {"CUT", {0}, 0}, {"CUT", {0x01}, 1}, {"CUT", {0x01, 0x05, 0x18, 0xAA, 0xBB}, 5}, {"GROUPS", {0x01, 0x80, 0x00, 0x00}, 4},
        {"GROUPS", {0x01, 0x00, 0x00}, 3}, {"KIND", {0x04, 0x01, 0x00}, 3}, {"SIZE", {0x01, 0x01, 0x01, 0xFF}, 4}};
    const struct plan none[1] = {{0}};
    static const uint8_t cut[] = {0x01, 0x05, 0x10, 0xAA}; /* the second byte of a body is missing */
    uint8_t payload[MEMORY_BYTES];
    size_t i, n = 0;
    uint64_t job = 1;
    if (!chosen(name))
        return;
    set(1);
    stage_aircraft(&stage, 0, 0);
    for (i = 0; i < sizeof bad / sizeof *bad; i++)
        memory_put(memory, 0, bad[i].byte, bad[i].bytes, 0);
    n = put_envelope(payload, PEAT_ENVELOPE_DELIVERED, 1, 8);
    n += put_envelope(payload + n, PEAT_ENVELOPE_REFUSAL, 1, 8);
    n += put_envelope(payload + n, PEAT_ENVELOPE_TO_SEND, job++, 8); /* taken, behind two that are laid aside */
    memcpy(payload + n, cut, sizeof cut);                            /* and one that the payload ends inside of */
    memory_put(memory, 0, payload, n + sizeof cut, 0);
    n = put_envelope(payload, PEAT_ENVELOPE_TO_SEND, 1000000, 8);
    n += put_envelope(payload + n, PEAT_ENVELOPE_TO_SEND, UINT64_MAX, 8);
    memory_put(memory, 0, payload, n, 0);
    for (n = 0; n < 2900;) /* hundreds of envelopes in one payload: every one is looked at */
        n += put_envelope(payload + n, PEAT_ENVELOPE_TO_SEND, job++, 8);
    memory_put(memory, 0, payload, n, 0);
    memory_put(memory, 0, payload, 3500, 0);
    memory_put(memory, 0, payload, n, 0); /* once more: all are repeats */
    check(stage_play(&stage, none, 0), name, "a payload comes back for ever");
    for (i = 0; i < sizeof bad / sizeof *bad; i++)
        check(letters_of("dead", bad[i].reason) > 0 && laid_aside(bad[i].byte, bad[i].bytes), name, bad[i].reason);
    check(letters_of("dead", "CUT") == 4, name, "not three cut payloads and an envelope that is cut");
    check(laid_aside(cut, sizeof cut), name, "what is laid aside does not begin where the envelope does");
    check(letters_of("dead", "another kind") == 2, name, "an envelope of another kind is not laid aside");
    check(letters_of("dead", "jump") == 2, name, "a job jumps");
    check(letters_of("dead", "too long") == 1, name, "a payload that is too long is looked at");
    check(letters_of("ended", "") == 1, name, "there is not one notice");
    stage_judge(&stage);
    check(account_job(&stage.account, 0, job - 1)->ended == 1, name, "the last envelope of a long payload was forgotten");
    check(stage.damaged == job - 1, name, "the flight deck saw another number of messages");
    printf("bridge: %llu jobs in one payload\n", (unsigned long long)(job - 2));
}

/* ---- t-start */

/* An aircraft that takes the connection and never answers. */
static void no_answer(void)
{
    const char *name = "t-start";
    const struct plan none = {0};
    struct sockaddr_un a;
    int listener, taken = 0, i;
    pid_t bridge;
    if (!chosen(name))
        return;
    set(1);
    stage.config.t_start = 50;
    listener = packet_socket(stage.config.link, 0, &a);
    check(bind(listener, (struct sockaddr *)&a, sizeof a) == 0 && listen(listener, 4) == 0, name, "no socket");
    bridge = stage_bridge(&stage, none);
    for (i = 0; i < PLENTY && taken < 3; i++) {
        taken += accept(listener, NULL, NULL) >= 0;
        poll(NULL, 0, 1);
    }
    check(taken == 3, name, "a start that is not answered is not tried again");
    kill(bridge, SIGTERM);
    check(stage_wait(bridge, PLENTY) == 0, name, "the bridge does not stop in order");
    close(listener);
    memory_lost(memory);
}

/* ---- operation: words to systemd, the page of metrics */

/* The socket of systemd, played here: in the file system, or (with an @) a name of its own. */
static int notify_socket(const char *at, const char *where)
{
    struct sockaddr_un a;
    int s = socket(AF_UNIX, SOCK_DGRAM, 0);
    size_t n;
    memset(&a, 0, sizeof a);
    a.sun_family = AF_UNIX;
    n = (size_t)snprintf(stage.notify, sizeof stage.notify, "%s%s/words", at, where);
    memcpy(a.sun_path, stage.notify, n);
    if (*at == '@')
        a.sun_path[0] = '\0';
    check(bind(s, (struct sockaddr *)&a, (socklen_t)(offsetof(struct sockaddr_un, sun_path) + n)) == 0, "systemd", "no socket");
    return s;
}

/* 1: a word came, and is in text; 0: none is there */
static int next_word(int s, char *text, size_t size)
{
    ssize_t n = recv(s, text, size - 1, MSG_DONTWAIT);
    text[n < 0 ? 0 : n] = '\0';
    return n >= 0;
}

/* Waits for a word; before it none comes that may not. */
static int word_comes(int s, const char *word, const char *too_early)
{
    char text[100];
    int tries;
    for (tries = 0; tries < PLENTY; tries++) {
        if (!next_word(s, text, sizeof text)) {
            poll(NULL, 0, 1);
            continue;
        }
        if (strcmp(text, word) == 0)
            return 1;
        if (too_early != NULL && strcmp(text, too_early) == 0)
            return 0;
    }
    return 0;
}

static int words_waiting(int s)
{
    char text[100];
    int n = 0;
    while (next_word(s, text, sizeof text))
        n++;
    return n;
}

/* The bridge is ready when the queues are its own, a bridge that hangs says nothing, and one that stops says so. */
static void systemd(void)
{
    const char *name = "systemd";
    const struct plan none = {0};
    int words, i;
    pid_t bridge;
    if (!chosen(name))
        return;
    set(1);
    stage_aircraft(&stage, 0, 0);
    words = notify_socket("@", stage.folder);
    memory->away = 1;
    bridge = stage_bridge(&stage, none);
    for (i = 0; i < 5; i++)
        check(word_comes(words, "WATCHDOG=1", "READY=1"), name, "without a broker the watchdog gets no word, or the bridge is ready");
    memory->away = 0;
    check(word_comes(words, "READY=1", "STOPPING=1"), name, "it is not told that the bridge is ready");
    check(word_comes(words, "WATCHDOG=1", NULL), name, "the watchdog gets no word");
    kill(bridge, SIGSTOP);
    poll(NULL, 0, 50);
    words_waiting(words);
    poll(NULL, 0, 200);
    check(words_waiting(words) == 0, name, "somebody else speaks for a bridge that hangs");
    kill(bridge, SIGCONT);
    check(word_comes(words, "WATCHDOG=1", NULL), name, "a bridge that goes on says nothing");
    kill(bridge, SIGTERM);
    check(word_comes(words, "STOPPING=1", NULL), name, "it is not told that the bridge stops");
    judged(stage_wait(bridge, PLENTY) == 0, name);
    close(words);
}

/* The watchdog's period is half of what it allows; one that is for another process is none of ours. */
static void watchdog_period(void)
{
    const char *name = "watchdog period";
    char own[24];
    if (!chosen(name))
        return;
    unsetenv("WATCHDOG_USEC");
    check(notify_period() == 0, name, "there is a watchdog where none is named");
    setenv("WATCHDOG_USEC", "60000000", 1);
    check(notify_period() == 30000, name, "not half of a minute");
    setenv("WATCHDOG_PID", "1", 1);
    check(notify_period() == 0, name, "another process's watchdog is taken");
    snprintf(own, sizeof own, "%ld", (long)getpid());
    setenv("WATCHDOG_PID", own, 1);
    check(notify_period() == 30000, name, "its own watchdog is not");
    unsetenv("WATCHDOG_USEC");
    unsetenv("WATCHDOG_PID");
}

/* a port of the loopback address that is free now */
unsigned free_port(void)
{
    struct sockaddr_in a;
    socklen_t n = sizeof a;
    int s = socket(AF_INET, SOCK_STREAM, 0);
    memset(&a, 0, sizeof a);
    a.sin_family = AF_INET;
    a.sin_addr.s_addr = htonl(INADDR_LOOPBACK);
    if (s < 0 || bind(s, (struct sockaddr *)&a, sizeof a) != 0 || getsockname(s, (struct sockaddr *)&a, &n) != 0)
        abort();
    close(s);
    return ntohs(a.sin_port);
}

void read_page(unsigned port, char *text, size_t size)
{
    struct sockaddr_in a;
    int s = socket(AF_INET, SOCK_STREAM, 0);
    size_t used = 0;
    ssize_t n = 1;
    poll(NULL, 0, SHOWN_MS);
    memset(&a, 0, sizeof a);
    a.sin_family = AF_INET;
    a.sin_port = htons((uint16_t)port);
    a.sin_addr.s_addr = htonl(INADDR_LOOPBACK);
    if (connect(s, (struct sockaddr *)&a, sizeof a) == 0 && write(s, "GET /metrics HTTP/1.0\r\n\r\n", 25) == 25)
        while (used < size - 1 && (n = read(s, text + used, size - 1 - used)) > 0)
            used += (size_t)n;
    text[used] = '\0';
    close(s);
}

static void operation(void)
{
    const char *name = "operation";
    static char page[32768];
    const struct plan none = {0};
    int words, tries;
    pid_t bridge;
    if (!chosen(name))
        return;
    set(4);
    stage_aircraft(&stage, 0, 0);
    words = notify_socket("", stage.folder);
    stage.config.metrics_port = free_port();
    give_jobs(4, 5, 0);
    bridge = stage_bridge(&stage, none);
    check(word_comes(words, "READY=1", NULL), name, "systemd is not told that the bridge is ready");
    for (tries = 0; tries < PLENTY && !stage_quiet(&stage); tries++)
        poll(NULL, 0, 1);
    read_page((unsigned)stage.config.metrics_port, page, sizeof page);
    check(!HAS_PAGE || strstr(page, "\npeat_jobs_taken_total 20\n") != NULL, name, "the page does not count jobs");
    check(!HAS_PAGE || strstr(page, "\npeat_dialogues_open 4\n") != NULL, name, "the page does not count dialogues");
    check(!HAS_PAGE || strstr(page, "\npeat_broker_up 1\n") != NULL, name, "the page does not know of the broker");
    check(!HAS_PAGE || strstr(page, "\npeat_commit_seconds_count ") != NULL, name, "the page is not whole");
    check(!HAS_PAGE || strstr(page, "peat_jobs_refused_total{refusal=\"5\"} 0\n") != NULL, name, "the page has no refusals by number");
    kill(bridge, SIGTERM);
    check(word_comes(words, "STOPPING=1", NULL), name, "systemd is not told that the bridge stops");
    judged(stage_wait(bridge, PLENTY) == 0, name);
    check(stage.verdict.ended == stage.verdict.jobs, name, "a dialogue was not ended in order");
    close(words);
}

int main(int argc, char **argv)
{
    if (argc < 2)
        return 2;
    room = argv[1];
    only = argc > 2 ? argv[2] : NULL;
    plays = getenv("PEAT_FIRST_PLAY") != NULL ? (unsigned)atoi(getenv("PEAT_FIRST_PLAY")) : 0; /* a play is a schema of a database */
    memory = memory_make(8);
    setvbuf(stdout, NULL, _IOLBF, 0);
    the_matrix();
    each_point();
    refusals();
    power_cuts();
    rough("rough", 1, 0);
    rough("rough with power cuts", 2, 1);
    failing_disk();
    second_bridge();
    missing_journal();
    restored();
    earlier_journal();
    large_numbers();
    slow_aircraft();
    broker_cut();
    odd_payloads();
    no_answer();
    systemd();
    watchdog_period();
    operation();
    troubles();
    whole_host();
    centres();
    printf("%u passed, %u failed\n", passed, failed);
    return failed != 0;
}
