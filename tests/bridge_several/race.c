/*
 * Several processes take dialogues of one journal at the same moment, over and over, by the journal's own statements.
 *
 *     race DATABASE PROCESSES ROUNDS
 *
 * DATABASE has a journal of DIALOGUES dialogues. A round begins with all of them free, or in every fourth one with a lease that ran
 * out; each is then taken by one process, and by no other. Prints how many rounds there were, and in how many that did not hold.
 */
#define _DEFAULT_SOURCE
#include <sched.h>
#include <stdio.h>
#include <stdlib.h>
#include <string.h>
#include <sys/mman.h>
#include <sys/wait.h>
#include <unistd.h>

#include "../../bridge/log.h"
#include "../../bridge/postgres.h"

#define DIALOGUES DIALOGUES_MOST
#define PROCESSES_MOST 8

/* what the processes share */
static struct shared {
    volatile unsigned round; /* that is open; each process that is ready for it */
    volatile unsigned ready, done;
    volatile unsigned taken[PROCESSES_MOST][DIALOGUES];
} *shared;

static struct config config;

/* This process has nothing any more. */
static void forget(struct journal *j)
{
    memset(store_of(j)->hold, 0, sizeof store_of(j)->hold);
    store_of(j)->held = 0;
}

static void take_part(unsigned me, unsigned rounds)
{
    struct journal j;
    struct taken got[DIALOGUES_MOST];
    unsigned round, i, n;
    journal_open(&j, &config, JOURNAL_RUN);
    for (round = 1; round <= rounds; round++) {
        forget(&j);
        __atomic_add_fetch(&shared->ready, 1, __ATOMIC_SEQ_CST);
        while (__atomic_load_n(&shared->round, __ATOMIC_SEQ_CST) != round)
            sched_yield();
        n = j.take(&j, got);
        for (i = 0; i < n; i++)
            shared->taken[me][got[i].dialogue]++;
        __atomic_add_fetch(&shared->done, 1, __ATOMIC_SEQ_CST);
    }
    _exit(0);
}

/* Whether a dialogue was taken twice. (One that nobody took in the rush is taken by the next look.) */
static int judge(unsigned processes)
{
    unsigned d, p, times, wrong = 0;
    for (d = 0; d < DIALOGUES; d++) {
        for (p = 0, times = 0; p < processes; p++) {
            times += shared->taken[p][d];
            shared->taken[p][d] = 0;
        }
        wrong |= times > 1;
    }
    return wrong != 0;
}

int main(int argc, char **argv)
{
    unsigned processes, rounds, round, i, wrong = 0;
    struct pg *pg;
    if (argc != 4)
        return EXIT_USAGE;
    processes = (unsigned)atoi(argv[2]);
    rounds = (unsigned)atoi(argv[3]);
    if (processes > PROCESSES_MOST)
        return EXIT_USAGE;
    shared = mmap(NULL, sizeof *shared, PROT_READ | PROT_WRITE, MAP_SHARED | MAP_ANONYMOUS, -1, 0);
    if (shared == MAP_FAILED)
        return EXIT_MEMORY;
    snprintf(config.database, sizeof config.database, "%s", argv[1]);
    snprintf(config.host, sizeof config.host, "race");
    config.dialogues = DIALOGUES;
    config.lease = 60000;
    config.share = DIALOGUES;
    memset(config.type, PEAT_PROTECTED, sizeof config.type);
    for (i = 0; i < processes; i++)
        if (fork() == 0)
            take_part(i, rounds);
    pg = pg_open(argv[1], "race");
    for (round = 1; round <= rounds; round++) {
        while (__atomic_load_n(&shared->ready, __ATOMIC_SEQ_CST) != processes)
            if (waitpid(-1, NULL, WNOHANG) > 0)
                return EXIT_JOURNAL;
        pg_say(pg, round % 4 != 0 ? "UPDATE dialogue SET owner = '', until = '-infinity'" : "UPDATE dialogue SET owner = 'gone', until = '-infinity'");
        __atomic_store_n(&shared->done, 0, __ATOMIC_SEQ_CST);
        __atomic_store_n(&shared->ready, 0, __ATOMIC_SEQ_CST);
        __atomic_store_n(&shared->round, round, __ATOMIC_SEQ_CST);
        while (__atomic_load_n(&shared->done, __ATOMIC_SEQ_CST) != processes)
            usleep(200);
        wrong += (unsigned)judge(processes);
    }
    while (wait(NULL) > 0) {}
    pg_close(pg);
    printf("%u rounds, %u wrong\n", rounds, wrong);
    return 0;
}
