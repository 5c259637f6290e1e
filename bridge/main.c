/*
 * The command line of the bridge: the words are in `help`.
 */
#include <signal.h>
#include <stdio.h>
#include <stdlib.h>
#include <string.h>
#include <unistd.h>

#include "bridge.h"
#include "files.h"
#include "floor.h"
#include "log.h"
#include "move.h"
#include "renumber.h"
#include "witness.h"

static volatile sig_atomic_t stop;

static void on_stop(int signal)
{
    (void)signal;
    stop = 1;
}

static const char help[] =
    "bridge CONFIG                     runs\n"
    "bridge --standby CONFIG           runs, and takes dialogues whose bridge is gone (with a database)\n"
    "bridge check CONFIG               reads the configuration, opens every file, certificate and folder that it names, and says what it found\n"
    "bridge init CONFIG                makes the journal and this host's witness, where no job was ever taken\n"
    "bridge join CONFIG                makes the witness of one more host of a journal that is in a database\n"
    "bridge floor JOB CONFIG [NUMBER]  raises the floor of all dialogues, or of one: no job up to JOB is taken from now on\n"
    "                                  unless it was decided before. Then a restored journal is accepted\n"
    "bridge renumber NUMBER CONFIG     gives a dialogue's record a number that a start can follow, where its own is far ahead\n"
    "bridge move FROM TO               moves the journal of a configuration with a file to one with a database\n"
    "bridge --help, bridge --version   these lines; the version\n"
    "\n"
    "Statuses: 0 told to stop, 2 command line or configuration, 3 the journal failed, 4 it may not run here, 5 fenced by another bridge,\n"
    "6 the database was too slow, 7 out of memory. docs/BRIDGE.md says what to do then.\n";

/* What is wrong with the command line. */
static int usage(const char *what, const char *why)
{
    fprintf(stderr, "bridge: %s%s%s\nusage:\n%s", what, *what ? ": " : "", why, help);
    return EXIT_USAGE;
}

static int show_help(void) { return fputs(help, stdout) < 0 || fflush(stdout) != 0 ? EXIT_USAGE : EXIT_STOPPED; }

static int show_version(void) { return printf("bridge %s\n", PEAT_VERSION) < 0 || fflush(stdout) != 0 ? EXIT_USAGE : EXIT_STOPPED; }

/* ---- check */

static void say_found(void *with, enum finding f, const char *name, const char *value, const char *what)
{
    static const char *const words[] = {[FILES_GOOD] = "good", [FILES_WARNS] = "warning", [FILES_BAD] = "bad"};
    (void)with;
    printf("%-8s %s %s: %s\n", words[f], name, value, what);
}

static int check(struct config *c, char **words)
{
    unsigned bad;
    printf("%-8s %s: every line is understood\n", "good", words[2]);
    bad = files_look(c, say_found, NULL);
    printf("not asked: the %sbroker %s:%llu\n", c->database[0] != '\0' ? "database, and the " : "", c->broker, (unsigned long long)c->port);
    if (bad > 0)
        printf("%u bad\n", bad);
    return bad > 0 ? EXIT_USAGE : EXIT_STOPPED;
}

/* A bridge that starts with what it can't connect with would be away from its broker for ever. */
static void log_found(void *with, enum finding f, const char *name, const char *value, const char *what)
{
    (void)with;
    if (f != FILES_GOOD)
        log_line(f == FILES_BAD ? LOG_FAIL : LOG_WARN, "configuration", TEXT("what", name), TEXT("value", value), TEXT("why", what));
}

/* ---- the journal's commands */

static int init(struct config *c, char **words)
{
    struct journal j;
    (void)words;
    journal_open(&j, c, JOURNAL_INIT);
    witness_write(c->witness, j.id, j.commits(&j));
    j.close(&j);
    return EXIT_STOPPED;
}

/* A host that has a witness of this journal has seen it before: then the witness counts. */
static int join(struct config *c, char **words)
{
    struct journal j;
    struct witness w;
    (void)words;
    journal_open(&j, c, JOURNAL_RUN);
    if (!j.shared)
        log_and_exit(EXIT_REFUSED, "journal", c->journal, "it is one host's alone: `join` is for a journal that is in a database");
    w = witness_ask(c->witness, &j);
    if (w.says != WITNESS_MISSING)
        log_and_exit(EXIT_REFUSED, "witness", c->witness, "it is there already: this host has joined. Start the bridge; where it refuses, it says what to do");
    witness_write(c->witness, j.id, j.commits(&j));
    j.close(&j);
    return EXIT_STOPPED;
}

static int raise_floor(struct config *c, char **words)
{
    struct journal j;
    const char *job = words[2], *dialogue = words[4];
    uint64_t floor, one = ALL_DIALOGUES;
    if (!config_number(job, &floor) || floor == UINT64_MAX)
        return usage(job, "a job is a number below 18446744073709551615; a floor is never lowered");
    if (dialogue != NULL && (!config_number(dialogue, &one) || one >= PLACES_MOST || !config_has_place(c, (unsigned)one)))
        return usage(dialogue, "there is no dialogue with this number");
    c->share = c->dialogues; /* a command takes all, or nothing */
    journal_open(&j, c, JOURNAL_RUN);
    floor_raise(&j, c, floor, one);
    j.close(&j);
    return EXIT_STOPPED;
}

/* A record that no start can follow gets a number that one can. */
static int lower_number(struct config *c, char **words)
{
    struct journal j;
    uint64_t dialogue;
    if (!config_number(words[2], &dialogue) || dialogue >= PLACES_MOST || !config_has_place(c, (unsigned)dialogue))
        return usage(words[2], "there is no dialogue with this number");
    c->share = c->dialogues; /* a command takes all, or nothing */
    journal_open(&j, c, JOURNAL_RUN);
    witness_admit(c->witness, &j);
    renumber(&j, c, (unsigned)dialogue);
    j.close(&j);
    return EXIT_STOPPED;
}

static int read_config(struct config *c, const char *path)
{
    char fault[CONFIG_LONG];
    if (!config_read(c, path, fault, sizeof fault)) {
        fprintf(stderr, "%s\n", fault);
        return 0;
    }
    if (c->host[0] == '\0' && gethostname(c->host, sizeof c->host - 1) != 0)
        strcpy(c->host, "host");
    log_from((enum log_level)c->log);
    return 1;
}

static int move(struct config *c, char **words)
{
    static struct config to;
    if (!read_config(&to, words[3]))
        return EXIT_USAGE;
    to.share = to.dialogues;
    journal_move(c, &to);
    return EXIT_STOPPED;
}

/* ---- running */

static void hear_signals(void)
{
    struct sigaction a;
    memset(&a, 0, sizeof a);
    a.sa_handler = on_stop;
    sigaction(SIGTERM, &a, NULL);
    sigaction(SIGINT, &a, NULL);
    a.sa_handler = SIG_IGN;
    sigaction(SIGPIPE, &a, NULL);
}

static int run(struct config *c, char **words)
{
    static struct bridge b; /* some hundred KB with its windows */
    struct journal j;
    struct broker broker;
    struct link link;
    struct page *page;
    const char *why;
    (void)words;
    hear_signals();
    if (files_look_broker(c, log_found, NULL) > 0)
        log_and_exit(EXIT_USAGE, "configuration", c->broker, "what the connection to the broker needs can not be read; `bridge check` says what");
    if (!broker_open_rabbit(&broker, c))
        log_and_exit(EXIT_USAGE, "broker", c->broker, broker.why);
    page = page_open(c, &why);
    if (why != NULL)
        log_and_exit(EXIT_USAGE, "page", c->page_address, why);
    link_open_packet(&link, c);
    journal_open(&j, c, JOURNAL_RUN);
    witness_admit(c->witness, &j);
    bridge_begin(&b, c, &j, &broker, &link, page);
    bridge_run(&b, &stop);
    return EXIT_STOPPED;
}

static int stand_by(struct config *c, char **words)
{
    if (c->database[0] == '\0')
        log_and_exit(EXIT_USAGE, "standby", "database", "a journal that is a file has one bridge");
    c->standby = 1;
    return run(c, words);
}

/* ---- the command line */

static const struct command {
    const char *word;
    int least, most, config; /* how many words there are, and which of them is the configuration */
    int (*run)(struct config *, char **words);
} commands[] = {
    {"--standby", 3, 3, 2, stand_by},
    {"check", 3, 3, 2, check},
    {"init", 3, 3, 2, init},
    {"join", 3, 3, 2, join},
    {"floor", 4, 5, 3, raise_floor},
    {"renumber", 4, 4, 3, lower_number},
    {"move", 4, 4, 2, move},
    {NULL, 2, 2, 1, run}, /* any other word is a configuration */
};

static int is_word(int argc, char **argv, const char *word) { return argc == 2 && strcmp(argv[1], word) == 0; }

int main(int argc, char **argv)
{
    static struct config c;
    const struct command *k = commands;
    if (!log_hold_descriptors())
        return EXIT_USAGE;
    if (is_word(argc, argv, "--help") || is_word(argc, argv, "-h"))
        return show_help();
    if (is_word(argc, argv, "--version"))
        return show_version();
    if (argc < 2)
        return usage("", "there is no configuration");
    while (k->word != NULL && strcmp(argv[1], k->word) != 0)
        k++;
    if (k->word == NULL && argv[1][0] == '-')
        return usage(argv[1], "there is no such word");
    if (argc < k->least || argc > k->most)
        return usage(argv[1], "too few words, or too many");
    return read_config(&c, argv[k->config]) ? k->run(&c, argv) : EXIT_USAGE;
}
