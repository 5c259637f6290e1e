/*
 * A simulator of hosts of the card: 48 dialogues, each with an air end and a ground end, joined by a carrier in memory; and
 * another centre, to which 8 links lead, each of two ground ends. Half of the dialogues and links are of application type 2, half of type 22.
 *
 *     peat-host --help
 *
 * Users open and close dialogues at random. At each end a broker hands out jobs, each with a CPDLC message for the other
 * end, in no strict order and each until it hears that it was acknowledged. A controller's message has a number from the book
 * of its dialogue, and the flight deck's messages are the replies that close it. Controllers also forward messages to the
 * other centre and receive messages forwarded by it. Timers expire, ends break down, the carrier fails and the power goes, all at random from the
 * seed. The run ends when every line has run empty; then the account and its verdict are printed. Status 0, PASS: no clearance
 * was shown twice, no dialogue was left half closed or shown as closed twice, and every message record is right.
 *
 * It is no host to put into a rack: its carrier, its broker and its power are in memory. What a host has to do around the
 * card, and in which order, it does as docs/HOST.md asks. One idea a file:
 *
 *   end       keep, then release: what is done with the answer of a call
 *   memory    what a host remembers of an end, and how a change changes it
 *   journal   the changes on stable storage, each with a checksum
 *   jobs      the broker's mail: the order of jobs, decisions, acknowledgements
 *   notices   what became of a job, told to whoever gave it
 *   restart   the power fails and is back: the carrier has failed
 *   dialogue  two ends and their carrier: what may happen, and what must hold
 *   position  how often a user becomes active and is closed, by the answers alone
 *   book      the numbers of controllers' messages: open until the reply
 *   forward   two centres and their carrier: forwards, their answers, what must hold
 *   broker, user, clearance, carrier, envelopes   the world around the ends
 *   account   what is counted, and the verdict
 *   story, capture, recording, moves, faults, options, chance, power   for the one who watches
 */
#define _POSIX_C_SOURCE 200809L
#include <stdio.h>
#include <stdlib.h>
#include <unistd.h>

#include "account.h"
#include "capture.h"
#include "chance.h"
#include "dialogue.h"
#include "faults.h"
#include "forward.h"
#include "jobs.h"
#include "moves.h"
#include "notices.h"
#include "options.h"
#include "recording.h"
#include "restart.h"
#include "story.h"

#define PAIRS (DIALOGUES + LINKS)

static struct dialogue dialogues[PAIRS]; /* and behind them the links */

#define CROWD 500 /* offers at most, in which a dialogue has all numbers open */

/* A controller sends more messages than there are numbers, and the flight deck replies to none of them meanwhile. */
static void crowd(struct dialogue *d)
{
    unsigned long full = account.all_open;
    int i;
    for (i = 0; i < CROWD && state(ground(d)) == PEAT_DIALOGUE && ground(d)->memory.open < OPEN_MOST && account.all_open == full; i++) {
        jobs_offer(ground(d));
        dialogue_hand_over(ground(d));
    }
}

#define FORWARD_STEPS 6 /* one step in so many is of a link */

/* One thing happens in one dialogue, or on one link. */
static void step(void)
{
    struct dialogue *d = &dialogues[chance(DIALOGUES)];
    struct end *e = &d->end[chance(2)];
    unsigned what = chance(1000);
    dialogue_rejoin(d);
    if (chance(FORWARD_STEPS) == 0) {
        forward_step(&dialogues[DIALOGUES + chance(LINKS)]);
        return;
    }
    if (what < 450)
        dialogue_hand_over(e);
    else if (what < 750)
        jobs_offer(e);
    else if (what < 900)
        dialogue_respond(e);
    else if (what < 901)
        crowd(d);
    else if (what < 985)
        dialogue_start(d);
    else if (what < 992)
        dialogue_expire(e);
    else if (what < 996)
        dialogue_turn_back(e);
    else if (what < 998)
        dialogue_break_down(e);
    else
        dialogue_fail(d);
    dialogue_examine(d);
}

/* the application type of a dialogue or a link: the one that was asked for, or type 22 of the first half and type 2 of the second */
static unsigned type_of(int pair, unsigned asked)
{
    int second_half = pair < DIALOGUES ? pair >= DIALOGUES / 2 : pair - DIALOGUES >= LINKS / 2;
    return asked != 0 ? asked : second_half ? PEAT_PLAIN : PEAT_PROTECTED;
}

static int begin(const char *folder, unsigned type)
{
    int i;
    for (i = 0; i < DIALOGUES; i++) {
        const struct setting aircraft = {"air", PEAT_AIR, PEAT_FORWARDS_NOT, 1, type_of(i, type)};
        const struct setting centre = {"ground", PEAT_GROUND, PEAT_FORWARDS_NOT, 1, type_of(i, type)};
        if (end_begin(air(&dialogues[i]), i, &aircraft, ground(&dialogues[i]), folder) != 0 ||
            end_begin(ground(&dialogues[i]), i, &centre, air(&dialogues[i]), folder) != 0)
            return -1;
    }
    for (; i < PAIRS; i++)
        if (forward_begin(&dialogues[i], i, type_of(i, type), folder) != 0)
            return -1;
    return 0;
}

/* Every line runs empty, and every user hears what is left to tell. */
static void finish(void)
{
    int i, j;
    for (i = 0; i < PAIRS; i++)
        dialogue_drain(&dialogues[i]);
    for (i = 0; i < PAIRS; i++)
        for (j = 0; j < 2; j++)
            notices_post(&dialogues[i].end[j]);
    for (i = 0; i < DIALOGUES; i++)
        for (j = 0; j < 2; j++)
            dialogue_audit(&dialogues[i].end[j]);
    for (i = DIALOGUES; i < PAIRS; i++)
        forward_audit(&dialogues[i].end[0]);
}

static void end_journals(void)
{
    int i;
    for (i = 0; i < 2 * PAIRS; i++)
        journal_end(&dialogues[i / 2].end[i % 2].journal);
}

/* a folder of its own for the journals, in room of so many bytes; -1 where none can be made */
static int make_folder(char *name, size_t room)
{
    const char *where = getenv("TMPDIR");
    int n = snprintf(name, room, "%s/peatribbon-host.XXXXXX", where != NULL ? where : "/tmp");
    return n < 0 || (size_t)n >= room || mkdtemp(name) == NULL ? -1 : 0;
}

static int fail(const char *words, const char *name)
{
    fprintf(stderr, "peat-host: %s: %s\n", words, name);
    return 2;
}

int main(int argc, char **argv)
{
    struct options o = options_read(argc, argv, PAIRS);
    char made[200] = "";
    if (o.state == NULL && make_folder(made, sizeof made) != 0)
        return fail("no folder for the journals can be made", made);
    if (o.pcap != NULL && capture_begin(o.pcap, o.pcap_pad) != 0)
        return fail("it can not be written", o.pcap);
    if (o.record != NULL && recording_begin(o.record) != 0)
        return fail("no recordings can be written there", o.record);
    if (o.moves != NULL && moves_begin(o.moves) != 0)
        return fail("no moves can be written there", o.moves);
    chance_begin(o.seed);
    if (begin(o.state != NULL ? o.state : made, o.type) != 0)
        return fail("no journal can be begun here", o.state != NULL ? o.state : made);
    for (story_step = 0; story_step < o.steps; story_step++)
        restart_around(dialogues, PAIRS, step);
    finish();
    end_journals();
    if (o.state == NULL)
        rmdir(made);
    if (capture_end() != 0)
        return fail("it was not written whole", o.pcap);
    if (recording_end() != 0)
        return fail("a recording was not written whole", o.record);
    if (moves_end() != 0)
        return fail("the moves were not written whole", o.moves);
    (o.json ? account_print_json : account_print)(stdout, o.seed, DIALOGUES, o.steps);
    return account_good() ? 0 : 1;
}
