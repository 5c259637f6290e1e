/*
 * The bridge as a whole host: message numbers from the book, the CPDLC message that is read, what message data carry beside it, journals of
 * earlier versions.
 */
#define _DEFAULT_SOURCE
#include <poll.h>
#include <signal.h>
#include <sqlite3.h>
#include <stdio.h>
#include <stdlib.h>
#include <string.h>
#include <unistd.h>

#include "../../bridge/book.h"
#include "../../bridge/clock.h"
#include "../../bridge/log.h"
#include "../../bridge/sim/clearance.h"
#include "deck.h"
#include "matrix.h"

#define SOON 8000 /* ms: what comes at all has come */

#define A_ROUND 700 /* ms: the bridge has gone round, also one that was asleep */

static const struct plan none[1] = {{0}};

static int quiet(void) { return stage_quiet(&stage); }

static int becomes(int (*holds)(void), unsigned ms)
{
    uint64_t until = now_ms() + ms;
    while (!holds() && now_ms() < until)
        poll(NULL, 0, 1);
    return holds();
}

static void stop(pid_t bridge, const char *name)
{
    kill(bridge, SIGTERM);
    check(stage_wait(bridge, PLENTY) == 0, name, "the bridge does not stop in order");
    memory_lost(memory);
}

/* A stage whose bridge reads messages and keeps the book; some of its dialogues are of application type 2. */
static void set_checked_types(unsigned dialogues, const char *plain)
{
    set_types(dialogues, plain);
    stage.config.opaque = 0;
    snprintf(stage.config.queue_words, sizeof stage.config.queue_words, "words{}");
}

static void set_checked(unsigned dialogues) { set_checked_types(dialogues, ""); }

static void say_word(unsigned dialogue, const char *word) { memory_put(memory, PLACES_MOST + dialogue, (const uint8_t *)word, strlen(word), 0); }

/* the first letter of a type, with these words in its headers; NULL: there is none */
static const struct memory_letter *letter_with(const char *type, const char *heads)
{
    unsigned i;
    for (i = 0; i < memory->letters; i++)
        if (strcmp(memory->letter[i].type, type) == 0 && strstr(memory->letter[i].heads, heads) != NULL)
            return &memory->letter[i];
    return NULL;
}

/* ---- the book */

/* Every position's message has the number 7; the flight decks answer some at a time, and count numbers that are open there. */
static void numbers(void)
{
    const char *name = "numbers";
    const struct plan plan[2] = {{AT_ACKNOWLEDGED, 20, 0, 0}, {AT_COMMITTED, 30, 0, 0}};
    unsigned d, j;
    if (!chosen(name))
        return;
    set_checked(4);
    stage.reply = 9;
    stage_aircraft(&stage, 0, 0);
    for (d = 0; d < 4; d++)
        for (j = 1; j <= 120; j++)
            stage_clearance(&stage, d, j, 1 + j % 2, "");
    judged(stage_play(&stage, plan, 2), name);
    check(stage.numbers > 400, name, "the flight decks saw few messages");
    check(stage.twice == 0, name, "a number was given that was open");
}

static unsigned waits_at;

static int stands_still(void) { return memory->queue[0].gone == waits_at; }

/* Nobody answers: the 65th job waits. Words of the position free numbers, and words that are none are laid aside. */
static void all_open(void)
{
    const char *name = "all open";
    pid_t bridge;
    unsigned j;
    if (!chosen(name))
        return;
    set_checked(1);
    stage_aircraft(&stage, 0, 0);
    for (j = 1; j <= 70; j++)
        stage_clearance(&stage, 0, j, 1, "");
    bridge = stage_bridge(&stage, none[0]);
    waits_at = PEAT_BOOK_NUMBERS;
    check(becomes(stands_still, SOON), name, "64 jobs are not taken");
    poll(NULL, 0, A_ROUND);
    check(stands_still(), name, "a job does not wait though all numbers are open");
    say_word(0, "close 3");
    waits_at = PEAT_BOOK_NUMBERS + 1;
    check(becomes(stands_still, SOON), name, "a word does not free a number");
    say_word(0, "close 3"); /* its number is another job's by now */
    poll(NULL, 0, A_ROUND);
    check(stands_still(), name, "a word that comes twice frees two numbers");
    say_word(0, "close 1-70x");
    say_word(0, "");
    poll(NULL, 0, A_ROUND);
    check(stands_still(), name, "half a word is obeyed");
    say_word(0, "close 1-2,70-99,5-60");
    check(becomes(quiet, SOON), name, "jobs wait though numbers are free");
    check(letters_of("dead", "no word") == 2, name, "words that are none are not laid aside");
    stop(bridge, name);
    check(stage_judge(&stage) && stage.verdict.ended == 70, name, "the verdict is bad");
    check(stage.twice == 6, name, "not the six numbers that words freed were given again"); /* the deck has not answered them */
}

/* A message that allows no reply does not keep its number. */
static void no_response(void)
{
    const char *name = "no response";
    unsigned j;
    if (!chosen(name))
        return;
    set_checked(1);
    stage_aircraft(&stage, 0, 0);
    for (j = 1; j <= 80; j++)
        stage_clearance(&stage, 0, j, 1, "x-peat-response=none\n");
    check(stage_play(&stage, none, 0) && stage_judge(&stage) && stage.verdict.ended == 80, name, "such messages keep their numbers");
}

static struct kept loaded(unsigned dialogue)
{
    struct taken all[PLACES_MOST];
    struct journal j;
    struct kept k;
    journal_open(&j, &stage.config, JOURNAL_RUN);
    j.take(&j, all);
    j.load(&j, dialogue, &k);
    j.close(&j);
    return k;
}

/* The number is kept with the record: both, or neither. */
static void number_kept(void)
{
    static const struct { enum point at; uint64_t job; } rows[] = {{AT_COMMIT, 0}, {AT_COMMITTED, 1}, {AT_SENDING, 1}, {AT_SENT, 1}, {AT_ACKNOWLEDGED, 1}};
    const char *name = "number kept";
    unsigned i;
    if (!chosen(name))
        return;
    for (i = 0; i < sizeof rows / sizeof *rows; i++) {
        struct plan plan = {rows[i].at, 1, 0, 0};
        struct kept k;
        set_checked(1);
        stage_aircraft(&stage, 0, 0);
        stage_clearance(&stage, 0, 1, 1, "");
        check(stage_wait(stage_bridge(&stage, plan), SOON) == KILLED, name, "the kill did not come");
        memory_lost(memory);
        k = loaded(0);
        check(peat_record_highest(k.record) == rows[i].job, name, "the record is another");
        check(book_job(k.book, 0) == rows[i].job, name, "the number is not kept with the record");
        judged(stage_play(&stage, none, 0), name);
        k = loaded(0);
        check(book_open_numbers(k.book) == 0, name, "numbers are open though the dialogue is over");
    }
}

/* ---- the message */

static void put_bits(unsigned dialogue, uint64_t job, const uint8_t *bits, unsigned count, const char *heads)
{
    uint8_t e[PEAT_BUFFER_LEAST];
    struct peat_written_envelope written = peat_write_envelope(PEAT_ENVELOPE_TO_SEND, job, count, bits, (count + 7u) / 8u, e, sizeof e);
    memory_put_with(memory, dialogue, e, peat_written_bytes(written), heads);
    account_job(&stage.account, dialogue, job)->given++;
}

/* What is no CPDLC message is refused, by name and bit; what is one goes on. */
static void messages(void)
{
    const char *name = "messages";
    static const uint8_t zeros[8];
    uint8_t good[PEAT_BUFFER_LEAST], month[PEAT_BUFFER_LEAST];
    unsigned bits = clearance_make(good, 0, 4, 0);
    if (!chosen(name))
        return;
    set_checked(1);
    stage_aircraft(&stage, 0, 0);
    put_bits(0, 1, zeros, 0, "");
    memcpy(month, good, sizeof month);
    month[1] = (uint8_t)(month[1] | 1), month[2] = (uint8_t)(month[2] | 0xE0); /* the four bits of the month behind 15: no month */
    put_bits(0, 2, month, bits, "");
    put_bits(0, 3, good, bits - 1, "");
    put_bits(0, 4, good, bits, "");
    judged(stage_play(&stage, none, 0), name);
    check(letter_with("refused", "x-peat-refusal=SHORT\nx-peat-bit=0\n") != NULL, name, "no bits: the letter does not say so");
    check(letter_with("refused", "x-peat-refusal=RANGE\nx-peat-bit=15\n") != NULL, name, "a month that there is not: the letter does not say so");
    check(stage.verdict.refused == 3 && stage.verdict.ended == 1, name, "not three are refused and one is sent");
}

/* ---- beside the message */

static int two_delivered(void) { return letters_of("delivered", "") == 2; }

/* The algorithm identifier and the check go up and come down as they are given; a message with a check keeps its number. */
static void integrity(void)
{
    const char *name = "integrity";
    static const uint8_t identifier[] = {0x2A, 0x03}, check_bits[] = {0xA5, 0xF0};
    uint8_t part[PEAT_BUFFER_LEAST], reply[PEAT_BUFFER_LEAST];
    unsigned bits = clearance_reply(reply, 5, 7, 2), number = 99; /* STANDBY */
    const struct peat_data down = {.identifier = identifier, .identifier_len = 2, .message = reply, .message_len = (bits + 7u) / 8u, .message_bits = bits,
        .check = check_bits, .check_len = 2, .check_bits = 12};
    struct deck deck;
    pid_t bridge;
    if (!chosen(name))
        return;
    set_checked(1);
    stage.config.delivered_json = 1;
    check(deck_begin(&deck, stage.config.link, 0), name, "no socket");
    bridge = stage_bridge(&stage, none[0]);
    check(deck_meet(&deck) && deck_hear(&deck) == PEAT_START_INDICATION, name, "no dialogue opens");
    stage_clearance(&stage, 0, 1, 1, "x-peat-algorithm=2a03\nx-peat-check=A5F/12\n");
    stage_clearance(&stage, 0, 2, 1, "");
    stage_clearance(&stage, 0, 3, 1, "x-peat-check=00ff\n"); /* with the number 7, too, which is open */
    stage_clearance(&stage, 0, 4, 1, "x-peat-check=a5f1/12\n");
    stage_clearance(&stage, 0, 5, 1, "x-peat-algorithm=2\n");
    stage_clearance(&stage, 0, 6, 1, "x-peat-response=maybe\n");
    check(deck_hear(&deck) == PEAT_MESSAGE_INDICATION, name, "no message comes");
    check(deck_part(&deck, PEAT_PART_IDENTIFIER, part) == 16 && memcmp(part, identifier, 2) == 0, name, "the identifier is another");
    check(deck_part(&deck, PEAT_PART_CHECK, part) == 12 && memcmp(part, check_bits, 2) == 0, name, "the check is another");
    check(deck_part(&deck, PEAT_PART_MESSAGE, part) > 0 && clearance_job(part, (unsigned)deck_part(&deck, PEAT_PART_MESSAGE, part), 0, &number) == 1 && number == 7, name,
        "a message with a check has another number than it was encoded with");
    check(deck_hear(&deck) == PEAT_MESSAGE_INDICATION && deck_part(&deck, PEAT_PART_CHECK, part) <= 0, name, "a check appears from nowhere");
    check(clearance_job(part, (unsigned)deck_part(&deck, PEAT_PART_MESSAGE, part), 0, &number) == 2 && number == 0, name, "not the lowest free number");
    check(deck_send(&deck, 1, &down), name, "the flight deck can not answer");
    clearance_reply(reply, 6, 7, CLEARANCE_WILCO);
    check(deck_send(&deck, 2, &down), name, "the flight deck can not answer");
    check(becomes(two_delivered, SOON), name, "what the flight deck sent is not delivered");
    check(letter_with("delivered", "x-peat-algorithm=2a03\nx-peat-check=a5f0/12\nx-peat-number=5\nx-peat-job=1\n") != NULL, name, "the letter does not have what came down");
    check(letter_with("delivered", "x-peat-json={\"number\":5,\"reference\":7,\"composed\":\"2026-11-16T00:00:00Z\",\"acknowledge\":false,\"elements\":[{\"element\":2,\"name\":\"dM2NULL\"}]}\n") != NULL,
        name, "the letter's JSON is another");
    check(letters_of("dead", "number") == 1 && letters_of("dead", "headers") == 3, name, "a number that is open, or headers that are none, are taken");
    stage_clearance(&stage, 0, 7, 1, "x-peat-check=00ff\n"); /* 7 is free: WILCO closed it, STANDBY did not */
    check(deck_hear(&deck) == PEAT_MESSAGE_INDICATION, name, "the reply does not close the number");
    kill(bridge, SIGTERM);
    while (deck_hear(&deck) != PEAT_UNTOLD) {}
    check(stage_wait(bridge, PLENTY) == 0, name, "the bridge does not stop in order");
    deck_close(&deck);
    memory_lost(memory);
}

/* ---- starts of the aircraft */

static void set_starts(unsigned dialogues, enum starts who)
{
    unsigned d;
    set_checked(dialogues);
    for (d = 0; d < dialogues; d++)
        stage.config.starts[d] = (uint8_t)who;
}

/* Aircraft start all dialogues, over kills and lost connections: jobs arrive as in those that the bridge starts. */
static void air_starts(void)
{
    const char *name = "aircraft start";
    unsigned p, d, j;
    if (!chosen(name))
        return;
    for (p = AT_RECOVERY; p < POINTS; p++) {
        struct plan plan[2] = {{AT_ACKNOWLEDGED, 1, 0, 0}, {(enum point)p, 1, 0, 0}};
        set_starts(4, STARTS_AIR);
        stage.reply = 2;
        stage_aircraft(&stage, 30, 0);
        for (d = 0; d < 4; d++)
            for (j = 1; j <= 10; j++)
                stage_clearance(&stage, d, j, 2, "");
        judged(stage_play(&stage, plan, 2), name);
        check(stage.kills >= 1, name, "no kill came");
        check(stage.opened >= 4 && stage.twice == 0, name, "not every dialogue was opened, or a number was given that was open");
    }
}

static int one_delivered(void) { return letters_of("delivered", "") == 1; }
static int one_broken(void) { return letters_of("broken", "") == 1; }

/* A downstream dialogue: it has a message in its start, and its aircraft ends it. Starts that were there before, or are far ahead, change nothing. */
static void downstream(void)
{
    const char *name = "downstream";
    uint8_t reply[PEAT_BUFFER_LEAST];
    unsigned bits = clearance_reply(reply, 0, 0, CLEARANCE_WILCO);
    const struct peat_data with = {.message = reply, .message_len = (bits + 7u) / 8u, .message_bits = bits}, without = {.message = NULL};
    struct deck deck;
    pid_t bridge;
    int accepted;
    if (!chosen(name))
        return;
    set_starts(1, STARTS_AIR);
    check(deck_begin(&deck, stage.config.link, 0), name, "no socket");
    bridge = stage_bridge(&stage, none[0]);
    check(deck_meet(&deck), name, "the bridge does not connect");
    check(deck_start(&deck, UINT64_MAX - 5, PEAT_CPDLC, &without), name, "no start");
    poll(NULL, 0, A_ROUND);
    deck_close(&deck); /* it had no answer: another aircraft comes, which counts as it should */
    check(deck_begin(&deck, stage.config.link, 0) && deck_meet(&deck) && deck_start(&deck, 17, PEAT_DSC, &with), name, "no second start");
    accepted = deck_hear(&deck) == PEAT_START_CONFIRMATION && deck.parameter == PEAT_ACCEPTED;
    check(accepted, name, "a start is not accepted");
    if (!accepted) { /* then there is nothing to wait for */
        stage_wait(bridge, 0);
        deck_close(&deck);
        return;
    }
    check(becomes(one_delivered, SOON), name, "the message of a start is not delivered");
    stage_clearance(&stage, 0, 1, 1, "");
    check(deck_hear(&deck) == PEAT_MESSAGE_INDICATION, name, "a job does not arrive");
    check(deck_end_dsc(&deck) && deck_hear(&deck) == PEAT_END_CONFIRMATION && deck.parameter == PEAT_ACCEPTED, name, "the end is not accepted");
    check(becomes(one_broken, SOON), name, "the job's fate is not told");
    close(deck.socket);
    check(deck_meet(&deck) && deck_start(&deck, 18, PEAT_DSC, &without) && deck_hear(&deck) == PEAT_START_CONFIRMATION, name, "no next dialogue");
    kill(bridge, SIGTERM);
    check(deck_hear(&deck) == PEAT_USER_ABORT_INDICATION, name, "a bridge that stops does not abort a downstream dialogue");
    check(stage_wait(bridge, PLENTY) == 0, name, "the bridge does not stop in order");
    deck_close(&deck);
    memory_lost(memory);
}

static void air_rejected(void)
{
    const char *name = "start rejected";
    const struct peat_data without = {.message = NULL};
    struct deck deck;
    pid_t bridge;
    unsigned i;
    if (!chosen(name))
        return;
    set_starts(1, STARTS_REJECTED);
    check(deck_begin(&deck, stage.config.link, 0), name, "no socket");
    bridge = stage_bridge(&stage, none[0]);
    for (i = 1; i <= 2; i++) {
        check(deck_meet(&deck) && deck_start(&deck, i, i == 1 ? PEAT_CPDLC : PEAT_DSC, &without), name, "the bridge does not connect");
        check(deck_hear(&deck) == PEAT_START_CONFIRMATION && deck.parameter == PEAT_REJECTED, name, "a start is not rejected");
        close(deck.socket);
    }
    deck_close(&deck);
    stop(bridge, name);
}

/* ---- aircraft of application type 2 */

/* Aircraft of both types side by side, over kills and lost connections: numbers, replies and fates are the same. */
static void both_types(void)
{
    const char *name = "both types";
    unsigned p, d, j;
    if (!chosen(name))
        return;
    for (p = AT_RECOVERY; p < POINTS; p++) {
        struct plan plan[2] = {{AT_ACKNOWLEDGED, 1, 0, 0}, {(enum point)p, 1, 0, 0}};
        set_checked_types(4, "1,3");
        stage.reply = 2;
        stage_aircraft(&stage, 30, 9);
        for (d = 0; d < 4; d++)
            for (j = 1; j <= 10; j++)
                stage_clearance(&stage, d, j, 2, "");
        judged(stage_play(&stage, plan, 2), name);
        check(stage.kills >= 1, name, "no kill came");
        check(stage.opened >= 4 && stage.twice == 0, name, "not every dialogue was opened, or a number was given that was open");
        for (d = 0; d < 4; d++)
            check(peat_record_type(loaded(d).record) == (d % 2 ? PEAT_PLAIN : PEAT_PROTECTED), name, "a record is of another type than it was made");
    }
}

/* What the position gives that type 2 has no place for, or that is no message: SHAPE, and the letter says so. */
static void plain_refused(void)
{
    const char *name = "type 2 refused";
    unsigned i;
    if (!chosen(name))
        return;
    for (i = 0; i < 2; i++) { /* messages are read here, or carried as they are */
        set_checked_types(1, "0");
        stage.config.opaque = i;
        stage_aircraft(&stage, 0, 0);
        if (i == 0) {
            stage_clearance(&stage, 0, 1, 1, "x-peat-check=00ff\n");
            stage_clearance(&stage, 0, 2, 1, "x-peat-algorithm=2a03\n");
        } else {
            stage_job(&stage, 0, 1, 1, 0); /* a pattern, which no card reads */
            stage_job(&stage, 0, 2, 1, 0);
        }
        stage_clearance(&stage, 0, 3, 1, "");
        judged(stage_play(&stage, none, 0), name);
        check(letter_with("refused", "x-peat-refusal=SHAPE\n") != NULL && stage.verdict.refused == 2 && stage.verdict.ended == 1, name, "not two are SHAPE and one is sent");
    }
}

/* A flight deck of type 2: it starts with a message and without, its replies come down as messages, its end without anything. */
static void plain_deck(void)
{
    const char *name = "type 2";
    uint8_t reply[PEAT_BUFFER_LEAST];
    unsigned bits = clearance_reply(reply, 5, 0, CLEARANCE_WILCO), number = 99;
    const struct peat_data with = {.message = reply, .message_len = (bits + 7u) / 8u, .message_bits = bits}, without = {.message = NULL};
    struct deck deck;
    pid_t bridge;
    if (!chosen(name))
        return;
    set_checked_types(1, "0");
    stage.config.starts[0] = STARTS_AIR;
    check(deck_begin_of(&deck, stage.config.link, 0, PEAT_PLAIN), name, "no socket");
    bridge = stage_bridge(&stage, none[0]);
    check(deck_meet(&deck) && deck_start(&deck, 1, PEAT_DSC, &with), name, "no start");
    check(deck_hear(&deck) == PEAT_START_CONFIRMATION && deck.parameter == PEAT_ACCEPTED && deck.bits == 0, name, "a start is not accepted");
    check(becomes(one_delivered, SOON), name, "the message of a start is not delivered");
    stage_clearance(&stage, 0, 1, 1, "");
    check(deck_hear(&deck) == PEAT_MESSAGE_INDICATION && clearance_job(deck.data, deck.bits, 0, &number) == 1 && number == 0, name, "a job does not arrive as a message with its number");
    check(deck_send(&deck, 1, &with), name, "the flight deck can not answer");
    check(becomes(two_delivered, SOON), name, "what the flight deck sent is not delivered");
    check(letter_with("delivered", "x-peat-number=5\nx-peat-job=1\n") != NULL, name, "the letter does not say which job the reply is to");
    check(deck_end_dsc(&deck) && deck_hear(&deck) == PEAT_END_CONFIRMATION && deck.parameter == PEAT_ACCEPTED && deck.bits == 0, name, "the end is not accepted");
    check(becomes(one_broken, SOON), name, "the job's fate is not told");
    close(deck.socket);
    check(deck_meet(&deck) && deck_start(&deck, 2, PEAT_CPDLC, &without) && deck_hear(&deck) == PEAT_START_CONFIRMATION, name, "no next dialogue");
    check(two_delivered(), name, "a start without a message is delivered");
    kill(bridge, SIGTERM);
    check(deck_hear(&deck) == PEAT_END_INDICATION && deck.bits == 0, name, "the bridge does not end a dialogue in order");
    check(stage_wait(bridge, PLENTY) == 0, name, "the bridge does not stop in order");
    deck_close(&deck);
    memory_lost(memory);
}

/* The type of a record is that of its first day. */
static void type_fixed(void)
{
    const char *name = "type fixed";
    if (!chosen(name))
        return;
    set(1);
    stage.config.type[0] = PEAT_PLAIN;
    check(stage_wait(stage_bridge(&stage, none[0]), SOON) == EXIT_REFUSED, name, "a record of type 22 runs as one of type 2");
    stage.config.type[0] = PEAT_PROTECTED;
    stage_aircraft(&stage, 0, 0);
    stage_job(&stage, 0, 1, 1, 0);
    judged(stage_play(&stage, none, 0), name);
}

/* ---- a journal of 0.11.0 */

static void say_file(const char *text)
{
    sqlite3 *db = NULL;
    check(sqlite3_open(stage.config.journal, &db) == SQLITE_OK && sqlite3_exec(db, text, NULL, NULL, NULL) == SQLITE_OK, "journal of 0.11.0", text);
    sqlite3_close(db);
}

/* It is taken as it is, with a dialogue that was open and letters that nobody confirmed: the columns that it lacks are made. */
static void earlier_tables(void)
{
    const char *name = "journal of 0.11.0";
    const struct plan plan = {AT_ACKNOWLEDGED, 1, 0, 0};
    unsigned d;
    if (!chosen(name))
        return;
    set(2);
    stage_aircraft(&stage, 0, 0);
    for (d = 0; d < 2; d++)
        stage_job(&stage, d, 1, 3, 0);
    memory->refuses = -1;
    check(stage_wait(stage_bridge(&stage, plan), SOON) == KILLED, name, "the kill did not come");
    memory_lost(memory);
    memory->refuses = 0;
    say_file("ALTER TABLE dialogue DROP COLUMN book; ALTER TABLE outbox DROP COLUMN heads; UPDATE journal SET version = 1");
    stage.config.opaque = 0;
    snprintf(stage.config.queue_words, sizeof stage.config.queue_words, "words{}");
    for (d = 0; d < 2; d++)
        stage_clearance(&stage, d, 2, 2, "");
    judged(stage_play(&stage, none, 0), name);
    check(stage.verdict.broken > 0 && stage.verdict.ended == 2, name, "what was open is not told, or new jobs are not taken");
    say_file("UPDATE journal SET version = 3");
    check(stage_wait(stage_bridge(&stage, none[0]), SOON) == EXIT_JOURNAL, name, "a journal of a later version is taken");
}

void whole_host(void)
{
    numbers();
    all_open();
    no_response();
    number_kept();
    messages();
    integrity();
    air_starts();
    downstream();
    air_rejected();
    both_types();
    plain_refused();
    plain_deck();
    type_fixed();
    if (getenv("PEAT_DATABASE") == NULL)
        earlier_tables();
}
