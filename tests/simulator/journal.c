/*
 * The journal of the host: what was kept is loaded, a change that was torn never happened, and a bit that flipped is never
 * taken for what the card left. (Of the 200 one-bit changes of a bare record many are records too: that is counted.)
 *
 *     journal FOLDER
 */
#define _POSIX_C_SOURCE 200809L
#include <stdio.h>
#include <stdlib.h>
#include <string.h>
#include <unistd.h>

#include "journal.h"

static unsigned long passed, failed;

static void check(int right, const char *words)
{
    if (right)
        passed++;
    else if (failed++ < 10)
        printf("journal: %s\n", words);
}

static void steady(void *with) { (void)with; }

/* some changes of one end: jobs taken and refused, numbers opened and closed, a dialogue that broke, notices confirmed, a new
   dialogue */
static void some_changes(struct journal *j, struct memory *m)
{
    static const enum numbering books[] = {NUMBER_OPENED, NUMBER_OPENED, NUMBER_CLOSED, NUMBER_OPENED, NUMBER_OPENED, BOOK_EMPTIED, NUMBER_OPENED};
    static const uint8_t numbers[] = {0, 1, 0, 0, 2, 0, 0};
    unsigned i;
    for (i = 1; i <= 7; i++) {
        struct change c = no_change(m);
        c.job = i;
        c.outcome = i == 3 || i == 6 ? PEAT_PROHIBITED : PEAT_TAKEN;
        c.book = books[i - 1];
        c.number = numbers[i - 1];
        c.rec[PEAT_RECORD_BYTES - 1] = (uint8_t)i;
        c.over = i == 5 ? BROKEN : NOTHING_TOLD;
        c.confirmed = i == 6 ? 2 : 0;
        memory_apply(m, &c);
        check(journal_append(j, &c, steady, NULL) == 0, "a change is not written");
        check(peat_open_count(peat_book_count(PEAT_ARRAY(m->book))) == (i < 3 ? i : i < 6 ? i - 2 : i - 6), "another count of numbers is open");
    }
}

static int same(const struct memory *a, const struct memory *b)
{
    return memcmp(a->rec, b->rec, sizeof a->rec) == 0 && a->wanted == b->wanted && a->open == b->open && a->posts == b->posts &&
           a->notices == b->notices && memcmp(a->refused, b->refused, sizeof a->refused) == 0 && memcmp(a->book, b->book, sizeof a->book) == 0 &&
           memcmp(a->opened, b->opened, a->open * sizeof *a->opened) == 0;
}

/* How many one-bit changes of a bare record, in a dialogue with some jobs taken, the card still takes for a record. */
static int still_records(void)
{
    static uint8_t first[PEAT_BUFFER_LEAST], second[PEAT_BUFFER_LEAST];
    uint8_t dialogue[PEAT_RECORD_BYTES] = {PEAT_GROUND, PEAT_DIALOGUE, 0, 0, 1, 0, 0, 0, 1, 0, 0, 0, 0, 0, 0, 1, 44};
    int i, n = 0;
    check(peat_refusal(peat_system_error(PEAT_ARRAY(dialogue), PEAT_BUFFERS(first, second))) == PEAT_TAKEN, "the record is none");
    for (i = 0; i < 8 * PEAT_RECORD_BYTES; i++) {
        uint8_t rec[PEAT_RECORD_BYTES] = {PEAT_GROUND, PEAT_DIALOGUE, 0, 0, 1, 0, 0, 0, 1, 0, 0, 0, 0, 0, 0, 1, 44};
        rec[i / 8] ^= (uint8_t)(0x80 >> i % 8);
        n += peat_refusal(peat_system_error(PEAT_ARRAY(rec), PEAT_BUFFERS(first, second))) == PEAT_TAKEN;
    }
    return n;
}

static uint8_t kept[4096];

static void lay(const struct journal *j, size_t bytes)
{
    if (ftruncate(j->file, 0) != 0 || pwrite(j->file, kept, bytes, 0) != (ssize_t)bytes)
        exit(2);
}

int main(int argc, char **argv)
{
    static struct memory memory, loaded, shorter;
    struct journal j;
    uint8_t rec[PEAT_RECORD_BYTES] = {PEAT_GROUND};
    size_t bytes, one, i;
    enum loaded answer;
    if (argc != 2)
        return 2;
    printf("simulator: %d of the %d one-bit changes of a record in a dialogue are still a record\n", still_records(), 8 * PEAT_RECORD_BYTES);
    check(still_records() > 0, "every changed record is noticed by the card itself");
    memory_begin(&memory, rec);
    check(journal_begin(&j, argv[1], "ground-00", &memory) == 0, "no journal is begun");
    check(journal_begin(&j, argv[1], "ground-00", &memory) != 0, "a journal is begun twice");
    check(journal_begin(&j, argv[1], "ground-01", &memory) == 0, "no second journal is begun");
    some_changes(&j, &memory);
    check(journal_load(&j, &loaded) == LOADED && same(&loaded, &memory), "what is loaded is not what was kept");
    bytes = (size_t)pread(j.file, kept, sizeof kept, 0);
    one = bytes / 8;
    check(bytes % 8 == 0 && one > 0, "the journal has not eight changes");
    for (i = 0; i < 8 * bytes; i++) {
        kept[i / 8] ^= (uint8_t)(0x80 >> i % 8);
        lay(&j, bytes);
        check(journal_load(&j, &loaded) == NOT_LOADED, "a flipped bit is not noticed");
        kept[i / 8] ^= (uint8_t)(0x80 >> i % 8);
    }
    for (i = one; i <= bytes; i++) {
        lay(&j, i);
        answer = journal_load(&j, &shorter);
        check(answer == (i % one == 0 ? LOADED : LOADED_TORN), "a torn change is not noticed");
        check(j.changes == i / one, "another number of changes is loaded");
        check(pread(j.file, kept + sizeof kept - 1, 1, (off_t)(i / one * one)) == 0, "a torn change is not cut off");
    }
    for (i = 0; i < one; i++) {
        lay(&j, i);
        check(journal_load(&j, &loaded) == NOT_LOADED, "a record is loaded that is not there");
    }
    lay(&j, bytes);
    memmove(kept + one, kept + 2 * one, bytes - 2 * one); /* the second change is gone */
    lay(&j, bytes - one);
    check(journal_load(&j, &loaded) == NOT_LOADED, "a change that is missing is not noticed");
    printf("%lu passed, %lu failed\n", passed, failed);
    return failed != 0;
}
