/*
 * One face, two stores; and what both do alike.
 */
#include "journal.h"

#include <fcntl.h>
#include <stdio.h>
#include <string.h>
#include <unistd.h>

#include "checksum.h"
#include "config.h"
#include "log.h"

void journal_open(struct journal *j, const struct config *c, enum journal_open how)
{
    memset(j, 0, sizeof *j);
    if (c->database[0] != '\0')
        journal_open_postgres(j, c, how);
    else
        journal_open_sqlite(j, c, how);
}

void journal_make_id(char *id)
{
    uint64_t n = 0;
    int file = open("/dev/urandom", O_RDONLY);
    if (file < 0 || read(file, &n, sizeof n) != (ssize_t)sizeof n)
        log_and_exit(EXIT_JOURNAL, "journal", "init", "there is no random number");
    close(file);
    snprintf(id, JOURNAL_ID, "%016llx", (unsigned long long)n);
}

/* Places of an earlier record. Up to version 0.3.0 it ended where the number begins; up to 0.4.0 it had no version. Its seven first bytes and a
   zero stood as they do now. */
enum { EARLIER_HIGHEST = 8, EARLIER_NUMBER = 16, EARLIER_RECORD = 24 };

#define OWN_VERSION 1 /* of the records of dialogues: they forward nothing, so nobody compares it */

static uint32_t sum_with(unsigned dialogue, const struct kept *k, const uint8_t *record, size_t bytes)
{
    uint32_t sum = checksum(0, &dialogue, sizeof dialogue);
    sum = checksum(sum, record, bytes);
    sum = checksum(sum, &k->run, sizeof k->run);
    sum = checksum(sum, &k->deliveries, sizeof k->deliveries);
    sum = checksum(sum, &k->floor, sizeof k->floor);
    return checksum(sum, k->book, journal_book_bytes(k));
}

static int is_empty(const uint8_t *book)
{
    size_t i;
    for (i = 0; i < PEAT_BOOK_BYTES && book[i] == 0; i++) {}
    return i == PEAT_BOOK_BYTES;
}

size_t journal_book_bytes(const struct kept *k) { return is_empty(k->book) ? 0 : PEAT_BOOK_BYTES; }

void journal_take_book(struct kept *k, const uint8_t *book, size_t bytes)
{
    memset(k->book, 0, sizeof k->book);
    if (bytes != 0 && bytes != sizeof k->book)
        log_and_exit(EXIT_JOURNAL, "journal", "load", "a dialogue has no book of message numbers");
    memcpy(k->book, book, bytes);
    if (peat_refusal(peat_book_count(k->book, sizeof k->book)) != PEAT_TAKEN)
        log_and_exit(EXIT_JOURNAL, "journal", "load", "a dialogue's book is damaged");
}

uint32_t journal_sum(unsigned dialogue, const struct kept *k) { return sum_with(dialogue, k, k->record, sizeof k->record); }

static void take_earlier(uint8_t *record, const uint8_t *earlier, size_t bytes)
{
    memset(record, 0, PEAT_RECORD_BYTES);
    memcpy(record, earlier, EARLIER_HIGHEST);
    record[PEAT_RECORD_VERSION] = OWN_VERSION;
    memcpy(record + PEAT_RECORD_HIGHEST, earlier + EARLIER_HIGHEST, bytes - EARLIER_HIGHEST); /* and the number, if there is one */
}

void journal_take_record(unsigned dialogue, struct kept *k, const uint8_t *record, size_t bytes, uint32_t sum)
{
    if (bytes != sizeof k->record && bytes != EARLIER_NUMBER && bytes != EARLIER_RECORD)
        log_and_exit(EXIT_JOURNAL, "journal", "load", "a dialogue has no record");
    if (sum != sum_with(dialogue, k, record, bytes))
        log_and_exit(EXIT_JOURNAL, "journal", "load", "a dialogue's checksum is wrong: the journal is damaged");
    if (bytes == sizeof k->record)
        memcpy(k->record, record, bytes);
    else
        take_earlier(k->record, record, bytes);
}

struct kept journal_fresh(unsigned type)
{
    struct kept k;
    memset(&k, 0, sizeof k);
    peat_fresh(k.record, sizeof k.record, PEAT_GROUND, PEAT_NO_SECURITY, PEAT_FORWARDS_NOT, OWN_VERSION, type);
    return k;
}

struct kept journal_fresh_place(const struct config *c, unsigned place)
{
    struct kept k = journal_fresh(c->type[place]);
    if (place_is_link(place))
        peat_fresh(k.record, sizeof k.record, PEAT_GROUND, PEAT_NO_SECURITY, c->forwards ? PEAT_FORWARDS : PEAT_FORWARDS_NOT, c->forward_version, c->type[place]);
    return k;
}
