/*
 * The book's calls in plain C, to try the test with: FAULT 0 has none, and each other number has one, which the test must
 * notice.
 */
#include <string.h>

#include "peatribbon.h"

#ifndef FAULT
#define FAULT 0
#endif

static uint64_t get(const uint8_t *at)
{
    uint64_t v = 0;
    int i;
    for (i = 0; i < 8; i++)
        v = v << 8 | at[i];
    return v;
}

static void put(uint8_t *at, uint64_t v)
{
    int i;
    for (i = 7; i >= 0; i--, v >>= 8)
        at[i] = (uint8_t)v;
}

static int is_book(const uint8_t *book, size_t len)
{
    uint64_t open;
    int n;
    if (len != PEAT_BOOK_BYTES)
        return 0;
    open = get(book);
    for (n = 0; n < PEAT_BOOK_NUMBERS; n++) {
        int has = get(book + 8 * (n + 1)) != 0, bit = (int)(open >> n & 1);
        if (FAULT == 4 ? has && !bit : FAULT == 5 ? bit && !has : has != bit) /* 4, 5: one half of it is not looked at */
            return 0;
    }
    return 1;
}

static uint64_t empty(uint8_t *book, size_t len)
{
    if (len != PEAT_BOOK_BYTES)
        return PEAT_SHAPE;
    memset(book, 0, FAULT == 11 ? 519 : 520); /* 11: the last byte stays */
    return 0;
}

static uint64_t open_lowest(uint8_t *book, size_t len, uint64_t job)
{
    uint64_t open;
    int n;
    if (len == PEAT_BOOK_BYTES && FAULT == 8 && get(book) == UINT64_MAX)
        return PEAT_ALL_OPEN; /* 8: 7 comes before 2 */
    if ((job == 0 && FAULT != 7) || !is_book(book, len)) /* 7: job 0 is taken */
        return PEAT_SHAPE;
    open = get(book);
    if (FAULT == 1) { /* 1: the highest free */
        for (n = 63; n >= 0 && (open >> n & 1); n--)
            ;
        n = n < 0 ? 64 : n;
    } else {
        for (n = 0; n < 64 && (open >> n & 1); n++)
            ;
    }
    if (n >= (FAULT == 6 ? 63 : 64)) /* 6: 63 is never given */
        return PEAT_ALL_OPEN;
    put(book, open | UINT64_C(1) << n);
    put(book + 8 * (n + 1), FAULT == 9 ? (uint32_t)job : job); /* 9: 32 bits of a job */
    return (uint64_t)n << 8;
}

static uint64_t close_one(uint8_t *book, size_t len, uint64_t number)
{
    uint64_t open;
    if (!is_book(book, len))
        return PEAT_SHAPE;
    open = get(book);
    number = FAULT == 10 ? (uint32_t)number : number; /* 10: the high bits of a number do not count */
    if (number > 63 || !(open >> number & 1))
        return PEAT_NOT_OPEN;
    put(book, open & ~(UINT64_C(1) << number));
    if (FAULT != 2) /* 2: the job is left in a closed place */
        put(book + 8 * (number + 1), 0);
    return 0;
}

static uint64_t count_open(const uint8_t *book, size_t len)
{
    uint64_t open, count = 0;
    if (!is_book(book, len))
        return PEAT_SHAPE;
    for (open = get(book); open != 0; open >>= 1)
        count += open & 1;
    return (FAULT == 3 && count == 64 ? 0 : count) << 8; /* 3: six bits of a count */
}

struct peat_outcome peat_book_empty(uint8_t *book, size_t len) { return (struct peat_outcome){empty(book, len)}; }
struct peat_open_answer peat_book_open(uint8_t *book, size_t len, uint64_t job) { return (struct peat_open_answer){open_lowest(book, len, job)}; }
struct peat_outcome peat_book_close(uint8_t *book, size_t len, uint64_t number) { return (struct peat_outcome){close_one(book, len, number)}; }
struct peat_count_answer peat_book_count(const uint8_t *book, size_t len) { return (struct peat_count_answer){count_open(book, len)}; }

uint64_t peat_book_job(const uint8_t *book, size_t len, uint64_t number)
{
    if (!is_book(book, len))
        return FAULT == 12 ? PEAT_SHAPE : 0; /* 12: a refusal where a job is answered */
    return number > 63 ? 0 : get(book + 8 * (number + 1));
}
