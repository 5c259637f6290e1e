/*
 * Calls the card's book: edges, then random calls, each compared with the model (model.h) in the answer and in every byte of
 * the lent range.
 *
 *     book CALLS      the last line is `N passed, M failed`
 *
 * The lent range ends where an unreadable page begins, or begins where one ends, in turn; the bytes on its other side are
 * compared too. So a read past the range stops the program, and a write beside it is seen.
 */
#define _DEFAULT_SOURCE
#include <stdio.h>
#include <stdlib.h>
#include <string.h>

#define CHANCE_SEED 20260202
#include "../lib/chance.h"
#include "../lib/guard.h"
#include "calls.h"

static unsigned long passed, failed;

static int check(int right, const char *name)
{
    if (right) {
        passed++;
    } else {
        failed++;
        printf("book: %s\n", name);
    }
    return right;
}

/* ---- the lent range, in one page between two that can not be read */

#define PLACE 4096u
#define BESIDE 64u

static uint8_t *place;
static uint8_t copy[PLACE]; /* the model's */

static void make_place(void)
{
    place = guarded_end(PLACE) - PLACE;
    memset(place, 0x5A, PLACE);
}

/* Makes a call on bytes that lie against an unreadable page, and the model's on a copy: the same answer, the same bytes, and
   none beside them changed. What was left is put back into bytes. */
static int agrees(enum call c, uint8_t *bytes, size_t len, uint64_t n, uint64_t *said)
{
    static int turn;
    size_t at = (turn = !turn) ? PLACE - len : 0;
    size_t from = at < BESIDE ? 0 : at - BESIDE, to = at + len + BESIDE > PLACE ? PLACE : at + len + BESIDE;
    uint64_t answer, want;
    int right;
    memset(place + from, 0x5A, to - from);
    if (len > 0)
        memcpy(place + at, bytes, len);
    memcpy(copy + from, place + from, to - from);
    answer = card_call(c, len == 0 && once_in(2) ? NULL : place + at, len, n);
    want = model_call(c, copy + at, len, n);
    right = answer == want && memcmp(copy + from, place + from, to - from) == 0;
    if (!right)
        printf("book: %s on %lu bytes with %llu: %llu, and the model says %llu%s\n", names[c], (unsigned long)len, (unsigned long long)n,
            (unsigned long long)answer, (unsigned long long)want, answer == want ? "; other bytes" : "");
    if (len > 0)
        memcpy(bytes, place + at, len);
    *said = answer;
    return right;
}

/* ---- edges, with the answers written out */

static uint8_t book[PEAT_BOOK_BYTES];

static uint64_t does(enum call c, uint64_t n)
{
    uint64_t said;
    check(agrees(c, book, sizeof book, n, &said), names[c]);
    return said;
}

static void sizes(void)
{
    static uint8_t bytes[1040];
    static const size_t lengths[] = {0, 1, 8, 512, 519, 521, 528, 1040};
    uint64_t said;
    size_t i;
    enum call c;
    for (i = 0; i < sizeof lengths / sizeof lengths[0]; i++)
        for (c = EMPTY; c < CALLS; c++) {
            check(agrees(c, bytes, lengths[i], 1, &said), "another size");
            check(said == (c == JOB ? 0 : PEAT_SHAPE), "another size is SHAPE");
        }
}

/* 64 numbers in rising order, the 65th opening refused, one closed and given again */
static void sixty_four(void)
{
    uint8_t full[PEAT_BOOK_BYTES];
    uint64_t n;
    memset(book, 0x55, sizeof book);
    check(does(COUNT, 0) == PEAT_SHAPE && does(JOB, 3) == 0, "bytes of 55 are no book");
    check(does(EMPTY, 0) == 0, "any bytes are emptied");
    for (n = 0; n < sizeof book; n++)
        check(book[n] == 0, "an empty book is zeros");
    check(peat_open_count(AS(peat_count_answer, does(COUNT, 0))) == 0, "none is open");
    check(does(CLOSE, 0) == PEAT_NOT_OPEN, "closing in an empty book");
    check(does(OPEN, 0) == PEAT_SHAPE, "job 0");
    for (n = 0; n < PEAT_BOOK_NUMBERS; n++) {
        uint64_t said = does(OPEN, UINT64_MAX - n);
        check(peat_refusal_in(said) == PEAT_TAKEN && peat_opened_number(AS(peat_open_answer, said)) == n && said >> 16 == 0, "the lowest free number");
        check(peat_open_count(AS(peat_count_answer, does(COUNT, 0))) == n + 1, "one more is open");
        check(does(JOB, n) == UINT64_MAX - n && does(JOB, n + 1) == 0, "its job, and none at the next");
    }
    memcpy(full, book, sizeof book);
    for (n = 0; n < 8; n++)
        check(book[n] == 0xFF, "all are open");
    check(does(OPEN, 7) == PEAT_ALL_OPEN, "the 65th");
    check(does(OPEN, 0) == PEAT_SHAPE, "job 0 comes before all open");
    check(does(CLOSE, 64) == PEAT_NOT_OPEN && does(CLOSE, 65) == PEAT_NOT_OPEN && does(CLOSE, UINT64_MAX) == PEAT_NOT_OPEN &&
        does(CLOSE, UINT64_C(1) << 32) == PEAT_NOT_OPEN, "a number above 63");
    check(does(JOB, 64) == 0 && does(JOB, UINT64_MAX) == 0 && does(JOB, UINT64_C(1) << 32) == 0, "no job above 63");
    check(memcmp(full, book, sizeof book) == 0, "the book stays");
    for (n = 64; n-- > 0;) {
        check(does(CLOSE, n) == 0, "closed");
        check(does(CLOSE, n) == PEAT_NOT_OPEN, "not open any more");
        check(peat_opened_number(AS(peat_open_answer, does(OPEN, UINT64_MAX - n))) == n, "a closed number is given again");
    }
    check(memcmp(full, book, sizeof book) == 0, "the same open numbers and jobs, the same bytes");
    check(does(CLOSE, 63) == 0 && does(CLOSE, 5) == 0 && does(CLOSE, 40) == 0, "three are closed");
    check(does(OPEN, 1) == 5 << PEAT_BOOK_ANSWER_AT && does(OPEN, 1) == 40 << PEAT_BOOK_ANSWER_AT && does(OPEN, 1) == 63 << PEAT_BOOK_ANSWER_AT,
        "the lowest first; one job may have several numbers");
    check(does(EMPTY, 0) == 0 && peat_open_count(AS(peat_count_answer, does(COUNT, 0))) == 0, "emptied while all are open");
}

/* A book with one thing wrong is refused by each call that looks at it, before any other refusal, and stays. */
static void damaged(void)
{
    uint64_t n;
    int what;
    for (n = 0; n < PEAT_BOOK_NUMBERS; n++)
        for (what = 0; what < 3; what++) {
            uint64_t m;
            does(EMPTY, 0);
            for (m = 0; m < PEAT_BOOK_NUMBERS; m++)
                does(OPEN, m + 1);
            does(CLOSE, n);
            if (what == 0)
                book[8 * (n + 1) + 7] = 1; /* a job in a closed place */
            else if (what == 1)
                book[8 * (n + 1)] = 0x80; /* the same, in its first bit */
            else
                book[7 - n / 8] |= (uint8_t)(1u << n % 8); /* open, and no job */
            check(does(OPEN, 9) == PEAT_SHAPE && does(CLOSE, n) == PEAT_SHAPE && does(CLOSE, 64) == PEAT_SHAPE && does(COUNT, 0) == PEAT_SHAPE &&
                does(JOB, n) == 0 && does(JOB, (n + 1) % 64) == 0, "no book");
        }
}

/* ---- random calls */

static struct {
    unsigned long calls[CALLS], refused[CALLS][9], given[PEAT_BOOK_NUMBERS], foreign_refused, foreign_taken, full;
} seen;

static uint64_t some_job(void)
{
    static const uint64_t edges[] = {0, 1, 255, 256, UINT64_MAX, UINT64_C(1) << 63, UINT64_C(0x00FF00FF00FF00FF)};
    return once_in(8) ? edges[below(7)] : any() >> below(64);
}

static uint64_t some_number(void) { return once_in(20) ? any() : once_in(10) ? 60 + below(10) : below(PEAT_BOOK_NUMBERS); }

static enum call some_call(int filling)
{
    unsigned x = below(1000);
    if (x == 0 && once_in(3))
        return EMPTY;
    if (x < 100)
        return COUNT;
    if (x < 200)
        return JOB;
    return (below(10) < (filling ? 7u : 3u)) ? OPEN : CLOSE;
}

/* bytes that need not be a book: a book with some bits changed, or anything */
static size_t foreign(uint8_t *bytes)
{
    size_t i;
    unsigned k = 1 + below(2);
    memcpy(bytes, book, sizeof book);
    if (once_in(8))
        return below(1040);
    if (once_in(8)) {
        for (i = 0; i < sizeof book; i++)
            bytes[i] = (uint8_t)any();
        return sizeof book;
    }
    while (k-- > 0)
        bytes[once_in(2) ? below(8) : below(sizeof book)] ^= (uint8_t)(1u << below(8));
    return sizeof book;
}

static int random_foreign(void)
{
    uint8_t bytes[1040] = {0};
    size_t len = foreign(bytes);
    unsigned open = 0;
    int is = model_is_book(bytes, len, &open);
    enum call c = (enum call)(1 + below(CALLS - 1)); /* emptying takes any bytes */
    uint64_t said;
    if (!agrees(c, bytes, len, c == OPEN ? some_job() : some_number(), &said))
        return 0;
    seen.foreign_refused += !is && (said == PEAT_SHAPE || (c == JOB && said == 0));
    seen.foreign_taken += is;
    return is || said == (c == JOB ? 0 : PEAT_SHAPE);
}

static int random_call(int filling)
{
    enum call c = some_call(filling);
    uint64_t n = c == OPEN ? some_job() : some_number(), said;
    unsigned open = 0;
    if (!agrees(c, book, sizeof book, n, &said) || !model_is_book(book, sizeof book, &open))
        return 0;
    seen.calls[c]++;
    if (c != JOB && peat_refusal_in(said) < 9)
        seen.refused[c][peat_refusal_in(said)]++;
    if (c == OPEN && peat_refusal_in(said) == PEAT_TAKEN)
        seen.given[peat_opened_number(AS(peat_open_answer, said))]++;
    seen.full += open == PEAT_BOOK_NUMBERS;
    return 1;
}

static void random_calls(unsigned long calls)
{
    unsigned long i, wrong = 0, least = 0;
    int filling = 1, n;
    does(EMPTY, 0);
    for (i = 0; i < calls && wrong < 10; i++) {
        if (once_in(400))
            filling = !filling;
        wrong += once_in(20) ? !random_foreign() : !random_call(filling);
    }
    check(wrong == 0, "random calls agree with the model");
    for (n = 0; n < PEAT_BOOK_NUMBERS; n++)
        least = n == 0 || seen.given[n] < least ? seen.given[n] : least;
    printf("book: %lu random calls; each number was given %lu times or more; all 64 were open after %lu calls, and %lu openings were refused for it; %lu closings "
           "of what is not open; %lu calls on bytes that are no book, %lu on other books\n",
        i, least, seen.full, seen.refused[OPEN][7], seen.refused[CLOSE][8], seen.foreign_refused, seen.foreign_taken);
    if (calls >= 100000)
        check(least > 0 && seen.full > 0 && seen.refused[OPEN][2] > 0 && seen.refused[OPEN][7] > 0 && seen.refused[CLOSE][8] > 0 &&
            seen.foreign_refused > 0 && seen.foreign_taken > 0 && seen.calls[EMPTY] > 0, "every answer came");
    check(seen.refused[OPEN][8] + seen.refused[CLOSE][7] + seen.refused[COUNT][7] + seen.refused[COUNT][8] == 0, "a call has its own refusals only");
}

int main(int argc, char **argv)
{
    unsigned long calls = argc > 1 ? strtoul(argv[1], NULL, 10) : 1000000;
    make_place();
    sizes();
    sixty_four();
    damaged();
    random_calls(calls);
    printf("%lu passed, %lu failed\n", passed, failed);
    return failed != 0;
}
