/*
 * What a comparison of recordings takes, of full ones and of ones of half the length, in each order of their jobs.
 *
 *   cost          milliseconds of the processor (the least of nine calls), and stack, on a stack that was painted before; the status is 0 only
 *                 where no call takes more than STACK bytes of stack
 *   cost titles   the pairs that are counted, a line each
 *   cost calls    one call of each of these, for tools/instructions (tests/cost)
 */
#define _DEFAULT_SOURCE
#include <stdio.h>
#include <stdlib.h>
#include <string.h>
#include <time.h>

#include "../lib/answers.h"
#include "../lib/stack.h"

#define STACK 2048

static uint8_t first[PEAT_RECORDING_MOST], second[PEAT_RECORDING_MOST], left[PEAT_LIST_MOST], right[PEAT_LIST_MOST], twice[PEAT_LIST_MOST], counts[PEAT_COUNTS_BYTES];
static size_t m, n, places_left, places_right, places_twice;
static uint64_t answer;
static int empty_call;

static void call(void)
{
    if (!empty_call)
        answer = WORD(peat_compare(first, m, second, n, left, places_left, right, places_right, twice, places_twice, PEAT_ARRAY(counts)));
}

static size_t stack_of(int empty)
{
    size_t touched;
    empty_call = empty;
    touched = stack_touched(call);
    empty_call = 0;
    return touched;
}

static double milliseconds(void)
{
    double best = 1e9;
    int k;
    for (k = 0; k < 9; k++) {
        clock_t began = clock();
        double took;
        call();
        took = 1e3 * (double)(clock() - began) / CLOCKS_PER_SEC;
        best = took < best ? took : best;
    }
    return best;
}

static size_t put(uint8_t *out, uint64_t job)
{
    size_t k = 0;
    out[k++] = 1;
    for (; job > 127; job >>= 7)
        out[k++] = (uint8_t)(job | 128);
    out[k++] = (uint8_t)job;
    out[k++] = 0;
    return k;
}

enum order { RISING, FALLING, SHUFFLED, BELOW, TEETH, SAME, ONE };

/* a job of a recording (0, 1), by its place. The first three: the odd jobs and the even ones. BELOW: falling, and all of the second below those of
   the first. TEETH: the same in teeth of a block's jobs, each of them rising. */
static uint64_t job_at(enum order order, unsigned recording, unsigned i, unsigned envelopes)
{
    unsigned k = 2 * envelopes - 1 - (recording * envelopes + i), tooth = k / 120 * 120;
    switch (order) {
    case FALLING: return 2 * (envelopes - 1 - i) + 1 + recording;
    case BELOW: return k + 1;
    case TEETH: return tooth + 120 <= 2 * envelopes ? tooth + 119 - k % 120 + 1 : k + 1;
    case SAME: return i + 1;
    case ONE: return 7;
    default: return 2 * i + 1 + recording;
    }
}

/* a recording of so many envelopes, or of as many of them as it takes; how many, in *taken */
static size_t fill(uint8_t *out, unsigned envelopes, enum order order, unsigned recording, size_t *taken)
{
    static uint64_t job[11000];
    size_t at = 0;
    unsigned i, seed = 5;
    for (i = 0; i < envelopes; i++)
        job[i] = job_at(order, recording, i, envelopes);
    for (i = envelopes - 1; order == SHUFFLED && i > 0; i--) {
        unsigned k = (seed = seed * 1103515245u + 12345u) / 65536u % (i + 1);
        uint64_t one = job[i];
        job[i] = job[k], job[k] = one;
    }
    for (i = 0; i < envelopes && at + 4 <= PEAT_RECORDING_MOST; i++)
        at += put(out + at, job[i]);
    *taken = i;
    return at;
}

/* lists that no two recordings fill, or lists just long enough: then the jobs are counted before they are written */
enum lists { LONG, TIGHT };

static const struct row {
    const char *title;
    unsigned envelopes;
    enum order order;
    enum lists lists;
    int counted;
} rows[] = {
    {"rising, half", 4102, RISING, LONG, 1},
    {"rising", 8204, RISING, LONG, 1},
    {"falling, half", 4102, FALLING, LONG, 1},
    {"falling", 8204, FALLING, LONG, 1},
    {"shuffled, half", 4102, SHUFFLED, LONG, 1},
    {"shuffled", 8204, SHUFFLED, LONG, 1},
    {"falling, the second below the first", 8204, BELOW, LONG, 1},
    {"falling in rising teeth", 8204, TEETH, LONG, 1},
    {"rising, lists just long enough", 8204, RISING, TIGHT, 0},
    {"falling, lists just long enough", 8204, FALLING, TIGHT, 0},
    {"shuffled, lists just long enough", 8204, SHUFFLED, TIGHT, 0},
    {"the same jobs in both, rising", 8204, SAME, LONG, 0},
    {"one job", 10922, ONE, LONG, 0},
};

static void set_up(const struct row *row)
{
    size_t a, b;
    m = fill(first, row->envelopes, row->order, 0, &a);
    n = fill(second, row->envelopes, row->order, 1, &b);
    places_left = row->lists == TIGHT ? PEAT_JOB_BYTES * a : sizeof left;
    places_right = row->lists == TIGHT ? PEAT_JOB_BYTES * b : sizeof right;
    places_twice = row->lists == TIGHT ? 0 : sizeof twice;
}

int main(int argc, char **argv)
{
    size_t i, most = 0;
    int refused = 0;
    for (i = 0; i < sizeof rows / sizeof *rows; i++) {
        size_t stack;
        if (argc > 1) {
            if (rows[i].counted && strcmp(argv[1], "titles") == 0)
                puts(rows[i].title);
            else if (rows[i].counted)
                set_up(rows + i), call();
            refused |= (answer & 255) != 0;
            continue;
        }
        set_up(rows + i);
        stack_of(0); /* what is bound at the first call */
        stack = stack_of(0) - stack_of(1);
        most = stack > most ? stack : most;
        refused |= (answer & 255) != 0;
        printf("%-36s %5u envelopes each %6.1f ms %6u bytes of stack\n", rows[i].title, rows[i].envelopes, milliseconds(), (unsigned)stack);
    }
    return refused || most > STACK;
}
