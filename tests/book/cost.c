/*
 * One call of each kind, to be measured.
 *
 *     cost          the rows: number, entry point, what it is
 *     cost ROW      makes the call of a row
 *     cost stack    the stack that the call of each row takes, on a stack of its own that was painted before
 */
#define _DEFAULT_SOURCE
#include <stdio.h>
#include <stdlib.h>
#include <string.h>

#include "../lib/stack.h"
#include "calls.h"

struct row {
    enum call call;
    const char *title;
    unsigned open; /* the numbers 0 to open - 1 are open before it */
    uint64_t n, answer;
    int damaged; /* the bytes are no book */
};

static const struct row rows[] = {
    {EMPTY, "64 open", 64, 0, 0, 0},
    {OPEN, "none open", 0, 9, 0, 0},
    {OPEN, "63 open", 63, 9, 63 << 8, 0},
    {OPEN, "64 open", 64, 9, PEAT_ALL_OPEN, 0},
    {OPEN, "job 0", 63, 0, PEAT_SHAPE, 0},
    {OPEN, "no book", 63, 9, PEAT_SHAPE, 1},
    {CLOSE, "number 0", 64, 0, 0, 0},
    {CLOSE, "number 63", 64, 63, 0, 0},
    {CLOSE, "not open", 63, 63, PEAT_NOT_OPEN, 0},
    {COUNT, "64 open", 64, 0, 64 << 8, 0},
    {JOB, "number 63", 64, 63, 64, 0},
};
#define ROWS (sizeof rows / sizeof rows[0])

static uint8_t book[PEAT_BOOK_BYTES];

static void prepare(const struct row *r)
{
    unsigned n;
    model_call(EMPTY, book, sizeof book, 0);
    for (n = 0; n < r->open; n++)
        model_call(OPEN, book, sizeof book, n + 1);
    book[519] ^= (uint8_t)r->damaged;
}

/* ---- the stack of a call, on a stack of its own */

static const struct row *now;
static int empty;

static void on_the_stack(void)
{
    if (!empty)
        card_call(now->call, book, sizeof book, now->n);
}

static size_t stack_of(const struct row *r, int none)
{
    prepare(r);
    now = r, empty = none;
    return stack_touched(on_the_stack);
}

int main(int argc, char **argv)
{
    size_t i, most = 0;
    if (argc > 1 && strcmp(argv[1], "stack") == 0) {
        for (i = 0; i < ROWS; i++) {
            size_t n = stack_of(&rows[i], 0) - stack_of(&rows[i], 1);
            printf("%s, %s: %lu bytes\n", names[rows[i].call], rows[i].title, (unsigned long)n);
            most = n > most ? n : most;
        }
        printf("largest: %lu bytes of stack\n", (unsigned long)most);
        return 0;
    }
    if (argc > 1) {
        i = strtoul(argv[1], NULL, 10);
        if (i >= ROWS)
            return 2;
        prepare(&rows[i]);
        return card_call(rows[i].call, book, sizeof book, rows[i].n) != rows[i].answer; /* a row is of the kind that it says */
    }
    for (i = 0; i < ROWS; i++)
        printf("%lu %s %s\n", (unsigned long)i, names[rows[i].call], rows[i].title);
    return 0;
}
