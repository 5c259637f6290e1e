/*
 * Calls of the reader of fragments, to be measured.
 *
 *     cost          the rows: number, bytes taken, what it is
 *     cost ROW      makes the calls of a row (measure counts the instructions of peat_mail_take); the last call is the row's, or all of
 *                   them where the row is a recording
 *     cost stack    the stack that the last call of each row takes, on a stack of its own that was painted before
 */
#define _DEFAULT_SOURCE
#include <stdio.h>
#include <stdlib.h>
#include <string.h>

#include "../lib/stack.h"
#include "peatribbon.h"

#define JOB_MOST UINT64_MAX

/* the envelopes before the call, the bytes that are held then, and the fragment */
static const struct row {
    const char *title;
    uint64_t job;
    unsigned bits;      /* of each envelope */
    size_t held;        /* bytes of the envelope that came before, one by one */
    size_t fragment;    /* bytes of the fragment; 0: none */
    int behind;         /* a finished envelope stands in the record */
    int wrong;          /* the first byte is no kind */
    size_t every;       /* a recording of `fragment` bytes, cut into fragments of so many */
} rows[] = {
    {"no bytes", 7, 0, 0, 0, 0, 0, 0},
    {"the least, 3 bytes, nothing held", 7, 0, 0, 3, 0, 0, 0},
    {"16 bytes, nothing held", 300, 96, 0, 16, 0, 0, 0},
    {"16 bytes of 4,096, behind a finished one of 16", 300, 96, 0, 4096, 1, 0, 0},
    {"2,048 bits, 269 bytes, nothing held", JOB_MOST, 2048, 0, 269, 0, 0, 0},
    {"2,048 bits, 269 bytes, behind a finished one", JOB_MOST, 2048, 0, 269, 1, 0, 0},
    {"the largest, 2,061 bytes, nothing held", JOB_MOST, PEAT_MESSAGE_MOST, 0, 2061, 0, 0, 0},
    {"the largest, 2,061 bytes, behind a finished one", JOB_MOST, PEAT_MESSAGE_MOST, 0, 2061, 1, 0, 0},
    {"one byte, the first", JOB_MOST, PEAT_MESSAGE_MOST, 0, 1, 0, 0, 0},
    {"one byte, the seventh of the header", JOB_MOST, PEAT_MESSAGE_MOST, 6, 1, 0, 0, 0},
    {"one byte, of a body", 300, 96, 10, 1, 0, 0, 0},
    {"one byte, of the largest body", JOB_MOST, PEAT_MESSAGE_MOST, 100, 1, 0, 0, 0},
    {"the last 1,961 bytes of the largest", JOB_MOST, PEAT_MESSAGE_MOST, 100, 1961, 0, 0, 0},
    {"the last 2,055 bytes of the largest, from inside its header", JOB_MOST, PEAT_MESSAGE_MOST, 6, 2055, 0, 0, 0},
    {"KIND, nothing held", 7, 0, 0, 100, 0, 1, 0},
    {"2,992 bytes of 187 envelopes, at once", 300, 96, 0, 2992, 0, 0, 2992},
    {"2,992 bytes of 187 envelopes, 100 bytes at a time", 300, 96, 0, 2992, 0, 0, 100},
    {"2,992 bytes of 187 envelopes, byte by byte", 300, 96, 0, 2992, 0, 0, 1},
    {"2,959 bytes of 11 envelopes of 2,048 bits, at once", JOB_MOST, 2048, 0, 2959, 0, 0, 2959},
    {"2,959 bytes of 11 envelopes of 2,048 bits, 100 bytes at a time", JOB_MOST, 2048, 0, 2959, 0, 0, 100},
    {"2,959 bytes of 11 envelopes of 2,048 bits, byte by byte", JOB_MOST, 2048, 0, 2959, 0, 0, 1},
    {"6,183 bytes of 3 largest envelopes, at once", JOB_MOST, PEAT_MESSAGE_MOST, 0, 6183, 0, 0, 6183},
    {"6,183 bytes of 3 largest envelopes, 100 bytes at a time", JOB_MOST, PEAT_MESSAGE_MOST, 0, 6183, 0, 0, 100},
    {"6,183 bytes of 3 largest envelopes, byte by byte", JOB_MOST, PEAT_MESSAGE_MOST, 0, 6183, 0, 0, 1},
};
#define ROWS (sizeof rows / sizeof rows[0])

static uint8_t mail[PEAT_MAIL_BYTES], text[8192], envelope[PEAT_BUFFER_LEAST], job[PEAT_JOB_BYTES];
static size_t bytes;

static struct peat_envelope_answer take(const uint8_t *at, size_t n) { return peat_mail_take(mail, sizeof mail, at, n, PEAT_ARRAY(job)); }

static void must(int right)
{
    if (!right) {
        puts("a row is not of its kind");
        exit(1);
    }
}

/* envelopes without end, and the record as it is before the call */
static void prepare(const struct row *r)
{
    static uint8_t body[(PEAT_MESSAGE_MOST + 7) / 8];
    size_t i;
    for (i = 0; i < sizeof body; i++)
        body[i] = (uint8_t)(37 * i + 11);
    body[sizeof body - 1] &= 0xFE; /* the bit behind the largest */
    bytes = peat_written_bytes(peat_write_envelope(PEAT_ENVELOPE_TO_SEND, r->job, r->bits, body, sizeof body, envelope, sizeof envelope));
    must(bytes > 0);
    for (i = 0; i < sizeof text; i++)
        text[i] = envelope[i % bytes];
    must(peat_refusal(peat_mail_fresh(mail, sizeof mail)) == 0);
    if (r->behind)
        must(peat_envelope_kind(take(text, bytes)) == PEAT_ENVELOPE_TO_SEND);
    for (i = 0; i < r->held; i++)
        must(peat_mail_taken(take(text + i, 1)) == 1);
    if (r->wrong)
        text[0] = 4;
}

/* a recording in fragments of so many bytes */
static void record_all(const struct row *r)
{
    size_t from, at;
    unsigned long envelopes = 0;
    for (from = 0; from < r->fragment; from += r->every)
        for (at = from; at < r->fragment && at < from + r->every;) {
            size_t end = from + r->every < r->fragment ? from + r->every : r->fragment;
            struct peat_envelope_answer answer = take(text + at, end - at);
            must(peat_refusal(answer) == 0 && peat_mail_taken(answer) > 0);
            envelopes += peat_envelope_kind(answer) != 0;
            at += peat_mail_taken(answer);
        }
    must(envelopes == r->fragment / bytes && peat_refusal(peat_mail_end(mail, sizeof mail)) == 0);
}

static uint64_t call(const struct row *r)
{
    if (r->every != 0) {
        record_all(r);
        return 0;
    }
    return peat_refusal(take(text + r->held, r->fragment));
}

/* ---- the stack of a call, on a stack of its own */

static const struct row *now;
static int empty;

static void on_the_stack(void)
{
    if (!empty)
        call(now);
}

static size_t stack_of(const struct row *r, int none)
{
    prepare(r);
    now = r, empty = none;
    return stack_touched(on_the_stack);
}

int main(int argc, char **argv)
{
    size_t i, most = 0;
    if (argc > 1 && strcmp(argv[1], "stack") == 0) {
        for (i = 0; i < ROWS; i++) {
            size_t n = stack_of(&rows[i], 0) - stack_of(&rows[i], 1);
            most = n > most ? n : most;
        }
        printf("stack of peat_mail_take, the most: %lu bytes\n", (unsigned long)most);
        return 0;
    }
    if (argc > 1) {
        i = strtoul(argv[1], NULL, 10);
        if (i >= ROWS)
            return 2;
        prepare(&rows[i]);
        must((call(&rows[i]) == PEAT_KIND) == (rows[i].wrong != 0));
        return 0;
    }
    for (i = 0; i < ROWS; i++)
        printf("%lu %lu %s\n", (unsigned long)i, (unsigned long)(rows[i].every != 0 ? rows[i].fragment : 0), rows[i].title);
    return 0;
}
