/*
 * Asks the card's calls of the envelope, for tests/envelopes/run. A line of standard input is a question:
 *
 *     read BYTES JOB                 answers the number of peat_read_envelope, and the range for the job after it, which was JOB
 *     write KIND JOB BITS BODY OUT   answers the number of peat_write_envelope, and the buffer after it, which was OUT
 *
 * Bytes are in hexadecimal, `-` for none. Each range is a block of its own size on the heap.
 */
#include <inttypes.h>
#include <stdio.h>
#include <stdlib.h>
#include <string.h>

#include "peatribbon.h"

#define MOST 70000 /* bytes of a range */

static char word[2 * MOST + 2];

static uint8_t *next_bytes(size_t *len)
{
    uint8_t *at;
    size_t i;
    if (scanf("%140001s", word) != 1)
        exit(2);
    *len = strcmp(word, "-") == 0 ? 0 : strlen(word) / 2;
    at = malloc(*len > 0 ? *len : 1);
    if (at == NULL)
        exit(2);
    for (i = 0; i < *len; i++) {
        char pair[3] = {word[2 * i], word[2 * i + 1], 0};
        at[i] = (uint8_t)strtoul(pair, NULL, 16);
    }
    return at;
}

static void show(const uint8_t *at, size_t len)
{
    size_t i;
    for (i = 0; i < len; i++)
        printf("%02x", at[i]);
    printf("%s\n", len == 0 ? "-" : "");
}

static void read_one(void)
{
    size_t len, job_len;
    uint8_t *lent = next_bytes(&len), *job = next_bytes(&job_len);
    printf("%" PRIu64 " ", peat_read_envelope(lent, len, job, job_len).word);
    show(job, job_len);
    free(lent);
    free(job);
}

static void write_one(void)
{
    uint64_t kind, job, bits;
    uint8_t *body, *out;
    size_t body_len, out_len;
    if (scanf("%" SCNu64 " %" SCNu64 " %" SCNu64, &kind, &job, &bits) != 3)
        exit(2);
    body = next_bytes(&body_len);
    out = next_bytes(&out_len);
    printf("%" PRIu64 " ", peat_write_envelope(kind, job, bits, body, body_len, out, out_len).word);
    show(out, out_len);
    free(body);
    free(out);
}

int main(void)
{
    char what[8];
    while (scanf("%7s", what) == 1) {
        if (strcmp(what, "read") == 0)
            read_one();
        else if (strcmp(what, "write") == 0)
            write_one();
        else
            return 2;
    }
    return 0;
}
