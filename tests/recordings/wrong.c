/*
 * A comparer in plain C, to try the test with: FAULT 0 has none, and each other number has one, which the test must notice.
 */
#include <stdlib.h>
#include <string.h>

#include "peatribbon.h"

#ifndef FAULT
#define FAULT 0
#endif

struct read {
    size_t count;
    uint64_t job[10923];
};

static int signed_order(const void *x, const void *y)
{
    int64_t a = (int64_t)*(const uint64_t *)x, b = (int64_t)*(const uint64_t *)y;
    return a < b ? -1 : a > b;
}

static int order(const void *x, const void *y)
{
    uint64_t a = *(const uint64_t *)x, b = *(const uint64_t *)y;
    if (FAULT == 1) /* 1: jobs sorted as if they had a sign */
        return signed_order(x, y);
    return a < b ? -1 : a > b;
}

/* by the card's own reader: what is tried here is the comparing */
static uint64_t jobs_of(const uint8_t *s, size_t n, struct read *r, size_t *at)
{
    uint8_t job[PEAT_JOB_BYTES];
    struct peat_envelope_answer answer;
    r->count = 0;
    for (*at = 0; *at < n; *at += peat_envelope_next(answer)) {
        answer = peat_read_envelope(s + *at, n - *at, job, sizeof job);
        if (peat_refusal(answer) != 0)
            return peat_refusal(answer);
        r->job[r->count++] = peat_job_number(job);
    }
    qsort(r->job, r->count, sizeof *r->job, order);
    return 0;
}

static size_t times(const struct read *r, uint64_t job)
{
    size_t i, n = 0;
    for (i = 0; i < r->count; i++)
        n += r->job[i] == job;
    return n;
}

static void put(uint8_t *list, size_t k, uint64_t job)
{
    int b;
    for (b = 0; b < 8; b++)
        list[8 * k + (size_t)b] = (uint8_t)(job >> (FAULT == 2 ? 8 * b : 56 - 8 * b)); /* 2: the least significant byte first */
}

static uint64_t first_difference(const uint8_t *x, size_t m, const uint8_t *y, size_t n, size_t *at)
{
    uint8_t p[8], q[8];
    struct peat_envelope_answer a, b;
    uint64_t index = 0;
    for (*at = 0; *at < m && *at < n; *at += peat_envelope_next(a), index++) {
        uint64_t field = 0;
        a = peat_read_envelope(x + *at, m - *at, p, 8), b = peat_read_envelope(y + *at, n - *at, q, 8);
        if (peat_envelope_kind(a) != peat_envelope_kind(b) && FAULT != 3) /* 3: kinds are not looked at */
            field = 1;
        else if (memcmp(p, q, 8) != 0)
            field = 2;
        else if (peat_envelope_bits(a) != peat_envelope_bits(b))
            field = FAULT == 4 ? 4 : 3; /* 4: another length is another body */
        else if (memcmp(x + *at + peat_envelope_body(a), y + *at + peat_envelope_body(b), (peat_envelope_bits(a) + 7u) / 8u) != 0)
            field = 4;
        if (field != 0)
            return field << 48 | (FAULT == 5 ? index + 1 : index) << 32 | (uint64_t)*at << 16; /* 5: counted from 1 */
    }
    return 0;
}

static uint64_t compared(const uint8_t *first, size_t first_len, const uint8_t *second, size_t second_len, uint8_t *left, size_t left_len,
    uint8_t *right, size_t right_len, uint8_t *twice, size_t twice_len, uint8_t *counts, size_t counts_len)
{
    static struct read a, b;
    static uint64_t all[21846], jobs[3][21846];
    uint8_t *list[3];
    size_t len[3], n[3] = {0, 0, 0}, most[3], at, i, k;
    uint64_t refusal, answer;
    list[0] = left, list[1] = right, list[2] = twice;
    len[0] = left_len, len[1] = right_len, len[2] = twice_len;
    if (counts_len != PEAT_COUNTS_BYTES || first_len > PEAT_RECORDING_MOST - (FAULT == 6) || second_len > PEAT_RECORDING_MOST) /* 6: 32 KiB is too long */
        return PEAT_SHAPE;
    if (FAULT == 7 && left_len < 8) /* 7: ROOM before the recordings are read */
        return PEAT_ROOM;
    refusal = jobs_of(first, first_len, &a, &at);
    if (refusal != 0)
        return refusal | 1u << 8 | (uint64_t)at << 16;
    refusal = jobs_of(second, second_len, &b, &at);
    if (refusal != 0)
        return refusal | 2u << 8 | (uint64_t)(FAULT == 8 ? 0 : at) << 16; /* 8: the byte of a refusal in the second is lost */
    answer = first_difference(first, first_len, second, second_len, &at);
    memcpy(all, a.job, a.count * sizeof *all);
    memcpy(all + a.count, b.job, b.count * sizeof *all);
    qsort(all, a.count + b.count, sizeof *all, order);
    for (i = 0; i < a.count + b.count; i++) {
        size_t x = times(&a, all[i]), y = times(&b, all[i]);
        if (i > 0 && all[i] == all[i - 1] && FAULT != 9) /* 9: a job is shown as often as it stands there */
            continue;
        if (x > 0 && y == 0)
            jobs[0][n[0]++] = all[i];
        if (y > 0 && x == 0)
            jobs[1][n[1]++] = all[i];
        if (FAULT == 10 ? x + y > 1 : FAULT == 11 ? x > 1 : x > 1 || y > 1) /* 10: once in each is repeated; 11: the second is not looked at */
            jobs[2][n[2]++] = all[i];
    }
    for (k = 0; k < 3; k++) {
        most[k] = len[k] / 8;
        if (FAULT == 12) /* 12: what fits is written before ROOM is found */
            for (i = 0; i < n[k] && i < most[k]; i++)
                put(list[k], i, jobs[k][i]);
    }
    for (k = 0; k < 3; k++)
        if (most[k] < n[k] + (FAULT == 13)) /* 13: a list must have a place to spare */
            return PEAT_ROOM;
    for (k = 0; k < 3; k++) {
        for (i = 0; i < n[k]; i++)
            put(list[k], i, jobs[k][i]);
        if (FAULT == 14) /* 14: what is behind the jobs is cleared */
            memset(list[k] + 8 * n[k], 0, len[k] - 8 * n[k]);
        counts[2 * k] = (uint8_t)(n[k] >> 8), counts[2 * k + 1] = (uint8_t)n[k];
    }
    if (answer == 0 && first_len != second_len)
        answer = (uint64_t)((first_len < second_len) == (FAULT != 15) ? 2 : 1) << 8 | (uint64_t)at << 16; /* 15: the rest is that of the shorter one */
    return answer;
}

struct peat_compare_answer peat_compare(const uint8_t *first, size_t first_len, const uint8_t *second, size_t second_len, uint8_t *left, size_t left_len,
    uint8_t *right, size_t right_len, uint8_t *twice, size_t twice_len, uint8_t *counts, size_t counts_len)
{
    return (struct peat_compare_answer){compared(first, first_len, second, second_len, left, left_len, right, right_len, twice, twice_len, counts, counts_len)};
}
