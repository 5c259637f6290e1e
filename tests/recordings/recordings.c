/*
 * Compares recordings through the card and holds each answer, every byte of the three lists and of the counts to a model (model.h).
 *
 *     recordings PAIRS     random pairs; the last line is `N passed, M failed`
 *
 * Every pair of short recordings; random ones, some with jobs of several blocks; damaged ones; lists that are exactly long enough, one place too
 * short, torn or empty; full recordings. Each lent range ends where an unreadable page begins, and the bytes before it are compared too.
 */
#define _DEFAULT_SOURCE
#include <stdio.h>
#include <stdlib.h>
#include <string.h>

#define CHANCE_SEED 20261116
#include "../lib/chance.h"
#include "../lib/guard.h"
#include "model.h"

static unsigned long passed, failed;

static int check(int right, const char *name)
{
    if (right)
        passed++;
    else if (failed++ < 20)
        printf("recordings: %s\n", name);
    return right;
}

/* ---- lent ranges: each ends before an unreadable page; the bytes before it are known */

#define ROOM 131072u
#define BESIDE 64u

enum { FIRST, SECOND, LEFT, RIGHT, TWICE, COUNTS, RANGES };
static uint8_t *end_of[RANGES], kept[RANGES][ROOM];

static void make_ranges(void)
{
    int i;
    for (i = 0; i < RANGES; i++) {
        size_t k;
        end_of[i] = guarded_end(ROOM);
        for (k = 0; k < ROOM; k++)
            (end_of[i] - ROOM)[k] = (uint8_t)(k * 7 + (size_t)i);
    }
}

/* ---- one pair */

struct pair {
    const uint8_t *first, *second;
    size_t m, n, list[3], counts;
};

static unsigned long seen[8]; /* equal, differ, a rest, ROOM, SHAPE, 20 to 23, several blocks, repeated */

static void compare(const struct pair *p, const char *name)
{
    static struct report want;
    size_t size[RANGES], k;
    uint64_t answer;
    int i, same = 1;
    size[FIRST] = p->m, size[SECOND] = p->n, size[COUNTS] = p->counts;
    for (i = 0; i < 3; i++)
        size[LEFT + i] = p->list[i];
    memcpy(end_of[FIRST] - p->m, p->first, p->m);
    memcpy(end_of[SECOND] - p->n, p->second, p->n);
    for (i = LEFT; i < RANGES; i++)
        for (k = 1; k <= size[i] + BESIDE; k++)
            end_of[i][-(ptrdiff_t)k] = (uint8_t)(0xA0 + i + k % 11);
    for (i = 0; i < RANGES; i++)
        memcpy(kept[i], end_of[i] - size[i] - BESIDE, size[i] + BESIDE);
    model(p->first, p->m, p->second, p->n, p->list, p->counts, &want);
    answer = WORD(peat_compare(end_of[FIRST] - p->m, p->m, end_of[SECOND] - p->n, p->n, end_of[LEFT] - p->list[0], p->list[0], end_of[RIGHT] - p->list[1],
        p->list[1], end_of[TWICE] - p->list[2], p->list[2], end_of[COUNTS] - p->counts, p->counts));
    if (peat_refusal_in(want.answer) == 0) {
        for (i = 0; i < 3; i++) {
            for (k = 0; k < want.counts[i]; k++) {
                int b;
                for (b = 0; b < 8; b++)
                    kept[LEFT + i][BESIDE + 8 * k + (size_t)b] = (uint8_t)(want.jobs[i][k] >> (56 - 8 * b));
            }
            kept[COUNTS][BESIDE + 2 * i] = (uint8_t)(want.counts[i] >> 8);
            kept[COUNTS][BESIDE + 2 * i + 1] = (uint8_t)want.counts[i];
        }
    }
    for (i = 0; i < RANGES; i++)
        same &= memcmp(kept[i], end_of[i] - size[i] - BESIDE, size[i] + BESIDE) == 0;
    if (answer != want.answer)
        printf("recordings: %s: %016llx for %016llx\n", name, (unsigned long long)answer, (unsigned long long)want.answer);
    check(answer == want.answer, name);
    check(same, name);
    if (p->counts == PEAT_COUNTS_BYTES) {
        struct peat_comparison c = peat_comparison_of(AS(peat_compare_answer, answer), end_of[COUNTS] - p->counts);
        int equal = p->m <= PEAT_RECORDING_MOST && c.refusal == 0 && p->m == p->n && memcmp(p->first, p->second, p->m) == 0;
        check(peat_comparison_equal(&c) == equal, "equal, and only equal, recordings give nothing");
        check(c.only_first == want.counts[0] && c.only_second == want.counts[1] && c.repeated == want.counts[2], "the counts, taken apart");
        check(!equal || c.only_first + c.only_second == 0, "equal recordings show a job in only one");
        seen[c.refusal == 0 ? (c.field != 0 ? 1 : c.recording != 0 ? 2 : 0) : c.refusal == PEAT_ROOM ? 3 : c.refusal == PEAT_SHAPE ? 4 : 5]++;
        seen[6] += c.only_first + c.only_second > 120;
        seen[7] += c.repeated > 0;
    }
}

/* ---- recordings */

static size_t put_number(uint8_t *out, uint64_t n)
{
    size_t k = 0;
    for (; n > 127; n >>= 7)
        out[k++] = (uint8_t)(n | 128);
    out[k++] = (uint8_t)n;
    return k;
}

static size_t put(uint8_t *out, unsigned kind, uint64_t job, unsigned bits, unsigned fill)
{
    size_t k = put_number(out, kind), i, bytes = (bits + 7u) / 8u;
    k += put_number(out + k, job);
    k += put_number(out + k, bits);
    for (i = 0; i < bytes; i++)
        out[k + i] = (uint8_t)(fill + i);
    if (bits % 8 != 0)
        out[k + bytes - 1] &= (uint8_t)(0xFF00u >> bits % 8);
    return k + bytes;
}

static uint64_t any_job(unsigned jobs)
{
    static const uint64_t far[] = {127, 128, 16383, 16384, UINT64_C(1) << 32, UINT64_C(1) << 63, UINT64_MAX - 1, UINT64_MAX};
    return jobs == 0 ? far[below(8)] : 1 + below(jobs);
}

/* A recording of so many envelopes, and where each begins. */
static size_t some(uint8_t *out, unsigned envelopes, unsigned jobs, size_t *starts)
{
    size_t at = 0;
    unsigned i;
    for (i = 0; i < envelopes; i++) {
        unsigned kind = 1 + below(3), bits = kind == 3 ? 8 : below(4) == 0 ? below(60) : below(2) * 10;
        starts[i] = at;
        at += put(out + at, kind, any_job(below(8) == 0 ? 0 : jobs), bits, below(3));
    }
    starts[envelopes] = at;
    return at;
}

/* The same with an envelope put in, left out or exchanged, or cut behind one. */
static size_t changed(uint8_t *out, const uint8_t *in, const size_t *starts, unsigned envelopes, unsigned jobs)
{
    unsigned at = below(envelopes + 1), how = below(4);
    size_t front = starts[at], skip = starts[envelopes] - front, k;
    memcpy(out, in, front);
    k = front;
    if (how == 3)
        return k;
    if (how != 0 && at < envelopes)
        skip = starts[envelopes] - starts[at + 1];
    if (how != 1)
        k += put(out + k, 1 + below(2), any_job(jobs), below(3) * 5, below(3));
    memcpy(out + k, in + starts[envelopes] - skip, skip);
    return k + skip;
}

#define LONG (3 * PEAT_RECORDING_MOST)
static uint8_t a[LONG], b[LONG];
static size_t starts[PARTS + 1];

static struct pair lent(size_t m, size_t n)
{
    struct pair p = {a, b, 0, 0, {0}, PEAT_COUNTS_BYTES};
    p.list[0] = p.list[1] = p.list[2] = m + n < 2000 ? 4000 : PEAT_LIST_MOST;
    p.m = m;
    p.n = n;
    return p;
}

/* Every pair of strings of up to two envelopes out of seven, sound ones and damaged ones. */
static void short_pairs(void)
{
    static uint8_t one[8][8], all[73][16];
    size_t size[8], length[73], i, k, n = 0;
    struct pair p = lent(0, 0);
    p.list[0] = p.list[1] = p.list[2] = 40;
    size[0] = 0;
    size[1] = put(one[1], 1, 7, 0, 0), size[2] = put(one[2], 2, 7, 0, 0), size[3] = put(one[3], 1, 8, 0, 0);
    size[4] = put(one[4], 1, 7, 3, 0xA0), size[5] = put(one[5], 1, 7, 3, 0x40), size[6] = put(one[6], 3, 7, 8, 3);
    size[7] = 3, memcpy(one[7], "\1\200\0", 3); /* GROUPS */
    for (i = 0; i < 8; i++)
        for (k = 0; k < 8; k++) {
            memcpy(all[n], one[i], size[i]);
            memcpy(all[n] + size[i], one[k], size[k]);
            length[n++] = size[i] + size[k];
        }
    for (i = 0; i < n; i++)
        for (k = 0; k < n; k++) {
            p.first = all[i], p.m = length[i], p.second = all[k], p.n = length[k];
            compare(&p, "a pair of short recordings");
        }
}

static void random_pair(unsigned long i)
{
    unsigned many = i % 10 == 0 ? 100 + below(800) : below(10), jobs = i % 10 == 0 ? 1 + below(1000) : 1 + below(12), k;
    size_t m = some(a, many, jobs, starts), n = m;
    struct pair p;
    memcpy(b, a, m);
    if (below(4) != 0)
        n = changed(b, a, starts, many, jobs);
    if (below(3) == 0) { /* another one */
        static size_t others[PARTS + 1];
        n = some(b, many, jobs, others);
    }
    if (below(6) == 0 && m > 0)
        a[below((unsigned)m)] ^= (uint8_t)(1u << below(8));
    if (below(6) == 0 && n > 0)
        b[below((unsigned)n)] ^= (uint8_t)(1u << below(8));
    if (below(10) == 0 && n > 0)
        n -= 1 + below((unsigned)n);
    p = lent(m, n);
    if (below(2) == 0)
        for (k = 0; k < 3; k++)
            p.list[k] = below(3) == 0 ? below(90) : 8 * (size_t)below(many + 2) + below(2) * below(8);
    if (below(30) == 0)
        p.counts = below(9);
    compare(&p, "a random pair");
}

/* Lists of exactly the places that are needed, one fewer, and a torn one more. */
static void exact_lists(void)
{
    unsigned which, jobs;
    for (jobs = 0; jobs < 260; jobs += jobs < 8 ? 1 : 41)
        for (which = 0; which < 3; which++) {
            size_t m = 0, n = 0;
            unsigned i;
            int less;
            for (i = 0; i < jobs; i++) {
                uint8_t *at = which == 1 ? b : a;
                size_t *len = which == 1 ? &n : &m;
                *len += put(at + *len, 1, 1000 - 3 * i, 0, 0);
                if (which == 2)
                    *len += put(at + *len, 2, 1000 - 3 * i, 0, 0);
            }
            for (less = -1; less <= 8; less++) {
                struct pair p = lent(m, which == 2 ? m : n);
                if (which == 2)
                    memcpy(b, a, m);
                if (8 * (size_t)jobs + 7 < (size_t)(less + 1))
                    continue;
                p.list[which] = 8 * (size_t)jobs + 7 - (size_t)(less + 1);
                compare(&p, "lists just long enough");
            }
        }
}

/* As many distinct jobs as a recording can have, in a list of exactly so many places, and of one fewer. */
static void fullest(void)
{
    unsigned which, less, job;
    for (which = 0; which < 2; which++)
        for (less = 0; less < 2; less++) {
            size_t m = 0;
            struct pair p;
            for (job = 1; m + 4 <= PEAT_RECORDING_MOST; job++)
                m += put((which ? b : a) + m, 1, job, 0, 0);
            check((job - 1) * PEAT_JOB_BYTES == PEAT_LIST_MOST, "a recording has other than so many jobs");
            p = lent(which ? 0 : m, which ? m : 0);
            p.list[which] = PEAT_LIST_MOST - PEAT_JOB_BYTES * less;
            compare(&p, "as many jobs as a recording can have");
        }
}

/* Recordings as long as they may be, and a byte longer. */
static void full(int pairs)
{
    int order;
    for (order = 0; order < pairs; order++) {
        size_t m = 0, n = 0;
        unsigned i;
        struct pair p;
        for (i = 0; m + 4 <= PEAT_RECORDING_MOST; i++) {
            uint64_t job = order == 2 ? 1 + any() % 16000 : order == 1 ? 16383 - i : i + 1;
            m += put(a + m, 1, job, 0, 0);
            n += put(b + n, 1, order == 3 ? job : 16383 - job + 1, 0, 0);
        }
        p = lent(m, n < PEAT_RECORDING_MOST ? n : m);
        compare(&p, "full recordings");
        while (m < PEAT_RECORDING_MOST) /* a body fills what is left */
            a[m++] = 0;
    }
    for (order = 0; order < 4; order++) {
        size_t m = put(a, 1, 5, 16368, 1), k;
        struct pair p;
        for (k = 0; k + 1 < 15; k++)
            m += put(a + m, 1, 5, 16368, (unsigned)k);
        m += put(a + m, 1, 9, (unsigned)(8 * (PEAT_RECORDING_MOST - m - 4)), 3);
        if (m != PEAT_RECORDING_MOST)
            check(0, "a recording of 32 KiB was not made");
        memcpy(b, a, m);
        p = lent(m + (order & 1), m + (size_t)(order >> 1));
        a[m] = b[m] = 0;
        compare(&p, "recordings of 32 KiB, and of a byte more");
    }
}

int main(int argc, char **argv)
{
    unsigned long pairs = argc > 1 ? strtoul(argv[1], NULL, 10) : 3000, i;
    static const char *const kinds[] = {"equal", "that differ", "with a rest", "ROOM", "SHAPE", "refused with 20 to 23", "with jobs of several blocks", "with repeated jobs"};
    make_ranges();
    short_pairs();
    exact_lists();
    for (i = 0; i < pairs; i++)
        random_pair(i);
    fullest();
    full(pairs >= 1000 ? 4 : 0);
    for (i = 0; i < 8; i++) {
        printf("recordings: %lu %s\n", seen[i], kinds[i]);
        if (pairs >= 1000)
            check(seen[i] >= 3, "hardly any of these");
    }
    printf("%lu passed, %lu failed\n", passed, failed);
    return failed != 0;
}
