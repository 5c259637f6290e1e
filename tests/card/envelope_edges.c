/*
 * Edges of the envelope's calls.
 */
#include <stdio.h>
#include <string.h>

#include "card.h"

static uint64_t job_in(const struct args *a) { return peat_job_number(a->first.at); }

/* lends these bytes to be read; the number that reading answers, or a wrong one where a call is not as the model has it */
static uint64_t reads(const uint8_t *bytes, size_t len)
{
    struct args a;
    uint64_t said;
    memset(&a, 0, sizeof a);
    lend(&a, 4, len);
    if (len > 0)
        memcpy(a.bytes.at, bytes, len);
    lend(&a, 5, PEAT_JOB_BYTES);
    memset(a.first.at, 0, PEAT_JOB_BYTES); /* 0 is no job */
    if (!agrees(READ_ENVELOPE, &a, &said) || (job_in(&a) == 0) != (peat_refusal_in(said) != PEAT_TAKEN))
        return (uint64_t)-1;
    return said;
}

/* the job range of any other size is SHAPE, before anything of the envelope is looked at */
void job_ranges(void)
{
    static const uint8_t sound[] = {0x01, 0xAC, 0x02, 0x0A, 0xA5, 0x40}, cut[] = {0x01};
    size_t size;
    int right = 1;
    for (size = 0; size <= 2 * PEAT_JOB_BYTES; size++) {
        struct args a;
        uint64_t said;
        unsigned i;
        for (i = 0; i < 2; i++) {
            memset(&a, 0, sizeof a);
            lend(&a, 4, i == 0 ? sizeof sound : sizeof cut);
            memcpy(a.bytes.at, i == 0 ? sound : cut, a.bytes.len);
            fill(lent[5] - 2 * PEAT_JOB_BYTES, 2 * PEAT_JOB_BYTES);
            lend(&a, 5, size);
            right &= agrees(READ_ENVELOPE, &a, &said) && peat_refusal_in(said) == (size != PEAT_JOB_BYTES ? PEAT_SHAPE : i == 0 ? PEAT_TAKEN : PEAT_CUT);
            right &= size != PEAT_JOB_BYTES || i != 0 || job_in(&a) == 300;
        }
    }
    check(right, "a job range of each size");
}

#define READS(...) reads((const uint8_t[]){__VA_ARGS__}, sizeof((const uint8_t[]){__VA_ARGS__}))

/* each truncation, each byte in each place, each number of groups: as the model has it, and each refusal comes */
void damaged_envelopes(void)
{
    static const struct {
        size_t len;
        uint8_t at[16];
    } whole_ones[] = {{6, {0x01, 0xAC, 0x02, 0x0A, 0xA5, 0x40}}, {4, {0x03, 0x07, 0x08, 0x15}}, {3, {0x02, 0x05, 0x00}}, {4, {0x02, 0x01, 0x01, 0x80}},
        {14, {0x01, 0xFF, 0xFF, 0xFF, 0xFF, 0xFF, 0xFF, 0xFF, 0xFF, 0xFF, 0x01, 0x09, 0xFF, 0x80}}};
    static unsigned long count[PEAT_SIZE + 1];
    uint8_t made[40];
    size_t i, j, k;
    int cut = 1, byte = 1, groups = 1, count_of = 1;
    for (i = 0; i < sizeof whole_ones / sizeof whole_ones[0]; i++) {
        size_t len = whole_ones[i].len;
        cut &= peat_refusal_in(reads(whole_ones[i].at, len)) == PEAT_TAKEN && peat_envelope_next(AS(peat_envelope_answer, reads(whole_ones[i].at, len))) == len;
        for (j = 0; j < len; j++)
            cut &= reads(whole_ones[i].at, j) == PEAT_CUT;
        for (j = 0; j < len; j++)
            for (k = 0; k < 256; k++) {
                uint64_t said;
                memcpy(made, whole_ones[i].at, len);
                made[j] = (uint8_t)k;
                said = reads(made, len);
                byte &= said != (uint64_t)-1;
                count[said <= PEAT_SIZE ? said : 0]++;
            }
    }
    check(cut, "an envelope cut at each byte is CUT");
    check(byte, "an envelope with another byte");
    check(count[0] > 0 && count[PEAT_CUT] > 0 && count[PEAT_GROUPS] > 0 && count[PEAT_KIND] > 0 && count[PEAT_SIZE] > 0, "each refusal of an envelope comes");
    for (i = 0; i < 3; i++) /* the numbers before it are 1 */
        for (j = 0; j < 12; j++)
            for (k = 0; k < 256; k++) {
                static const uint8_t follows[] = {0x80, 0x81, 0xFF};
                int f;
                for (f = 0; f < 3; f++) {
                    memset(made, 1, i);
                    memset(made + i, follows[f], j);
                    made[i + j] = (uint8_t)k;
                    memset(made + i + j + 1, 1, 3);
                    groups &= reads(made, i + j) != (uint64_t)-1 && reads(made, i + j + 1) != (uint64_t)-1 && reads(made, i + j + 4) != (uint64_t)-1;
                }
            }
    check(groups, "numbers of 0 to 12 groups");
    for (i = 0; i <= PEAT_MESSAGE_MOST + 2; i += i < 2050 || i > 16300 ? 1 : 61) { /* bit counts, with the body whole, cut, and with each padding bit */
        static uint8_t long_one[2100];
        size_t head = 2, whole_len;
        uint64_t want;
        memset(long_one, 0, sizeof long_one);
        long_one[0] = 1 + i % 2, long_one[1] = 9;
        if (i > 127)
            long_one[head++] = (uint8_t)(0x80 | i);
        if (i > 16383)
            long_one[head++] = (uint8_t)(0x80 | i >> 7);
        long_one[head++] = (uint8_t)(i > 16383 ? i >> 14 : i > 127 ? i >> 7 : i);
        whole_len = head + (i + 7) / 8;
        want = (uint64_t)long_one[0] << 8 | (uint64_t)i << 16 | (uint64_t)head << 32 | (uint64_t)whole_len << 48;
        count_of &= reads(long_one, whole_len) == (i > PEAT_MESSAGE_MOST ? PEAT_SIZE : want);
        if (i > 0)
            count_of &= reads(long_one, whole_len - 1) == (i > PEAT_MESSAGE_MOST ? PEAT_SIZE : PEAT_CUT);
        for (j = i; j < 8 * (whole_len - head); j++) {
            long_one[head + j / 8] = (uint8_t)(1u << (7 - j % 8));
            count_of &= reads(long_one, whole_len) == PEAT_SIZE;
        }
        long_one[0] = 3;
        count_of &= (peat_refusal_in(reads(long_one, whole_len)) == PEAT_SIZE) == (i != 8);
    }
    check(count_of, "bit counts, and a bit behind each");
}

/* by hand */
void known_envelopes(void)
{
    static const uint8_t one[] = {0x01, 0xAC, 0x02, 0x0A, 0xA5, 0x40, 0x03}; /* and one byte of the next */
    uint8_t job[PEAT_JOB_BYTES];
    struct peat_envelope_answer n = AS(peat_envelope_answer, reads(one, sizeof one));
    check(peat_refusal(n) == PEAT_TAKEN && peat_envelope_kind(n) == PEAT_ENVELOPE_TO_SEND && peat_envelope_bits(n) == 10 && peat_envelope_body(n) == 4 &&
        peat_envelope_next(n) == 6, "01 AC 02 0A A5 40: kind 1, ten bits");
    check(WORD(peat_read_envelope(PEAT_ARRAY(one), PEAT_ARRAY(job))) == WORD(n) && memcmp(job, (const uint8_t[]){0, 0, 0, 0, 0, 0, 1, 44}, sizeof job) == 0,
        "job 300, the most significant byte first");
    check(WORD(peat_read_envelope(NULL, 0, PEAT_ARRAY(job))) == PEAT_CUT && peat_job_number(job) == 300, "no bytes at all are CUT, and the job stays");
    check(WORD(peat_read_envelope(PEAT_ARRAY(one), NULL, 0)) == PEAT_SHAPE, "no range for the job is SHAPE");
    check(READS(0x01, 0x80, 0x00) == PEAT_GROUPS, "01 80 00: GROUPS");
    check(READS(0x01, 0x00, 0x00) == PEAT_GROUPS, "job 0: GROUPS");
    check(READS(0x00) == PEAT_KIND && READS(0x04) == PEAT_KIND && READS(0x80) == PEAT_CUT && READS(0x80, 0x00) == PEAT_GROUPS, "a kind");
    check(READS(0x01, 0x80, 0x80, 0x80, 0x80, 0x80, 0x80, 0x80, 0x80, 0x80, 0x02) == PEAT_GROUPS &&
        READS(0x01, 0x80, 0x80, 0x80, 0x80, 0x80, 0x80, 0x80, 0x80, 0x80, 0x80) == PEAT_GROUPS &&
        READS(0x01, 0x80, 0x80, 0x80, 0x80, 0x80, 0x80, 0x80, 0x80, 0x80) == PEAT_CUT, "a tenth byte above 1 is GROUPS at once, before CUT");
    check(READS(0x03, 0x07, 0x09, 0x15, 0x00) == PEAT_SIZE && READS(0x03, 0x07, 0x07, 0x14) == PEAT_SIZE, "a refusal of other than 8 bits");
    check(READS(0x01, 0x01, 0x80, 0x80, 0x01) == PEAT_SIZE && READS(0x01, 0x01, 0xFF, 0x7F) == PEAT_CUT && READS(0x01, 0x01, 0x81, 0x10) == PEAT_CUT,
        "16,384 bits are SIZE before the body is CUT");
}

static struct args content(uint64_t kind, uint64_t job, uint64_t bits, const uint8_t *body, size_t len, size_t out)
{
    struct args a;
    memset(&a, 0, sizeof a);
    a.n[0] = kind, a.n[1] = job, a.n[2] = bits;
    lend(&a, 2, len);
    if (len > 0)
        memcpy(a.msgs.at, body, len);
    lend(&a, 5, out);
    fill(lent[5] - (out < 400 ? 400 : out), out < 400 ? 400 : out);
    return a;
}

/* what is written, and read back from the buffer as the host would */
static int writes(uint64_t kind, uint64_t job, uint64_t bits, const uint8_t *body, size_t len, size_t out, uint64_t *said)
{
    struct args a = content(kind, job, bits, body, len, out);
    uint8_t back[PEAT_JOB_BYTES];
    struct peat_envelope_answer n;
    if (!agrees(WRITE_ENVELOPE, &a, said))
        return 0;
    if (peat_refusal_in(*said) != PEAT_TAKEN)
        return 1;
    n = peat_read_envelope(a.first.at, out, PEAT_ARRAY(back));
    return peat_written_bytes(AS(peat_written_envelope, *said)) <= PEAT_ENVELOPE_MOST && peat_refusal(n) == PEAT_TAKEN && peat_envelope_kind(n) == kind && peat_envelope_bits(n) == bits &&
           peat_job_number(back) == job && peat_envelope_next(n) == peat_written_bytes(AS(peat_written_envelope, *said)) &&
           (bits == 0 || memcmp(a.first.at + peat_envelope_body(n), body, (size_t)(bits + 7) / 8) == 0);
}

void written_envelopes(void)
{
    enum { LEAST = PEAT_BUFFER_LEAST };
    static const size_t rooms[] = {0, 1, PEAT_ENVELOPE_MOST, PEAT_BUFFER_LEAST - 1, PEAT_BUFFER_LEAST, PEAT_BUFFER_LEAST + 1, 2400};
    static uint8_t body[2100];
    uint64_t said, kind, bits;
    unsigned i, j;
    int room = 1, kinds = 1, jobs_ok = 1, counts = 1, pads = 1, holds = 1;
    for (i = 0; i < 7; i++) { /* ROOM comes before SHAPE */
        room &= writes(1, 1, 0, NULL, 0, rooms[i], &said) && (said == PEAT_ROOM) == (rooms[i] < PEAT_BUFFER_LEAST);
        room &= writes(0, 0, 99999, NULL, 0, rooms[i], &said) && said == (rooms[i] < PEAT_BUFFER_LEAST ? PEAT_ROOM : PEAT_SHAPE);
    }
    for (kind = 0; kind < 600; kind++)
        kinds &= writes(kind, 5, 8, body, 1, LEAST, &said) && (said == PEAT_SHAPE) == (kind < 1 || kind > 3);
    for (i = 2; i < 64; i++) /* a kind that is 1 in its low bits */
        kinds &= writes(((uint64_t)1 << i) + 1, 5, 8, body, 1, LEAST, &said) && said == PEAT_SHAPE;
    for (i = 0; i < 64; i++)
        for (j = 0; j < 3; j++) {
            uint64_t job = ((uint64_t)1 << i) - 1 + j;
            jobs_ok &= writes(1 + i % 2, job, 9, body, 2, LEAST, &said) && (said == PEAT_SHAPE) == (job == 0);
        }
    jobs_ok &= writes(2, UINT64_MAX, PEAT_MESSAGE_MOST, body, 2048, LEAST, &said) && peat_written_bytes(AS(peat_written_envelope, said)) == PEAT_ENVELOPE_MOST;
    for (bits = 0; bits <= PEAT_MESSAGE_MOST + 12; bits += bits < 2060 || bits > 16300 ? 1 : 61) {
        unsigned len = (unsigned)(bits + 7) / 8;
        memset(body, 0xFF, sizeof body);
        if (bits % 8)
            body[bits / 8] = (uint8_t)(0xFF00 >> bits % 8);
        for (kind = 1; kind <= 3; kind++)
            counts &= writes(kind, 77, bits, body, len, LEAST, &said) && (said == PEAT_SHAPE) == (bits > PEAT_MESSAGE_MOST || (kind == 3 && bits != 8));
        if (len > 0)
            holds &= writes(1, 77, bits, body, len - 1, LEAST, &said) && said == PEAT_SHAPE;
        holds &= writes(2, 77, bits, body, len + 2, LEAST, &said) && (said == PEAT_SHAPE) == (bits > PEAT_MESSAGE_MOST);
        for (i = (unsigned)bits; i < 8 * len; i++) {
            uint8_t was = body[i / 8];
            body[i / 8] |= (uint8_t)(1u << (7 - i % 8));
            pads &= writes(1, 77, bits, body, len, LEAST, &said) && said == PEAT_SHAPE;
            body[i / 8] = was;
        }
    }
    for (i = 13; i < 64; i++)
        counts &= writes(1, 77, (uint64_t)1 << i, body, i == 13 ? 1024 : 2100, LEAST, &said) && (said == PEAT_SHAPE) == (i != 13);
    check(room, "an envelope into 0, 1, 2,061, 2,111 and 2,112 bytes");
    check(kinds, "an envelope of each kind");
    check(jobs_ok, "an envelope of each length of a job");
    check(counts, "an envelope of each bit count, or nearly");
    check(holds, "an envelope of more bits than its bytes hold");
    check(pads, "an envelope with a padding bit");
}
