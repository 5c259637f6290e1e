/*
 * Hands envelopes to the card in fragments and compares each answer and every byte of the record with the model (model.h),
 * which reads byte by byte; and the envelopes with those that the card's own reader of whole strings gives.
 *
 *     fragments STRINGS     random strings; the last line is `N passed, M failed`
 *
 * Strings of a few bytes are cut in every way there is. Each lent range ends where an unreadable page begins, and the bytes before
 * it are compared too. Built with FAULT, a reader with a fault stands before the card's, and the program must fail.
 */
#define _DEFAULT_SOURCE
#include <stdio.h>
#include <stdlib.h>
#include <string.h>

#define CHANCE_SEED 20260404
#include "../lib/chance.h"
#include "../lib/guard.h"
#include "model.h"

#ifndef FAULT
#define FAULT 0
#endif

static unsigned long passed, failed;

static int check(int right, const char *name)
{
    if (right) {
        passed++;
    } else if (failed++ < 20) {
        printf("fragments: %s\n", name);
    }
    return right;
}

/* ---- lent ranges: each ends before an unreadable page; the bytes before it are known */

#define ROOM 65536u
#define BESIDE 32u

static uint8_t *record_end, *fragment_end;

static uint8_t *place_end(void)
{
    uint8_t *end = guarded_end(ROOM);
    memset(end - ROOM, 0xC3, ROOM);
    return end;
}

static int beside(const uint8_t *at)
{
    unsigned i;
    for (i = 1; i <= BESIDE; i++)
        if (at[-(int)i] != 0xC3)
            return 0;
    return 1;
}

/* ---- the card's calls, or with a fault */

static uint8_t *mail; /* the record that is lent */
static uint8_t *job;  /* and the range for a job */

static uint64_t faulty(struct peat_envelope_answer answer, size_t n)
{
    (void)n;
#if FAULT == 1 /* bytes are left behind what is held */
    if (peat_refusal(answer) == 0 && peat_mail_held(mail) < PEAT_ENVELOPE_MOST && mail[PEAT_MAIL_STATE] == 0 && peat_mail_held(mail) > 3)
        mail[PEAT_MAIL_BYTES - 1] = 1;
#elif FAULT == 2 /* CUT at the end of a fragment */
    if (peat_refusal(answer) == 0 && peat_envelope_kind(answer) == 0 && n > 0)
        return PEAT_CUT;
#elif FAULT == 3 /* a refusal is forgotten */
    if (peat_refusal(answer) >= PEAT_GROUPS)
        peat_mail_fresh(mail, PEAT_MAIL_BYTES);
#elif FAULT == 4 /* the place is counted in the fragment */
    if (mail[PEAT_MAIL_PLACE + 7] > 200)
        mail[PEAT_MAIL_PLACE + 7] = 0;
#elif FAULT == 5 /* a byte is counted twice */
    if (peat_envelope_kind(answer) != 0 && peat_mail_taken(answer) > 200)
        return answer.word - ((uint64_t)1 << PEAT_ENVELOPE_NEXT_AT);
#elif FAULT == 6 /* the record is cleared by a fragment of no bytes */
    if (n == 0 && mail[PEAT_MAIL_STATE] == 1)
        peat_mail_fresh(mail, PEAT_MAIL_BYTES);
#elif FAULT == 7 /* a job where no envelope is finished */
    if (peat_envelope_kind(answer) == 0)
        memset(job, 0, PEAT_JOB_BYTES);
#elif FAULT == 8 /* a job in steps of seven bits */
    if (peat_envelope_kind(answer) != 0 && job[PEAT_JOB_BYTES - 2] != 0)
        job[PEAT_JOB_BYTES - 1] |= 0x80;
#endif
    return answer.word;
}

static uint64_t take(const uint8_t *bytes, size_t n)
{
    uint8_t *at = fragment_end - n;
    uint64_t answer;
    memcpy(at, bytes, n);
    answer = faulty(peat_mail_take(mail, PEAT_MAIL_BYTES, n == 0 && (any() & 1) ? NULL : at, n, job, PEAT_JOB_BYTES), n);
    if (memcmp(at, bytes, n) != 0 || !beside(mail) || !beside(job))
        check(0, "a byte was written beside the record");
    memset(at, 0xC3, n);
    return answer;
}

static void begin(struct model *m)
{
    model_fresh(m);
    if (peat_refusal(peat_mail_fresh(mail, PEAT_MAIL_BYTES)) != 0)
        check(0, "a fresh record is refused");
}

static int as_model(const struct model *m)
{
    uint8_t want[PEAT_MAIL_BYTES];
    model_record(m, want);
    return memcmp(mail, want, sizeof want) == 0;
}

/* the envelopes of a run, so that two runs can be compared: a sum over all that was handed out */
struct run {
    uint64_t sum;
    unsigned long envelopes;
    unsigned refusal;
    uint8_t mail[PEAT_MAIL_BYTES];
};

static void add(uint64_t *sum, uint64_t x) { *sum = (*sum ^ x) * UINT64_C(0x100000001B3) + (*sum >> 29); }

/* One fragment: the host's loop, each call beside the model. */
static int hand_over(struct model *m, const uint8_t *bytes, size_t n, struct run *r)
{
    size_t at = 0;
    int once = 1;
    while (once || (at < n && m->refusal == 0)) {
        size_t i = 0;
        enum event e = m->refusal != 0 ? REFUSED : MORE;
        uint8_t want[PEAT_JOB_BYTES];
        struct peat_envelope_answer answer;
        memcpy(want, job, sizeof want);
        answer = AS(peat_envelope_answer, take(bytes + at, n - at));
        while (e == MORE && at + i < n)
            e = model_feed(m, bytes[at + i++]);
        once = 0;
        if (!as_model(m))
            return check(0, "the record is another");
        if (e == FINISHED)
            model_job(m, want);
        if (memcmp(job, want, sizeof want) != 0)
            return check(0, "another job is left");
        if (e == REFUSED) {
            r->refusal = m->refusal;
            return answer.word == m->refusal || check(0, "another refusal");
        }
        if (peat_refusal(answer) != 0 || peat_mail_taken(answer) != i)
            return check(0, "other bytes were taken");
        if (e != FINISHED) {
            if (answer.word >> PEAT_REFUSAL_BITS << (64 - (PEAT_ENVELOPE_NEXT_AT - PEAT_REFUSAL_BITS)) != 0 || at + i != n)
                return check(0, "an envelope is finished too early");
        } else {
            unsigned k;
            if (peat_envelope_kind(answer) != m->kind || peat_envelope_bits(answer) != m->bits || peat_job_number(job) != m->job ||
                peat_envelope_body(answer) != PEAT_MAIL_HEAD + m->body)
                return check(0, "another envelope");
            add(&r->sum, m->kind), add(&r->sum, m->job), add(&r->sum, m->bits);
            for (k = 0; k < (m->bits + 7) / 8; k++)
                add(&r->sum, peat_mail_body(mail, answer)[k]);
            r->envelopes++;
        }
        at += i;
    }
    return 1;
}

/* after a refusal: the same answer to everything, and no byte changes */
static int stays_refused(const struct model *m)
{
    static const uint8_t more[] = {1, 1, 0, 4, 0xFF};
    return take(more, sizeof more) == m->refusal && take(more, 0) == m->refusal && peat_refusal(peat_mail_end(mail, PEAT_MAIL_BYTES)) == m->refusal &&
           take(more, 1) == m->refusal && as_model(m);
}

/* the end, twice: CUT where an envelope is unfinished, and then that; else nothing */
static int ends(struct model *m, struct run *r)
{
    int i;
    for (i = 0; i < 2; i++) {
        enum event e = model_end(m);
        uint64_t answer = WORD(peat_mail_end(mail, PEAT_MAIL_BYTES));
        if (answer != (e == REFUSED ? m->refusal : 0) || !as_model(m))
            return check(0, "the end is another");
    }
    r->refusal = m->refusal;
    return m->refusal == 0 || check(stays_refused(m), "a refusal does not stay");
}

/* a string, cut behind the bytes whose bit is set (a byte's bit is its place in `cuts`, round and round), with fragments of no bytes
   among them where `empty` */
static struct run cut_up(const uint8_t *s, size_t n, const uint8_t *cuts, size_t cut_bytes, int empty)
{
    struct model m;
    struct run r;
    size_t from = 0, i;
    int right = 1;
    memset(&r, 0, sizeof r);
    begin(&m);
    for (i = 0; i < n && right; i++)
        if (i + 1 == n || (cuts[i / 8 % cut_bytes] >> (i % 8) & 1)) {
            if (empty && right)
                right = hand_over(&m, s, 0, &r);
            right = right && hand_over(&m, s + from, i + 1 - from, &r);
            from = i + 1;
        }
    if (right && empty)
        right = hand_over(&m, s, 0, &r);
    memcpy(r.mail, mail, sizeof r.mail);
    if (right)
        right = ends(&m, &r);
    if (right)
        passed++;
    return r;
}

static int same_run(const struct run *a, const struct run *b)
{
    return a->sum == b->sum && a->envelopes == b->envelopes && a->refusal == b->refusal && memcmp(a->mail, b->mail, sizeof a->mail) == 0;
}

/* ---- the reader of whole strings, over a string that is not refused before its end */

static struct run read_whole(const uint8_t *s, size_t n)
{
    struct run r;
    size_t at = 0;
    memset(&r, 0, sizeof r);
    while (at < n) {
        uint8_t job[PEAT_JOB_BYTES];
        struct peat_envelope_answer answer = peat_read_envelope(s + at, n - at, PEAT_ARRAY(job));
        unsigned k;
        r.refusal = peat_refusal(answer);
        if (r.refusal != 0)
            break;
        add(&r.sum, peat_envelope_kind(answer)), add(&r.sum, peat_job_number(job)), add(&r.sum, peat_envelope_bits(answer));
        for (k = 0; k < (peat_envelope_bits(answer) + 7) / 8; k++)
            add(&r.sum, s[at + peat_envelope_body(answer) + k]);
        r.envelopes++;
        at += peat_envelope_next(answer);
    }
    return r;
}

/* ---- strings of a few bytes, cut in every way */

static const struct { unsigned n; uint8_t byte[14]; } shorts[] = {
    {0, {0}},
    {1, {0x01}},
    {6, {0x01, 0xAC, 0x02, 0x0A, 0xA5, 0x40}},                                                     /* document 01's */
    {12, {0x01, 0xAC, 0x02, 0x0A, 0xA5, 0x40, 0x01, 0xAC, 0x02, 0x0A, 0xA5, 0x40}},                /* twice */
    {6, {0x02, 0x05, 0x00, 0x03, 0x07, 0x08}},                                                     /* no body; then cut before one */
    {7, {0x02, 0x05, 0x00, 0x03, 0x07, 0x08, 0x15}},
    {9, {0x02, 0x05, 0x00, 0x02, 0x06, 0x00, 0x02, 0x07, 0x00}},                                   /* three of the least */
    {8, {0x01, 0x01, 0x0A, 0xA5, 0x41, 0x01, 0x01, 0x00}},                                         /* a padding bit */
    {4, {0x01, 0x80, 0x00, 0x01}},                                                                 /* GROUPS in the job */
    {5, {0x81, 0x00, 0x01, 0x01, 0x00}},                                                           /* GROUPS in the kind */
    {3, {0x01, 0x00, 0x01}},                                                                       /* job 0 */
    {5, {0x04, 0x01, 0x00, 0x01, 0x01}},                                                           /* KIND */
    {4, {0x80, 0x01, 0x01, 0x01}},                                                                 /* KIND of two groups */
    {5, {0x00, 0x01, 0x01, 0x01, 0x01}},
    {7, {0x01, 0x01, 0x00, 0x04, 0x01, 0x01, 0x01}},                                               /* an envelope, then KIND */
    {7, {0x03, 0x01, 0x08, 0x15, 0x03, 0x01, 0x07}},                                               /* a refusal of 7 bits */
    {6, {0x01, 0x01, 0x81, 0x10, 0x01, 0x01}},                                                     /* 2,049 bits, which are not there */
    {6, {0x01, 0x01, 0xFF, 0x7F, 0x01, 0x01}},                                                     /* the most */
    {7, {0x01, 0x01, 0x80, 0x80, 0x01, 0x01, 0x01}},                                               /* one more: SIZE */
    {12, {0x80, 0x80, 0x80, 0x80, 0x80, 0x80, 0x80, 0x80, 0x80, 0x02, 0x01, 0x01}},                /* a tenth byte above 1 */
    {11, {0x80, 0x80, 0x80, 0x80, 0x80, 0x80, 0x80, 0x80, 0x80, 0x01, 0x01}},                      /* a kind of ten groups */
    {9, {0x80, 0x80, 0x80, 0x80, 0x80, 0x80, 0x80, 0x80, 0x80}},
    {13, {0x01, 0xFF, 0xFF, 0xFF, 0xFF, 0xFF, 0xFF, 0xFF, 0xFF, 0xFF, 0x01, 0x03, 0xE0}},          /* the largest job */
    {13, {0x01, 0xFF, 0xFF, 0xFF, 0xFF, 0xFF, 0xFF, 0xFF, 0xFF, 0xFF, 0x01, 0x03, 0xF0}},          /* and a padding bit */
    {12, {0x01, 0xFF, 0xFF, 0xFF, 0xFF, 0xFF, 0xFF, 0xFF, 0xFF, 0xFF, 0x02, 0x03}},                /* a job above it */
    {12, {0x01, 0x01, 0x80, 0x80, 0x80, 0x80, 0x80, 0x80, 0x80, 0x80, 0x80, 0x01}},                /* a bit count of ten groups */
    {12, {0x01, 0x01, 0x80, 0x80, 0x80, 0x80, 0x80, 0x80, 0x80, 0x80, 0x80, 0x00}},
};

static void every_way(void)
{
    size_t i;
    for (i = 0; i < sizeof shorts / sizeof shorts[0]; i++) {
        unsigned n = shorts[i].n, ways = n > 1 ? 1u << (n - 1) : 1, w;
        uint8_t none[2] = {0, 0};
        struct run whole = cut_up(shorts[i].byte, n, none, 2, 0), read = read_whole(shorts[i].byte, n);
        check(read.sum == whole.sum && read.refusal == whole.refusal, "the reader of whole strings gives something else");
        for (w = 0; w < ways; w++) {
            uint8_t cuts[2];
            struct run r;
            cuts[0] = (uint8_t)w, cuts[1] = (uint8_t)(w >> 8);
            r = cut_up(shorts[i].byte, n, cuts, 2, w % 3 == 0);
            if (!same_run(&r, &whole))
                check(0, "two ways of cutting a short string differ");
        }
    }
}

/* ---- recordings: many envelopes, sound or damaged, cut at random */

#define LONG 30000u
static uint8_t text[LONG];

static size_t put_number(uint8_t *at, uint64_t v)
{
    size_t n = 0;
    for (; v >= 128; v >>= 7)
        at[n++] = (uint8_t)(v | 0x80);
    at[n++] = (uint8_t)v;
    return n;
}

static size_t put_envelope(uint8_t *at)
{
    unsigned kind = 1 + below(3), bits = kind == 3 ? 8 : below(12) == 0 ? PEAT_MESSAGE_MOST - below(16) : below(4) == 0 ? 2048 - below(16) : below(200), i;
    uint64_t job = any() >> below(64);
    size_t n = put_number(at, kind);
    n += put_number(at + n, job ? job : 1);
    n += put_number(at + n, bits);
    for (i = 0; i < (bits + 7) / 8; i++)
        at[n++] = (uint8_t)any();
    if (bits % 8 != 0)
        at[n - 1] &= (uint8_t)(0xFF00u >> bits % 8);
    return n;
}

static size_t recording(size_t most)
{
    size_t n = 0;
    while (n + PEAT_ENVELOPE_MOST <= most)
        n += put_envelope(text + n);
    if (below(2)) /* the last one is cut */
        n -= 1 + below(n < 300 ? (unsigned)n : 200);
    if (below(2) && n > 0) /* a bit is turned over, or some bytes are others */
        text[below((unsigned)n)] ^= (uint8_t)(1u << below(8));
    else if (below(4) == 0 && n > 20)
        text[below((unsigned)n)] = (uint8_t)any();
    return n;
}

static void recordings(unsigned long strings)
{
    static const uint8_t whole_cut[1] = {0}, bytes_cut[1] = {0xFF};
    unsigned long k, sound = 0, refused = 0;
    for (k = 0; k < strings; k++) {
        size_t n = recording(below(8) == 0 ? LONG : PEAT_ENVELOPE_MOST + below(2000));
        uint8_t cuts[64];
        struct run whole = cut_up(text, n, whole_cut, 1, 0), bytes = cut_up(text, n, bytes_cut, 1, k % 5 == 0), some, read = read_whole(text, n);
        unsigned i, rare = 1 + below(6);
        for (i = 0; i < sizeof cuts; i++)
            cuts[i] = below(rare) ? 0 : (uint8_t)(any() & any());
        some = cut_up(text, n, cuts, sizeof cuts, k % 2 == 0);
        check(same_run(&whole, &bytes), "whole and byte by byte differ");
        check(same_run(&whole, &some), "whole and cut at random differ");
        check(read.sum == whole.sum && read.envelopes == whole.envelopes && read.refusal == whole.refusal, "the reader of whole strings gives something else");
        sound += whole.refusal == 0;
        refused += whole.refusal != 0;
    }
    printf("fragments: %lu recordings read to their end, %lu refused\n", sound, refused);
    check(sound > strings / 20 && refused > strings / 20, "too few of a kind");
}

/* ---- ranges that are no record, and the edges */

static int is_shape(size_t len)
{
    uint8_t before[PEAT_MAIL_BYTES + 8];
    static const uint8_t one[] = {1};
    uint8_t *at = record_end - len;
    int right = 1, i;
    memcpy(before, at, len);
    for (i = 0; i < 3; i++) {
        uint64_t answer = i == 0 ? WORD(peat_mail_take(at, len, one, 1, job, PEAT_JOB_BYTES)) :
            i == 1 ? WORD(peat_mail_take(at, len, NULL, 0, job, PEAT_JOB_BYTES)) : WORD(peat_mail_end(at, len));
        right = right && answer == PEAT_SHAPE && memcmp(before, at, len) == 0;
    }
    return right;
}

/* A range for the job of another size: SHAPE, and neither range changes, though the fragment finishes an envelope. */
static void job_sizes(void)
{
    static const uint8_t least[] = {2, 5, 0};
    struct model m;
    size_t len;
    begin(&m);
    for (len = 0; len < 2 * PEAT_JOB_BYTES; len++)
        if (len != PEAT_JOB_BYTES) {
            uint8_t before[2 * PEAT_JOB_BYTES];
            uint8_t *at = job + PEAT_JOB_BYTES - len;
            memset(at, 0x5A, len);
            memcpy(before, at, len);
            check(WORD(peat_mail_take(mail, PEAT_MAIL_BYTES, least, sizeof least, len == 0 ? NULL : at, len)) == PEAT_SHAPE && as_model(&m) &&
                memcmp(before, at, len) == 0, "a range for the job of another size");
            memset(at, 0xC3, len);
        }
}

static void edges(void)
{
    struct model m;
    struct run r;
    size_t len;
    unsigned state, i;
    uint64_t answer;
    static const uint8_t least[] = {2, 5, 0};
    memset(&r, 0, sizeof r);
    for (len = 0; len < PEAT_MAIL_BYTES + 8; len++)
        if (len != PEAT_MAIL_BYTES) {
            uint8_t before[PEAT_MAIL_BYTES + 8];
            uint8_t *at = record_end - len;
            memset(at, 0, len);
            memcpy(before, at, len);
            check(is_shape(len) && WORD(peat_mail_fresh(at, len)) == PEAT_SHAPE && memcmp(before, at, len) == 0, "a range of another size");
        }
    memset(record_end - PEAT_MAIL_BYTES - 2 * BESIDE, 0xC3, 2 * BESIDE); /* what is beside the record is known again */
    for (state = 0; state < 256; state++) {
        begin(&m);
        mail[0] = (uint8_t)state;
        if (state > 1 && (state < PEAT_CUT || state > PEAT_SIZE))
            check(is_shape(PEAT_MAIL_BYTES), "a state that is none");
        else if (state >= PEAT_CUT)
            check(take(least, 3) == state && WORD(peat_mail_end(mail, PEAT_MAIL_BYTES)) == state, "a record of a refusal");
    }
    for (i = PEAT_ENVELOPE_MOST + 1; i < 65536; i += 4093) {
        begin(&m);
        mail[1] = (uint8_t)(i >> 8), mail[2] = (uint8_t)i;
        check(is_shape(PEAT_MAIL_BYTES), "more is held than there is");
    }
    begin(&m); /* held bytes that are refused, and a whole envelope that is marked as unfinished */
    mail[2] = 1, mail[PEAT_MAIL_HEAD] = 4;
    check(is_shape(PEAT_MAIL_BYTES), "held bytes that are refused");
    begin(&m);
    mail[2] = 3, memcpy(mail + PEAT_MAIL_HEAD, least, 3);
    check(is_shape(PEAT_MAIL_BYTES), "a finished envelope that is marked as unfinished");
    /* the place is shown as the largest from there on */
    for (i = 0; i < 7; i++) {
        begin(&m);
        check(hand_over(&m, least, 3, &r), "an envelope");
        memset(mail + PEAT_MAIL_PLACE, 0xFF, 8);
        mail[PEAT_MAIL_PLACE + 7] = (uint8_t)(0xFF - i);
        m.place = UINT64_MAX - i;
        check(hand_over(&m, least, 3, &r) && hand_over(&m, least, 1, &r), "an envelope at the largest place");
        check(peat_mail_place(mail) == UINT64_MAX, "a place above the largest");
    }
    /* a fresh record is one whatever stood there */
    for (i = 0; i < PEAT_MAIL_BYTES; i++)
        mail[i] = (uint8_t)any();
    answer = WORD(peat_mail_fresh(mail, PEAT_MAIL_BYTES));
    model_fresh(&m);
    check(answer == 0 && as_model(&m) && beside(mail), "a fresh record over other bytes");
    job_sizes();
}

/* any bytes as a record: the call ends, a SHAPE changes nothing, and no other refusal comes than those of the header */
static void any_record(unsigned long calls)
{
    unsigned long k;
    int right = 1;
    for (k = 0; k < calls && right; k++) {
        uint8_t before[PEAT_MAIL_BYTES], frag[PEAT_ENVELOPE_MOST];
        unsigned i, n = below(64);
        uint64_t answer;
        for (i = 0; i < PEAT_MAIL_BYTES; i++)
            mail[i] = (uint8_t)any();
        for (i = 0; i < n; i++)
            frag[i] = (uint8_t)(below(2) ? any() : below(4));
        mail[0] = (uint8_t)(below(3) ? below(2) : PEAT_CUT + below(5));
        mail[1] = below(4) ? 0 : 1;
        if (below(2)) /* something that begins like an envelope */
            put_envelope(frag), memcpy(mail + PEAT_MAIL_HEAD, frag, below(12));
        memcpy(before, mail, sizeof before);
        answer = k % 3 == 0 ? WORD(peat_mail_end(mail, PEAT_MAIL_BYTES)) : take(frag, n);
        right = beside(mail);
        if (answer == PEAT_SHAPE)
            right = right && memcmp(before, mail, sizeof before) == 0;
        else if (peat_refusal_in(answer) != 0)
            right = right && answer >= PEAT_CUT && answer <= PEAT_SIZE && mail[0] == answer;
        else
            right = right && peat_mail_taken(AS(peat_envelope_answer, answer)) <= n;
    }
    check(right, "bytes that are no record");
}

int main(int argc, char **argv)
{
    unsigned long strings = argc > 1 ? strtoul(argv[1], NULL, 10) : 300;
    record_end = place_end();
    fragment_end = place_end();
    mail = record_end - PEAT_MAIL_BYTES;
    job = place_end() - PEAT_JOB_BYTES;
    every_way();
    recordings(strings);
    if (FAULT == 0) {
        edges();
        any_record(20000);
    }
    printf("%lu passed, %lu failed\n", passed, failed);
    return failed != 0;
}
