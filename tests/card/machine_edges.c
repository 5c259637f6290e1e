/*
 * Edges of the machine's calls: ranges of no bytes, short buffers, codes of no type; and the start, for every record.
 */
#include <stdio.h>
#include <string.h>

#include "card.h"

static void set_record(struct args *a, unsigned side, unsigned state)
{
    memset(a, 0, sizeof *a);
    lend(a, 0, PEAT_RECORD_BYTES);
    memset(a->rec.at, 0, PEAT_RECORD_BYTES);
    a->rec.at[0] = (uint8_t)side;
    a->rec.at[1] = (uint8_t)state;
    a->rec.at[PEAT_RECORD_VERSION] = 1;
}

void set_codes(struct args *a, enum which w)
{
    static const uint64_t heading[] = {PEAT_CLASS_A, PEAT_NO_SECURITY, 2026, 11, 15, 12, 30, 59, 2, 77, 5, PEAT_FORWARD_DOWNLINK};
    a->n[0] = 1;
    if (w == FORWARD_REQUEST)
        memcpy(a->n, heading, sizeof heading);
    if (w == FRESH)
        a->n[3] = 1, a->n[4] = PEAT_PROTECTED;
}

/* a number that many above the record's: is it stale for the call */
static int is_stale(enum which w, int above)
{
    if (w == START_REQUEST || w == FORWARD_REQUEST || w == D_START_INDICATION)
        return above <= 0;
    return w > D_START_INDICATION && w <= D_P_ABORT_INDICATION && above != 0;
}

void edges(void)
{
    static const size_t lengths[] = {0, 1, PEAT_BUFFER_LEAST - 1, PEAT_BUFFER_LEAST};
    uint64_t said;
    int w, i, j, k;
    for (w = 0; w <= FRESH; w++) {
        int buffers = 1, nothing = 1, record = 1, codes = 1, numbers = 1;
        uint64_t first = is_stale((enum which)w, 0); /* a number that is not stale for a record that holds 0 */
        struct args a;
        for (i = 0; i < 4; i++) /* both buffers, of each length; all that is read has no bytes; each side and state */
            for (j = 0; j < 4; j++)
                for (k = 0; k < 48; k++) {
                    set_record(&a, 1 + (unsigned)k % 4, (unsigned)k / 4 % 6);
                    lend(&a, 5, lengths[i]);
                    lend(&a, 6, lengths[j]);
                    set_codes(&a, (enum which)w);
                    a.number = first;
                    a.message = k < 24 ? NONE : 0;
                    a.given = k < 24 ? 0 : 1;
                    buffers &= agrees((enum which)w, &a, &said) && (w == FRESH || (said == 1) == (i < 3 || j < 3));
                }
        for (k = 0; k < 2; k++) { /* all ranges of no bytes, the null pointer; then buffers alone */
            memset(&a, 0, sizeof a);
            lend(&a, 5, k ? PEAT_BUFFER_LEAST : 0);
            lend(&a, 6, k ? PEAT_BUFFER_LEAST : 0);
            a.n[0] = 1;
            nothing &= agrees((enum which)w, &a, &said) && said == (k || w == FRESH ? 2 : 1);
        }
        for (i = 0; i <= 40; i++) { /* a record of each length */
            set_record(&a, 1, PEAT_DIALOGUE);
            lend(&a, 0, (size_t)i);
            lend(&a, 5, PEAT_BUFFER_LEAST);
            lend(&a, 6, PEAT_BUFFER_LEAST);
            set_codes(&a, (enum which)w);
            a.number = first;
            record &= agrees((enum which)w, &a, &said) && (i == PEAT_RECORD_BYTES || said == 2);
        }
        for (i = 0; i < 12; i++) /* each code, of no type */
            for (j = 0; j < 64; j++) {
                set_record(&a, 1 + (unsigned)(w == FORWARD_REQUEST), w == FORWARD_REQUEST ? PEAT_IDLE : PEAT_DIALOGUE);
                lend(&a, 5, PEAT_BUFFER_LEAST);
                lend(&a, 6, PEAT_BUFFER_LEAST);
                a.message = w == FORWARD_REQUEST ? 0 : NONE;
                set_codes(&a, (enum which)w);
                a.number = first;
                a.n[i] = (uint64_t)1 << j;
                codes &= agrees((enum which)w, &a, &said);
            }
        for (i = -1; i <= 1; i++) /* a number below the record's, the same, and above it */
            for (j = 0; j < 64; j++) {
                set_record(&a, 1, PEAT_DIALOGUE);
                a.rec.at[PEAT_RECORD_NUMBER + 7 - j / 8] = (uint8_t)(1u << j % 8);
                a.number = ((uint64_t)1 << j) + (uint64_t)(int64_t)i;
                lend(&a, 5, PEAT_BUFFER_LEAST);
                lend(&a, 6, PEAT_BUFFER_LEAST);
                a.message = w == FORWARD_REQUEST ? 0 : NONE;
                set_codes(&a, (enum which)w);
                numbers &= agrees((enum which)w, &a, &said) && (peat_refusal_in(said) == PEAT_STALE) == is_stale((enum which)w, i);
            }
        check(buffers, "buffers of 0, 1, 2,111 and 2,112 bytes");
        check(nothing, "ranges of no bytes");
        check(record, "a record of another length");
        check(codes, "codes of no type");
        check(numbers, "a dialogue number below the record's, the same, and above it");
    }
}

/* ---- the start: every record that the bytes can say, and others, with each mode and codes that are none, and with what else is refused */

int numbered_record(struct args *a, unsigned n)
{
    int i;
    set_record(a, n % 6, n / 6 % 7);
    for (i = 2; i < 7; i++)
        a->rec.at[i] = (uint8_t)(n / 42 >> (i - 2) & 1);
    return a->rec.at[0] != 0 && a->rec.at[0] != 5 && a->rec.at[1] != 6;
}

/* A start with that record; a number below 432 says what else it is given, from 216 on a stale number. Answers what it must be answered. */
static unsigned numbered_start(struct args *a, unsigned n, unsigned v)
{
    static const uint64_t modes[] = {PEAT_CPDLC, PEAT_DSC, 2, 256, (uint64_t)1 << 63, NONE}, bits[] = {NONE, 8, 9};
    int record = numbered_record(a, n), mode, old = v >= 216;
    a->number = !old;
    v %= 216;
    a->n[0] = modes[v % 6];
    a->n[1] = PEAT_CLASS_H + v / 6 % 2;
    a->n[2] = PEAT_SECURED_EXCHANGE + v / 12 % 2;
    lend(a, 2, 1);
    a->message = bits[v / 24 % 3]; /* none, one of all the lent bits, one of more */
    lend(a, 5, PEAT_BUFFER_LEAST - (v / 72 == 1));
    lend(a, 6, PEAT_BUFFER_LEAST - (v / 72 == 2));
    mode = a->n[0] == PEAT_CPDLC || (a->n[0] == PEAT_DSC && a->rec.at[0] % 2 == 1);
    if (v / 72 != 0)
        return PEAT_ROOM;
    if (!record || !mode || v / 6 % 4 != 0 || a->message == 9 || (is_plain(a) && a->message == 8)) /* of type 2 eight bits are no message */
        return PEAT_SHAPE;
    if (old)
        return PEAT_STALE;
    return a->rec.at[1] == PEAT_IDLE ? PEAT_TAKEN : PEAT_PROHIBITED;
}

void start_everywhere(void)
{
    unsigned long calls = 0, taken[2] = {0, 0};
    unsigned n, v;
    int right = 1;
    for (n = 0; n < RECORDS; n++)
        for (v = 0; v < 432; v++, calls++) {
            struct args a;
            uint64_t said;
            unsigned want = numbered_start(&a, n, v);
            right &= agrees(START_REQUEST, &a, &said) && peat_refusal_in(said) == want;
            if (want == PEAT_TAKEN)
                taken[a.n[0]]++;
        }
    printf("%lu starts over every record: %lu taken in mode cpdlc, %lu in mode dsc\n", calls, taken[PEAT_CPDLC], taken[PEAT_DSC]);
    check(right && taken[PEAT_DSC] > 0 && taken[PEAT_CPDLC] == 2 * taken[PEAT_DSC], "a start is as the model has it, in each mode, for every record");
}
