/*
 * The lent ranges: seven places, each before an unreadable page, and a copy of each for the model. Chance, and what is counted.
 */
#define _DEFAULT_SOURCE
#include <stdio.h>
#include <string.h>

#include "../lib/guard.h"
#include "calls.h"
#include "card.h"

unsigned long passed, failed;

int check(int right, const char *name)
{
    if (right) {
        passed++;
    } else {
        failed++;
        printf("card: %s\n", name);
    }
    return right;
}

/* ---- chance: a fixed seed, so that each run makes the same calls */

static uint64_t chance_state = 20260101;

uint64_t any(void)
{
    uint64_t z = chance_state += UINT64_C(0x9E3779B97F4A7C15);
    z = (z ^ z >> 30) * UINT64_C(0xBF58476D1CE4E5B9);
    z = (z ^ z >> 27) * UINT64_C(0x94D049BB133111EB);
    return z ^ z >> 31;
}

unsigned below(unsigned n) { return (unsigned)(any() % n); }
int once_in(unsigned n) { return below(n) == 0; }

void fill(uint8_t *at, size_t len)
{
    size_t i;
    for (i = 0; i < len; i++)
        at[i] = (uint8_t)any();
}

/* ---- lent ranges */

#define BESIDE 32u /* bytes before a range that are compared with their copy */

uint8_t *lent[PLACES];
static uint8_t copies[PLACES][PLACE]; /* the model's, used from the end likewise */

void make_places(void)
{
    int i;
    for (i = 0; i < PLACES; i++) {
        lent[i] = guarded_end(PLACE);
        fill(lent[i] - PLACE, PLACE);
    }
}

static struct range *range_of(struct args *a, int i)
{
    struct range *all[PLACES] = {&a->rec, &a->ids, &a->msgs, &a->checks, &a->bytes, &a->first, &a->second};
    return all[i];
}

void lend(struct args *a, int i, size_t len)
{
    range_of(a, i)->at = lent[i] - len;
    range_of(a, i)->len = len;
    if (len == 0 && (any() & 1))
        range_of(a, i)->at = NULL;
}

/* the same call on the copies, which are as the lent bytes */
static struct args copied(struct args *a)
{
    struct args m = *a;
    int i;
    for (i = 0; i < PLACES; i++) {
        size_t len = range_of(a, i)->len;
        memcpy(&copies[i][PLACE - len - BESIDE], lent[i] - len - BESIDE, len + BESIDE);
        range_of(&m, i)->at = &copies[i][PLACE - len];
    }
    return m;
}

static int as_copied(struct args *a)
{
    int i;
    for (i = 0; i < PLACES; i++) {
        size_t len = range_of(a, i)->len;
        if (memcmp(&copies[i][PLACE - len - BESIDE], lent[i] - len - BESIDE, len + BESIDE) != 0)
            return 0;
    }
    return 1;
}

int can_refuse(enum which w, unsigned x)
{
    if (w == READ_ENVELOPE)
        return x == PEAT_SHAPE || (x >= PEAT_CUT && x <= PEAT_SIZE);
    if (w == WRITE_ENVELOPE || w == WRITE_MESSAGE)
        return x == PEAT_ROOM || x == PEAT_SHAPE;
    if (w == DATA_PART)
        return x == PEAT_ROOM || x == PEAT_SHAPE || x == PEAT_SHORT || (x >= PEAT_EXTENSION && x <= PEAT_TAIL);
    if (w == FORWARD_PART || w == READ_FORWARD)
        return x == PEAT_ROOM || x == PEAT_SHAPE || (x >= PEAT_SHORT && x <= PEAT_LENGTH_FORM) || x == PEAT_TAIL || x == PEAT_NOT_CARRIED;
    if (w == READ_APDU)
        return x == PEAT_SHAPE || (x >= PEAT_SHORT && x <= PEAT_DEFAULT);
    if (w == READ_MESSAGE)
        return x == PEAT_ROOM || x == PEAT_SHAPE || (x >= PEAT_SHORT && x <= PEAT_EXTENSION) || (x >= PEAT_TAIL && x <= PEAT_DEFAULT);
    return x == PEAT_SHAPE || (x == PEAT_ROOM && w != FRESH) || (x == PEAT_PROHIBITED && w <= TIMER_EXPIRY) ||
           (x == PEAT_STALE && (w == START_REQUEST || w == FORWARD_REQUEST || (w >= D_START_INDICATION && w <= D_P_ABORT_INDICATION))) ||
           ((x == PEAT_NO_MESSAGE || x == PEAT_REPEAT) && w == MESSAGE_REQUEST);
}

/* the position in a refusal: of a call that reads bits, at most the bits that it was lent; of any other, and of ROOM and SHAPE, 0 */
static int position_fits(enum which w, const struct args *a, uint64_t said)
{
    size_t bits = w == READ_MESSAGE ? (size_t)a->n[1] : w == DATA_PART || w == FORWARD_PART || w == READ_FORWARD || w == READ_APDU ? 8 * a->bytes.len : 0;
    return peat_position_in(said) <= (peat_refusal_in(said) < PEAT_SHORT ? 0 : bits);
}

int agrees(enum which w, struct args *a, uint64_t *said)
{
    struct args m = copied(a);
    uint64_t want;
    *said = card_call(w, a);
    if (peat_refusal_in(*said) != PEAT_TAKEN && (!position_fits(w, a, *said) || !can_refuse(w, peat_refusal_in(*said)) || !as_copied(a)))
        return 0;
    want = model_call(w, &m);
    return *said == want && as_copied(a);
}
