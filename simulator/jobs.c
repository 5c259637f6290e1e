#include "jobs.h"

#include <string.h>

#include "account.h"
#include "chance.h"
#include "end.h"
#include "faults.h"
#include "envelopes.h"
#include "moves.h"
#include "notices.h"
#include "power.h"
#include "recording.h"
#include "story.h"

#define ASTRAY 251         /* one envelope in so many comes once more with a wrong number */
#define FAR_AHEAD 1000000

static void acknowledge(struct end *e, uint64_t job)
{
    power_point(e);
    broker_acknowledge(&e->broker, job);
    moves_acknowledges(e, job);
}

/* ---- a job and the card */

/* the number that is set in a job's message: of a controller's from the book, of a flight deck's the one that it replies to */
static unsigned number_for(const struct end *e, uint64_t job)
{
    if (is_air(e))
        return reply_next(&e->user.replies);
    return fault(NUMBERS_ITSELF) ? (unsigned)(job % PEAT_BOOK_NUMBERS) : book_next(e->memory.book, job);
}

static struct peat_answer request(struct end *e, uint64_t job, unsigned number, const uint8_t *body, unsigned bits)
{
    static struct clearance c; /* one call at a time */
    uint8_t check[4] = {0};
    struct peat_data data = {.message = c.bit};
    unsigned i;
    must(clearance_read(&c, e->user.side, body, bits) ? PEAT_TAKEN : PEAT_SHAPE);
    if (is_air(e) || number != NO_NUMBER)
        clearance_set_number(&c, e->user.side, number);
    for (i = 0; i < (c.bits + 7) / 8; i++)
        check[i % 4] ^= c.bit[i];
    if (!is_plain(e))
        data.check = check, data.check_len = sizeof check, data.check_bits = 8 * sizeof check;
    recording_asked(c.bit, c.bits);
    moves_asked(e, c.bit, c.bits);
    data.message_len = (c.bits + 7) / 8;
    data.message_bits = c.bits - (unsigned)fault(DROPS_A_BIT);
    return peat_message_request(REC(e), job, PEAT_DATA(data), BUFFERS);
}

/* A job that was taken before comes again. The card says REPEAT, or outside a dialogue PROHIBITED, which it says of a new
   job too: that this one was decided stands in the memory. It is acknowledged, and nobody is told anything: what became of
   it is told once, when it is known. */
static void again(struct end *e, uint64_t job, unsigned refusal)
{
    if (refusal == PEAT_REPEAT)
        account.repeat++;
    else if (refusal == PEAT_PROHIBITED)
        account.known++;
    else
        must(refusal);
    story_again(e, job, refusal);
}

/* All numbers are open, so a new job has none and waits. Outside a dialogue it does not: the card refuses it whatever its
   number, and the book is that of the dialogue before. */
static int waits_for_number(const struct end *e, int known, unsigned number)
{
    return !is_air(e) && !idle(e) && !known && number == NO_NUMBER;
}

/* the card's word on a job, and the decision; 0 where there is none yet */
static int ask(struct end *e, uint64_t job, const uint8_t *body, unsigned bits)
{
    int known = job < e->memory.wanted;
    unsigned number = number_for(e, job), refusal;
    struct peat_answer answer;
    if (waits_for_number(e, known, number)) {
        book_watch_all_open(&e->watch.numbers);
        return 0;
    }
    answer = request(e, job, number, body, bits);
    refusal = peat_refusal(answer);
    if (refusal == PEAT_TAKEN)
        end_takes(e, job, number, answer);
    else if (known && !(fault(TELLS_PROHIBITED) && refusal == PEAT_PROHIBITED))
        again(e, job, refusal);
    else if (refusal == PEAT_PROHIBITED)
        end_refuses(e, job, refusal);
    else
        must(refusal);
    return 1;
}

/* The decision on a job, and its acknowledgement. A job that was refused is not put to the card again: its user was told,
   and may have given the clearance under another number. */
static void decide(struct end *e, uint64_t job, const uint8_t *body, unsigned bits)
{
    if (e->memory.open == OPEN_MOST || e->memory.posts > 0)
        return; /* it stays with the broker until there is room */
    if (fault(ACKNOWLEDGES_EARLY))
        acknowledge(e, job);
    if (memory_refused(&e->memory, job) && !fault(FORGETS_REFUSALS))
        account.refused_again++;
    else if (!ask(e, job, body, bits))
        return; /* it stays with the broker until a number is free */
    if (!fault(ACKNOWLEDGES_EARLY))
        acknowledge(e, job);
}

/* ---- the order of jobs */

/* A job that comes before its turn is held back, and not acknowledged. A number far ahead is left with the broker: taken,
   it would make every job below it a REPEAT. */
static void hold(struct end *e, const struct envelope *l)
{
    struct held *h = &e->held[l->job % HELD_MOST];
    if (l->job - e->memory.wanted >= HELD_MOST) {
        account.far_ahead += !broker_knows(&e->broker, l->job);
        return;
    }
    account.held++;
    h->job = l->job;
    h->bits = l->bits;
    memcpy(h->body, l->body, (l->bits + 7) / 8);
}

/* the held jobs whose turn has come */
static void decide_held(struct end *e)
{
    struct held *h;
    while ((h = &e->held[e->memory.wanted % HELD_MOST])->job == e->memory.wanted && line_has_room(&e->out, 8)) {
        uint64_t wanted = e->memory.wanted;
        decide(e, h->job, h->body, h->bits);
        if (e->memory.wanted == wanted)
            return; /* it could not be decided now */
    }
}

/* a host that is wrong, see faults.h */
static int out_of_turn(const struct end *e, uint64_t job)
{
    return fault(WITHOUT_ORDER) ? broker_knows(&e->broker, job) : fault(TAKES_FAR_AHEAD) && job - e->memory.wanted >= HELD_MOST;
}

static void take(struct end *e, const struct envelope *l)
{
    if (l->job > e->memory.wanted && !out_of_turn(e, l->job))
        hold(e, l);
    else
        decide(e, l->job, l->body, l->bits);
    decide_held(e);
}

/* ---- the mail */

static void hand_out(struct end *e, struct outbox_bytes *m)
{
    uint64_t job = broker_hands_out(&e->broker);
    struct clearance c;
    if (job == 0)
        return;
    account.offered++;
    account.out_of_order += broker_job(&e->broker, job)->deliveries == 1 && job > e->memory.wanted;
    clearance_compose(&c, e->user.side, broker_job(&e->broker, job)->clearance);
    must(c.bits == 0 ? PEAT_SHAPE : PEAT_TAKEN);
    outbox_post(m, PEAT_ENVELOPE_TO_SEND, job, c.bits, c.bit);
    if (account.offered % ASTRAY == 0) /* an envelope whose number went wrong on its way */
        outbox_post(m, PEAT_ENVELOPE_TO_SEND, job + FAR_AHEAD, c.bits, c.bit);
}

void jobs_offer(struct end *e)
{
    struct outbox_bytes m = {0};
    struct envelope l;
    struct arrival a = {0};
    if (!line_has_room(&e->out, 8)) /* leaves room for what must be sent later */
        return;
    notices_post(e);
    user_gives(&e->user, &e->broker);
    hand_out(e, &m);
    if (chance(3) == 0)
        hand_out(e, &m);
    while (outbox_next(&m, &a, &l)) {
        if (l.kind == PEAT_ENVELOPE_TO_SEND)
            take(e, &l);
        else
            must(PEAT_KIND);
    }
}
