/*
 * What a broker hands over, in memory: envelopes, one behind the other in a range of bytes, written with the card's call. They are read as
 * a socket hands them over: in fragments that begin and end anywhere.
 */
#ifndef ENVELOPES_H
#define ENVELOPES_H

#include "account.h"
#include "chance.h"
#include "peatribbon.h"

struct outbox_bytes {
    size_t bytes;
    uint8_t byte[4 * PEAT_BUFFER_LEAST]; /* the writer asks for PEAT_BUFFER_LEAST bytes of room for each */
};

/* an envelope that was read; its body is in the arrival's record, until the next one is read */
struct envelope {
    unsigned kind; /* enum peat_envelope */
    uint64_t job;
    unsigned bits;
    const uint8_t *body;
};

/* puts an envelope behind those that are there */
static inline void outbox_post(struct outbox_bytes *o, unsigned kind, uint64_t job, unsigned bits, const uint8_t *body)
{
    struct peat_written_envelope answer = peat_write_envelope(kind, job, bits, body, (bits + 7u) / 8u, o->byte + o->bytes, sizeof o->byte - o->bytes);
    account.written++;
    must(peat_refusal(answer));
    o->bytes += peat_written_bytes(answer);
}

/* Envelopes on their way: the reader's record, and how far the bytes are taken and handed over. All zero at first. */
struct arrival {
    int begun;
    uint8_t rec[PEAT_MAIL_BYTES];
    size_t at, end;
};

/* The size of the next fragment: often one byte, now and then none. */
static inline size_t outbox_fragment(void)
{
    uint64_t z = scattered(account.fragments++);
    return (size_t)(z >> 60 < 6 ? 1 : (z >> 32) % 60);
}

/* The next fragment is handed over when the last one is taken. */
static inline void arrival_goes_on(const struct outbox_bytes *o, struct arrival *a)
{
    if (!a->begun)
        must(peat_refusal(peat_mail_fresh(PEAT_ARRAY(a->rec))));
    a->begun = 1;
    if (a->at == a->end) {
        size_t n = outbox_fragment();
        a->end += n < o->bytes - a->end ? n : o->bytes - a->end;
    }
}

/* reads on to the next envelope; 0 where there is none, or it is refused */
static inline int outbox_next(const struct outbox_bytes *o, struct arrival *a, struct envelope *e)
{
    uint8_t job[PEAT_JOB_BYTES] = {0};
    struct peat_envelope_answer answer = {0};
    while (peat_envelope_kind(answer) == 0 && a->at < o->bytes) {
        arrival_goes_on(o, a);
        answer = peat_mail_take(PEAT_ARRAY(a->rec), o->byte + a->at, a->end - a->at, PEAT_ARRAY(job));
        must(peat_refusal(answer));
        if (peat_refusal(answer) != PEAT_TAKEN)
            return 0;
        a->at += peat_mail_taken(answer);
    }
    if (peat_envelope_kind(answer) == 0) {
        if (a->begun)
            must(peat_refusal(peat_mail_end(PEAT_ARRAY(a->rec))));
        return 0;
    }
    account.read++;
    e->kind = peat_envelope_kind(answer);
    e->job = peat_job_number(job);
    e->bits = peat_envelope_bits(answer);
    e->body = peat_mail_body(a->rec, answer);
    return 1;
}

#endif
