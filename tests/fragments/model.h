/*
 * A reader of envelopes that looks at each byte once and keeps no bytes to read again: a small automaton over document 01's
 * words. It shares nothing with the card, and is what the card's reader of fragments is compared with.
 */
#ifndef MODEL_H
#define MODEL_H

#include <string.h>

#include "../lib/answers.h"

enum stage { IN_KIND, IN_JOB, IN_COUNT, IN_BODY };
enum event { MORE, FINISHED, REFUSED };

struct model {
    enum stage stage;
    unsigned group;      /* of the number that is being read */
    uint64_t value;      /* its groups so far */
    uint64_t kind, job, bits;
    size_t body, left;   /* where the body begins in the envelope; its bytes that are missing */
    uint64_t place;      /* where the envelope begins */
    uint8_t held[PEAT_ENVELOPE_MOST];
    size_t count;
    int finished;        /* an envelope is finished, and no byte came behind it */
    unsigned refusal;
};

static inline void model_fresh(struct model *m) { memset(m, 0, sizeof *m); }

static inline enum event model_refuse(struct model *m, unsigned refusal)
{
    m->refusal = refusal;
    m->count = 0;
    return REFUSED;
}

/* the groups of a number, lowest first: ten at most, the tenth of one bit, and none that is not needed */
static inline enum event model_number(struct model *m, uint8_t b)
{
    if (m->group == 9 && b != 1)
        return model_refuse(m, PEAT_GROUPS);
    if (m->group > 0 && b == 0)
        return model_refuse(m, PEAT_GROUPS);
    m->value |= (uint64_t)(b & 0x7F) << (7 * m->group);
    m->group++;
    return b & 0x80 ? MORE : FINISHED;
}

static inline enum event model_field(struct model *m)
{
    uint64_t v = m->value;
    m->value = 0;
    m->group = 0;
    switch (m->stage) {
    case IN_KIND:
        if (v < 1 || v > 3)
            return model_refuse(m, PEAT_KIND);
        m->kind = v;
        m->stage = IN_JOB;
        return MORE;
    case IN_JOB:
        if (v == 0)
            return model_refuse(m, PEAT_GROUPS);
        m->job = v;
        m->stage = IN_COUNT;
        return MORE;
    default:
        if (v > PEAT_MESSAGE_MOST || (m->kind == PEAT_ENVELOPE_REFUSAL && v != 8))
            return model_refuse(m, PEAT_SIZE);
        m->bits = v;
        m->body = m->count;
        m->left = (size_t)((v + 7) / 8);
        m->stage = IN_BODY;
        return m->left == 0 ? FINISHED : MORE;
    }
}

/* one byte */
static inline enum event model_feed(struct model *m, uint8_t b)
{
    enum event e;
    if (m->refusal != 0)
        return REFUSED;
    if (m->finished) { /* it begins the next envelope */
        uint64_t place = m->place + m->count < m->place ? UINT64_MAX : m->place + m->count;
        model_fresh(m);
        m->place = place;
    }
    m->held[m->count++] = b;
    if (m->stage == IN_BODY) {
        if (--m->left > 0)
            return MORE;
        if (m->bits % 8 != 0 && (b & (0xFF >> m->bits % 8)) != 0)
            return model_refuse(m, PEAT_SIZE);
        e = FINISHED;
    } else {
        e = model_number(m, b);
        if (e == FINISHED)
            e = model_field(m);
    }
    m->finished = e == FINISHED;
    return e;
}

static inline enum event model_end(struct model *m)
{
    if (m->refusal == 0 && !m->finished && m->count > 0)
        return model_refuse(m, PEAT_CUT);
    return m->refusal != 0 ? REFUSED : MORE;
}

/* the record that the header describes */
static inline void model_record(const struct model *m, uint8_t *mail)
{
    int i;
    memset(mail, 0, PEAT_MAIL_BYTES);
    mail[0] = (uint8_t)(m->refusal != 0 ? m->refusal : (unsigned)m->finished);
    mail[1] = (uint8_t)(m->count >> 8);
    mail[2] = (uint8_t)m->count;
    for (i = 0; i < 8; i++)
        mail[3 + i] = (uint8_t)(m->place >> (56 - 8 * i));
    memcpy(mail + PEAT_MAIL_HEAD, m->held, m->count);
}

/* the job of a finished envelope, in the bytes that are lent for it */
static inline void model_job(const struct model *m, uint8_t *job)
{
    int i;
    for (i = 0; i < PEAT_JOB_BYTES; i++)
        job[i] = (uint8_t)(m->job >> (56 - 8 * i));
}

#endif
