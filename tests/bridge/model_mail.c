/*
 * The card's reader of fragments, answered by the automaton of tests/fragments, which shares no code with the card (see
 * model_card.c). It keeps one mail at a time: whoever reads makes the record fresh first.
 */
#include "../fragments/model.h"

static struct model model;

struct peat_outcome peat_mail_fresh(uint8_t *mail, size_t mail_len)
{
    (void)mail_len;
    model_fresh(&model);
    model_record(&model, mail);
    return (struct peat_outcome){PEAT_TAKEN};
}

static struct peat_envelope_answer answer(uint64_t word) { return (struct peat_envelope_answer){word}; }

static struct peat_envelope_answer finished(size_t taken)
{
    return answer(model.kind << PEAT_ENVELOPE_KIND_AT | model.bits << PEAT_ENVELOPE_BITS_AT |
        (uint64_t)(PEAT_MAIL_HEAD + model.body) << PEAT_ENVELOPE_BODY_AT | (uint64_t)taken << PEAT_ENVELOPE_NEXT_AT);
}

struct peat_envelope_answer peat_mail_take(uint8_t *mail, size_t mail_len, const uint8_t *fragment, size_t fragment_len, uint8_t *job, size_t job_len)
{
    enum event e = model.refusal != 0 ? REFUSED : MORE;
    size_t n = 0;
    (void)mail_len;
    if (job_len != PEAT_JOB_BYTES)
        return answer(PEAT_SHAPE);
    while (e == MORE && n < fragment_len)
        e = model_feed(&model, fragment[n++]);
    model_record(&model, mail);
    if (e == REFUSED)
        return answer(model.refusal);
    if (e != FINISHED)
        return answer((uint64_t)n << PEAT_ENVELOPE_NEXT_AT);
    model_job(&model, job);
    return finished(n);
}

struct peat_outcome peat_mail_end(uint8_t *mail, size_t mail_len)
{
    (void)mail_len;
    model_end(&model);
    model_record(&model, mail);
    return (struct peat_outcome){model.refusal};
}
