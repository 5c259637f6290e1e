#include "payload.h"

#include "log.h"

/* The card refuses the reader's own record, which it can not: nothing that was read can be trusted. */
static void must(const char *call, int good)
{
    if (!good)
        log_and_exit(EXIT_JOURNAL, "card", call, "the record of the reader is refused");
}

void payload_begin(struct payload_reader *r, const uint8_t *payload, size_t bytes)
{
    must("peat_mail_fresh", peat_refusal(peat_mail_fresh(r->record, sizeof r->record)) == PEAT_TAKEN);
    r->payload = payload;
    r->bytes = bytes;
    r->at = 0;
}

/* The envelope that an answer says was finished. */
static void open_envelope(const struct payload_reader *r, struct peat_envelope_answer answer, const uint8_t *job, struct envelope *e)
{
    e->kind = peat_envelope_kind(answer);
    e->job = peat_job_number(job);
    e->bits = peat_envelope_bits(answer);
    e->body = peat_mail_body(r->record, answer);
}

unsigned payload_take(struct payload_reader *r, struct envelope *e)
{
    while (payload_waits(r)) {
        uint8_t job[PEAT_JOB_BYTES] = {0};
        struct peat_envelope_answer answer = peat_mail_take(r->record, sizeof r->record, r->payload + r->at, r->bytes - r->at, job, sizeof job);
        must("peat_mail_take", peat_refusal(answer) != PEAT_SHAPE);
        if (peat_refusal(answer) != PEAT_TAKEN)
            return peat_refusal(answer);
        r->at += peat_mail_taken(answer);
        if (peat_envelope_kind(answer) != 0) {
            open_envelope(r, answer, job, e);
            return PEAT_TAKEN;
        }
    }
    must("peat_mail_end", peat_refusal(peat_mail_end(r->record, sizeof r->record)) != PEAT_SHAPE);
    return PEAT_CUT; /* also where there was no byte */
}

size_t payload_place(const struct payload_reader *r) { return (size_t)peat_mail_place(r->record); }
