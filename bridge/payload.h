/*
 * A payload of the broker: envelopes, one behind the other. This is the one place where the bridge reads them, and it reads
 * them with the card's reader of fragments: the payload is the whole input, and what it ends inside of is CUT.
 */
#ifndef PAYLOAD_H
#define PAYLOAD_H

#include <stddef.h>
#include <stdint.h>

#include "peatribbon.h"

/* a payload that is being read */
struct payload_reader {
    uint8_t record[PEAT_MAIL_BYTES]; /* the envelope that was taken last, or what came of the next */
    const uint8_t *payload;
    size_t bytes, at; /* of the payload; what is behind `at` was not looked at */
};

/* an envelope that was taken; its body stands in the reader until the next one is */
struct envelope {
    unsigned kind; /* enum peat_envelope */
    uint64_t job;
    unsigned bits;
    const uint8_t *body;
};

void payload_begin(struct payload_reader *, const uint8_t *payload, size_t bytes);

/* There are bytes that were not looked at. */
static inline int payload_waits(const struct payload_reader *r) { return r->at < r->bytes; }

/* Takes the next envelope. Its refusal (PEAT_CUT to PEAT_SIZE; PEAT_CUT where no byte is left), or PEAT_TAKEN. */
unsigned payload_take(struct payload_reader *, struct envelope *);

/* The place in the payload where the envelope begins that was taken or refused last. */
size_t payload_place(const struct payload_reader *);

#endif
