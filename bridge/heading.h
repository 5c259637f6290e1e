/*
 * The heading of a forward: whose message it is, and when it was composed. A job brings it as headers, and a letter has it as headers.
 *
 *     x-peat-flight      the aircraft's flight identification, 2 to 8 characters
 *     x-peat-address     the aircraft's address, 24 bits in hexadecimal digits
 *     x-peat-direction   uplink or downlink: what the message is
 *     x-peat-composed    2026-11-16T14:05:00Z; of a job whose message is read (messages = checked) the message's own, where it is not given
 */
#ifndef HEADING_H
#define HEADING_H

#include <stdint.h>

#include "message.h"

/* by enum peat_forward_part, up to the message */
struct heading {
    uint64_t part[PEAT_FORWARD_MESSAGE];
    int composed; /* there is a date */
};

/* Reads a job's headers. 0: one is missing or none. (The card looks at the values.) */
int heading_read(struct heading *, const char *heads);
/* The date of a message that was read, where there is none yet. */
void heading_date(struct heading *, const struct message *);
/* The direction as the card's reader of messages has it: enum peat_direction. */
unsigned heading_direction(const struct heading *);
/* The headers of a forward message as a call delivered it, and its message in `out` (PEAT_BUFFER_LEAST bytes); how many bits that has. */
unsigned heading_write(const uint8_t *delivered, size_t bytes, char *heads, uint8_t *out);

#endif
