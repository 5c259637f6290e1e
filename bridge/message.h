/*
 * The CPDLC message in a job, and in what comes down: read by the card, for whoever must know its numbers, and for positions that do not
 * decode PER. What a message says the bridge does not judge.
 */
#ifndef MESSAGE_H
#define MESSAGE_H

#include <stddef.h>
#include <stdint.h>

#include "peatribbon.h"

struct message {
    unsigned direction; /* enum peat_direction */
    uint8_t inner[PEAT_INNER_BYTES];
    uint8_t text[PEAT_BUFFER_LEAST];
    unsigned characters;
};

/* Reads so many bits. The card's answer: PEAT_TAKEN, or the refusal with its position. */
struct peat_message_answer message_read(struct message *, unsigned direction, const uint8_t *bits, unsigned count);

/* Writes a message that was read, with another identification number: its bits in `out`, PEAT_BUFFER_LEAST bytes. How many they are. */
unsigned message_write(struct message *, unsigned number, uint8_t *out);

static inline unsigned message_number(const struct message *m) { return m->inner[PEAT_INNER_IDENTIFICATION]; }
static inline int message_replies(const struct message *m) { return m->inner[PEAT_INNER_REFERENCED]; }
static inline unsigned message_reference(const struct message *m) { return m->inner[PEAT_INNER_REFERENCE]; }

/* 1: a reply from the aircraft that ends its exchange (Doc 9705, 2.3.7.6.9.17): none of its elements is STANDBY or LOGICAL ACKNOWLEDGMENT */
int message_closes(const struct message *);

#define MESSAGE_JSON 16384 /* more than any message has */

/* The message as one line of JSON. */
void message_json(const struct message *, char *text, size_t room);

#endif
