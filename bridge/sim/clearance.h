/*
 * Jobs that are CPDLC messages: a free text that names its dialogue and its job, so that the flight deck can tell them. And the flight deck's
 * answer to one: WILCO, with the number of the message that it answers.
 */
#ifndef CLEARANCE_H
#define CLEARANCE_H

#include <stdio.h>
#include <string.h>

#include "peatribbon.h"

#define CLEARANCE_FREE_TEXT 169 /* uM169 */
#define CLEARANCE_WILCO 0       /* dM0 */
#define CLEARANCE_STANDBY 2     /* dM2, which closes nothing */
#define CLEARANCE_TEXT 40

/* the front of a message that was composed on a day of its own */
static inline void clearance_front(uint8_t *m, unsigned number)
{
    memset(m, 0, PEAT_INNER_BYTES);
    m[PEAT_INNER_IDENTIFICATION] = (uint8_t)number;
    peat_put_two_bytes(m + PEAT_INNER_YEAR, 2026);
    m[PEAT_INNER_MONTH] = 11;
    m[PEAT_INNER_DAY] = 16;
    m[PEAT_INNER_COUNT] = 1;
}

/* Writes a job's message, with a number that the position made up; its bits, 0 where there is no such message. `out`: PEAT_BUFFER_LEAST bytes. */
static inline unsigned clearance_make(uint8_t *out, unsigned dialogue, uint64_t job, unsigned number)
{
    uint8_t m[PEAT_INNER_BYTES], *place = m + peat_place_at(0);
    char text[CLEARANCE_TEXT];
    struct peat_written_message answer;
    clearance_front(m, number);
    snprintf(text, sizeof text, "CLEARANCE %u %llu", dialogue, (unsigned long long)job);
    place[PEAT_PLACE_NUMBER] = CLEARANCE_FREE_TEXT;
    peat_put_two_bytes(place + PEAT_PLACE_CHARACTERS, (unsigned)strlen(text));
    answer = peat_write_message(PEAT_UPLINK, m, sizeof m, (const uint8_t *)text, strlen(text), out, PEAT_BUFFER_LEAST);
    return peat_refusal(answer) == PEAT_TAKEN ? peat_message_bits(answer) : 0;
}

/* The job of such a message, and its number; 0: it is none. */
static inline uint64_t clearance_job(const uint8_t *bits, unsigned count, unsigned dialogue, unsigned *number)
{
    uint8_t m[PEAT_INNER_BYTES], text[PEAT_BUFFER_LEAST + 1];
    unsigned long long job = 0;
    unsigned of = 0;
    struct peat_message_answer answer = peat_read_message(PEAT_UPLINK, bits, (count + 7u) / 8u, count, m, sizeof m, text, PEAT_BUFFER_LEAST);
    if (peat_refusal(answer) != PEAT_TAKEN)
        return 0;
    text[peat_message_characters(answer)] = '\0';
    *number = m[PEAT_INNER_IDENTIFICATION];
    return sscanf((const char *)text, "CLEARANCE %u %llu", &of, &job) == 2 && of == dialogue ? job : 0;
}

/* An answer of one element without an argument, from the flight deck; its bits. */
static inline unsigned clearance_reply(uint8_t *out, unsigned number, unsigned reference, unsigned element)
{
    uint8_t m[PEAT_INNER_BYTES];
    struct peat_written_message answer;
    clearance_front(m, number);
    m[PEAT_INNER_REFERENCED] = 1;
    m[PEAT_INNER_REFERENCE] = (uint8_t)reference;
    m[peat_place_at(0) + PEAT_PLACE_NUMBER] = (uint8_t)element;
    answer = peat_write_message(PEAT_DOWNLINK, m, sizeof m, NULL, 0, out, PEAT_BUFFER_LEAST);
    return peat_refusal(answer) == PEAT_TAKEN ? peat_message_bits(answer) : 0;
}

#endif
