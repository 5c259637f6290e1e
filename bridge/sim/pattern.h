/*
 * The messages of the simulators: what the position puts into a job, the flight deck can tell again, bit for bit. Job
 * number, dialogue, the time at which it was given, and then bytes, more or fewer, that no other job has there.
 */
#ifndef PATTERN_H
#define PATTERN_H

#include <stddef.h>
#include <stdint.h>

#define PATTERN_HEAD 17
#define PATTERN_MOST 2047 /* whole bytes of the longest message */

static inline void pattern_number(uint8_t *at, uint64_t n)
{
    int i;
    for (i = 0; i < 8; i++)
        at[i] = (uint8_t)(n >> (56 - 8 * i));
}

static inline uint64_t pattern_read(const uint8_t *at)
{
    uint64_t n = 0;
    int i;
    for (i = 0; i < 8; i++)
        n = n << 8 | at[i];
    return n;
}

/* every eighth job may have a long message */
static inline size_t pattern_bytes(uint64_t job) { return PATTERN_HEAD + (size_t)(job * 29 % (job % 8 == 3 ? 2000 : 200)); }

/* Writes a job's message; its bytes. */
static inline size_t pattern_make(uint8_t *message, unsigned dialogue, uint64_t job, uint64_t time_us)
{
    size_t n = pattern_bytes(job), i;
    pattern_number(message, job);
    message[8] = (uint8_t)dialogue;
    pattern_number(message + 9, time_us);
    for (i = PATTERN_HEAD; i < n; i++)
        message[i] = (uint8_t)(job * i + dialogue);
    return n;
}

/* The job of a message, or 0 where it is not as it was made. */
static inline uint64_t pattern_job(const uint8_t *message, size_t bytes, unsigned dialogue, uint64_t *time_us)
{
    uint8_t want[PATTERN_MOST];
    uint64_t job;
    size_t i;
    if (bytes < PATTERN_HEAD)
        return 0;
    job = pattern_read(message);
    *time_us = pattern_read(message + 9);
    if (job == 0 || bytes != pattern_bytes(job))
        return 0;
    pattern_make(want, dialogue, job, *time_us);
    for (i = 0; i < bytes; i++)
        if (message[i] != want[i])
            return 0;
    return job;
}

#endif
