/*
 * Time. Deadlines and latencies go by a clock that never steps back; what people read goes by the wall clock.
 */
#ifndef CLOCK_H
#define CLOCK_H

#include <stdint.h>
#include <time.h>

static inline uint64_t clock_read_us(clockid_t which)
{
    struct timespec t;
    clock_gettime(which, &t);
    return (uint64_t)t.tv_sec * 1000000u + (uint64_t)t.tv_nsec / 1000u;
}

#ifdef CLOCK_BOOTTIME
#define CLOCK_STEADY CLOCK_BOOTTIME /* it goes on while the machine sleeps: a lease does too */
#else
#define CLOCK_STEADY CLOCK_MONOTONIC
#endif

/* microseconds and milliseconds since some moment before the process began */
static inline uint64_t now_us(void) { return clock_read_us(CLOCK_STEADY); }
static inline uint64_t now_ms(void) { return now_us() / 1000u; }

/* milliseconds since 1970 */
static inline uint64_t wall_ms(void) { return clock_read_us(CLOCK_REALTIME) / 1000u; }

#endif
