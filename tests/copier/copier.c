/*
 * The bit copier beside a loop over bits: every pair of places in a byte, every length to 300 bits and the largest messages.
 * Each slice is as short as the run allows and lies against a page that can't be read or written, once behind its last byte
 * and once before its first, so that a byte too far ends the program. Every other bit of the destination must stay.
 */
#define _DEFAULT_SOURCE
#include <stdint.h>
#include <stdio.h>
#include <string.h>

#include "../lib/guard.h"

uint64_t bench_copy(uint8_t *dst, size_t dst_len, size_t to, const uint8_t *src, size_t src_len, size_t at, size_t n);

enum { SHORT = 300, PAGES = 2 };

static size_t page;
static unsigned long passed, failed;

/* PAGES pages between two that can't be touched */
static uint8_t *room(void) { return guarded_end(PAGES * page) - PAGES * page; }

static size_t bytes_for(size_t bits) { return (bits + 7) / 8; }

static unsigned bit(const uint8_t *bytes, size_t at) { return bytes[at / 8] >> (7 - at % 8) & 1u; }

static void set_bit(uint8_t *bytes, size_t at, unsigned value)
{
    uint8_t mask = (uint8_t)(1u << (7 - at % 8));
    bytes[at / 8] = (uint8_t)(value ? bytes[at / 8] | mask : bytes[at / 8] & ~mask);
}

static void fill(uint8_t *bytes, size_t count, uint32_t seed)
{
    for (size_t i = 0; i < count; i++) {
        seed = seed * 1664525u + 1013904223u;
        bytes[i] = (uint8_t)(seed >> 24);
    }
}

/* One copy, its slices at the front of their pages or against their end. */
static int copies(uint8_t *from, uint8_t *into, int at_end, size_t to, size_t at, size_t bits)
{
    static uint8_t want[4096];
    size_t src_len = bytes_for(at + bits), dst_len = bytes_for(to + bits);
    uint8_t *src = at_end ? from + PAGES * page - src_len : from, *dst = at_end ? into + PAGES * page - dst_len : into;
    fill(src, src_len, (uint32_t)(bits * 64 + to * 8 + at));
    fill(dst, dst_len, (uint32_t)~(bits + to + at));
    memcpy(want, dst, dst_len);
    for (size_t i = 0; i < bits; i++)
        set_bit(want, to + i, bit(src, at + i));
    return bench_copy(dst, dst_len, to, src, src_len, at, bits) == to + bits && memcmp(dst, want, dst_len) == 0;
}

static void try_length(uint8_t *from, uint8_t *into, size_t bits)
{
    for (size_t to = 0; to < 8; to++)
        for (size_t at = 0; at < 8; at++)
            for (int at_end = 0; at_end < 2; at_end++)
                if (copies(from, into, at_end, to, at, bits)) {
                    passed++;
                } else {
                    failed++;
                    printf("copier: %zu bits from place %zu to place %zu are not as the loop over bits has them\n", bits, at, to);
                }
}

int main(void)
{
    static const size_t longest[] = {2040, 2047, 2048, 2049, 16376, 16382, 16383};
    uint8_t *from, *into;
    page = (size_t)sysconf(_SC_PAGESIZE);
    from = room(), into = room();
    for (size_t bits = 0; bits <= SHORT; bits++)
        try_length(from, into, bits);
    for (size_t i = 0; i < sizeof longest / sizeof *longest; i++)
        try_length(from, into, longest[i]);
    printf("%lu passed, %lu failed\n", passed, failed);
    return failed != 0;
}
