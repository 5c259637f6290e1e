/* Makes the calls that standard input names, one a line, and holds what each did to a plain loop over bits.
 *
 *     FUNCTION TO AT BITS
 *
 * Of a read, TO is how many bytes are lent behind those that hold the bits; of a copy no more bytes are lent than the bits need.
 * A slice passes from Rattle's C face as a pointer and a length. The status is 0 where every call did what it should. */
#include <stdint.h>
#include <stdio.h>
#include <string.h>

enum { BYTES = 4096, SPARE = 64 };

static uint8_t src[BYTES + SPARE], dst[BYTES + SPARE], want[BYTES + SPARE];

/* ---- the calls that can be measured; the crate bench_face exports them */

uint64_t bench_copy(uint8_t *dst, size_t dst_len, size_t to, const uint8_t *src, size_t src_len, size_t at, size_t bits);
uint64_t bench_read(const uint8_t *src, size_t src_len, size_t at, size_t bits);

/* ---- what they should do */

static int bit(const uint8_t *bytes, size_t at) { return bytes[at / 8] >> (7 - at % 8) & 1; }

static void set_bit(uint8_t *bytes, size_t at, int value)
{
    uint8_t mask = (uint8_t)(1u << (7 - at % 8));
    bytes[at / 8] = (uint8_t)(value ? bytes[at / 8] | mask : bytes[at / 8] & ~mask);
}

static void fill(uint8_t *bytes, size_t count, uint32_t seed)
{
    for (size_t i = 0; i < count; i++) {
        seed = seed * 1664525u + 1013904223u;
        bytes[i] = (uint8_t)(seed >> 24);
    }
}

static size_t bytes_for(size_t bits) { return (bits + 7) / 8; }

/* The bits stand behind those that were there; every other bit of dst stays, behind its end too. */
static int copies(size_t to, size_t at, size_t bits)
{
    memcpy(want, dst, sizeof dst);
    for (size_t i = 0; i < bits; i++)
        set_bit(want, to + i, bit(src, at + i));
    uint64_t answer = bench_copy(dst, bytes_for(to + bits), to, src, bytes_for(at + bits), at, bits);
    return answer == to + bits && memcmp(dst, want, sizeof dst) == 0;
}

static int reads(size_t behind, size_t at, size_t bits)
{
    uint64_t number = 0;
    for (size_t i = 0; i < bits; i++)
        number = number * 2 + (uint64_t)bit(src, at + i);
    return bench_read(src, bytes_for(at + bits) + behind, at, bits) == number;
}

int main(void)
{
    char function[32];
    size_t to, at, bits;
    fill(src, sizeof src, 1);
    fill(dst, sizeof dst, 2);
    while (scanf("%31s %zu %zu %zu", function, &to, &at, &bits) == 4) {
        int right = 0;
        if (bytes_for(to + bits) > BYTES || bytes_for(at + bits) + to > BYTES)
            fprintf(stderr, "cost: more than %d bytes\n", BYTES);
        else if (strcmp(function, "bench_copy") == 0)
            right = copies(to, at, bits);
        else if (strcmp(function, "bench_read") == 0)
            right = reads(to, at, bits);
        if (!right) {
            fprintf(stderr, "cost: %s %zu %zu %zu is wrong\n", function, to, at, bits);
            return 1;
        }
    }
    return 0;
}
