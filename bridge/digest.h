/*
 * A message by one number, for the recorded day (docs/HOST.md): its count of bits, and behind it in 32 bits the CRC-32 of its bytes. The bits of the last byte that
 * are behind the message count as zero.
 */
#ifndef DIGEST_H
#define DIGEST_H

#include "checksum.h"

static inline uint64_t digest_of(const uint8_t *message, unsigned bits)
{
    uint32_t sum = checksum(0, message, bits / 8);
    unsigned unused = (8 - bits % 8) % 8;
    if (unused > 0) {
        uint8_t last = (uint8_t)(message[bits / 8] >> unused << unused);
        sum = checksum(sum, &last, 1);
    }
    return (uint64_t)bits << 32 | sum;
}

#endif
