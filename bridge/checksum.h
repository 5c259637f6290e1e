/*
 * A checksum (CRC-32, as in Ethernet) over what is stored of a dialogue. More than half of the one-bit changes of a record
 * give another record that the card takes, so the card can not see damage; the journal must.
 */
#ifndef CHECKSUM_H
#define CHECKSUM_H

#include <stddef.h>
#include <stdint.h>

/* goes on from an earlier sum; 0 to begin with */
static inline uint32_t checksum(uint32_t sum, const void *bytes, size_t count)
{
    const uint8_t *b = bytes;
    int bit;
    sum = ~sum;
    while (count-- > 0) {
        sum ^= *b++;
        for (bit = 0; bit < 8; bit++)
            sum = sum >> 1 ^ (0xEDB88320u & (0u - (sum & 1u)));
    }
    return ~sum;
}

#endif
