/*
 * What message data carry beside the message, as given: the algorithm identifier and the integrity check. A job brings them as headers of the
 * broker's message, and a letter has what came down. Nothing here computes one.
 *
 *     x-peat-algorithm   the contents octets of the identifier, 1 to 16, in hexadecimal digits
 *     x-peat-check       the bits of the check, 1 to 64, in hexadecimal digits; behind a stroke how many of them count, where that is not all
 */
#ifndef GIVEN_H
#define GIVEN_H

#include <stddef.h>
#include <stdint.h>

#include "peatribbon.h"

#define GIVEN_CHECK_BYTES (PEAT_CHECK_MOST / 8)

struct given {
    uint8_t identifier[PEAT_IDENTIFIER_MOST], check[GIVEN_CHECK_BYTES];
    size_t identifier_len;
    unsigned check_bits;
};

/* Reads a job's headers. 0: one of them is no such thing. */
int given_read(struct given *, const char *heads);

/* Puts the headers of message data that came down behind those that are there. */
void given_write(const uint8_t *delivered, size_t bytes, char *heads, size_t room);

#endif
