#include "given.h"

#include <stdio.h>
#include <stdlib.h>
#include <string.h>

#include "heads.h"
#include "log.h"

#define ALGORITHM "x-peat-algorithm"
#define CHECK "x-peat-check"
#define HEX "0123456789abcdefABCDEF"

static unsigned digit(char c) { return c <= '9' ? (unsigned)(c - '0') : c <= 'F' ? (unsigned)(c - 'A') + 10 : (unsigned)(c - 'a') + 10; }

/* Digits at the front of a text, two a byte; an odd one is the upper half of the last. How many digits; `most` bytes are room for them, and more
   digits are too many. */
static size_t read_digits(const char *text, uint8_t *to, size_t most)
{
    size_t n = strspn(text, HEX), i;
    for (i = 0; i < n && i < 2 * most; i++)
        to[i / 2] = (uint8_t)(i % 2 ? to[i / 2] | digit(text[i]) : digit(text[i]) << 4);
    return n;
}

static int read_identifier(struct given *g, const char *heads)
{
    char text[2 * PEAT_IDENTIFIER_MOST + 2];
    size_t length, n;
    if (heads_find(heads, ALGORITHM, &length) == NULL)
        return 1;
    if (!heads_take(heads, ALGORITHM, text, sizeof text))
        return 0;
    n = read_digits(text, g->identifier, sizeof g->identifier);
    g->identifier_len = n / 2;
    return n == length && n > 0 && n % 2 == 0 && n <= 2 * PEAT_IDENTIFIER_MOST;
}

/* 1: the bits behind the last that counts are zero */
static int ends_in_zeros(const uint8_t *bits, size_t bytes, unsigned count)
{
    size_t i;
    for (i = count; i < 8 * bytes; i++)
        if (bits[i / 8] >> (7 - i % 8) & 1)
            return 0;
    return 1;
}

static int read_check(struct given *g, const char *heads)
{
    char text[2 * GIVEN_CHECK_BYTES + 8], *end;
    size_t length, n;
    unsigned long bits;
    if (heads_find(heads, CHECK, &length) == NULL)
        return 1;
    if (!heads_take(heads, CHECK, text, sizeof text))
        return 0;
    n = read_digits(text, g->check, sizeof g->check);
    bits = 4 * n;
    if (text[n] == '/' && text[n + 1] >= '0' && text[n + 1] <= '9') {
        bits = strtoul(text + n + 1, &end, 10);
        length -= (size_t)(end - (text + n));
    }
    g->check_bits = (unsigned)bits;
    return n == length && bits > 0 && bits <= 4 * n && n <= 2 * GIVEN_CHECK_BYTES && ends_in_zeros(g->check, sizeof g->check, (unsigned)bits);
}

int given_read(struct given *g, const char *heads)
{
    memset(g, 0, sizeof *g);
    return strcmp(heads, HEADS_UNREADABLE) != 0 && read_identifier(g, heads) && read_check(g, heads);
}

/* ---- what came down */

static void write_part(unsigned part, const char *name, const uint8_t *delivered, size_t bytes, char *heads, size_t room)
{
    uint8_t out[PEAT_BUFFER_LEAST];
    char text[2 * PEAT_IDENTIFIER_MOST + 16];
    struct peat_part_answer answer = peat_data_part(part, delivered, bytes, out, sizeof out);
    size_t used = 0, i;
    if (peat_refusal(answer) != PEAT_TAKEN)
        log_and_exit(EXIT_JOURNAL, "card", "peat_data_part", "message data that were delivered are refused");
    if (!peat_part_given(answer) || peat_part_bits(answer) == 0)
        return;
    for (i = 0; i < peat_part_bytes(answer); i++)
        used += (size_t)snprintf(text + used, sizeof text - used, "%02x", out[i]);
    if (peat_part_bits(answer) % 8 != 0)
        snprintf(text + used, sizeof text - used, "/%u", peat_part_bits(answer));
    if (!heads_add(heads, room, name, text))
        log_and_exit(EXIT_MEMORY, "memory", name, "a header does not fit");
}

void given_write(const uint8_t *delivered, size_t bytes, char *heads, size_t room)
{
    write_part(PEAT_PART_IDENTIFIER, ALGORITHM, delivered, bytes, heads, room);
    write_part(PEAT_PART_CHECK, CHECK, delivered, bytes, heads, room);
}
