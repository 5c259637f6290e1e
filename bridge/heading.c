#include "heading.h"

#include <stdio.h>
#include <stdlib.h>
#include <string.h>

#include "calls.h"
#include "heads.h"
#include "log.h"

#define FLIGHT "x-peat-flight"
#define ADDRESS "x-peat-address"
#define DIRECTION "x-peat-direction"
#define COMPOSED "x-peat-composed"

static int read_flight(struct heading *h, const char *heads)
{
    char text[PEAT_FLIGHT_MOST + 2];
    size_t i, n;
    if (!heads_take(heads, FLIGHT, text, sizeof text))
        return 0;
    n = strlen(text);
    for (i = 0; i < n; i++)
        if ((unsigned char)text[i] > 127)
            return 0;
    h->part[PEAT_FORWARD_CHARACTERS] = n;
    h->part[PEAT_FORWARD_FLIGHT] = n <= PEAT_FLIGHT_MOST ? peat_flight(text, n) : 0;
    return n >= PEAT_FLIGHT_LEAST && n <= PEAT_FLIGHT_MOST;
}

static int read_address(struct heading *h, const char *heads)
{
    char text[8], *end;
    if (!heads_take(heads, ADDRESS, text, sizeof text) || strspn(text, "0123456789abcdefABCDEF") != strlen(text) || *text == '\0' || strlen(text) > 6)
        return 0;
    h->part[PEAT_FORWARD_ADDRESS] = strtoul(text, &end, 16);
    return 1;
}

static int read_direction(struct heading *h, const char *heads)
{
    char text[10];
    if (!heads_take(heads, DIRECTION, text, sizeof text))
        return 0;
    h->part[PEAT_FORWARD_DIRECTION] = strcmp(text, "downlink") == 0 ? PEAT_FORWARD_DOWNLINK : PEAT_FORWARD_UPLINK;
    return strcmp(text, "downlink") == 0 || strcmp(text, "uplink") == 0;
}

static int read_composed(struct heading *h, const char *heads)
{
    char text[24];
    unsigned part[6], i;
    int used = 0;
    size_t length;
    if (heads_find(heads, COMPOSED, &length) == NULL)
        return 1;
    if (!heads_take(heads, COMPOSED, text, sizeof text) ||
        sscanf(text, "%4u-%2u-%2uT%2u:%2u:%2uZ%n", &part[0], &part[1], &part[2], &part[3], &part[4], &part[5], &used) != 6 || (size_t)used != length)
        return 0;
    for (i = 0; i < 6; i++)
        h->part[PEAT_FORWARD_YEAR + i] = part[i];
    h->composed = 1;
    return 1;
}

int heading_read(struct heading *h, const char *heads)
{
    memset(h, 0, sizeof *h);
    return read_flight(h, heads) && read_address(h, heads) && read_direction(h, heads) && read_composed(h, heads);
}

void heading_date(struct heading *h, const struct message *m)
{
    if (h->composed)
        return;
    h->part[PEAT_FORWARD_YEAR] = peat_two_bytes(m->inner + PEAT_INNER_YEAR);
    h->part[PEAT_FORWARD_MONTH] = m->inner[PEAT_INNER_MONTH];
    h->part[PEAT_FORWARD_DAY] = m->inner[PEAT_INNER_DAY];
    h->part[PEAT_FORWARD_HOURS] = m->inner[PEAT_INNER_HOURS];
    h->part[PEAT_FORWARD_MINUTES] = m->inner[PEAT_INNER_MINUTES];
    h->part[PEAT_FORWARD_SECONDS] = m->inner[PEAT_INNER_SECONDS];
    h->composed = 1;
}

unsigned heading_direction(const struct heading *h) { return h->part[PEAT_FORWARD_DIRECTION] == PEAT_FORWARD_DOWNLINK ? PEAT_DOWNLINK : PEAT_UPLINK; }

/* ---- what came */

static uint64_t part_of(unsigned which, const uint8_t *delivered, size_t bytes, uint8_t *out)
{
    struct peat_forward_answer answer = peat_forward_part(which, delivered, bytes, out, PEAT_BUFFER_LEAST);
    if (peat_refusal(answer) != PEAT_TAKEN)
        log_and_exit(EXIT_JOURNAL, "card", "peat_forward_part", "a forward message that was delivered is refused");
    return peat_forward_value(answer);
}

/* Characters that no header has are shown as a question mark. */
static void add_flight(char *heads, uint64_t flight, size_t characters)
{
    char text[PEAT_FLIGHT_MOST + 1];
    size_t i;
    for (i = 0; i < characters && i < PEAT_FLIGHT_MOST; i++) {
        char c = peat_flight_character(flight, characters, i);
        text[i] = (char)(c < 32 || c == 127 ? '?' : c);
    }
    text[i] = '\0';
    call_add_head(heads, FLIGHT, text);
}

unsigned heading_write(const uint8_t *delivered, size_t bytes, char *heads, uint8_t *out)
{
    uint64_t part[PEAT_FORWARD_MESSAGE];
    char text[48];
    unsigned i;
    for (i = 0; i < PEAT_FORWARD_MESSAGE; i++)
        part[i] = part_of(i, delivered, bytes, out);
    add_flight(heads, part[PEAT_FORWARD_FLIGHT], (size_t)part[PEAT_FORWARD_CHARACTERS]);
    snprintf(text, sizeof text, "%06x", (unsigned)part[PEAT_FORWARD_ADDRESS]);
    call_add_head(heads, ADDRESS, text);
    call_add_head(heads, DIRECTION, part[PEAT_FORWARD_DIRECTION] == PEAT_FORWARD_DOWNLINK ? "downlink" : "uplink");
    snprintf(text, sizeof text, "%04u-%02u-%02uT%02u:%02u:%02uZ", (unsigned)part[PEAT_FORWARD_YEAR] % 10000, (unsigned)part[PEAT_FORWARD_MONTH] % 100,
        (unsigned)part[PEAT_FORWARD_DAY] % 100, (unsigned)part[PEAT_FORWARD_HOURS] % 100, (unsigned)part[PEAT_FORWARD_MINUTES] % 100,
        (unsigned)part[PEAT_FORWARD_SECONDS] % 100);
    call_add_head(heads, COMPOSED, text);
    return (unsigned)part_of(PEAT_FORWARD_MESSAGE, delivered, bytes, out);
}
