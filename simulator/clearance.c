#include "clearance.h"

#include <stdio.h>
#include <string.h>

#include "chance.h"

#define SECONDS_A_DAY 86400
#define DAYS 28 /* of each month here, so that every second has a date */
#define ELEMENTS 237 /* uM0 to uM236; a downlink has fewer */

static unsigned direction_of(unsigned side) { return side == PEAT_AIR ? PEAT_DOWNLINK : PEAT_UPLINK; }

/* ---- what a clearance draws, in order, from its number */

struct draw { uint64_t from; };

static unsigned drawn(struct draw *d, unsigned n) { return (unsigned)(scattered(d->from += UINT64_C(0x9E3779B97F4A7C15)) % n); }

static struct draw draw_of(unsigned side, uint64_t n)
{
    struct draw d;
    d.from = scattered(2 * n + (side == PEAT_AIR));
    return d;
}

/* ---- the front */

static void put_date(uint8_t *m, uint64_t n)
{
    unsigned second = (unsigned)(n % SECONDS_A_DAY);
    uint64_t day = n / SECONDS_A_DAY;
    m[PEAT_INNER_SECONDS] = (uint8_t)(second % 60);
    m[PEAT_INNER_MINUTES] = (uint8_t)(second / 60 % 60);
    m[PEAT_INNER_HOURS] = (uint8_t)(second / 3600);
    m[PEAT_INNER_DAY] = (uint8_t)(1 + day % DAYS);
    m[PEAT_INNER_MONTH] = (uint8_t)(1 + day / DAYS % 12);
    peat_put_two_bytes(m + PEAT_INNER_YEAR, (unsigned)(1996 + day / DAYS / 12 % 100));
}

uint64_t clearance_stamped(const uint8_t *m)
{
    uint64_t months = (uint64_t)(peat_two_bytes(m + PEAT_INNER_YEAR) - 1996) * 12 + m[PEAT_INNER_MONTH] - 1;
    uint64_t days = months * DAYS + m[PEAT_INNER_DAY] - 1;
    return days * SECONDS_A_DAY + m[PEAT_INNER_HOURS] * 3600u + m[PEAT_INNER_MINUTES] * 60u + m[PEAT_INNER_SECONDS];
}

static void put_front(uint8_t *m, uint64_t n, struct draw *d)
{
    m[PEAT_INNER_IDENTIFICATION] = (uint8_t)(n % 64);
    m[PEAT_INNER_REFERENCED] = (uint8_t)drawn(d, 2);
    m[PEAT_INNER_REFERENCE] = (uint8_t)(m[PEAT_INNER_REFERENCED] ? drawn(d, 64) : 0);
    m[PEAT_INNER_ACKNOWLEDGED] = (uint8_t)drawn(d, 2);
    put_date(m, n);
}

/* ---- the elements */

/* an element that the card carries */
static unsigned draw_element(unsigned direction, struct draw *d)
{
    unsigned number;
    do
        number = drawn(d, ELEMENTS);
    while (peat_element_kind(direction, number) == PEAT_KIND_NOT_CARRIED);
    return number;
}

/* any level of a unit; every fourth is a block of two */
static long draw_in_unit(unsigned unit, struct draw *d)
{
    switch (unit) {
    case PEAT_FEET: return 10L * (PEAT_FEET_LOWEST + (long)drawn(d, 7061));
    case PEAT_METRES: return PEAT_METRES_LOWEST + (long)drawn(d, 25031);
    case PEAT_FLIGHT_LEVEL: return 30 + (long)drawn(d, 671);
    default: return 100 + (long)drawn(d, 2401);
    }
}

static void put_level(uint8_t *at, struct draw *d)
{
    unsigned unit = drawn(d, 4);
    peat_put_level(at, unit, draw_in_unit(unit, d));
    if (drawn(d, 4) == 0) {
        unit = drawn(d, 4);
        at[PEAT_LEVEL_BLOCK] = 1;
        at[PEAT_LEVEL_SECOND_UNIT] = (uint8_t)unit;
        peat_put_two_bytes(at + PEAT_LEVEL_SECOND_NUMBER, (unsigned)peat_level_number(unit, draw_in_unit(unit, d)));
    }
}

/* Characters behind those that are there. They are 20 to 6E: what later ones look like in other programs differs. */
static void put_text(struct clearance *c, uint8_t *place, unsigned characters, struct draw *d)
{
    peat_put_two_bytes(place + PEAT_PLACE_CHARACTERS, characters);
    while (characters-- > 0)
        c->text[c->characters++] = (uint8_t)(0x20 + drawn(d, 0x4F));
}

/* A free text has a line or two; every other may be longer, and some messages then have a few thousand bits. (256 characters are the most; other programs show
   240 of a line.) */
static unsigned draw_length(struct draw *d)
{
    unsigned most = drawn(d, 2) == 0 ? 200 : 40;
    return 1 + drawn(d, most);
}

static void put_element(struct clearance *c, uint8_t *place, unsigned direction, struct draw *d)
{
    unsigned number = draw_element(direction, d), i;
    place[PEAT_PLACE_NUMBER] = (uint8_t)number;
    switch (peat_element_kind(direction, number)) {
    case PEAT_KIND_TWO_LEVELS: put_level(place + PEAT_PLACE_OTHER, d); /* and the first */ /* fall through */
    case PEAT_KIND_LEVEL: put_level(place + PEAT_PLACE_LEVEL, d); break;
    case PEAT_KIND_TIME:
        place[PEAT_PLACE_HOURS] = (uint8_t)drawn(d, 24);
        place[PEAT_PLACE_MINUTES] = (uint8_t)drawn(d, 60);
        break;
    case PEAT_KIND_CODE:
        for (i = 0; i < 4; i++)
            place[PEAT_PLACE_CODE + i] = (uint8_t)drawn(d, 8);
        break;
    case PEAT_KIND_FREE_TEXT: put_text(c, place, draw_length(d), d); break;
    case PEAT_KIND_FACILITY: put_text(c, place, drawn(d, 2) ? 4 + drawn(d, 5) : 0, d); break;
    case PEAT_KIND_FACILITY_DESIGNATION: put_text(c, place, 4 + drawn(d, 5), d); break;
    case PEAT_KIND_ATIS_CODE: put_text(c, place, 1, d); break;
    }
}

/* ---- the message */

static void write_bits(struct clearance *c, unsigned side)
{
    struct peat_written_message answer = peat_write_message(direction_of(side), PEAT_ARRAY(c->message), c->text, c->characters, PEAT_ARRAY(c->bit));
    c->bits = peat_refusal(answer) == PEAT_TAKEN ? peat_message_bits(answer) : 0;
}

void clearance_compose(struct clearance *c, unsigned side, uint64_t n)
{
    struct draw d = draw_of(side, n);
    unsigned i, count = 1 + drawn(&d, 2) * drawn(&d, PEAT_INNER_PLACES);
    memset(c, 0, sizeof *c);
    put_front(c->message, n, &d);
    c->message[PEAT_INNER_COUNT] = (uint8_t)count;
    for (i = 0; i < count; i++)
        put_element(c, c->message + peat_place_at(i), direction_of(side), &d);
    write_bits(c, side);
}

int clearance_read(struct clearance *c, unsigned side, const uint8_t *bit, unsigned bits)
{
    struct peat_message_answer answer;
    memset(c, 0, sizeof *c);
    answer = peat_read_message(direction_of(side), bit, (bits + 7) / 8, bits, PEAT_ARRAY(c->message), PEAT_ARRAY(c->text));
    if (peat_refusal(answer) != PEAT_TAKEN)
        return 0;
    c->characters = peat_message_characters(answer);
    c->bits = bits;
    memcpy(c->bit, bit, (bits + 7) / 8);
    return 1;
}

/* bits of a header without a reference number and without an acknowledgement: two presence bits, the identification number, date and time */
enum { HEADER_BITS = 2 + 6 + 7 + 4 + 5 + 5 + 6 + 6, REFERENCE_BITS = 6, ACKNOWLEDGEMENT_BITS = 1 };

unsigned clearance_elements(const struct clearance *c, uint8_t *bit)
{
    unsigned at = HEADER_BITS + (c->message[PEAT_INNER_REFERENCED] ? REFERENCE_BITS : 0) + (c->message[PEAT_INNER_ACKNOWLEDGED] ? ACKNOWLEDGEMENT_BITS : 0);
    unsigned i;
    memset(bit, 0, PEAT_BUFFER_LEAST);
    for (i = 0; at + i < c->bits; i++)
        bit[i / 8] |= (uint8_t)((c->bit[(at + i) / 8] >> (7 - (at + i) % 8) & 1) << (7 - i % 8));
    return i;
}

/* ---- the number that the host sets */

unsigned clearance_numbered(const struct clearance *c, unsigned side)
{
    if (side == PEAT_GROUND)
        return c->message[PEAT_INNER_IDENTIFICATION];
    return c->message[PEAT_INNER_REFERENCED] ? c->message[PEAT_INNER_REFERENCE] : NO_NUMBER;
}

void clearance_set_number(struct clearance *c, unsigned side, unsigned number)
{
    if (side == PEAT_GROUND) {
        c->message[PEAT_INNER_IDENTIFICATION] = (uint8_t)number;
    } else {
        c->message[PEAT_INNER_REFERENCED] = number != NO_NUMBER;
        c->message[PEAT_INNER_REFERENCE] = (uint8_t)(number != NO_NUMBER ? number : 0);
    }
    write_bits(c, side);
}

/* ---- which clearance a message is */

uint64_t clearance_of(const struct clearance *c, unsigned side)
{
    static struct clearance want; /* one call at a time */
    uint64_t n = clearance_stamped(c->message);
    clearance_compose(&want, side, n);
    clearance_set_number(&want, side, clearance_numbered(c, side));
    return want.bits == c->bits && memcmp(want.bit, c->bit, (c->bits + 7) / 8) == 0 && memcmp(want.message, c->message, sizeof c->message) == 0 &&
                   want.characters == c->characters && memcmp(want.text, c->text, c->characters) == 0
               ? n
               : 0;
}

void clearance_said(char *said, size_t room, unsigned side, uint64_t n)
{
    static struct clearance c;
    unsigned i;
    size_t used = 0;
    clearance_compose(&c, side, n);
    said[0] = 0;
    for (i = 0; i < c.message[PEAT_INNER_COUNT] && used < room; i++)
        used += (size_t)snprintf(said + used, room - used, "%s%s%u", i ? " " : "", side == PEAT_AIR ? "dM" : "uM", c.message[peat_place_at(i)]);
}
