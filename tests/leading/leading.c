/* Asks peat_read_leading, and peat_read_apdu beside it.
 *
 *   leading            APDUs on standard input, a line each: TYPE KIND MODE HEX (TYPE and KIND as numbers; MODE of a start, else 0). More than
 *                      a thousand are accepted whole; the others are beyond the card's sizes. Then every string of no byte, of one and
 *                      of two, and random strings and damaged APDUs.
 *   leading --wrong N  the same with a router of this file in the call's place: N = 0 is right, 1 to WRONG have a fault each
 *
 * The bytes end where an unreadable page begins, and before each call so does the first byte alone. What the leading fields say is worked out here from
 * the bits, one by one. The last line is `N passed, M failed`. */
#include <stdio.h>
#include <stdlib.h>
#include <string.h>
#include "../lib/answers.h"
#include "../lib/guard.h"

enum { PLACE = 65536, WRONG = 8, RANDOM = 400000, DAMAGED = 40 };

static unsigned long passed, failed;
static uint8_t *edge; /* the first byte that can't be read */
static int wrong = -1;

static void check(int right, const char *what, unsigned type, const uint8_t *bytes, size_t len)
{
    if (right) {
        passed++;
        return;
    }
    if (failed++ < 10) {
        printf("leading: %s: type %u,", what, type);
        for (size_t i = 0; i < len && i < 12; i++)
            printf(" %02X", (unsigned)bytes[i]);
        printf("%s\n", len > 12 ? " .." : "");
    }
}

/* ---- what the leading fields say, bit by bit */

struct bits { const uint8_t *bytes; size_t count, at; };

/* the next bit; 2 where there is none */
static unsigned next_bit(struct bits *b)
{
    unsigned bit;
    if (b->at == b->count)
        return 2;
    bit = b->bytes[b->at / 8] >> (7 - b->at % 8) & 1;
    b->at++;
    return bit;
}

static uint64_t refusal(unsigned number, size_t at) { return number + 256 * (uint64_t)at; }
static uint64_t is(unsigned kind, unsigned mode) { return 256 * (uint64_t)kind + 65536 * (uint64_t)mode; }

static uint64_t model(uint64_t type, const uint8_t *bytes, size_t len)
{
    struct bits b = {bytes, 8 * len, 0};
    unsigned kind = 0, bit, width = type == PEAT_AIRCRAFT_PDUS ? 2 : 3, i;
    if (type != PEAT_AIRCRAFT_PDUS && type != PEAT_GROUND_PDUS)
        return PEAT_SHAPE;
    bit = next_bit(&b);
    if (bit == 2)
        return refusal(PEAT_SHORT, 0);
    if (bit == 1)
        return refusal(PEAT_EXTENSION, 0);
    for (i = 0; i < width; i++)
        kind = 2 * kind + next_bit(&b);
    if (kind > (type == PEAT_AIRCRAFT_PDUS ? PEAT_APDU_SEND : PEAT_APDU_FORWARD_RESPONSE))
        return refusal(PEAT_RANGE, 1);
    if (kind != PEAT_APDU_START || type != PEAT_AIRCRAFT_PDUS || next_bit(&b) == 0)
        return is(kind, 0);
    bit = next_bit(&b);
    return bit == 0 ? refusal(PEAT_DEFAULT, 4) : is(kind, 1);
}

/* ---- routers with a fault: the test must notice each */

static uint64_t router(uint64_t type, const uint8_t *bytes, size_t len)
{
    uint64_t n = model(type, bytes, len);
    unsigned first = len > 0 ? bytes[0] : 0;
    switch (wrong) {
    case 1: return n == refusal(PEAT_DEFAULT, 4) ? is(PEAT_APDU_START, 0) : n;                     /* no 17 */
    case 2: return n == refusal(PEAT_RANGE, 1) ? is(first >> 4, 0) : n;                            /* alternative 6 and 7 */
    case 3: return n == refusal(PEAT_EXTENSION, 0) ? model(type, (uint8_t[]){first & 127}, 1) : n; /* the extension bit not looked at */
    case 4: return n == is(PEAT_APDU_SEND, 0) ? is(PEAT_APDU_SEND, first >> 4 & 1) : n;            /* the mode of a send */
    case 5: return len > 1 && bytes[1] == 0xFF ? refusal(PEAT_SHORT, 8) : n;                       /* the second byte counts */
    case 6: return len == 0 ? is(0, 0) : n;                                                        /* no byte at all */
    case 7: return n == refusal(PEAT_DEFAULT, 4) ? refusal(PEAT_DEFAULT, 3) : n;                   /* another place */
    case 8: return type != PEAT_AIRCRAFT_PDUS ? model(PEAT_GROUND_PDUS, bytes, len) : n;           /* any other type is GroundPDUs */
    default: return n;
    }
}

static uint64_t leading(uint64_t type, const uint8_t *bytes, size_t len)
{
    return wrong < 0 ? WORD(peat_read_leading(type, bytes, len)) : router(type, bytes, len);
}

/* ---- asking */

/* Whether the two calls agree as document 02, E11 asks. */
static int agree(struct peat_apdu_answer quick, struct peat_apdu_answer whole)
{
    unsigned kind = peat_apdu_kind(quick), refused = peat_refusal(quick);
    if (peat_refusal(whole) == 0)
        return refused == 0 && kind == peat_apdu_kind(whole) && peat_apdu_has_data(quick) == 0 &&
            peat_apdu_number(quick) == (kind == PEAT_APDU_START ? peat_apdu_number(whole) : 0);
    return refused == 0 || refused == PEAT_SHORT || refused == PEAT_RANGE || refused == PEAT_EXTENSION || refused == PEAT_DEFAULT;
}

static uint64_t ask(unsigned type, const uint8_t *from, size_t len)
{
    uint8_t *bytes = edge - len, kept[16];
    uint64_t quick;
    memcpy(kept, from, len < sizeof kept ? len : sizeof kept);
    memmove(bytes, from, len);
    quick = leading(type, bytes, len);
    check(quick == model(type, bytes, len), "not what the bits say", type, bytes, len);
    check(agree(AS(peat_apdu_answer, quick), peat_read_apdu(type, bytes, len)), "the whole decoder says otherwise", type, bytes, len);
    if (len > 0) {
        edge[-1] = kept[0];
        check(leading(type, edge - 1, 1) == quick, "the first byte alone says otherwise", type, edge - 1, 1);
    }
    return quick;
}

static uint64_t state = 9705;
static uint32_t chance(uint32_t below)
{
    state = state * 6364136223846793005u + 1442695040888963407u;
    return (uint32_t)((state >> 33) % below);
}

static int digit(int c) { return c >= '0' && c <= '9' ? c - '0' : c >= 'A' && c <= 'F' ? c - 'A' + 10 : c >= 'a' && c <= 'f' ? c - 'a' + 10 : -1; }

static int ask_lines(void)
{
    static char line[PLACE];
    static uint8_t bytes[PLACE / 2], turned[PLACE / 2];
    unsigned type, kind, mode, accepted = 0;
    int at;
    while (fgets(line, sizeof line, stdin) != NULL) {
        size_t len = 0, i;
        if (sscanf(line, "%u %u %u %n", &type, &kind, &mode, &at) != 3)
            return 0;
        for (i = (size_t)at; digit(line[i]) >= 0 && digit(line[i + 1]) >= 0; i += 2)
            bytes[len++] = (uint8_t)(16 * digit(line[i]) + digit(line[i + 1]));
        if (len == 0 || line[i] != '\n')
            return 0;
        check(ask(type, bytes, len) == is(kind, mode), "an APDU of the independent coder is another", type, bytes, len);
        accepted += peat_refusal(peat_read_apdu(type, bytes, len)) == 0;
        for (i = 0; i < DAMAGED; i++) {
            size_t bit = chance((uint32_t)(len < 3 ? 8 * len : i % 2 ? 24 : 8 * len));
            memcpy(turned, bytes, len);
            turned[bit / 8] ^= (uint8_t)(128 >> bit % 8);
            ask(type, turned, 1 + chance((uint32_t)len));
            ask(3 - type, turned, len);
        }
    }
    return accepted > 1000;
}

static void ask_short(void)
{
    uint8_t bytes[2];
    for (unsigned type = PEAT_AIRCRAFT_PDUS; type <= PEAT_GROUND_PDUS; type++) {
        ask(type, bytes, 0);
        for (unsigned n = 0; n < 65536; n++) {
            bytes[0] = (uint8_t)(n / 256);
            bytes[1] = (uint8_t)(n % 256);
            ask(type, bytes, 2);
            if (n % 256 == 0)
                ask(type, bytes, 1);
        }
    }
}

static void ask_random(void)
{
    static const uint64_t none[] = {0, 3, 255, 256 + 1, 65536 + 2, UINT64_MAX, (uint64_t)1 << 32 | 1, (uint64_t)1 << 63};
    uint8_t bytes[64];
    for (unsigned i = 0; i < RANDOM; i++) {
        size_t len = chance(sizeof bytes);
        for (size_t j = 0; j < len; j++)
            bytes[j] = (uint8_t)chance(256);
        ask(1 + i % 2, bytes, len);
        if (i % 100 == 0)
            for (size_t j = 0; j < sizeof none / sizeof none[0]; j++)
                check(leading(none[j], bytes, len) == PEAT_SHAPE, "a type that is none", (unsigned)none[j], bytes, len);
    }
}

int main(int argc, char **argv)
{
    edge = guarded_end(PLACE);
    if (argc == 3 && strcmp(argv[1], "--wrong") == 0)
        wrong = atoi(argv[2]);
    if (argc != 1 && (wrong < 0 || wrong > WRONG))
        return 2;
    if (!ask_lines()) {
        puts("leading: standard input has no thousand APDUs that are accepted, or a line that is none");
        failed++;
    }
    ask_short();
    ask_random();
    printf("%lu passed, %lu failed\n", passed, failed);
    return failed != 0;
}
