/*
 * Edges of message data, of the message and of an APDU by itself.
 */
#include <stdio.h>
#include <string.h>

#include "card.h"

void message_edges(void)
{
    static const size_t lengths[] = {0, 1, 131, 132, 133, PEAT_BUFFER_LEAST - 1, PEAT_BUFFER_LEAST};
    static const uint8_t data[] = {0x21, 0x54, 0xA8, 0x00}; /* no identifier, ten bits 1010010101, a check of no bits */
    uint8_t message[132], text[5 * 256];
    int i, j, k, w, parts = 1, sizes = 1, codes = 1, nothing = 1;
    struct args a;
    uint64_t said;
    for (w = DATA_PART; w <= WRITE_MESSAGE; w++) {
        if (w == READ_APDU)
            continue;
        for (i = 0; i < 7; i++)
            for (j = 0; j < 7; j++)
                for (k = 0; k < 3; k++) {
                    memset(&a, 0, sizeof a);
                    a.n[0] = 1 + (uint64_t)k % 2;
                    lend(&a, 2, w == WRITE_MESSAGE ? make_message(any, 1 + (unsigned)k % 2, message, text) : 0);
                    if (a.msgs.len > 0)
                        memcpy(a.msgs.at, text, a.msgs.len);
                    lend(&a, w == READ_MESSAGE ? 0 : 1, lengths[i]);
                    if (w == WRITE_MESSAGE && lengths[i] == 132)
                        memcpy(a.ids.at, message, 132);
                    lend(&a, 5, lengths[j]);
                    sizes &= agrees((enum which)w, &a, &said) && (said == PEAT_ROOM) == (lengths[j] < PEAT_BUFFER_LEAST);
                }
        for (i = 0; i < 64; i++) {
            memset(&a, 0, sizeof a);
            a.n[0] = ((uint64_t)1 << i) | 1;
            a.n[1] = (uint64_t)1 << i;
            lend(&a, w == READ_MESSAGE ? 0 : 1, 132);
            lend(&a, 4, 64);
            lend(&a, 5, PEAT_BUFFER_LEAST);
            codes &= agrees((enum which)w, &a, &said) && (i < (w == FORWARD_PART ? 5 : 2) || said == PEAT_SHAPE);
        }
        memset(&a, 0, sizeof a);
        nothing &= agrees((enum which)w, &a, &said) && said == PEAT_ROOM;
    }
    for (i = 0; i < 3; i++) {
        memset(&a, 0, sizeof a);
        a.n[0] = (uint64_t)i;
        lend(&a, 4, sizeof data);
        memcpy(a.bytes.at, data, sizeof data);
        lend(&a, 5, PEAT_BUFFER_LEAST);
        parts &= agrees(DATA_PART, &a, &said) && peat_part_given(AS(peat_part_answer, said)) == (i > 0) && peat_part_bits(AS(peat_part_answer, said)) == (i == 1 ? 10 : 0);
    }
    check(sizes, "message ranges and buffers of other lengths");
    check(codes, "codes of no type, in the calls of a message");
    check(nothing, "the calls of a message with ranges of no bytes");
    check(parts && a.first.at != NULL, "the parts of message data");
}

/* ---- edges of an APDU by itself: every type code, bytes of no length, every cut, every bit turned, and positions by hand */

/* The forward of 15 November 2026, 12:30:59, flight BAW123, address 400123, downlink, twelve bits F40, as GroundPDUs:
   0 100, 0011110 1010 01110, 01100 011110 111011, 100 and seven bits for each character, 24 bits, 1, 00001100, the bits. */
const uint8_t by_hand[16] = {0x43, 0xD4, 0xE6, 0x3D, 0xDC, 0x85, 0x06, 0xBB, 0x16, 0x4C, 0xD0, 0x00, 0x48, 0xE1, 0x9E, 0x80};

/* The same in application type 2 with the element dM0 in place: 0, 000 and 0 0000000 behind the 1. */
const uint8_t plain_by_hand[15] = {0x43, 0xD4, 0xE6, 0x3D, 0xDC, 0x85, 0x06, 0xBB, 0x16, 0x4C, 0xD0, 0x00, 0x48, 0xE0, 0x00};

static struct peat_apdu_answer reads_apdu(uint64_t type, const uint8_t *bytes, size_t len, int *ok)
{
    struct args a;
    uint64_t said;
    memset(&a, 0, sizeof a);
    a.n[0] = type;
    lend(&a, 4, len);
    if (len > 0)
        memcpy(a.bytes.at, bytes, len);
    *ok &= agrees(READ_APDU, &a, &said);
    return AS(peat_apdu_answer, said);
}

void apdu_edges(void)
{
    static const struct {
        uint64_t type;
        uint8_t bytes[8];
        size_t len;
        unsigned refusal, position;
    } hand[] = {
        {PEAT_AIRCRAFT_PDUS, {0}, 0, PEAT_SHORT, 0},                    /* no bytes */
        {PEAT_AIRCRAFT_PDUS, {0x80}, 1, PEAT_EXTENSION, 0},             /* of the CHOICE */
        {PEAT_GROUND_PDUS, {0x60}, 1, PEAT_RANGE, 1},                   /* alternative 6 */
        {PEAT_AIRCRAFT_PDUS, {0x0D}, 1, PEAT_RANGE, 4},                 /* user reason 13 */
        {PEAT_AIRCRAFT_PDUS, {0x10}, 1, PEAT_EXTENSION, 3},             /* of the reason */
        {PEAT_AIRCRAFT_PDUS, {0x50}, 1, PEAT_DEFAULT, 4},               /* mode present as cpdlc */
        {PEAT_AIRCRAFT_PDUS, {0x60}, 1, PEAT_SHORT, 6},                 /* send: the check's length is cut */
        {PEAT_AIRCRAFT_PDUS, {0x66, 0x20}, 2, PEAT_SHORT, 6},           /* a length of 16 bits, cut after 8: its first bit */
        {PEAT_AIRCRAFT_PDUS, {0x66, 0x20, 0x04}, 3, PEAT_SHORT, 22},    /* a message of 2,049 bits: read, and not there */
        {PEAT_AIRCRAFT_PDUS, {0x66, 0xFF, 0xFC}, 3, PEAT_SHORT, 22},    /* of 16,383 */
        {PEAT_AIRCRAFT_PDUS, {0x67, 0x04}, 2, PEAT_LENGTH_FORM, 6},     /* a fragment: C1 */
        {PEAT_AIRCRAFT_PDUS, {0x61, 0x04}, 2, PEAT_LIMIT, 6},           /* a check of 65 bits */
        {PEAT_AIRCRAFT_PDUS, {0x66, 0x01, 0xFC}, 3, PEAT_LENGTH_FORM, 6}, /* 80 7F */
        {PEAT_AIRCRAFT_PDUS, {0x60, 0x02}, 2, PEAT_TAIL, 14},           /* the first padding bit */
        {PEAT_AIRCRAFT_PDUS, {0x60, 0x01}, 2, PEAT_TAIL, 15},           /* the second: not the beginning of the padding */
        {PEAT_AIRCRAFT_PDUS, {0x60, 0x00, 0x00}, 3, PEAT_TAIL, 16},     /* a byte of zeros behind it */
        {PEAT_AIRCRAFT_PDUS, {0x60, 0x01, 0x00}, 3, PEAT_TAIL, 15},     /* the padding before the bytes */
        {PEAT_GROUND_PDUS, {0x4F, 0x00}, 2, PEAT_RANGE, 4},             /* forward: year 2116 */
        {PEAT_GROUND_PDUS, {0x40, 0x18}, 2, PEAT_RANGE, 11},            /* month 13 */
        {PEAT_GROUND_PDUS, {0x40, 0x01, 0xF0}, 3, PEAT_RANGE, 15},      /* day 32 */
        {PEAT_GROUND_PDUS, {0x40, 0x00, 0x00}, 3, PEAT_SHORT, 20},      /* hours cut */
        {PEAT_GROUND_PDUS, {0x58}, 1, PEAT_EXTENSION, 4},               /* of a forward response */
        {PEAT_GROUND_PDUS, {0x56}, 1, PEAT_RANGE, 5},                   /* result 3 */
        {PEAT_GROUND_PDUS, {0x51}, 1, PEAT_TAIL, 7},
        {PEAT_AIRCRAFT_PDUS, {0x70, 0x00}, 2, PEAT_SHORT, 14},          /* additions: their count is cut */
        {PEAT_AIRCRAFT_PDUS, {0x70, 0x02}, 2, PEAT_EXTENSION, 14},      /* the long form of the count, by its first bit */
        {PEAT_AIRCRAFT_PDUS, {0x70, 0x00, 0x00, 0x00}, 4, PEAT_EXTENSION, 21}, /* none is there */
        {PEAT_AIRCRAFT_PDUS, {0x70, 0x00, 0x04}, 3, PEAT_SHORT, 22},    /* the length of one is cut */
        {PEAT_AIRCRAFT_PDUS, {0x70, 0x00, 0x07, 0x00}, 4, PEAT_LENGTH_FORM, 22}, /* in fragments */
        {PEAT_AIRCRAFT_PDUS, {0x70, 0x00, 0x04, 0x04}, 4, PEAT_SHORT, 30}, /* an octet that is not there */
        {PEAT_AIRCRAFT_PDUS, {0x70, 0x00, 0x04, 0x01}, 4, PEAT_TAIL, 31}, /* the padding behind an addition of no octets */
        /* application type 2: a header of 41 bits in place, 0, the count in three bits, 0 and the element's index */
        {PEAT_PLAIN_AIRCRAFT_PDUS, {0x0E}, 1, PEAT_RANGE, 4},           /* user reason 7 */
        {PEAT_PLAIN_GROUND_PDUS, {0x07}, 1, PEAT_RANGE, 5},
        {PEAT_PLAIN_GROUND_PDUS, {0x20}, 1, PEAT_TAKEN, 0},             /* a start without a message */
        {PEAT_PLAIN_GROUND_PDUS, {0x21}, 1, PEAT_TAIL, 7},
        {PEAT_PLAIN_GROUND_PDUS, {0x28}, 1, PEAT_SHORT, 7},             /* a message, cut behind its presence bits */
        {PEAT_PLAIN_AIRCRAFT_PDUS, {0x40}, 1, PEAT_TAKEN, 0},
        {PEAT_PLAIN_AIRCRAFT_PDUS, {0x58}, 1, PEAT_TAKEN, 0},           /* in mode dsc */
        {PEAT_PLAIN_AIRCRAFT_PDUS, {0x50}, 1, PEAT_DEFAULT, 4},
        {PEAT_PLAIN_AIRCRAFT_PDUS, {0x60, 0, 0, 0, 0, 0, 0x00}, 7, PEAT_TAKEN, 0},        /* dM0 */
        {PEAT_PLAIN_AIRCRAFT_PDUS, {0x60, 0, 0, 0, 0, 0, 0x00, 0}, 8, PEAT_TAIL, 56},     /* a byte behind it */
        {PEAT_PLAIN_AIRCRAFT_PDUS, {0x60, 0, 0, 0, 0, 0}, 6, PEAT_SHORT, 48},             /* cut before its element */
        {PEAT_PLAIN_AIRCRAFT_PDUS, {0x60, 0, 0, 0, 0, 0x08, 0}, 7, PEAT_NOT_CARRIED, 44}, /* constrained data */
        {PEAT_PLAIN_AIRCRAFT_PDUS, {0x60, 0, 0, 0, 0, 0x05, 0}, 7, PEAT_RANGE, 45},       /* six elements */
        {PEAT_PLAIN_AIRCRAFT_PDUS, {0x60, 0, 0, 0, 0, 0, 0x80}, 7, PEAT_EXTENSION, 48},   /* of the element */
        {PEAT_PLAIN_AIRCRAFT_PDUS, {0x60, 0, 0, 0, 0, 0, 0x0B}, 7, PEAT_NOT_CARRIED, 49}, /* dM11 */
        {PEAT_PLAIN_AIRCRAFT_PDUS, {0x60, 0, 0, 0, 0, 0, 0x7F}, 7, PEAT_RANGE, 49},       /* element 127 */
        {PEAT_PLAIN_AIRCRAFT_PDUS, {0x48, 0, 0, 0, 0, 0, 0x02, 0xC0}, 8, PEAT_NOT_CARRIED, 51}, /* dM11 in a start */
    };
    uint8_t bytes[8];
    struct peat_apdu_answer said;
    size_t i, j;
    int ok = 1, codes = 1, positions = 1, cuts = 1;
    for (i = 0; i < sizeof hand / sizeof *hand; i++) {
        said = reads_apdu(hand[i].type, hand[i].bytes, hand[i].len, &ok);
        positions &= peat_refusal(said) == hand[i].refusal && peat_position(said) == hand[i].position;
        for (j = 0; j <= hand[i].len; j++)
            cuts &= peat_position(reads_apdu(hand[i].type, hand[i].bytes, j, &ok)) <= 8 * j;
        for (j = 0; j < 8 * hand[i].len; j++) {
            memcpy(bytes, hand[i].bytes, sizeof bytes);
            bytes[j / 8] ^= (uint8_t)(0x80u >> j % 8);
            reads_apdu(hand[i].type, bytes, hand[i].len, &ok);
        }
    }
    for (i = 0; i < 64; i++)
        codes &= WORD(reads_apdu(((uint64_t)1 << i) | 8, hand[6].bytes, 1, &ok)) == PEAT_SHAPE;
    codes &= WORD(reads_apdu(0, NULL, 0, &ok)) == PEAT_SHAPE && WORD(reads_apdu(5, NULL, 0, &ok)) == PEAT_SHAPE && WORD(reads_apdu(PEAT_NONE, NULL, 0, &ok)) == PEAT_SHAPE;
    memcpy(bytes, "\x58\x00\x00", 3); /* startdown, mode dsc, a check of no bits */
    said = reads_apdu(PEAT_AIRCRAFT_PDUS, bytes, 2, &ok);
    codes &= peat_refusal(said) == PEAT_TAKEN && peat_position(said) == 0 && peat_apdu_kind(said) == PEAT_APDU_START && peat_apdu_number(said) == 1 && peat_apdu_has_data(said) == 1;
    said = reads_apdu(PEAT_GROUND_PDUS, (const uint8_t *)"\x06\x00", 2, &ok); /* abort by the user: 0000 0 1100 */
    codes &= peat_refusal(said) == PEAT_TAKEN && peat_apdu_kind(said) == PEAT_APDU_ABORT_USER && peat_apdu_number(said) == 12 && peat_apdu_has_data(said) == 0;
    said = reads_apdu(PEAT_GROUND_PDUS, by_hand, sizeof by_hand, &ok);
    codes &= peat_refusal(said) == PEAT_TAKEN && peat_apdu_kind(said) == PEAT_APDU_FORWARD && peat_apdu_number(said) == 0 && peat_apdu_has_data(said) == 0;
    for (i = 0; i < sizeof by_hand; i++)
        cuts &= peat_position(reads_apdu(PEAT_GROUND_PDUS, by_hand, i, &ok)) <= 8 * i;
    said = reads_apdu(PEAT_PLAIN_GROUND_PDUS, plain_by_hand, sizeof plain_by_hand, &ok);
    codes &= peat_refusal(said) == PEAT_TAKEN && peat_apdu_kind(said) == PEAT_APDU_FORWARD && peat_apdu_has_data(said) == 0;
    for (i = 0; i < sizeof plain_by_hand; i++)
        cuts &= peat_position(reads_apdu(PEAT_PLAIN_GROUND_PDUS, plain_by_hand, i, &ok)) <= 8 * i;
    said = reads_apdu(PEAT_PLAIN_GROUND_PDUS, (const uint8_t *)"\x20", 1, &ok);
    codes &= peat_apdu_kind(said) == PEAT_APDU_START && peat_apdu_has_data(said) == 0;
    said = reads_apdu(PEAT_PLAIN_AIRCRAFT_PDUS, (const uint8_t *)"\x58", 1, &ok);
    codes &= peat_apdu_kind(said) == PEAT_APDU_START && peat_apdu_number(said) == 1 && peat_apdu_has_data(said) == 0;
    said = reads_apdu(PEAT_PLAIN_AIRCRAFT_PDUS, (const uint8_t *)"\x60\0\0\0\0\0\0", 7, &ok);
    codes &= peat_apdu_kind(said) == PEAT_APDU_SEND && peat_apdu_has_data(said) == 1;
    said = reads_apdu(PEAT_GROUND_PDUS, (const uint8_t *)"\x54", 1, &ok);
    codes &= peat_refusal(said) == PEAT_TAKEN && peat_apdu_kind(said) == PEAT_APDU_FORWARD_RESPONSE && peat_apdu_number(said) == PEAT_VERSION_NOT_EQUAL &&
             peat_apdu_has_data(said) == 0;
    said = reads_apdu(PEAT_AIRCRAFT_PDUS, (const uint8_t *)"\x70\x00\x04\x00", 4, &ok); /* send, and an addition of no octets */
    codes &= peat_refusal(said) == PEAT_TAKEN && peat_apdu_kind(said) == PEAT_APDU_SEND && peat_apdu_has_data(said) == 1;
    check(ok, "APDUs by themselves, cut and with each bit turned, are as the model has them");
    check(positions, "the position of a refused APDU, by hand");
    check(cuts, "a position within the bits of a cut APDU");
    check(codes, "codes of no type, and the answer of an APDU that is accepted");
}
