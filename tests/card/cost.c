/*
 * One call of each kind, to be measured.
 *
 *     cost          the rows: number, entry point, what it is
 *     cost ROW      makes the call of a row (measure counts its instructions)
 *     cost stack    the stack that the call of each row takes, on a stack of its own that was painted before
 */
#define _DEFAULT_SOURCE
#include <stdio.h>
#include <stdlib.h>
#include <string.h>

#include "../lib/stack.h"
#include "calls.h"

enum pdu { PDU_NONE, PDU_SEND, PDU_START, PDU_ABORT_USER, PDU_ABORT_PROVIDER, PDU_INVALID, PDU_FORWARD, PDU_RESPONSE };

/* message data: the least that there is; 16 octets, a message of 2,048 bits and 64 bits; the same with the largest message. The CPDLC
   message itself is one element, one of 2,048 bits, or the largest, 9,097. */
enum size { LEAST, MIDDLE, LARGEST };

struct row {
    const char *title;
    enum which which;
    unsigned side, state, dsc;
    uint64_t n[12];
    enum size size;
    enum pdu pdu;
};

/* a forward request: class, security, date and time, eight characters, address, downlink; in type 2 the elements are those of an uplink message */
#define HEADING {0, 0, 2026, 11, 15, 12, 30, 59, 8, 77, 5, PEAT_FORWARD_DOWNLINK}
#define PLAIN_HEADING {0, 0, 2026, 11, 15, 12, 30, 59, 8, 77, 5, PEAT_FORWARD_UPLINK}

/* the sides of type 2, as a record's first byte has them */
enum { PLAIN_AIR = 3, PLAIN_GROUND = 4 };

static const struct row rows[] = {
    {"least data", START_REQUEST, 1, PEAT_IDLE, 0, {0}, LEAST, PDU_NONE},
    {"message of 2,048 bits", START_REQUEST, 1, PEAT_IDLE, 0, {0}, MIDDLE, PDU_NONE},
    {"largest data", START_REQUEST, 1, PEAT_IDLE, 0, {0}, LARGEST, PDU_NONE},
    {"PROHIBITED, largest data", START_REQUEST, 1, PEAT_DIALOGUE, 0, {0}, LARGEST, PDU_NONE},
    {"STALE, largest data", START_REQUEST, 1, PEAT_IDLE, 0, {0}, LARGEST, PDU_NONE},
    {"mode dsc, largest data", START_REQUEST, 1, PEAT_IDLE, 0, {PEAT_DSC}, LARGEST, PDU_NONE},
    {"largest data", START_RESPONSE, 2, PEAT_START_IND, 0, {0}, LARGEST, PDU_NONE},
    {"largest data", DSC_START_RESPONSE, 2, PEAT_START_IND, 1, {0}, LARGEST, PDU_NONE},
    {"message of 8 bits", MESSAGE_REQUEST, 1, PEAT_DIALOGUE, 0, {9}, LEAST, PDU_NONE},
    {"message of 2,048 bits, air", MESSAGE_REQUEST, 1, PEAT_DIALOGUE, 0, {9}, MIDDLE, PDU_NONE},
    {"largest data, air", MESSAGE_REQUEST, 1, PEAT_DIALOGUE, 0, {9}, LARGEST, PDU_NONE},
    {"largest data, ground", MESSAGE_REQUEST, 2, PEAT_DIALOGUE, 0, {9}, LARGEST, PDU_NONE},
    {"REPEAT, largest data", MESSAGE_REQUEST, 1, PEAT_DIALOGUE, 0, {7}, LARGEST, PDU_NONE},
    {"largest data", END_REQUEST, 2, PEAT_DIALOGUE, 0, {0}, LARGEST, PDU_NONE},
    {"largest data", DSC_END_REQUEST, 1, PEAT_DIALOGUE, 1, {0}, LARGEST, PDU_NONE},
    {"largest data", END_RESPONSE, 1, PEAT_END, 0, {0}, LARGEST, PDU_NONE},
    {"largest data", DSC_END_RESPONSE, 2, PEAT_END, 1, {0}, LARGEST, PDU_NONE},
    {"", USER_ABORT, 1, PEAT_DIALOGUE, 0, {5}, LEAST, PDU_NONE},
    {"message of 8 bits", FORWARD_REQUEST, 2, PEAT_IDLE, 0, HEADING, LEAST, PDU_NONE},
    {"message of 2,048 bits", FORWARD_REQUEST, 2, PEAT_IDLE, 0, HEADING, MIDDLE, PDU_NONE},
    {"largest message", FORWARD_REQUEST, 2, PEAT_IDLE, 0, HEADING, LARGEST, PDU_NONE},
    {"PROHIBITED, largest message", FORWARD_REQUEST, 2, PEAT_FORWARD, 0, HEADING, LARGEST, PDU_NONE},
    {"", TIMER_EXPIRY, 1, PEAT_START_REQ, 0, {0}, LEAST, PDU_NONE},
    {"", SYSTEM_ERROR, 1, PEAT_DIALOGUE, 0, {0}, LEAST, PDU_NONE},
    {"message of 2,048 bits", D_START_INDICATION, 2, PEAT_IDLE, 0, {1, 0, 1, 1, 0}, MIDDLE, PDU_START},
    {"largest data", D_START_INDICATION, 2, PEAT_IDLE, 0, {1, 0, 1, 1, 0}, LARGEST, PDU_START},
    {"invalid PDU", D_START_INDICATION, 2, PEAT_IDLE, 0, {1, 0, 1, 1, 0}, LARGEST, PDU_INVALID},
    {"a forward, message of 8 bits", D_START_INDICATION, 2, PEAT_IDLE, 0, {PEAT_FACILITY, 0, 1, 1, 0, 1}, LEAST, PDU_FORWARD},
    {"a forward, message of 2,048 bits", D_START_INDICATION, 2, PEAT_IDLE, 0, {PEAT_FACILITY, 0, 1, 1, 0, 1}, MIDDLE, PDU_FORWARD},
    {"a forward, largest message", D_START_INDICATION, 2, PEAT_IDLE, 0, {PEAT_FACILITY, 0, 1, 1, 0, 1}, LARGEST, PDU_FORWARD},
    {"a forward of another version", D_START_INDICATION, 2, PEAT_IDLE, 0, {PEAT_FACILITY, 0, 1, 1, 0, 2}, LARGEST, PDU_FORWARD},
    {"largest data", D_START_CONFIRMATION, 1, PEAT_START_REQ, 0, {0}, LARGEST, PDU_SEND},
    {"the answer to a forward", D_START_CONFIRMATION, 2, PEAT_FORWARD, 0, {PEAT_REJECTED}, LEAST, PDU_RESPONSE},
    {"message of 8 bits", D_DATA_INDICATION, 2, PEAT_DIALOGUE, 0, {0}, LEAST, PDU_SEND},
    {"message of 2,048 bits, ground", D_DATA_INDICATION, 2, PEAT_DIALOGUE, 0, {0}, MIDDLE, PDU_SEND},
    {"largest data, ground", D_DATA_INDICATION, 2, PEAT_DIALOGUE, 0, {0}, LARGEST, PDU_SEND},
    {"largest data, air", D_DATA_INDICATION, 1, PEAT_DIALOGUE, 0, {0}, LARGEST, PDU_SEND},
    {"invalid PDU", D_DATA_INDICATION, 1, PEAT_DIALOGUE, 0, {0}, LARGEST, PDU_INVALID},
    {"STALE, largest data", D_DATA_INDICATION, 1, PEAT_DIALOGUE, 0, {0}, LARGEST, PDU_SEND},
    {"no user data", D_DATA_INDICATION, 1, PEAT_DIALOGUE, 0, {0}, LEAST, PDU_NONE},
    {"largest data", D_END_INDICATION, 1, PEAT_DIALOGUE, 0, {0}, LARGEST, PDU_SEND},
    {"largest data", D_END_CONFIRMATION, 2, PEAT_END, 0, {0}, LARGEST, PDU_SEND},
    {"user", D_ABORT_INDICATION, 1, PEAT_DIALOGUE, 0, {0}, LEAST, PDU_ABORT_USER},
    {"provider, invalid PDU, ground", D_ABORT_INDICATION, 2, PEAT_DIALOGUE, 0, {1}, LARGEST, PDU_INVALID},
    {"", D_P_ABORT_INDICATION, 1, PEAT_DIALOGUE, 0, {0}, LEAST, PDU_NONE},
    {"", FRESH, 1, PEAT_IDLE, 0, {1, 0, 0, 1, PEAT_PROTECTED}, LEAST, PDU_NONE},
    {"least", READ_ENVELOPE, 1, PEAT_IDLE, 0, {1, 1, 0}, LEAST, PDU_NONE},
    {"2,048 bits, 269 bytes", READ_ENVELOPE, 1, PEAT_IDLE, 0, {2, UINT64_MAX, 2048}, MIDDLE, PDU_NONE},
    {"largest, 2,061 bytes", READ_ENVELOPE, 1, PEAT_IDLE, 0, {2, UINT64_MAX, 16383}, LARGEST, PDU_NONE},
    {"CUT, largest", READ_ENVELOPE, 1, PEAT_IDLE, 0, {2, UINT64_MAX, 16383}, LARGEST, PDU_NONE},
    {"least", WRITE_ENVELOPE, 1, PEAT_IDLE, 0, {1, 1, 0}, LEAST, PDU_NONE},
    {"2,048 bits, 269 bytes", WRITE_ENVELOPE, 1, PEAT_IDLE, 0, {2, UINT64_MAX, 2048}, MIDDLE, PDU_NONE},
    {"largest, 2,061 bytes", WRITE_ENVELOPE, 1, PEAT_IDLE, 0, {2, UINT64_MAX, 16383}, LARGEST, PDU_NONE},
    {"SHAPE, job 0, largest body", WRITE_ENVELOPE, 1, PEAT_IDLE, 0, {2, 0, 16383}, LARGEST, PDU_NONE},
    {"message of 8 bits", DATA_PART, 1, PEAT_IDLE, 0, {1}, LEAST, PDU_NONE},
    {"message, of 2,048 bits", DATA_PART, 1, PEAT_IDLE, 0, {1}, MIDDLE, PDU_NONE},
    {"message, largest data", DATA_PART, 1, PEAT_IDLE, 0, {1}, LARGEST, PDU_NONE},
    {"the year, message of 8 bits", FORWARD_PART, 1, PEAT_IDLE, 0, {PEAT_FORWARD_YEAR}, LEAST, PDU_NONE},
    {"message of 8 bits", FORWARD_PART, 1, PEAT_IDLE, 0, {PEAT_FORWARD_MESSAGE}, LEAST, PDU_NONE},
    {"message of 2,048 bits", FORWARD_PART, 1, PEAT_IDLE, 0, {PEAT_FORWARD_MESSAGE}, MIDDLE, PDU_NONE},
    {"largest message", FORWARD_PART, 1, PEAT_IDLE, 0, {PEAT_FORWARD_MESSAGE}, LARGEST, PDU_NONE},
    {"message of 8 bits", READ_FORWARD, 1, PEAT_IDLE, 0, {PEAT_PROTECTED}, LEAST, PDU_NONE},
    {"message of 2,048 bits", READ_FORWARD, 1, PEAT_IDLE, 0, {PEAT_PROTECTED}, MIDDLE, PDU_NONE},
    {"largest message", READ_FORWARD, 1, PEAT_IDLE, 0, {PEAT_PROTECTED}, LARGEST, PDU_NONE},
    {"a forward, largest message", READ_APDU, 1, PEAT_IDLE, 0, {PEAT_GROUND_PDUS}, LARGEST, PDU_FORWARD},
    {"a send, message of 8 bits", READ_APDU, 1, PEAT_IDLE, 0, {PEAT_GROUND_PDUS}, LEAST, PDU_SEND},
    {"a send, message of 2,048 bits", READ_APDU, 1, PEAT_IDLE, 0, {PEAT_GROUND_PDUS}, MIDDLE, PDU_SEND},
    {"a send, largest data", READ_APDU, 1, PEAT_IDLE, 0, {PEAT_GROUND_PDUS}, LARGEST, PDU_SEND},
    {"SHORT, largest data", READ_APDU, 1, PEAT_IDLE, 0, {PEAT_GROUND_PDUS}, LARGEST, PDU_INVALID},
    {"one element, no argument", READ_MESSAGE, 1, PEAT_IDLE, 0, {PEAT_UPLINK}, LEAST, PDU_NONE},
    {"five elements, 2,048 bits", READ_MESSAGE, 1, PEAT_IDLE, 0, {PEAT_UPLINK}, MIDDLE, PDU_NONE},
    {"five texts, 9,097 bits", READ_MESSAGE, 1, PEAT_IDLE, 0, {PEAT_UPLINK}, LARGEST, PDU_NONE},
    {"one element, no argument", WRITE_MESSAGE, 1, PEAT_IDLE, 0, {PEAT_UPLINK}, LEAST, PDU_NONE},
    {"five elements, 2,048 bits", WRITE_MESSAGE, 1, PEAT_IDLE, 0, {PEAT_UPLINK}, MIDDLE, PDU_NONE},
    {"five texts, 9,097 bits", WRITE_MESSAGE, 1, PEAT_IDLE, 0, {PEAT_UPLINK}, LARGEST, PDU_NONE},
    {"SHAPE, day 32, largest", WRITE_MESSAGE, 1, PEAT_IDLE, 0, {PEAT_UPLINK}, LARGEST, PDU_NONE},
    {"type 2, no message", START_REQUEST, PLAIN_GROUND, PEAT_IDLE, 0, {0}, LEAST, PDU_NONE},
    {"type 2, five texts", START_REQUEST, PLAIN_GROUND, PEAT_IDLE, 0, {0}, LARGEST, PDU_NONE},
    {"type 2, no message", START_RESPONSE, PLAIN_GROUND, PEAT_START_IND, 0, {0}, LEAST, PDU_NONE},
    {"type 2, five texts", START_RESPONSE, PLAIN_GROUND, PEAT_START_IND, 0, {PEAT_REJECTED}, LARGEST, PDU_NONE},
    {"type 2, one element", MESSAGE_REQUEST, PLAIN_GROUND, PEAT_DIALOGUE, 0, {9}, LEAST, PDU_NONE},
    {"type 2, five elements, 2,048 bits", MESSAGE_REQUEST, PLAIN_GROUND, PEAT_DIALOGUE, 0, {9}, MIDDLE, PDU_NONE},
    {"type 2, five texts", MESSAGE_REQUEST, PLAIN_GROUND, PEAT_DIALOGUE, 0, {9}, LARGEST, PDU_NONE},
    {"type 2, SHAPE, a check", MESSAGE_REQUEST, PLAIN_GROUND, PEAT_DIALOGUE, 0, {9}, LARGEST, PDU_NONE},
    {"type 2, five texts", END_REQUEST, PLAIN_GROUND, PEAT_DIALOGUE, 0, {0}, LARGEST, PDU_NONE},
    {"type 2, five texts", DSC_END_RESPONSE, PLAIN_GROUND, PEAT_END, 1, {0}, LARGEST, PDU_NONE},
    {"type 2, five texts", FORWARD_REQUEST, PLAIN_GROUND, PEAT_IDLE, 0, PLAIN_HEADING, LARGEST, PDU_NONE},
    {"type 2, five texts", D_START_INDICATION, PLAIN_AIR, PEAT_IDLE, 0, {PEAT_FACILITY, 0, 1, 1, 0}, LARGEST, PDU_START},
    {"type 2, a forward, five texts", D_START_INDICATION, PLAIN_GROUND, PEAT_IDLE, 0, {PEAT_FACILITY, 0, 1, 1, 0, 1}, LARGEST, PDU_FORWARD},
    {"type 2, five texts", D_START_CONFIRMATION, PLAIN_AIR, PEAT_START_REQ, 0, {PEAT_REJECTED}, LARGEST, PDU_SEND},
    {"type 2, one element", D_DATA_INDICATION, PLAIN_AIR, PEAT_DIALOGUE, 0, {0}, LEAST, PDU_SEND},
    {"type 2, five elements, 2,048 bits", D_DATA_INDICATION, PLAIN_AIR, PEAT_DIALOGUE, 0, {0}, MIDDLE, PDU_SEND},
    {"type 2, five texts", D_DATA_INDICATION, PLAIN_AIR, PEAT_DIALOGUE, 0, {0}, LARGEST, PDU_SEND},
    {"type 2, invalid PDU", D_DATA_INDICATION, PLAIN_AIR, PEAT_DIALOGUE, 0, {0}, LARGEST, PDU_INVALID},
    {"type 2, five texts", D_END_INDICATION, PLAIN_AIR, PEAT_DIALOGUE, 0, {0}, LARGEST, PDU_SEND},
    {"type 2, no user data", D_END_INDICATION, PLAIN_AIR, PEAT_DIALOGUE, 0, {0}, LEAST, PDU_NONE},
    {"type 2, five texts", READ_FORWARD, PLAIN_GROUND, PEAT_IDLE, 0, {PEAT_PLAIN}, LARGEST, PDU_NONE},
    {"type 2, a send, five texts", READ_APDU, PLAIN_AIR, PEAT_IDLE, 0, {PEAT_PLAIN_GROUND_PDUS}, LARGEST, PDU_SEND},
};
#define ROWS (sizeof rows / sizeof rows[0])

static uint8_t rec[PEAT_RECORD_BYTES], heading[PEAT_HEADING_BYTES], ids[16], msgs[(PEAT_MESSAGE_MOST + 7) / 8], checks[8], bytes[PEAT_BUFFER_LEAST], first[PEAT_BUFFER_LEAST], second[PEAT_BUFFER_LEAST];
static struct args args;
static struct bits bits;

static int is_plain(const struct row *r) { return r->side > PEAT_GROUND; }
static int of_forward(const struct row *r) { return r->which == FORWARD_REQUEST || r->which == READ_FORWARD || r->pdu == PDU_FORWARD; }

/* an ATCForwardMessage: date and time, eight characters, address, downlink (in type 2 uplink), and the message's bits */
static void put_forward(int plain)
{
    put(&bits, UINT64_C(30) << 26 | 10 << 22 | 14 << 17 | 12 << 12 | 30 << 6 | 59, 33);
    put(&bits, 6, 3);
    put(&bits, 77, 56);
    put(&bits, 5, 24);
    put(&bits, !plain, 1);
    if (!plain)
        put_length(&bits, (size_t)args.message);
    put_range(&bits, msgs, (size_t)args.message);
}

/* a GroundPDU for the air end and of another centre, an AircraftPDU for the ground end */
static size_t put_pdu(const struct row *r)
{
    unsigned lead = r->side % 2 == PEAT_AIR || r->pdu >= PDU_FORWARD ? 4 : 3;
    static const unsigned index[] = {0, 3, 2, 0, 1, 3, 4, 5};
    size_t n;
    bits.n = 0;
    put(&bits, index[r->pdu], lead);
    if (r->pdu == PDU_ABORT_USER)
        put(&bits, 5, 5);
    else if (r->pdu == PDU_ABORT_PROVIDER)
        put(&bits, 2, 4);
    else if (r->pdu == PDU_RESPONSE)
        put(&bits, PEAT_FORWARD_SUCCESS, 3);
    else if (r->pdu == PDU_FORWARD)
        put_forward(is_plain(r));
    else if (is_plain(r)) {
        if (r->pdu == PDU_START)
            put(&bits, 1, 1);
        put_range(&bits, msgs, (size_t)args.message);
    } else {
        if (r->pdu == PDU_START && lead == 3)
            put(&bits, 3, 2);
        put_data(&bits, &args);
    }
    n = whole(&bits, bytes);
    return r->pdu == PDU_INVALID ? n - 1 : n;
}

/* a kind, a job and a body of so many bits, as the broker puts them */
static size_t put_envelope(const struct row *r)
{
    size_t n = 0, i;
    for (i = 0; i < 3; i++) {
        uint64_t left = r->n[i];
        for (; left > 127; left >>= 7)
            bytes[n++] = (uint8_t)(left | 128);
        bytes[n++] = (uint8_t)left;
    }
    memcpy(bytes + n, msgs, (size_t)(r->n[2] + 7) / 8);
    return n + (size_t)(r->n[2] + 7) / 8;
}

/* uM30 (two levels, blocks), uM169 twice (free text), uM160 and uM123: with the header below 2,048 bits, and 265 characters */
static unsigned put_middle(uint8_t *place)
{
    static const uint8_t blocks[14] = {1, 1, 0x61, 0xC6, 0, 0x1B, 0x94, 1, 0, 0x1B, 0x94, 0, 0x1B, 0x94}; /* 25,000 metres, 70,000 feet thrice */
    place[0] = 30, memcpy(place + 3, blocks, 14);
    place[24] = 169, place[24 + 2] = 151;
    place[48] = 169, place[48 + 2] = 106;
    place[72] = 160, place[72 + 2] = 8;
    place[96] = 123, memset(place + 96 + 19, 7, 4);
    return 151 + 106 + 8;
}

/* uM169 five times, each with 256 characters */
static unsigned put_largest(uint8_t *place)
{
    unsigned i;
    for (i = 0; i < 5; i++)
        place[24 * i] = 169, place[24 * i + 1] = 1;
    return 5 * 256;
}

/* a message of one element, uM0; or of five, with a reference and an acknowledgement */
static void put_message(const struct row *r)
{
    static uint8_t message[132], text[PEAT_BUFFER_LEAST], range[132];
    static const unsigned want[] = {54, 2048, 9097};
    struct args made;
    unsigned characters = 0;
    uint64_t said;
    memset(message, 0, sizeof message);
    memset(text, 'A', sizeof text);
    message[3] = 0x07, message[4] = 0xEA, message[5] = 11, message[6] = 15, message[11] = 1;
    if (r->size != LEAST) {
        message[1] = 1, message[2] = 63, message[10] = 1, message[11] = 5;
        characters = r->size == MIDDLE ? put_middle(message + 12) : put_largest(message + 12);
    }
    memset(&made, 0, sizeof made);
    made.n[0] = PEAT_UPLINK;
    made.ids = (struct range){message, sizeof message};
    made.msgs = (struct range){text, characters};
    made.first = (struct range){bytes, sizeof bytes};
    said = model_call(WRITE_MESSAGE, &made);
    if (said < 256 || peat_message_bits(AS(peat_written_message, said)) != want[r->size]) {
        printf("the message has %u bits\n", peat_message_bits(AS(peat_written_message, said)));
        exit(2);
    }
    if (r->which == WRITE_MESSAGE && strstr(r->title, "SHAPE"))
        message[6] = 32;
    args.ids = made.ids, args.msgs = made.msgs;
    args.rec = (struct range){range, sizeof range};
    args.n[1] = peat_message_bits(AS(peat_written_message, said));
    args.bytes = (struct range){bytes, peat_message_bytes(AS(peat_written_message, said))};
}

/* message data of type 2: an uplink message in msgs, of a forward its elements alone; or none */
static void put_plain(const struct row *r)
{
    struct args kept = args;
    size_t from, i;
    put_message(r);
    from = of_forward(r) ? header_bits(args.ids.at) : 0;
    bits.n = 0;
    for (i = from; i < args.n[1]; i++)
        put(&bits, bytes[i / 8] >> (7 - i % 8) & 1, 1);
    args = kept;
    args.message = strstr(r->title, "no message") ? NONE : bits.n;
    args.msgs = (struct range){msgs, whole(&bits, msgs)};
    args.ids.len = args.checks.len = 0;
    args.check = 0;
    if (strstr(r->title, "SHAPE"))
        args.checks = (struct range){checks, sizeof checks}, args.check = 64;
}

static void prepare(const struct row *r)
{
    static const uint8_t highest = 7;
    size_t i;
    memset(&args, 0, sizeof args);
    memset(rec, 0, sizeof rec);
    rec[0] = (uint8_t)r->side, rec[1] = (uint8_t)r->state, rec[2] = (uint8_t)r->dsc;
    rec[3] = r->state == PEAT_START_REQ || r->state == PEAT_FORWARD, rec[4] = r->state != PEAT_IDLE;
    rec[PEAT_RECORD_FORWARDS] = PEAT_FORWARDS, rec[PEAT_RECORD_VERSION] = 1, rec[PEAT_RECORD_HIGHEST + 7] = highest;
    args.number = (r->which == START_REQUEST || r->which == FORWARD_REQUEST || r->which == D_START_INDICATION) != (strncmp(r->title, "STALE", 5) == 0); /* the record's is 0 */
    for (i = 0; i < sizeof msgs; i++)
        msgs[i] = (uint8_t)(37 * i + 11);
    memcpy(ids, msgs, sizeof ids);
    memcpy(checks, msgs, sizeof checks);
    memcpy(args.n, r->n, sizeof args.n);
    args.rec = (struct range){rec, sizeof rec};
    args.first = (struct range){first, sizeof first};
    args.second = (struct range){second, sizeof second};
    args.message = r->which == MESSAGE_REQUEST || r->which == D_DATA_INDICATION || r->which == FORWARD_REQUEST || r->which == FORWARD_PART || r->which == READ_FORWARD || r->pdu == PDU_FORWARD ? 8 : NONE;
    args.msgs = (struct range){msgs, 1};
    if (r->size != LEAST) {
        args.message = r->size == MIDDLE ? 2048 : PEAT_MESSAGE_MOST, args.check = 64;
        args.ids = (struct range){ids, sizeof ids};
        args.msgs = (struct range){msgs, (size_t)(args.message + 7) / 8};
        args.checks = (struct range){checks, sizeof checks};
        msgs[sizeof msgs - 1] &= 0xFE; /* 16,383 bits leave one of padding */
    }
    if (is_plain(r))
        put_plain(r);
    if (r->pdu != PDU_NONE) {
        args.bytes = (struct range){bytes, put_pdu(r)};
        args.given = 1;
    }
    if (r->which == READ_ENVELOPE) {
        args.bytes = (struct range){bytes, put_envelope(r) - (strstr(r->title, "CUT") != NULL)};
        args.first.len = PEAT_JOB_BYTES;
    }
    if (r->which == DATA_PART) {
        if (r->size == LEAST)
            args.message = 8;
        bits.n = 0;
        put_data(&bits, &args);
        args.bytes = (struct range){bytes, whole(&bits, bytes)};
    }
    if (r->which == FORWARD_PART || r->which == READ_FORWARD) {
        bits.n = 0;
        put_forward(is_plain(r));
        args.bytes = (struct range){bytes, whole(&bits, bytes)};
        args.ids = (struct range){heading, sizeof heading};
    }
    if (r->which == READ_MESSAGE || r->which == WRITE_MESSAGE)
        put_message(r);
}

/* ---- the stack of a call, on a stack of its own */

static const struct row *now;
static int empty;

static void on_the_stack(void)
{
    if (!empty)
        card_call(now->which, &args);
}

static size_t stack_of(const struct row *r, int none)
{
    prepare(r);
    now = r, empty = none;
    return stack_touched(on_the_stack);
}

int main(int argc, char **argv)
{
    size_t i, most = 0;
    if (argc > 1 && strcmp(argv[1], "stack") == 0) {
        for (i = 0; i < ROWS; i++) {
            size_t n = stack_of(&rows[i], 0) - stack_of(&rows[i], 1);
            printf("%s, %s: %lu bytes\n", names[rows[i].which], rows[i].title, (unsigned long)n);
            most = n > most ? n : most;
        }
        printf("largest: %lu bytes\n", (unsigned long)most);
        return 0;
    }
    if (argc > 1) {
        uint64_t said;
        i = strtoul(argv[1], NULL, 10);
        if (i >= ROWS)
            return 2;
        prepare(&rows[i]);
        said = card_call(rows[i].which, &args);
        /* a row is of the kind that it says */
        if (rows[i].which == READ_ENVELOPE && peat_refusal_in(said) == 0 && peat_job_number(first) != rows[i].n[1])
            return 1;
        return (peat_refusal_in(said) != 0) != (strstr(rows[i].title, "PROHIBITED") || strstr(rows[i].title, "STALE") || strstr(rows[i].title, "REPEAT") || strstr(rows[i].title, "SHAPE") || strstr(rows[i].title, "SHORT") || strstr(rows[i].title, "CUT"));
    }
    for (i = 0; i < ROWS; i++)
        printf("%lu %s %s\n", (unsigned long)i, names[rows[i].which], rows[i].title);
    return 0;
}
