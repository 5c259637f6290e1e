/*
 * The card beside the vectors of application type 2. Of each line of standard input it prints one line.
 *
 *     SIDE KIND BITS HEX    a vector: `right`, or what is not. The card reads it by itself (peat_read_apdu); the other end takes it, and is delivered the
 *                           message's own bits, which peat_read_message takes; and the card's calls write the same bits again.
 *     bytes SIDE HEX        bytes: `refused N at P`, or `read` and the APDU's kind
 */
#include <stdio.h>
#include <stdlib.h>
#include <string.h>

#include "peatribbon.h"

#define BYTES PEAT_BUFFER_LEAST

static uint8_t rec[PEAT_RECORD_BYTES], first[BYTES], second[BYTES];
#define REC PEAT_ARRAY(rec)
#define BUFFERS PEAT_BUFFERS(first, second)

/* a vector, and what the card says of it by itself */
struct vector {
    unsigned air, bits;
    size_t bytes;
    uint8_t byte[BYTES];
    struct peat_apdu_answer said;
};

/* ---- records of type 2 */

static void record(unsigned air, unsigned state)
{
    memset(rec, 0, sizeof rec);
    rec[PEAT_RECORD_SIDE] = air ? PEAT_PLAIN_AIRCRAFT_PDUS : PEAT_PLAIN_GROUND_PDUS;
    rec[PEAT_RECORD_STATE] = (uint8_t)state;
    rec[PEAT_RECORD_ACTIVE] = state != PEAT_IDLE;
    rec[PEAT_RECORD_TIMER] = state == PEAT_START_REQ || state == PEAT_FORWARD;
    rec[PEAT_RECORD_VERSION] = 1;
    rec[PEAT_RECORD_FORWARDS] = 1;
}

static void dsc_record(unsigned air, unsigned state)
{
    record(air, state);
    rec[PEAT_RECORD_DSC] = 1;
}

/* ---- bits */

static unsigned bit(const uint8_t *b, unsigned i) { return b[i / 8] >> (7 - i % 8) & 1u; }

/* the bits from a place to the end of a vector, from the first bit on */
static unsigned rest(const struct vector *v, unsigned from, uint8_t *to)
{
    unsigned i;
    memset(to, 0, BYTES);
    for (i = from; i < v->bits; i++)
        to[(i - from) / 8] |= (uint8_t)(bit(v->byte, i) << (7 - (i - from) % 8));
    return v->bits - from;
}

/* the first buffer has the vector */
static int written(const struct vector *v, struct peat_answer answer)
{
    return peat_refusal(answer) == PEAT_TAKEN && peat_apdu_bits(answer) == v->bits && memcmp(first, v->byte, v->bytes) == 0;
}

/* the second buffer has the message, and it can be read */
static int delivered(const struct vector *v, struct peat_answer answer, unsigned told, const uint8_t *message, unsigned bits)
{
    uint8_t inner[PEAT_INNER_BYTES], text[BYTES];
    if (peat_refusal(answer) != PEAT_TAKEN || peat_told(answer) != told || peat_data_bits(answer) != bits || memcmp(second, message, (bits + 7) / 8) != 0)
        return 0;
    return bits == 0 || peat_refusal(peat_read_message(v->air ? PEAT_DOWNLINK : PEAT_UPLINK, second, (bits + 7) / 8, bits, PEAT_ARRAY(inner), PEAT_ARRAY(text))) == PEAT_TAKEN;
}

/* ---- each kind */

static const char *start(const struct vector *v)
{
    uint8_t message[BYTES];
    unsigned dsc = peat_apdu_number(v->said) == PEAT_DSC, at = 4 + dsc, has = bit(v->byte, at), bits = has ? rest(v, at + 1, message) : 0;
    struct peat_data data = {.message = has ? message : NULL, .message_len = (bits + 7) / 8, .message_bits = bits};
    if (peat_apdu_has_data(v->said) != has)
        return "peat_read_apdu says otherwise whether there is a message";
    record(v->air, PEAT_IDLE);
    if (!written(v, peat_start(REC, 1, dsc ? PEAT_DSC : PEAT_CPDLC, 0, PEAT_NO_SECURITY, PEAT_DATA(data), BUFFERS)))
        return "peat_start writes other bits";
    record(!v->air, PEAT_IDLE);
    if (!delivered(v, peat_d_start_indication(REC, 1, v->air ? PEAT_AIRCRAFT : PEAT_FACILITY, PEAT_NO_SECURITY, PEAT_HIGH_PRIORITY, PEAT_LOW_ERROR_RATE, 0, PEAT_NO_VERSION,
                          PEAT_USER_DATA, v->byte, v->bytes, BUFFERS), PEAT_START_INDICATION, message, bits))
        return "a D-START indication delivers something else";
    return "right";
}

/* a send in each place that it may have: a message, a rejection, an end and its answer */
static const char *send(const struct vector *v)
{
    uint8_t message[BYTES];
    unsigned bits = rest(v, v->air ? 3 : 4, message);
    struct peat_data data = {.message = message, .message_len = (bits + 7) / 8, .message_bits = bits};
    record(v->air, PEAT_DIALOGUE);
    if (!written(v, peat_message_request(REC, 1, PEAT_DATA(data), BUFFERS)))
        return "peat_message_request writes other bits";
    record(v->air, PEAT_START_IND);
    if (!written(v, peat_start_response(REC, PEAT_REJECTED, PEAT_DATA(data), BUFFERS)))
        return "peat_start_response writes other bits";
    (v->air ? dsc_record : record)(v->air, PEAT_DIALOGUE);
    if (!written(v, v->air ? peat_dsc_end_request(REC, PEAT_DATA(data), BUFFERS) : peat_end_request(REC, PEAT_DATA(data), BUFFERS)))
        return "an end request writes other bits";
    (v->air ? record : dsc_record)(v->air, PEAT_END);
    if (!written(v, v->air ? peat_end_response(REC, PEAT_ACCEPTED, PEAT_DATA(data), BUFFERS) : peat_dsc_end_response(REC, PEAT_ACCEPTED, PEAT_DATA(data), BUFFERS)))
        return "an end response writes other bits";
    record(!v->air, PEAT_DIALOGUE);
    if (!delivered(v, peat_d_data_indication(REC, 0, PEAT_USER_DATA, v->byte, v->bytes, BUFFERS), PEAT_MESSAGE_INDICATION, message, bits))
        return "a D-DATA indication delivers something else";
    record(!v->air, PEAT_START_REQ);
    if (!delivered(v, peat_d_start_confirmation(REC, 0, PEAT_REJECTED, PEAT_DS_USER, PEAT_NO_SECURITY, PEAT_NO_VERSION, PEAT_USER_DATA, v->byte, v->bytes, BUFFERS),
            PEAT_START_CONFIRMATION, message, bits))
        return "a D-START confirmation delivers something else";
    (v->air ? dsc_record : record)(!v->air, PEAT_DIALOGUE);
    if (!delivered(v, peat_d_end_indication(REC, 0, PEAT_USER_DATA, v->byte, v->bytes, BUFFERS), PEAT_END_INDICATION, message, bits))
        return "a D-END indication delivers something else";
    (v->air ? record : dsc_record)(!v->air, PEAT_END);
    if (!delivered(v, peat_d_end_confirmation(REC, 0, PEAT_ACCEPTED, PEAT_USER_DATA, v->byte, v->bytes, BUFFERS), PEAT_END_CONFIRMATION, message, bits))
        return "a D-END confirmation delivers something else";
    return "right";
}

static const char *abort_user(const struct vector *v)
{
    struct peat_answer n;
    record(v->air, PEAT_DIALOGUE);
    if (!written(v, peat_user_abort(REC, peat_apdu_number(v->said), BUFFERS)))
        return "peat_user_abort writes other bits";
    record(!v->air, PEAT_DIALOGUE);
    n = peat_d_abort_indication(REC, 0, PEAT_USER, PEAT_USER_DATA, v->byte, v->bytes, BUFFERS);
    return peat_told(n) == PEAT_USER_ABORT_INDICATION && peat_told_parameter(n) == peat_apdu_number(v->said) ? "right" : "a D-ABORT indication tells something else";
}

/* the event by which a record sends this reason; nothing is invoked: there is none. (Security is not compared, and reason 4 is only told.) */
static struct peat_answer provoked(const struct vector *v)
{
    static const uint8_t start_pdu[] = {0x20}, startdown[] = {0x40}, nonsense[] = {0xFF};
    record(v->air, PEAT_DIALOGUE);
    switch (peat_apdu_number(v->said)) {
    case PEAT_TIMER_EXPIRED: rec[PEAT_RECORD_TIMER] = 1; return peat_timer_expiry(REC, BUFFERS);
    case PEAT_UNDEFINED_ERROR: return peat_system_error(REC, BUFFERS);
    case PEAT_INVALID_PDU: return peat_d_data_indication(REC, 0, PEAT_USER_DATA, nonsense, 1, BUFFERS);
    case PEAT_PROTOCOL_ERROR: return peat_d_data_indication(REC, 0, PEAT_USER_DATA, v->air ? start_pdu : startdown, 1, BUFFERS);
    case PEAT_INVALID_QOS_PARAMETER:
        record(v->air, PEAT_IDLE);
        return peat_d_start_indication(REC, 1, PEAT_FACILITY, PEAT_NO_SECURITY, 0, 0, 0, PEAT_NO_VERSION, PEAT_NO_USER_DATA, NULL, 0, BUFFERS);
    case PEAT_EXPECTED_PDU_MISSING: return peat_d_data_indication(REC, 0, PEAT_NO_USER_DATA, NULL, 0, BUFFERS);
    default: return (struct peat_answer){0};
    }
}

static const char *abort_provider(const struct vector *v)
{
    struct peat_answer n = provoked(v);
    if (n.word != 0 && !written(v, n))
        return "an abort of the provider has other bits";
    record(!v->air, PEAT_DIALOGUE);
    n = peat_d_abort_indication(REC, 0, PEAT_PROVIDER, PEAT_USER_DATA, v->byte, v->bytes, BUFFERS);
    return peat_told(n) == PEAT_PROVIDER_ABORT_INDICATION && peat_told_parameter(n) == peat_apdu_number(v->said) ? "right" : "a D-ABORT indication tells something else";
}

static const char *forward(const struct vector *v)
{
    static uint8_t message[BYTES], given[BYTES], heading[PEAT_HEADING_BYTES], out[BYTES];
    uint64_t p[PEAT_FORWARD_MESSAGE];
    struct peat_answer n;
    struct peat_forward_answer parts;
    unsigned bits = rest(v, 4, message), i;
    record(0, PEAT_IDLE);
    n = peat_d_start_indication(REC, 1, PEAT_FACILITY, PEAT_NO_SECURITY, PEAT_HIGH_PRIORITY, PEAT_LOW_ERROR_RATE, 0, 1, PEAT_USER_DATA, v->byte, v->bytes, BUFFERS);
    if (peat_told(n) != PEAT_FORWARD_INDICATION || peat_data_bits(n) != bits || memcmp(second, message, (bits + 7) / 8) != 0)
        return "a D-START indication delivers another forward message";
    memcpy(given, second, (bits + 7) / 8);
    parts = peat_read_forward(given, (bits + 7) / 8, PEAT_ARRAY(heading), PEAT_ARRAY(out), PEAT_PLAIN);
    if (peat_refusal(parts) != PEAT_TAKEN)
        return "peat_read_forward refuses it";
    for (i = 0; i < PEAT_FORWARD_MESSAGE; i++) {
        p[i] = peat_heading_value(heading, (enum peat_forward_part)i);
        if (peat_forward_value(peat_forward_part(PEAT_FORWARD_PLAIN + i, given, (bits + 7) / 8, PEAT_ARRAY(message))) != p[i])
            return "peat_forward_part says another number";
    }
    record(0, PEAT_IDLE);
    n = peat_forward_request(REC, 1, 0, PEAT_NO_SECURITY, p[0], p[1], p[2], p[3], p[4], p[5], p[6], p[7], p[8], p[9], PEAT_ARRAY(out), peat_forward_value(parts), BUFFERS);
    return written(v, n) ? "right" : "peat_forward_request writes other bits";
}

static const char *forward_response(const struct vector *v)
{
    struct peat_answer n;
    record(0, PEAT_FORWARD);
    n = peat_d_start_confirmation(REC, 0, PEAT_REJECTED, PEAT_DS_USER, PEAT_NO_SECURITY, PEAT_NO_VERSION, PEAT_USER_DATA, v->byte, v->bytes, BUFFERS);
    return peat_told(n) == PEAT_FORWARD_CONFIRMATION && peat_told_parameter(n) == peat_apdu_number(v->said) ? "right" : "a D-START confirmation tells something else";
}

/* ---- the lines */

static const struct { const char *name; unsigned kind; const char *(*holds)(const struct vector *); } kinds[] = {
    {"abort-user", PEAT_APDU_ABORT_USER, abort_user}, {"abort-provider", PEAT_APDU_ABORT_PROVIDER, abort_provider}, {"start", PEAT_APDU_START, start},
    {"send", PEAT_APDU_SEND, send}, {"forward", PEAT_APDU_FORWARD, forward}, {"forward-response", PEAT_APDU_FORWARD_RESPONSE, forward_response}};

static size_t read_hex(const char *text, uint8_t *to)
{
    size_t n;
    unsigned byte;
    for (n = 0; n < BYTES && sscanf(text + 2 * n, "%2x", &byte) == 1; n++)
        to[n] = (uint8_t)byte;
    return n;
}

static const char *holds(const struct vector *v, const char *kind)
{
    size_t i;
    if (peat_refusal(v->said) != PEAT_TAKEN)
        return "peat_read_apdu refuses it";
    for (i = 0; i < sizeof kinds / sizeof *kinds; i++)
        if (strcmp(kinds[i].name, kind) == 0)
            return peat_apdu_kind(v->said) == kinds[i].kind ? kinds[i].holds(v) : "peat_read_apdu says another kind";
    return "no kind";
}

int main(void)
{
    static char line[8 * BYTES], side[16], kind[32], hex[4 * BYTES];
    static struct vector v;
    while (fgets(line, sizeof line, stdin) != NULL) {
        int vector = strncmp(line, "bytes ", 6) != 0;
        if (vector ? sscanf(line, "%15s %31s %u %8000s", side, kind, &v.bits, hex) != 4 : sscanf(line + 6, "%15s %8000s", side, hex) != 2)
            return 2;
        v.air = strcmp(side, "air") == 0;
        v.bytes = read_hex(hex, v.byte);
        v.said = peat_read_apdu(v.air ? PEAT_PLAIN_AIRCRAFT_PDUS : PEAT_PLAIN_GROUND_PDUS, v.byte, v.bytes);
        if (vector)
            puts(holds(&v, kind));
        else if (peat_refusal(v.said) != PEAT_TAKEN)
            printf("refused %u at %llu\n", peat_refusal(v.said), (unsigned long long)peat_position(v.said));
        else
            printf("read %u\n", peat_apdu_kind(v.said));
    }
    return 0;
}
