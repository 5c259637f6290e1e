/*
 * Two centres: one forwards, the other answers in the same event.
 */
#include <stdio.h>
#include <string.h>

#include "card.h"

uint8_t other[PEAT_RECORD_BYTES];
const uint8_t forwarded[2] = {0xF4, 0x00}; /* twelve bits */

void centres(unsigned forwarding, unsigned version, unsigned other_version)
{
    check(WORD(peat_fresh(GROUND_REC, PEAT_GROUND, PEAT_NO_SECURITY, PEAT_FORWARDS_NOT, version, PEAT_PROTECTED)) == 0 &&
        WORD(peat_fresh(OTHER_REC, PEAT_GROUND, PEAT_NO_SECURITY, forwarding, other_version, PEAT_PROTECTED)) == 0, "fresh records of two centres");
    check(peat_record_forwards(other) == forwarding && peat_record_version(other) == other_version && peat_record_version(ground) == version,
        "a record says its version and whether forwarding is supported");
}

/* The sending centre asks: what it sends is as by hand. A centre without forwarding may send. */
static struct peat_answer asks(uint64_t held)
{
    struct peat_answer n = sent(peat_forward_request(GROUND_REC, held, PEAT_CLASS_B, PEAT_NO_SECURITY, HEADING, PEAT_ARRAY(forwarded), 12, BUFFERS));
    check(invokes(n, PEAT_D_START_REQUEST, PEAT_CLASS_B) && peat_told(n) == PEAT_UNTOLD && peat_version(n) == peat_record_version(ground) &&
        peat_apdu_bits(n) == 127 && line_len == sizeof by_hand && memcmp(line, by_hand, sizeof by_hand) == 0, "CPDLC-forward request");
    check(peat_record_state(ground) == PEAT_FORWARD && peat_record_timer(ground) && peat_record_active(ground) && peat_record_number(ground) == held,
        "FORWARD: t-start runs, the user is active, the number is held");
    return n;
}

/* What the receiving centre answers to it, which stands in `line` then; and what the sending one is told. */
static struct peat_answer answers(uint64_t held, unsigned version)
{
    struct peat_answer n = sent(peat_d_start_indication(OTHER_REC, held, PEAT_FACILITY, PEAT_NO_SECURITY, 1, 1, PEAT_CLASS_B, version, LINE, BUFFERS));
    check(invokes(n, PEAT_D_START_RESPONSE, PEAT_REJECTED) && peat_record_state(other) == PEAT_IDLE && !peat_record_active(other) &&
        !peat_record_timer(other) && peat_record_number(other) == held, "the receiving centre answers at once and stays IDLE");
    return n;
}

struct peat_answer hears(uint64_t held, unsigned version)
{
    struct peat_answer n = peat_d_start_confirmation(GROUND_REC, held, PEAT_REJECTED, PEAT_DS_USER, PEAT_NO_SECURITY, version, LINE, BUFFERS);
    check(peat_record_state(ground) == PEAT_IDLE && !peat_record_timer(ground) && !peat_record_active(ground) && peat_invoked(n) == PEAT_SILENT,
        "the sending centre is IDLE again");
    return n;
}

static void takes_apart(size_t bytes)
{
    static const uint64_t want[] = {2026, 11, 15, 12, 30, 59, 6, UINT64_C(0x2141AEC5933), 0x400123, PEAT_FORWARD_DOWNLINK, 12};
    static uint8_t out[PEAT_BUFFER_LEAST], delivered[64], heading[PEAT_HEADING_BYTES];
    uint8_t before[PEAT_HEADING_BYTES];
    unsigned i;
    int right = 1;
    check(bytes == 16 && second[0] == 0x3D, "an ATCForwardMessage from its first bit on, of 123 bits");
    memcpy(delivered, second, bytes);
    for (i = 0; i <= PEAT_FORWARD_MESSAGE; i++) {
        struct peat_forward_answer n = peat_forward_part(i, delivered, bytes, PEAT_ARRAY(out));
        right &= peat_refusal(n) == PEAT_TAKEN && peat_forward_value(n) == want[i];
    }
    check(right && peat_forward_bytes(AS(peat_forward_answer, 12 << 8)) == 2 && out[0] == 0xF4 && out[1] == 0, "each part of a forward message");
    memset(out, 0xC3, sizeof out);
    right = WORD(peat_read_forward(delivered, bytes, PEAT_ARRAY(heading), PEAT_ARRAY(out), PEAT_PROTECTED)) == 12 << 8;
    for (i = 0; i < PEAT_FORWARD_MESSAGE; i++)
        right &= peat_heading_value(heading, (enum peat_forward_part)i) == want[i];
    check(right && out[0] == 0xF4 && out[1] == 0 && out[2] == 0xC3, "all parts of a forward message at once");
    memcpy(before, heading, sizeof before);
    check(peat_refusal(peat_read_forward(delivered, bytes - 1, PEAT_ARRAY(heading), PEAT_ARRAY(out), PEAT_PROTECTED)) == PEAT_SHORT &&
        WORD(peat_read_forward(delivered, bytes, heading, sizeof heading - 1, PEAT_ARRAY(out), PEAT_PROTECTED)) == PEAT_SHAPE &&
        WORD(peat_read_forward(delivered, bytes, PEAT_ARRAY(heading), PEAT_ARRAY(out), 21)) == PEAT_SHAPE &&
        WORD(peat_read_forward(delivered, bytes, heading, sizeof heading - 1, out, sizeof out - 1, 21)) == PEAT_ROOM &&
        memcmp(before, heading, sizeof before) == 0, "one that is cut, a short heading, a short buffer; the heading stays");
    check(peat_flight_character(want[7], 6, 0) == 'B' && peat_flight_character(want[7], 6, 5) == '3', "the characters of the flight identification");
    check(peat_refusal(peat_forward_part(PEAT_FORWARD_YEAR, delivered, bytes - 1, PEAT_ARRAY(out))) == PEAT_SHORT &&
        WORD(peat_forward_part(PEAT_FORWARD_MESSAGE + 1, delivered, bytes, PEAT_ARRAY(out))) == PEAT_SHAPE &&
        WORD(peat_forward_part(PEAT_FORWARD_MESSAGE + 1, delivered, bytes, out, sizeof out - 1)) == PEAT_ROOM, "a forward message that is cut, a wrong part, a short buffer");
}

void forward_answered(void)
{
    struct peat_answer n;
    centres(PEAT_FORWARDS, 3, 3); /* 2.3.5.5.2.3 a */
    asks(1);
    n = answers(1, 3);
    check(peat_told(n) == PEAT_FORWARD_INDICATION && peat_apdu_bits(n) == 7 && first[0] == 0x50 && peat_version(n) == PEAT_NO_VERSION &&
        peat_data_bits(n) == 123, "success: both buffers in one event");
    takes_apart(peat_data_bytes(n));
    n = hears(1, PEAT_NO_VERSION);
    check(peat_told(n) == PEAT_FORWARD_CONFIRMATION && peat_told_parameter(n) == PEAT_FORWARD_SUCCESS && peat_version(n) == PEAT_NO_VERSION &&
        peat_data_bits(n) == 0, "CPDLC-forward confirmation: success");
    centres(PEAT_FORWARDS, 3, 4); /* 2.3.5.5.2.3 b */
    asks(1);
    n = answers(1, 3);
    check(peat_told(n) == PEAT_UNTOLD && first[0] == 0x54 && peat_version(n) == 4 && peat_data_bits(n) == 0, "version-not-equal");
    n = hears(1, peat_version(n));
    check(peat_told(n) == PEAT_FORWARD_CONFIRMATION && peat_told_parameter(n) == PEAT_VERSION_NOT_EQUAL && peat_version(n) == 4, "and the version is told");
    asks(2);
    n = answers(2, PEAT_NO_VERSION);
    check(first[0] == 0x54 && peat_version(n) == 4, "a version that is not given is not equal");
    check(peat_told_parameter(hears(2, 4)) == PEAT_VERSION_NOT_EQUAL, "it is told too");
    centres(PEAT_FORWARDS_NOT, 3, 4); /* 2.3.5.5.2.4 comes before the version */
    asks(1);
    n = answers(1, 3);
    check(peat_told(n) == PEAT_UNTOLD && first[0] == 0x52 && peat_version(n) == PEAT_NO_VERSION, "service-not-supported");
    n = hears(1, PEAT_NO_VERSION);
    check(peat_told_parameter(n) == PEAT_SERVICE_NOT_SUPPORTED && peat_version(n) == PEAT_NO_VERSION, "and it is told");
}

static struct peat_answer forwards_with(uint8_t *rec, uint64_t held, uint64_t class_)
{
    return peat_forward_request(rec, PEAT_RECORD_BYTES, held, class_, PEAT_NO_SECURITY, HEADING, PEAT_ARRAY(forwarded), 12, BUFFERS);
}

void forward_refused(void)
{
    struct peat_answer n;
    fresh();
    centres(PEAT_FORWARDS, 3, 3);
    check(WORD(forwards_with(air, 1, 0)) == PEAT_PROHIBITED, "a forward request at the air end");
    check(WORD(forwards_with(ground, 0, 0)) == PEAT_STALE && WORD(forwards_with(ground, 0, 9)) == PEAT_SHAPE && WORD(forwards_with(air, 0, 0)) == PEAT_STALE,
        "SHAPE, STALE, PROHIBITED in this order");
    asks(1);
    check(WORD(forwards_with(ground, 1, 0)) == PEAT_STALE && WORD(forwards_with(ground, 2, 0)) == PEAT_PROHIBITED, "in FORWARD there is no forward");
    check(WORD(peat_start(GROUND_REC, 2, PEAT_CPDLC, 0, PEAT_NO_SECURITY, BARE, BUFFERS)) == PEAT_PROHIBITED &&
        WORD(peat_message_request(GROUND_REC, 9, NULL, 0, NULL, 0, 0, NULL, 0, 0, BUFFERS)) == PEAT_PROHIBITED &&
        WORD(peat_end_request(GROUND_REC, BARE, BUFFERS)) == PEAT_PROHIBITED && WORD(peat_start_response(GROUND_REC, PEAT_ACCEPTED, BARE, BUFFERS)) == PEAT_PROHIBITED &&
        WORD(peat_dsc_start_response(GROUND_REC, PEAT_ACCEPTED, BARE, BUFFERS)) == PEAT_PROHIBITED &&
        WORD(peat_dsc_end_response(GROUND_REC, PEAT_ACCEPTED, BARE, BUFFERS)) == PEAT_PROHIBITED, "in FORWARD every call of the user but the abort is PROHIBITED");
    n = peat_timer_expiry(GROUND_REC, BUFFERS);
    check(invokes(n, PEAT_D_ABORT_REQUEST, PEAT_PROVIDER) && peat_told_parameter(n) == PEAT_TIMER_EXPIRED && peat_record_state(ground) == PEAT_IDLE,
        "t-start expires in FORWARD");
    asks(2);
    n = peat_user_abort(GROUND_REC, PEAT_NONE, BUFFERS);
    check(invokes(n, PEAT_D_ABORT_REQUEST, PEAT_USER) && peat_record_state(ground) == PEAT_IDLE && !peat_record_timer(ground), "an abort in FORWARD");
    asks(3);
    n = peat_d_start_confirmation(
        GROUND_REC, 3, PEAT_REJECTED_TRANSIENT, PEAT_DS_PROVIDER, PEAT_NO_SECURITY, PEAT_NO_VERSION, PEAT_NO_USER_DATA, NULL, 0, BUFFERS);
    check(told(n, PEAT_PROVIDER_ABORT_INDICATION, PEAT_COMMUNICATION_SERVICE_ERROR, 0), "a forward that is turned away");
    asks(4);
    n = peat_d_start_confirmation(GROUND_REC, 4, PEAT_ACCEPTED, PEAT_DS_USER, PEAT_NO_SECURITY, PEAT_NO_VERSION, PEAT_USER_DATA, (const uint8_t *)"\x50", 1, BUFFERS);
    check(invokes(n, PEAT_D_ABORT_REQUEST, PEAT_PROVIDER) && peat_told_parameter(n) == PEAT_PROTOCOL_ERROR, "accepted in FORWARD is a protocol error");
}

/* What a receiving centre meets that is no forward, or not for it. */
void forward_misused(void)
{
    struct peat_answer n;
    centres(PEAT_FORWARDS, 3, 3);
    asks(1);
    n = peat_d_start_indication(OTHER_REC, 1, PEAT_AIRCRAFT, PEAT_NO_SECURITY, 1, 1, 0, 3, LINE, BUFFERS);
    check(invokes(n, PEAT_D_ABORT_REQUEST, PEAT_PROVIDER) && peat_told(n) == PEAT_UNTOLD, "an aircraft does not forward");
    n = peat_d_start_indication(OTHER_REC, 2, PEAT_FACILITY, PEAT_SECURED_EXCHANGE, 1, 1, 0, 3, LINE, BUFFERS);
    check(invokes(n, PEAT_D_ABORT_REQUEST, PEAT_PROVIDER) && peat_told(n) == PEAT_UNTOLD && first[0] == 0x15, "security that policy does not accept");
    n = peat_d_start_indication(OTHER_REC, 3, PEAT_FACILITY, PEAT_NO_SECURITY, 1, 1, 9, 3, LINE, BUFFERS);
    check(invokes(n, PEAT_D_ABORT_REQUEST, PEAT_PROVIDER) && first[0] == 0x16, "a wrong routing class");
    line[8] ^= 0xFF; /* damaged, and still a forward */
    n = peat_d_start_indication(OTHER_REC, 4, PEAT_FACILITY, PEAT_NO_SECURITY, 1, 1, 0, 3, LINE, BUFFERS);
    check(invokes(n, PEAT_D_START_RESPONSE, PEAT_REJECTED), "its characters are not looked at");
    n = peat_d_start_indication(OTHER_REC, 5, PEAT_FACILITY, PEAT_NO_SECURITY, 1, 1, 0, 3, PEAT_USER_DATA, by_hand, sizeof by_hand - 1, BUFFERS);
    check(invokes(n, PEAT_D_ABORT_REQUEST, PEAT_PROVIDER) && first[0] == 0x12, "a forward that is cut is no valid PDU");
    fresh(); /* at the air end, a whole one is not permitted, and a damaged one is no valid PDU */
    n = peat_d_start_indication(AIR_REC, 1, PEAT_FACILITY, PEAT_NO_SECURITY, 1, 1, 0, 3, PEAT_USER_DATA, by_hand, sizeof by_hand, BUFFERS);
    check(invokes(n, PEAT_D_ABORT_REQUEST, PEAT_PROVIDER) && first[0] == 0x26, "a forward at the air end: protocol-error");
    n = peat_d_start_indication(AIR_REC, 2, PEAT_FACILITY, PEAT_NO_SECURITY, 1, 1, 0, 3, PEAT_USER_DATA, by_hand, 2, BUFFERS);
    check(invokes(n, PEAT_D_ABORT_REQUEST, PEAT_PROVIDER) && first[0] == 0x24, "a damaged one: invalid-PDU");
    opens(); /* at a record that is busy with an aircraft it breaks that dialogue */
    n = peat_d_start_indication(GROUND_REC, number + 1, PEAT_FACILITY, PEAT_NO_SECURITY, 1, 1, 0, 1, PEAT_USER_DATA, by_hand, sizeof by_hand, BUFFERS);
    check(invokes(n, PEAT_D_ABORT_REQUEST, PEAT_PROVIDER) && peat_told_parameter(n) == PEAT_PROTOCOL_ERROR && peat_record_state(ground) == PEAT_IDLE,
        "a forward to a record in DIALOGUE");
}

/* every record that the bytes can say, and others: whether it forwards, and what it answers to a forward and to a confirmation */
void forward_everywhere(void)
{
    static const uint8_t versions[] = {0, 1, 255};
    unsigned long calls = 0, taken = 0;
    unsigned n, v, w;
    int right = 1;
    for (n = 0; n < RECORDS; n++)
        for (v = 0; v < 9; v++)
            for (w = 0; w < 12; w++, calls++) {
                static const uint8_t response[] = {0x50, 0x52, 0x54};
                struct args a;
                uint64_t said;
                int record = numbered_record(&a, n);
                enum which call = w == 0 ? FORWARD_REQUEST : w < 4 ? D_START_INDICATION : D_START_CONFIRMATION;
                a.rec.at[PEAT_RECORD_FORWARDS] = (uint8_t)(v % 3);
                a.rec.at[PEAT_RECORD_VERSION] = versions[v / 3];
                record &= v % 3 < 2 && v / 3 > 0;
                set_codes(&a, call);
                lend(&a, 5, PEAT_BUFFER_LEAST);
                lend(&a, 6, PEAT_BUFFER_LEAST);
                a.number = call != D_START_CONFIRMATION;
                a.given = 1;
                lend(&a, 2, 2); /* twelve bits 0: as elements dM0 */
                memset(a.msgs.at, 0, 2);
                a.message = 12;
                lend(&a, 4, call != D_START_INDICATION ? 1 : is_plain(&a) ? sizeof plain_by_hand : sizeof by_hand);
                memcpy(a.bytes.at, call != D_START_INDICATION ? &response[w % 3] : is_plain(&a) ? plain_by_hand : by_hand, a.bytes.len);
                if (call == D_START_INDICATION) { /* of a facility, with a version: none, and two */
                    a.n[0] = PEAT_FACILITY, a.n[1] = a.rec.at[PEAT_RECORD_POLICY], a.n[2] = a.n[3] = 1, a.n[4] = 0;
                    a.n[5] = w == 1 ? PEAT_NO_VERSION : versions[w - 1];
                } else if (call == D_START_CONFIRMATION) { /* rejected and accepted, with the security that was asked for and another */
                    a.n[0] = w < 10 ? PEAT_REJECTED : PEAT_ACCEPTED, a.n[1] = PEAT_DS_USER, a.n[2] = a.rec.at[PEAT_RECORD_REQUEST] ^ (w == 9), a.n[3] = versions[w % 3];
                }
                right &= agrees(call, &a, &said) && (peat_refusal_in(said) == PEAT_SHAPE) == !record;
                taken += peat_told(AS(peat_answer, said)) == PEAT_FORWARD_INDICATION || peat_told(AS(peat_answer, said)) == PEAT_FORWARD_CONFIRMATION;
            }
    printf("%lu forward calls over every record: %lu tell a user of a forward\n", calls, taken);
    check(right && taken > 100, "a forward is as the model has it, for every record");
}

/* the largest forward: eight characters and 16,383 bits */
void largest_forward(void)
{
    static uint8_t text[2049], out[PEAT_BUFFER_LEAST], delivered[PEAT_BUFFER_LEAST], heading[PEAT_HEADING_BYTES];
    struct peat_answer n;
    struct peat_forward_answer parts;
    uint64_t flight = peat_flight("ABCDEFGH", 8);
    centres(PEAT_FORWARDS, 255, 255);
    fill(text, sizeof text);
    n = sent(peat_forward_request(GROUND_REC, 1, 0, 0, 2095, 12, 31, 23, 59, 59, 8, flight, 0xFFFFFF, 1, text, 2048, 16383, BUFFERS));
    check(invokes(n, PEAT_D_START_REQUEST, 0) && peat_apdu_bits(n) == 4 + 33 + 3 + 56 + 24 + 1 + 16 + 16383 && peat_apdu_bits(n) == 16520, "the largest forward");
    n = sent(peat_d_start_indication(OTHER_REC, 1, PEAT_FACILITY, 0, 1, 1, 0, 255, LINE, BUFFERS));
    check(peat_told(n) == PEAT_FORWARD_INDICATION && peat_data_bits(n) == 16516, "it is delivered whole");
    memcpy(delivered, second, peat_data_bytes(n));
    parts = peat_read_forward(delivered, peat_data_bytes(n), PEAT_ARRAY(heading), PEAT_ARRAY(out), PEAT_PROTECTED);
    check(peat_heading_value(heading, PEAT_FORWARD_FLIGHT) == flight && peat_forward_value(parts) == 16383 && peat_forward_bytes(parts) == 2048 && memcmp(out, text, 2047) == 0, "and taken apart");
    centres(PEAT_FORWARDS, 255, 255);
    check(WORD(peat_forward_request(GROUND_REC, 1, 0, 0, 2095, 12, 31, 23, 59, 59, 8, flight, 0, 1, text, 2049, 16384, BUFFERS)) == PEAT_SHAPE, "16,384 bits");
    check(WORD(peat_forward_request(GROUND_REC, 1, 0, 0, 2095, 12, 31, 23, 59, 59, 8, flight, 0, 1, text, 2047, 16383, BUFFERS)) == PEAT_SHAPE,
        "more bits than the lent bytes hold");
    check(WORD(peat_forward_request(GROUND_REC, 1, 0, 0, 2095, 12, 31, 23, 59, 59, 7, flight, 0, 1, text, 1, 8, BUFFERS)) == PEAT_SHAPE, "eight characters counted as seven");
    check(WORD(peat_forward_request(GROUND_REC, 1, 0, 0, 2095, 12, 31, 23, 59, 59, 8, flight, 0, 1, text, 1, PEAT_NONE, BUFFERS)) == PEAT_SHAPE, "no message");
}
