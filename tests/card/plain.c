/*
 * Application type 2: starts, ends and rejections without a message and with one, what is refused, and forwards.
 */
#include <stdio.h>
#include <string.h>

#include "card.h"

#define NO_LINE PEAT_NO_USER_DATA, NULL, 0

/* dM0 and uM0 of 1996-01-01: a header of 41 bits, 0, 000, 0 and the index in seven or eight bits */
static const uint8_t wilco[7];
enum { WILCO_BITS = 53, UNABLE_BITS = 54 };
#define WILCO NULL, 0, wilco, sizeof wilco, WILCO_BITS, NULL, 0, 0
#define UNABLE NULL, 0, wilco, sizeof wilco, UNABLE_BITS, NULL, 0, 0

/* a whole dialogue in which start, acceptance, end and its answer bring nothing; in mode dsc the aircraft ends it */
void plain_bare(unsigned mode)
{
    struct peat_answer n;
    fresh_of(PEAT_PLAIN);
    n = sent(peat_start(AIR_REC, number = above(), mode, PEAT_CLASS_C, PEAT_SECURED_EXCHANGE, BARE, BUFFERS));
    check(invokes(n, PEAT_D_START_REQUEST, PEAT_CLASS_C) && peat_invoked_security(n) == PEAT_NO_SECURITY && peat_apdu_bits(n) == 5 + mode && line[0] == (mode ? 0x58 : 0x40),
        "a start of type 2 without a message: no security is sent");
    memset(second, 0xC3, sizeof second);
    n = peat_d_start_indication(GROUND_REC, number, PEAT_AIRCRAFT, PEAT_SECURED_EXCHANGE, 1, 1, PEAT_CLASS_C, PEAT_NO_VERSION, LINE, BUFFERS);
    check(told(n, PEAT_START_INDICATION, PEAT_CLASS_C, mode) && peat_data_bits(n) == 0 && second[0] == 0xC3, "it is told with no bits, and its security is not compared");
    n = mode ? peat_dsc_start_response(GROUND_REC, PEAT_ACCEPTED, UNABLE, BUFFERS) : peat_start_response(GROUND_REC, PEAT_ACCEPTED, UNABLE, BUFFERS);
    check(WORD(n) == PEAT_SHAPE, "an acceptance of type 2 has no message");
    n = mode ? peat_dsc_start_response(GROUND_REC, PEAT_ACCEPTED, BARE, BUFFERS) : peat_start_response(GROUND_REC, PEAT_ACCEPTED, BARE, BUFFERS);
    check(invokes(n, PEAT_D_START_RESPONSE, PEAT_ACCEPTED) && peat_apdu_bits(n) == 0, "an acceptance of type 2 has no user data");
    n = peat_d_start_confirmation(AIR_REC, number, PEAT_ACCEPTED, PEAT_DS_USER, PEAT_SECURED_EXCHANGE, PEAT_NO_VERSION, NO_LINE, BUFFERS);
    check(told(n, PEAT_START_CONFIRMATION, PEAT_ACCEPTED, mode) && peat_data_bits(n) == 0 && states(PEAT_DIALOGUE, PEAT_DIALOGUE), "it is taken without user data");
    n = mode ? peat_dsc_end_request(AIR_REC, BARE, BUFFERS) : peat_end_request(GROUND_REC, BARE, BUFFERS);
    check(invokes(n, PEAT_D_END_REQUEST, 0) && peat_apdu_bits(n) == 0, "an end of type 2 without a message has no user data");
    n = mode ? peat_d_end_indication(GROUND_REC, number, NO_LINE, BUFFERS) : peat_d_end_indication(AIR_REC, number, NO_LINE, BUFFERS);
    check(told(n, PEAT_END_INDICATION, 0, mode) && peat_data_bits(n) == 0 && states(PEAT_END, PEAT_END), "and is taken without any");
    n = mode ? peat_dsc_end_response(GROUND_REC, PEAT_ACCEPTED, BARE, BUFFERS) : peat_end_response(AIR_REC, PEAT_ACCEPTED, BARE, BUFFERS);
    check(invokes(n, PEAT_D_END_RESPONSE, PEAT_ACCEPTED) && peat_apdu_bits(n) == 0, "its answer too");
    n = mode ? peat_d_end_confirmation(AIR_REC, number, PEAT_ACCEPTED, NO_LINE, BUFFERS) : peat_d_end_confirmation(GROUND_REC, number, PEAT_ACCEPTED, NO_LINE, BUFFERS);
    check(told(n, PEAT_END_CONFIRMATION, PEAT_ACCEPTED, mode) && states(PEAT_IDLE, PEAT_IDLE), "and the confirmation");
    check(peat_record_type(air) == PEAT_PLAIN && peat_record_type(ground) == PEAT_PLAIN, "the type is as it was");
}

/* a message with the start, the rejection, the end: what is delivered is the message, ready to be read */
static int is_delivered(struct peat_answer n, unsigned direction, unsigned bits)
{
    uint8_t message[PEAT_INNER_BYTES], text[PEAT_BUFFER_LEAST];
    return peat_data_bits(n) == bits && memcmp(second, wilco, (bits + 7) / 8) == 0 &&
           peat_refusal(peat_read_message(direction, second, peat_data_bytes(n), peat_data_bits(n), PEAT_ARRAY(message), PEAT_ARRAY(text))) == PEAT_TAKEN;
}

void plain_with_messages(void)
{
    struct peat_answer n;
    fresh_of(PEAT_PLAIN);
    n = sent(peat_start(GROUND_REC, number = above(), PEAT_CPDLC, 0, PEAT_NO_SECURITY, UNABLE, BUFFERS));
    check(peat_apdu_bits(n) == 5 + UNABLE_BITS && line[0] == 0x28, "a start of type 2 with a message");
    n = peat_d_start_indication(AIR_REC, number, PEAT_FACILITY, PEAT_NO_SECURITY, 1, 1, 0, PEAT_NO_VERSION, LINE, BUFFERS);
    check(told(n, PEAT_START_INDICATION, 0, 0) && is_delivered(n, PEAT_UPLINK, UNABLE_BITS), "the message alone is delivered");
    n = sent(peat_start_response(AIR_REC, PEAT_REJECTED, WILCO, BUFFERS));
    check(invokes(n, PEAT_D_START_RESPONSE, PEAT_REJECTED) && peat_apdu_bits(n) == 3 + WILCO_BITS && line[0] == 0x60, "a rejection with its reason");
    n = peat_d_start_confirmation(GROUND_REC, number, PEAT_REJECTED, PEAT_DS_USER, PEAT_NO_SECURITY, PEAT_NO_VERSION, LINE, BUFFERS);
    check(told(n, PEAT_START_CONFIRMATION, PEAT_REJECTED, 0) && is_delivered(n, PEAT_DOWNLINK, WILCO_BITS) && states(PEAT_IDLE, PEAT_IDLE), "it is delivered");
    sent(peat_start(GROUND_REC, number = above(), PEAT_CPDLC, 0, PEAT_NO_SECURITY, BARE, BUFFERS));
    peat_d_start_indication(AIR_REC, number, PEAT_FACILITY, PEAT_NO_SECURITY, 1, 1, 0, PEAT_NO_VERSION, LINE, BUFFERS);
    n = peat_start_response(AIR_REC, PEAT_REJECTED, BARE, BUFFERS);
    check(invokes(n, PEAT_D_START_RESPONSE, PEAT_REJECTED) && peat_apdu_bits(n) == 0, "a rejection without a reason has no user data");
    n = peat_d_start_confirmation(GROUND_REC, number, PEAT_REJECTED, PEAT_DS_USER, PEAT_NO_SECURITY, PEAT_NO_VERSION, NO_LINE, BUFFERS);
    check(told(n, PEAT_START_CONFIRMATION, PEAT_REJECTED, 0) && peat_data_bits(n) == 0 && states(PEAT_IDLE, PEAT_IDLE), "and is taken without any");
    sent(peat_start(GROUND_REC, number = above(), PEAT_CPDLC, 0, PEAT_NO_SECURITY, BARE, BUFFERS));
    peat_d_start_indication(AIR_REC, number, PEAT_FACILITY, PEAT_NO_SECURITY, 1, 1, 0, PEAT_NO_VERSION, LINE, BUFFERS);
    peat_start_response(AIR_REC, PEAT_ACCEPTED, BARE, BUFFERS);
    peat_d_start_confirmation(GROUND_REC, number, PEAT_ACCEPTED, PEAT_DS_USER, PEAT_NO_SECURITY, PEAT_NO_VERSION, NO_LINE, BUFFERS);
    n = sent(peat_message_request(AIR_REC, 1, WILCO, BUFFERS));
    check(invokes(n, PEAT_D_DATA_REQUEST, 0) && peat_apdu_bits(n) == 3 + WILCO_BITS, "a message of type 2 down");
    check(is_delivered(peat_d_data_indication(GROUND_REC, number, LINE, BUFFERS), PEAT_DOWNLINK, WILCO_BITS), "it is delivered");
    check(WORD(peat_message_request(GROUND_REC, 1, BARE, BUFFERS)) == PEAT_NO_MESSAGE, "a message request needs one");
    n = sent(peat_end_request(GROUND_REC, UNABLE, BUFFERS));
    check(peat_apdu_bits(n) == 4 + UNABLE_BITS && is_delivered(peat_d_end_indication(AIR_REC, number, LINE, BUFFERS), PEAT_UPLINK, UNABLE_BITS), "an end with a message");
}

/* both ends in DIALOGUE, or the ground end in START-REQ */
static void plain_opens(int answered)
{
    fresh_of(PEAT_PLAIN);
    sent(peat_start(GROUND_REC, number = above(), PEAT_CPDLC, 0, PEAT_NO_SECURITY, BARE, BUFFERS));
    peat_d_start_indication(AIR_REC, number, PEAT_FACILITY, PEAT_NO_SECURITY, 1, 1, 0, PEAT_NO_VERSION, LINE, BUFFERS);
    peat_start_response(AIR_REC, PEAT_ACCEPTED, BARE, BUFFERS);
    if (answered)
        peat_d_start_confirmation(GROUND_REC, number, PEAT_ACCEPTED, PEAT_DS_USER, PEAT_NO_SECURITY, PEAT_NO_VERSION, NO_LINE, BUFFERS);
}

void plain_refused(void)
{
    static const uint8_t octet = 1, other[7] = {0, 0, 0, 0, 0, 0, 0x58}; /* dM11, which is not carried */
    uint8_t before[PEAT_RECORD_BYTES];
    uint64_t reason;
    int right = 1;
    plain_opens(1);
    memcpy(before, air, sizeof before);
    check(WORD(peat_message_request(AIR_REC, 1, NULL, 0, wilco, sizeof wilco, WILCO_BITS + 1, NULL, 0, 0, BUFFERS)) == PEAT_SHAPE, "a bit too many");
    check(WORD(peat_message_request(AIR_REC, 1, NULL, 0, wilco, sizeof wilco, WILCO_BITS - 1, NULL, 0, 0, BUFFERS)) == PEAT_SHAPE, "a bit too few");
    check(WORD(peat_message_request(AIR_REC, 1, NULL, 0, wilco, sizeof wilco - 1, WILCO_BITS, NULL, 0, 0, BUFFERS)) == PEAT_SHAPE, "more bits than the lent bytes hold");
    check(WORD(peat_message_request(AIR_REC, 1, UNABLE, BUFFERS)) == PEAT_SHAPE, "a message of the other direction");
    check(WORD(peat_message_request(AIR_REC, 1, NULL, 0, other, sizeof other, WILCO_BITS, NULL, 0, 0, BUFFERS)) == PEAT_SHAPE, "an element that is not carried");
    check(WORD(peat_message_request(AIR_REC, 1, NULL, 0, wilco, sizeof wilco, 0, NULL, 0, 0, BUFFERS)) == PEAT_SHAPE, "a message of no bits");
    check(WORD(peat_message_request(AIR_REC, 1, &octet, 1, wilco, sizeof wilco, WILCO_BITS, NULL, 0, 0, BUFFERS)) == PEAT_SHAPE, "an identifier of one octet");
    check(WORD(peat_message_request(AIR_REC, 1, NULL, 0, wilco, sizeof wilco, WILCO_BITS, &octet, 1, 1, BUFFERS)) == PEAT_SHAPE, "a check of one bit");
    for (reason = 7; reason <= 13; reason++)
        right &= WORD(peat_user_abort(AIR_REC, reason, BUFFERS)) == PEAT_SHAPE;
    check(right, "user abort reasons 7 to 12 are of type 22");
    check(memcmp(before, air, sizeof before) == 0, "and the record stays");
    check(invokes(peat_user_abort(AIR_REC, PEAT_INVALID_RESPONSE, BUFFERS), PEAT_D_ABORT_REQUEST, PEAT_USER) && first[0] == 0x0C, "reason 6, in three bits");
    right = 1;
    for (reason = 0; reason < 300; reason++)
        right &= (WORD(peat_fresh(AIR_REC, PEAT_AIR, PEAT_NO_SECURITY, PEAT_FORWARDS_NOT, 1, reason)) == 0) == (reason == 2 || reason == 22);
    check(right, "a type other than 2 or 22");
}

void plain_misused(void)
{
    static const uint8_t cut[6] = {0x60}, element[7] = {0x60, 0, 0, 0, 0, 0, 0x0B};
    struct peat_answer n;
    plain_opens(0);
    n = peat_d_start_confirmation(GROUND_REC, number, PEAT_ACCEPTED, PEAT_DS_USER, PEAT_NO_SECURITY, PEAT_NO_VERSION, PEAT_USER_DATA, (const uint8_t *)"\x60\0\0\0\0\0\0", 7, BUFFERS);
    check(invokes(n, PEAT_D_ABORT_REQUEST, PEAT_PROVIDER) && peat_told_parameter(n) == PEAT_PROTOCOL_ERROR && first[0] == 0x13, "an acceptance with user data is not permitted");
    plain_opens(0);
    n = peat_d_start_confirmation(GROUND_REC, number, PEAT_ACCEPTED, PEAT_DS_USER, PEAT_NO_SECURITY, PEAT_NO_VERSION, PEAT_USER_DATA, cut, sizeof cut, BUFFERS);
    check(invokes(n, PEAT_D_ABORT_REQUEST, PEAT_PROVIDER) && peat_told_parameter(n) == PEAT_INVALID_PDU && first[0] == 0x12, "one with what can not be read is no valid PDU");
    plain_opens(1);
    n = peat_d_data_indication(GROUND_REC, number, NO_LINE, BUFFERS);
    check(invokes(n, PEAT_D_ABORT_REQUEST, PEAT_PROVIDER) && peat_told_parameter(n) == PEAT_NOT_PERMITTED_PDU && first[0] == 0x17, "a D-DATA without user data: expected-PDU-missing");
    plain_opens(1);
    n = peat_d_data_indication(GROUND_REC, number, PEAT_USER_DATA, element, sizeof element, BUFFERS);
    check(invokes(n, PEAT_D_ABORT_REQUEST, PEAT_PROVIDER) && peat_told_parameter(n) == PEAT_INVALID_PDU && first[0] == 0x12, "an element that is not carried is no valid PDU");
    fresh_of(PEAT_PLAIN);
    n = peat_d_start_indication(AIR_REC, 1, PEAT_FACILITY, PEAT_NO_SECURITY, 1, 1, 0, PEAT_NO_VERSION, NO_LINE, BUFFERS);
    check(invokes(n, PEAT_D_ABORT_REQUEST, PEAT_PROVIDER) && first[0] == 0x2E, "a D-START without user data: expected-PDU-missing");
}

/* a forward of type 2 from one centre to another: the elements in place */
void plain_forward(void)
{
    static uint8_t out[PEAT_BUFFER_LEAST], delivered[64], heading[PEAT_HEADING_BYTES];
    struct peat_answer n;
    check(WORD(peat_fresh(GROUND_REC, PEAT_GROUND, PEAT_NO_SECURITY, PEAT_FORWARDS_NOT, 3, PEAT_PLAIN)) == 0 &&
        WORD(peat_fresh(OTHER_REC, PEAT_GROUND, PEAT_NO_SECURITY, PEAT_FORWARDS, 3, PEAT_PLAIN)) == 0, "fresh records of two centres of type 2");
    check(WORD(peat_forward_request(GROUND_REC, 1, PEAT_CLASS_B, PEAT_NO_SECURITY, HEADING, PEAT_ARRAY(forwarded), 12, BUFFERS)) == PEAT_SHAPE, "bits that are no elements");
    check(WORD(peat_forward_request(GROUND_REC, 1, PEAT_CLASS_B, PEAT_NO_SECURITY, HEADING, wilco, 2, 13, BUFFERS)) == PEAT_SHAPE, "a bit more than the elements");
    n = sent(peat_forward_request(GROUND_REC, 1, PEAT_CLASS_B, PEAT_SECURED_EXCHANGE, HEADING, wilco, 2, 12, BUFFERS));
    check(invokes(n, PEAT_D_START_REQUEST, PEAT_CLASS_B) && peat_invoked_security(n) == PEAT_NO_SECURITY && peat_apdu_bits(n) == 119 && line_len == sizeof plain_by_hand &&
        memcmp(line, plain_by_hand, sizeof plain_by_hand) == 0, "a forward of type 2, as by hand");
    n = sent(peat_d_start_indication(OTHER_REC, 1, PEAT_FACILITY, PEAT_NO_SECURITY, 1, 1, PEAT_CLASS_B, 3, LINE, BUFFERS));
    check(peat_told(n) == PEAT_FORWARD_INDICATION && peat_data_bits(n) == 115 && first[0] == 0x50, "it is delivered, and answered with success");
    memcpy(delivered, second, peat_data_bytes(n));
    check(WORD(peat_read_forward(delivered, peat_data_bytes(n), PEAT_ARRAY(heading), PEAT_ARRAY(out), PEAT_PLAIN)) == 12 << 8 && peat_heading_value(heading, PEAT_FORWARD_YEAR) == 2026 &&
        peat_heading_value(heading, PEAT_FORWARD_DIRECTION) == PEAT_FORWARD_DOWNLINK && out[0] == 0 && out[1] == 0, "and taken apart");
    check(peat_forward_value(peat_forward_part(PEAT_FORWARD_PLAIN + PEAT_FORWARD_MESSAGE, delivered, peat_data_bytes(n), PEAT_ARRAY(out))) == 12 &&
        peat_forward_value(peat_forward_part(PEAT_FORWARD_PLAIN + PEAT_FORWARD_DAY, delivered, peat_data_bytes(n), PEAT_ARRAY(out))) == 15 &&
        WORD(peat_forward_part(15, delivered, peat_data_bytes(n), PEAT_ARRAY(out))) == PEAT_SHAPE && WORD(peat_forward_part(27, delivered, peat_data_bytes(n), PEAT_ARRAY(out))) == PEAT_SHAPE,
        "part by part");
    n = peat_d_start_confirmation(GROUND_REC, 1, PEAT_REJECTED, PEAT_DS_USER, PEAT_NO_SECURITY, PEAT_NO_VERSION, LINE, BUFFERS);
    check(peat_told(n) == PEAT_FORWARD_CONFIRMATION && peat_told_parameter(n) == PEAT_FORWARD_SUCCESS, "the sending centre hears of it");
    peat_forward_request(GROUND_REC, 2, PEAT_CLASS_B, PEAT_NO_SECURITY, HEADING, wilco, 2, 12, BUFFERS);
    n = peat_d_start_confirmation(GROUND_REC, 2, PEAT_REJECTED, PEAT_DS_USER, PEAT_NO_SECURITY, PEAT_NO_VERSION, NO_LINE, BUFFERS);
    check(invokes(n, PEAT_D_ABORT_REQUEST, PEAT_PROVIDER) && first[0] == 0x17, "in FORWARD the response is never left out");
}
