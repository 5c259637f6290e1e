/*
 * Scripted dialogues of an air end and a ground end.
 */
#include <stdio.h>
#include <string.h>

#include "card.h"

uint8_t air[PEAT_RECORD_BYTES], ground[PEAT_RECORD_BYTES];
uint8_t first[PEAT_BUFFER_LEAST], second[PEAT_BUFFER_LEAST], line[PEAT_BUFFER_LEAST];
size_t line_len;

uint64_t number;

/* a number above what either end holds */
uint64_t above(void)
{
    uint64_t a = peat_record_number(air), g = peat_record_number(ground);
    return 1 + (a > g ? a : g);
}

/* keeps the APDU for the other end */
struct peat_answer sent(struct peat_answer answer)
{
    line_len = peat_apdu_bytes(answer);
    memcpy(line, first, line_len);
    return answer;
}

int invokes(struct peat_answer answer, unsigned primitive, unsigned parameter)
{
    return peat_refusal(answer) == PEAT_TAKEN && peat_invoked(answer) == primitive && peat_invoked_parameter(answer) == parameter;
}

int told(struct peat_answer answer, unsigned primitive, unsigned parameter, unsigned dsc)
{
    return peat_refusal(answer) == PEAT_TAKEN && peat_invoked(answer) == PEAT_SILENT && peat_told(answer) == primitive &&
           peat_told_parameter(answer) == parameter && peat_told_dsc(answer) == dsc;
}

int states(unsigned a, unsigned g) { return peat_record_state(air) == a && peat_record_state(ground) == g; }

void fresh_of(unsigned type)
{
    check(WORD(peat_fresh(AIR_REC, PEAT_AIR, PEAT_NO_SECURITY, PEAT_FORWARDS_NOT, 1, type)) == 0 &&
        WORD(peat_fresh(GROUND_REC, PEAT_GROUND, PEAT_NO_SECURITY, PEAT_FORWARDS_NOT, 1, type)) == 0, "fresh records");
    check(states(PEAT_IDLE, PEAT_IDLE) && peat_record_highest(air) == 0 && peat_record_number(air) == 0 && !peat_record_timer(air) && !peat_record_active(air), "a fresh record is IDLE");
    check(peat_record_type(air) == type && peat_record_type(ground) == type && peat_record_side(air) == PEAT_AIR && peat_record_side(ground) == PEAT_GROUND,
        "a record says its type and its side");
}

void fresh(void) { fresh_of(PEAT_PROTECTED); }

/* the ground end opens, the air end accepts */
void opens(void)
{
    struct peat_answer n = sent(peat_start(GROUND_REC, number = above(), PEAT_CPDLC, PEAT_CLASS_C, PEAT_NO_SECURITY, BARE, BUFFERS));
    check(invokes(n, PEAT_D_START_REQUEST, PEAT_CLASS_C) && peat_record_timer(ground), "CPDLC-start request");
    n = peat_d_start_indication(AIR_REC, number, PEAT_FACILITY, PEAT_NO_SECURITY, 1, 1, PEAT_CLASS_C, PEAT_NO_VERSION, LINE, BUFFERS);
    check(told(n, PEAT_START_INDICATION, PEAT_CLASS_C, 0) && states(PEAT_START_IND, PEAT_START_REQ), "CPDLC-start indication");
    n = sent(peat_start_response(AIR_REC, PEAT_ACCEPTED, BARE, BUFFERS));
    check(invokes(n, PEAT_D_START_RESPONSE, PEAT_ACCEPTED), "CPDLC-start response");
    n = peat_d_start_confirmation(GROUND_REC, number, PEAT_ACCEPTED, PEAT_DS_USER, PEAT_NO_SECURITY, PEAT_NO_VERSION, LINE, BUFFERS);
    check(told(n, PEAT_START_CONFIRMATION, PEAT_ACCEPTED, 0) && states(PEAT_DIALOGUE, PEAT_DIALOGUE) && !peat_record_timer(ground), "CPDLC-start confirmation");
}

struct peat_answer says(uint8_t *rec, uint64_t job, const uint8_t *message, uint64_t bits)
{
    static const uint8_t check_bits[8] = {0xA5, 0x5A, 1, 2, 3, 4, 5, 6};
    return sent(peat_message_request(rec, PEAT_RECORD_BYTES, job, NULL, 0, message, (size_t)((bits + 7) / 8), bits, check_bits, 8, 64, BUFFERS));
}

/* a message each way; the data delivered are 3 bits, a length, the message, a length, the check */
static void messages(uint64_t job)
{
    uint8_t text[2] = {0xA5, 0x40};
    struct peat_answer n = says(air, job, text, 10);
    check(invokes(n, PEAT_D_DATA_REQUEST, 0) && peat_apdu_bits(n) == 3 + 3 + 8 + 10 + 8 + 64, "a message down");
    n = peat_d_data_indication(GROUND_REC, number, LINE, BUFFERS);
    /* 001 00001010 1010010101 01000000 .. */
    check(told(n, PEAT_MESSAGE_INDICATION, 0, 0) && peat_data_bits(n) == 93 && second[0] == 0x21 && second[1] == 0x54 && second[2] == 0xAA, "it is delivered");
    n = says(ground, job, text, 10);
    check(invokes(n, PEAT_D_DATA_REQUEST, 0) && peat_apdu_bits(n) == 4 + 93, "a message up");
    n = peat_d_data_indication(AIR_REC, number, LINE, BUFFERS);
    check(told(n, PEAT_MESSAGE_INDICATION, 0, 0) && peat_data_bits(n) == 93, "it is delivered too");
}

/* a later edition adds to a message, and more octets than a buffer has: what is delivered is the message without them */
void later_edition(void)
{
    static uint8_t longer[12 + 3 + 3000], plain[PEAT_BUFFER_LEAST];
    uint8_t text[2] = {0xA5, 0x40};
    struct peat_answer n;
    fresh();
    opens();
    says(air, 1, text, 10);
    check(line_len == 12 && sizeof longer > PEAT_BUFFER_LEAST, "a message of 96 bits");
    n = peat_d_data_indication(GROUND_REC, number, LINE, BUFFERS);
    check(told(n, PEAT_MESSAGE_INDICATION, 0, 0) && peat_data_bits(n) == 93, "without additions it is delivered");
    memcpy(plain, second, sizeof plain);
    memcpy(longer, line, 12);
    longer[0] |= 0x10;                                             /* the extension bit of the message data */
    longer[12] = 0x01;                                             /* one addition, and it is there */
    longer[13] = 0x80 | 3000 >> 8, longer[14] = 3000 & 0xFF;       /* so many octets */
    fill(longer + 15, 3000);
    n = peat_d_data_indication(GROUND_REC, number, PEAT_USER_DATA, longer, sizeof longer, BUFFERS);
    check(told(n, PEAT_MESSAGE_INDICATION, 0, 0) && peat_data_bits(n) == 93 && memcmp(second, plain, sizeof plain) == 0, "with an addition the same is delivered");
    n = peat_d_data_indication(GROUND_REC, number, PEAT_USER_DATA, longer, sizeof longer - 1, BUFFERS);
    check(invokes(n, PEAT_D_ABORT_REQUEST, PEAT_PROVIDER) && peat_told_parameter(n) == PEAT_INVALID_PDU, "an addition that is cut is no valid PDU");
}

void ends(void)
{
    struct peat_answer n = sent(peat_end_request(GROUND_REC, BARE, BUFFERS));
    check(invokes(n, PEAT_D_END_REQUEST, 0), "CPDLC-end request");
    check(told(peat_d_end_indication(AIR_REC, number, LINE, BUFFERS), PEAT_END_INDICATION, 0, 0) && states(PEAT_END, PEAT_END), "CPDLC-end indication");
    n = sent(peat_end_response(AIR_REC, PEAT_ACCEPTED, BARE, BUFFERS));
    check(invokes(n, PEAT_D_END_RESPONSE, PEAT_ACCEPTED), "CPDLC-end response");
    n = peat_d_end_confirmation(GROUND_REC, number, PEAT_ACCEPTED, LINE, BUFFERS);
    check(told(n, PEAT_END_CONFIRMATION, PEAT_ACCEPTED, 0) && states(PEAT_IDLE, PEAT_IDLE), "CPDLC-end confirmation");
}

void open_message_end_again(void)
{
    fresh();
    opens();
    messages(1);
    ends();
    opens();
    check(WORD(says(air, 1, NULL, 0)) == PEAT_REPEAT, "the job is not forgotten when the dialogue closes");
    messages(2);
    ends();
}

void downstream(void)
{
    struct peat_answer n;
    fresh();
    n = sent(peat_start(AIR_REC, number = above(), PEAT_DSC, PEAT_CLASS_ANY, PEAT_NO_SECURITY, BARE, BUFFERS));
    check(invokes(n, PEAT_D_START_REQUEST, 0) && peat_record_dsc(air), "DSC-start request");
    n = peat_d_start_indication(GROUND_REC, number, PEAT_AIRCRAFT, PEAT_NO_SECURITY, 1, 1, 0, PEAT_NO_VERSION, LINE, BUFFERS);
    check(told(n, PEAT_START_INDICATION, 0, 1) && peat_record_dsc(ground), "DSC-start indication");
    check(WORD(peat_start_response(GROUND_REC, PEAT_ACCEPTED, BARE, BUFFERS)) == PEAT_PROHIBITED, "a CPDLC-start response to a DSC-start");
    n = sent(peat_dsc_start_response(GROUND_REC, PEAT_ACCEPTED, BARE, BUFFERS));
    n = peat_d_start_confirmation(AIR_REC, number, PEAT_ACCEPTED, PEAT_DS_USER, PEAT_NO_SECURITY, PEAT_NO_VERSION, LINE, BUFFERS);
    check(told(n, PEAT_START_CONFIRMATION, PEAT_ACCEPTED, 1) && states(PEAT_DIALOGUE, PEAT_DIALOGUE), "DSC-start confirmation");
    messages(9);
    sent(peat_dsc_end_request(AIR_REC, BARE, BUFFERS));
    check(told(peat_d_end_indication(GROUND_REC, number, LINE, BUFFERS), PEAT_END_INDICATION, 0, 1) && states(PEAT_END, PEAT_END), "DSC-end indication");
    sent(peat_dsc_end_response(GROUND_REC, PEAT_REJECTED, BARE, BUFFERS));
    check(told(peat_d_end_confirmation(AIR_REC, number, PEAT_REJECTED, LINE, BUFFERS), PEAT_END_CONFIRMATION, PEAT_REJECTED, 1) &&
        states(PEAT_DIALOGUE, PEAT_DIALOGUE), "a rejected DSC-end goes back to DIALOGUE");
    sent(peat_dsc_end_request(AIR_REC, BARE, BUFFERS));
    peat_d_end_indication(GROUND_REC, number, LINE, BUFFERS);
    sent(peat_dsc_end_response(GROUND_REC, PEAT_ACCEPTED, BARE, BUFFERS));
    check(peat_record_state(ground) == PEAT_IDLE && !peat_record_dsc(ground), "the accepted DSC-end response closes");
    n = peat_d_end_confirmation(AIR_REC, number, PEAT_ACCEPTED, LINE, BUFFERS);
    check(told(n, PEAT_END_CONFIRMATION, PEAT_ACCEPTED, 1) && states(PEAT_IDLE, PEAT_IDLE) && !peat_record_dsc(air), "DSC-end confirmation");
}

void aborts(void)
{
    struct peat_answer n;
    fresh();
    opens();
    n = sent(peat_user_abort(AIR_REC, PEAT_COMMANDED_TERMINATION, BUFFERS));
    check(invokes(n, PEAT_D_ABORT_REQUEST, PEAT_USER) && peat_apdu_bits(n) == 8 && first[0] == 0x05, "CPDLC-user-abort request: 000 00101");
    check(told(peat_d_abort_indication(GROUND_REC, number, PEAT_USER, LINE, BUFFERS), PEAT_USER_ABORT_INDICATION, PEAT_COMMANDED_TERMINATION, 0) &&
        states(PEAT_IDLE, PEAT_IDLE), "CPDLC-user-abort indication");
    check(WORD(peat_user_abort(AIR_REC, PEAT_NONE, BUFFERS)) == PEAT_PROHIBITED, "an abort in IDLE");
    opens();
    n = sent(peat_user_abort(GROUND_REC, PEAT_NONE, BUFFERS));
    check(invokes(n, PEAT_D_ABORT_REQUEST, PEAT_USER) && peat_apdu_bits(n) == 9 && first[0] == 0 && first[1] == 0, "no reason given: undefined");
    check(told(peat_d_abort_indication(AIR_REC, number, PEAT_USER, LINE, BUFFERS), PEAT_USER_ABORT_INDICATION, PEAT_UNDEFINED, 0), "undefined is told");
    opens();
    check(told(peat_d_p_abort_indication(AIR_REC, number, BUFFERS), PEAT_PROVIDER_ABORT_INDICATION, PEAT_COMMUNICATION_SERVICE_FAILURE, 0), "D-P-ABORT, air");
    check(told(peat_d_p_abort_indication(GROUND_REC, number, BUFFERS), PEAT_PROVIDER_ABORT_INDICATION, PEAT_COMMUNICATION_SERVICE_FAILURE, 0), "D-P-ABORT, ground");
    check(WORD(peat_d_p_abort_indication(AIR_REC, number, BUFFERS)) == 0 && WORD(peat_system_error(AIR_REC, BUFFERS)) == 0, "in IDLE neither has output");
    opens();
    n = peat_d_data_indication(AIR_REC, number, PEAT_NO_USER_DATA, NULL, 0, BUFFERS);
    check(invokes(n, PEAT_D_ABORT_REQUEST, PEAT_PROVIDER) && peat_told(n) == PEAT_PROVIDER_ABORT_INDICATION &&
        peat_told_parameter(n) == PEAT_NOT_PERMITTED_PDU && first[0] == 0x2E, "a missing PDU at the air end: 001 0111 is sent, 8 is told");
    n = peat_d_data_indication(GROUND_REC, number, PEAT_USER_DATA, NULL, 0, BUFFERS);
    check(invokes(n, PEAT_D_ABORT_REQUEST, PEAT_PROVIDER) && peat_told_parameter(n) == PEAT_INVALID_PDU, "user data of no bytes is no valid PDU");
}

void timer(void)
{
    struct peat_answer n;
    fresh();
    check(WORD(peat_timer_expiry(AIR_REC, BUFFERS)) == PEAT_PROHIBITED, "an expiry while no timer runs");
    sent(peat_start(AIR_REC, number = above(), PEAT_CPDLC, PEAT_CLASS_A, PEAT_NO_SECURITY, BARE, BUFFERS));
    n = peat_d_start_indication(GROUND_REC, number, PEAT_AIRCRAFT, PEAT_NO_SECURITY, 1, 1, PEAT_CLASS_A, PEAT_NO_VERSION, LINE, BUFFERS);
    n = sent(peat_timer_expiry(AIR_REC, BUFFERS));
    check(invokes(n, PEAT_D_ABORT_REQUEST, PEAT_PROVIDER) && peat_told(n) == PEAT_PROVIDER_ABORT_INDICATION &&
        peat_told_parameter(n) == PEAT_TIMER_EXPIRED && peat_record_state(air) == PEAT_IDLE && !peat_record_timer(air), "t-start expires");
    check(told(peat_d_abort_indication(GROUND_REC, number, PEAT_PROVIDER, LINE, BUFFERS), PEAT_PROVIDER_ABORT_INDICATION, PEAT_TIMER_EXPIRED, 0) &&
        states(PEAT_IDLE, PEAT_IDLE), "the other end is told timer-expired");
}

void jobs(void)
{
    uint8_t text[1] = {0xFF}, before[PEAT_RECORD_BYTES];
    fresh();
    check(WORD(says(air, 7, text, 8)) == PEAT_PROHIBITED && peat_record_highest(air) == 0, "job 7 in IDLE is refused with 3");
    opens();
    check(invokes(says(air, 7, text, 8), PEAT_D_DATA_REQUEST, 0) && peat_record_highest(air) == 7, "job 7 again in DIALOGUE: taken");
    memcpy(before, air, sizeof air);
    check(WORD(says(air, 7, text, 8)) == PEAT_REPEAT && memcmp(before, air, sizeof air) == 0, "job 7, then 7: REPEAT");
    check(WORD(says(air, 6, text, 8)) == PEAT_REPEAT, "job 6 after 7: REPEAT");
    check(WORD(says(air, 8, text, PEAT_NONE)) == PEAT_NO_MESSAGE && WORD(says(air, 7, text, PEAT_NONE)) == PEAT_NO_MESSAGE, "NO-MESSAGE comes before REPEAT");
    check(WORD(says(air, 0, text, 8)) == PEAT_SHAPE, "job 0 is SHAPE");
    check(invokes(says(air, UINT64_MAX, text, 8), PEAT_D_DATA_REQUEST, 0) && peat_record_highest(air) == UINT64_MAX, "the last job number");
    check(WORD(says(air, UINT64_MAX, text, 8)) == PEAT_REPEAT, "and again");
}

/* document 02, E9: what is left of an old dialogue changes nothing; a higher start leaves its number, also where it is turned away */
void stale(void)
{
    uint8_t text[1] = {0xFF}, before[PEAT_RECORD_BYTES];
    struct peat_answer n;
    uint64_t old;
    fresh();
    opens();
    old = number;
    says(ground, 1, text, 8); /* on the line when both ends abort and the ground starts anew */
    peat_user_abort(AIR_REC, PEAT_NONE, BUFFERS);
    peat_user_abort(GROUND_REC, PEAT_NONE, BUFFERS);
    check(WORD(peat_start(GROUND_REC, old, PEAT_CPDLC, 0, PEAT_NO_SECURITY, BARE, BUFFERS)) == PEAT_STALE, "a start with the number held");
    check(WORD(peat_start(GROUND_REC, old - 1, PEAT_CPDLC, 0, PEAT_NO_SECURITY, BARE, BUFFERS)) == PEAT_STALE, "and with one below it");
    opens();
    memcpy(before, air, sizeof air);
    check(WORD(peat_d_data_indication(AIR_REC, old, LINE, BUFFERS)) == PEAT_STALE && memcmp(before, air, sizeof air) == 0, "a late message");
    check(WORD(peat_d_abort_indication(AIR_REC, old, PEAT_USER, LINE, BUFFERS)) == PEAT_STALE && peat_record_state(air) == PEAT_DIALOGUE, "a late abort");
    check(WORD(peat_d_p_abort_indication(AIR_REC, number + 1, BUFFERS)) == PEAT_STALE, "one of a dialogue to come");
    check(WORD(peat_start(AIR_REC, number, PEAT_CPDLC, 0, PEAT_NO_SECURITY, BARE, BUFFERS)) == PEAT_STALE, "STALE comes before PROHIBITED");
    check(WORD(peat_start(AIR_REC, number + 1, PEAT_CPDLC, 0, PEAT_NO_SECURITY, BARE, BUFFERS)) == PEAT_PROHIBITED && peat_record_number(air) == number,
        "a refused start leaves the number");
    check(WORD(peat_start(AIR_REC, number, PEAT_CPDLC, 9, PEAT_NO_SECURITY, BARE, BUFFERS)) == PEAT_SHAPE, "SHAPE comes before STALE");
    n = peat_d_start_indication(AIR_REC, number + 5, PEAT_FACILITY, PEAT_NO_SECURITY, 1, 1, 0, PEAT_NO_VERSION, PEAT_NO_USER_DATA, NULL, 0, BUFFERS);
    check(invokes(n, PEAT_D_ABORT_REQUEST, PEAT_PROVIDER) && peat_record_state(air) == PEAT_IDLE && peat_record_number(air) == number + 5,
        "a start outside IDLE is turned away, and its number stays");
    n = peat_d_start_indication(AIR_REC, number + 6, PEAT_FACILITY, PEAT_NO_SECURITY, 0, 1, 0, PEAT_NO_VERSION, PEAT_NO_USER_DATA, NULL, 0, BUFFERS);
    check(invokes(n, PEAT_D_ABORT_REQUEST, PEAT_PROVIDER) && peat_record_number(air) == number + 6, "and one with a fault");
    check(WORD(peat_d_start_indication(AIR_REC, number + 6, PEAT_FACILITY, PEAT_NO_SECURITY, 1, 1, 0, PEAT_NO_VERSION, LINE, BUFFERS)) == PEAT_STALE, "the same number again");
    check(invokes(peat_start(AIR_REC, UINT64_MAX, PEAT_CPDLC, 0, PEAT_NO_SECURITY, BARE, BUFFERS), PEAT_D_START_REQUEST, 0), "the last number");
    peat_user_abort(AIR_REC, PEAT_NONE, BUFFERS);
    check(WORD(peat_start(AIR_REC, UINT64_MAX, PEAT_CPDLC, 0, PEAT_NO_SECURITY, BARE, BUFFERS)) == PEAT_STALE, "after it there is no start");
}

/* the largest message data: an identifier of 16 octets, 16,383 bits, a check of 64 bits */
void largest(void)
{
    static uint8_t ids[17], text[2049], checks[9];
    struct peat_answer n;
    fresh();
    fill(ids, sizeof ids), fill(text, sizeof text), fill(checks, sizeof checks);
    n = sent(peat_start(AIR_REC, number = above(), PEAT_DSC, 0, 0, ids, 16, text, 2048, 16383, checks, 8, 64, BUFFERS));
    check(invokes(n, PEAT_D_START_REQUEST, 0) && peat_apdu_bits(n) == 16615 && peat_apdu_bytes(n) == 2077, "the largest APDU is 2,077 bytes");
    n = peat_d_start_indication(GROUND_REC, number, PEAT_AIRCRAFT, 0, 1, 1, 0, PEAT_NO_VERSION, LINE, BUFFERS);
    check(told(n, PEAT_START_INDICATION, 0, 1) && peat_data_bits(n) == 3 + 8 + 128 + 16 + 16383 + 8 + 64 && peat_data_bits(n) == 16610, "it is delivered whole");
    fresh();
    check(WORD(peat_start(AIR_REC, number = above(), PEAT_CPDLC, 0, 0, ids, 17, text, 2048, 16383, checks, 8, 64, BUFFERS)) == PEAT_SHAPE, "17 octets");
    check(WORD(peat_start(AIR_REC, number = above(), PEAT_CPDLC, 0, 0, ids, 16, text, 2049, 16384, checks, 8, 64, BUFFERS)) == PEAT_SHAPE, "16,384 bits");
    check(WORD(peat_start(AIR_REC, number = above(), PEAT_CPDLC, 0, 0, ids, 16, text, 2047, 16383, checks, 8, 64, BUFFERS)) == PEAT_SHAPE, "more bits than the lent bytes hold");
    check(WORD(peat_start(AIR_REC, number = above(), PEAT_CPDLC, 0, 0, ids, 16, text, 2048, 16383, checks, 9, 65, BUFFERS)) == PEAT_SHAPE, "a check of 65 bits");
    check(WORD(peat_start(AIR_REC, number = above(), PEAT_CPDLC, 0, 0, ids, 16, text, 2048, 16383, checks, 7, 64, BUFFERS)) == PEAT_SHAPE, "a check that its bytes do not hold");
}
