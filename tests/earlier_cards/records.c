/*
 * Two ends of application type 22 and the calls of their life, the same for every card: each call with its answer and all bytes that it left, a line each.
 *
 *     records CALLS
 *
 * It is compiled with the header of the card that it asks; before E14 peat_fresh had no type. Lines that begin with `plain` are what a record of type 2
 * is answered: its first byte is 3 or 4.
 */
#include <stdio.h>
#include <stdlib.h>
#include <string.h>

#include "peatribbon.h"

#ifdef peat_refusal /* an answer is a struct */
#define WORD(answer) ((answer).word)
typedef struct peat_answer answer;
#else
#define WORD(answer) (answer)
typedef uint64_t answer;
#endif

#ifdef PEAT_FORWARD_PLAIN
#define OF_TYPE_22 , PEAT_PROTECTED
#else
#define OF_TYPE_22
#endif

static uint8_t rec[2][PEAT_RECORD_BYTES], first[PEAT_BUFFER_LEAST], second[PEAT_BUFFER_LEAST];
static uint8_t line[2][PEAT_BUFFER_LEAST]; /* what each end sent last */
static answer sent[2];
static uint64_t state = 14;

static unsigned below(unsigned n)
{
    uint64_t z = state += UINT64_C(0x9E3779B97F4A7C15);
    z = (z ^ z >> 30) * UINT64_C(0xBF58476D1CE4E5B9);
    z = (z ^ z >> 27) * UINT64_C(0x94D049BB133111EB);
    return (unsigned)((z ^ z >> 31) % n);
}

static void show(const uint8_t *at, size_t n)
{
    putchar(' ');
    if (n == 0)
        putchar('-');
    while (n-- > 0)
        printf("%02x", *at++);
}

#define REC PEAT_ARRAY(rec[e])
#define BUFFERS PEAT_BUFFERS(first, second)
#define LINE PEAT_USER_DATA, line[!e], peat_apdu_bytes(sent[!e])

/* the primitive that the other end sent last arrives, with its number or another */
static answer arrives(unsigned e)
{
    answer n = sent[!e];
    uint64_t number = peat_record_number(rec[!e]) + (below(16) == 0);
    switch (peat_invoked(n)) {
    case PEAT_D_START_REQUEST:
        return peat_d_start_indication(REC, number, e ? PEAT_AIRCRAFT : PEAT_FACILITY, peat_invoked_security(n), PEAT_HIGH_PRIORITY, below(20) ? PEAT_LOW_ERROR_RATE : 0,
            peat_invoked_parameter(n), peat_version(n), LINE, BUFFERS);
    case PEAT_D_START_RESPONSE: return peat_d_start_confirmation(REC, number, peat_invoked_parameter(n), PEAT_DS_USER, peat_invoked_security(n), peat_version(n), LINE, BUFFERS);
    case PEAT_D_DATA_REQUEST: return peat_d_data_indication(REC, number, LINE, BUFFERS);
    case PEAT_D_END_REQUEST: return peat_d_end_indication(REC, number, LINE, BUFFERS);
    case PEAT_D_END_RESPONSE: return peat_d_end_confirmation(REC, number, peat_invoked_parameter(n), LINE, BUFFERS);
    case PEAT_D_ABORT_REQUEST: return peat_d_abort_indication(REC, number, peat_invoked_parameter(n), LINE, BUFFERS);
    default: return peat_d_p_abort_indication(REC, number, BUFFERS);
    }
}

/* where no call is made */
static answer no_call(void)
{
    answer n;
    memset(&n, 0, sizeof n);
    WORD(n) = PEAT_SHAPE;
    return n;
}

/* one call of its user, or of its host */
static answer asks(unsigned e, unsigned what)
{
    static const uint8_t octets[32] = {0x5A, 0xC3, 0x96, 0x0F, 0xE1, 0x2D, 0x78, 0xB4};
    uint64_t number = 1 + (peat_record_number(rec[0]) > peat_record_number(rec[1]) ? peat_record_number(rec[0]) : peat_record_number(rec[1]));
    struct peat_data data = {0};
    if (below(3))
        data.message = octets, data.message_len = sizeof octets, data.message_bits = below(200);
    if (below(2))
        data.identifier = octets, data.identifier_len = 1 + below(16), data.check = octets, data.check_len = 8, data.check_bits = below(65);
    switch (what) {
    case 0: case 1: return peat_start(REC, number, e ? PEAT_CPDLC : below(2), below(9), PEAT_NO_SECURITY, PEAT_DATA(data), BUFFERS);
    case 2: return peat_start_response(REC, below(4) == 0, PEAT_DATA(data), BUFFERS);
    case 3: return peat_dsc_start_response(REC, below(4) == 0, PEAT_DATA(data), BUFFERS);
    case 4: case 5: case 6: return peat_message_request(REC, peat_record_highest(rec[e]) + below(3), PEAT_DATA(data), BUFFERS);
    case 7: return peat_end_request(REC, PEAT_DATA(data), BUFFERS);
    case 8: return peat_dsc_end_request(REC, PEAT_DATA(data), BUFFERS);
    case 9: return peat_end_response(REC, below(2), PEAT_DATA(data), BUFFERS);
    case 10: return peat_dsc_end_response(REC, below(2), PEAT_DATA(data), BUFFERS);
    case 11:
        if (below(4))
            return no_call();
        return peat_user_abort(REC, below(14), BUFFERS);
    case 12: return peat_timer_expiry(REC, BUFFERS);
    case 13:
        return peat_forward_request(REC, number, below(9), PEAT_NO_SECURITY, 2026, 11, 16, 14, 30, below(61), 6, peat_flight("SAS123", 6), 0x4A1B2C, below(2), PEAT_ARRAY(octets), below(200), BUFFERS);
    default: return arrives(e);
    }
}

#define ARRIVES 14

/* what may be taken in its state, mostly; now and then anything */
static unsigned drawn(unsigned e, int waits)
{
    unsigned dsc = peat_record_dsc(rec[e]), any = below(28);
    if (below(6) == 0)
        return any;
    if (waits && below(3))
        return ARRIVES;
    switch (peat_record_state(rec[e])) {
    case PEAT_IDLE: return e == 1 && below(4) == 0 ? 13 : 0;
    case PEAT_START_IND: return dsc ? 3 : 2;
    case PEAT_DIALOGUE: return below(4) ? 4 : dsc ? 8 : 7;
    case PEAT_END: return below(2) ? 4 : dsc ? 10 : 9;
    default: return below(8) ? ARRIVES : 12;
    }
}

int main(int argc, char **argv)
{
    int waits[2] = {0, 0};
    unsigned long calls = argc > 1 ? strtoul(argv[1], NULL, 10) : 3000, i;
    unsigned code;
    peat_fresh(PEAT_ARRAY(rec[0]), PEAT_AIR, PEAT_NO_SECURITY, PEAT_FORWARDS_NOT, 1 OF_TYPE_22);
    peat_fresh(PEAT_ARRAY(rec[1]), PEAT_GROUND, PEAT_NO_SECURITY, PEAT_FORWARDS, 7 OF_TYPE_22);
    for (i = 0; i < calls; i++) {
        unsigned e = below(2), what = drawn(e, waits[e]);
        answer n;
        memset(first, 0xC3, sizeof first), memset(second, 0xC3, sizeof second);
        n = asks(e, what);
        printf("%u %u %llx", e, what, (unsigned long long)WORD(n));
        show(PEAT_ARRAY(rec[e]));
        show(first, peat_refusal(n) ? 0 : peat_apdu_bytes(n));
        show(second, peat_refusal(n) ? 0 : peat_data_bytes(n));
        putchar('\n');
        if (peat_refusal(n) == PEAT_TAKEN && peat_invoked(n) != PEAT_SILENT)
            sent[e] = n, memcpy(line[e], first, sizeof first), waits[!e] = 1;
        if (what >= ARRIVES)
            waits[e] = 0;
    }
    for (code = 0; code < 7; code++) {
        peat_fresh(PEAT_ARRAY(rec[0]), PEAT_AIR, PEAT_NO_SECURITY, PEAT_FORWARDS_NOT, 1 OF_TYPE_22);
        rec[0][PEAT_RECORD_SIDE] = (uint8_t)code;
        printf("plain %u %llx", code, (unsigned long long)WORD(peat_system_error(PEAT_ARRAY(rec[0]), BUFFERS)));
        show(PEAT_ARRAY(rec[0]));
        putchar('\n');
    }
    return 0;
}
