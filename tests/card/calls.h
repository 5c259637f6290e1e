/* The entry points by number. */
#ifndef CALLS_H
#define CALLS_H

#include "../lib/answers.h"
#include "model.h"

static inline uint64_t card_call(enum which w, const struct args *a)
{
#define REC a->rec.at, a->rec.len
#define DATA a->ids.at, a->ids.len, a->msgs.at, a->msgs.len, a->message, a->checks.at, a->checks.len, a->check
#define GIVEN a->given, a->bytes.at, a->bytes.len
#define OUT a->first.at, a->first.len, a->second.at, a->second.len
    const uint64_t *n = a->n;
    switch (w) {
    case START_REQUEST: return WORD(peat_start(REC, a->number, n[0], n[1], n[2], DATA, OUT));
    case START_RESPONSE: return WORD(peat_start_response(REC, n[0], DATA, OUT));
    case DSC_START_RESPONSE: return WORD(peat_dsc_start_response(REC, n[0], DATA, OUT));
    case MESSAGE_REQUEST: return WORD(peat_message_request(REC, n[0], DATA, OUT));
    case END_REQUEST: return WORD(peat_end_request(REC, DATA, OUT));
    case DSC_END_REQUEST: return WORD(peat_dsc_end_request(REC, DATA, OUT));
    case END_RESPONSE: return WORD(peat_end_response(REC, n[0], DATA, OUT));
    case DSC_END_RESPONSE: return WORD(peat_dsc_end_response(REC, n[0], DATA, OUT));
    case USER_ABORT: return WORD(peat_user_abort(REC, n[0], OUT));
    case FORWARD_REQUEST:
        return WORD(peat_forward_request(REC, a->number, n[0], n[1], n[2], n[3], n[4], n[5], n[6], n[7], n[8], n[9], n[10], n[11], a->msgs.at,
            a->msgs.len, a->message, OUT));
    case TIMER_EXPIRY: return WORD(peat_timer_expiry(REC, OUT));
    case SYSTEM_ERROR: return WORD(peat_system_error(REC, OUT));
    case D_START_INDICATION: return WORD(peat_d_start_indication(REC, a->number, n[0], n[1], n[2], n[3], n[4], n[5], GIVEN, OUT));
    case D_START_CONFIRMATION: return WORD(peat_d_start_confirmation(REC, a->number, n[0], n[1], n[2], n[3], GIVEN, OUT));
    case D_DATA_INDICATION: return WORD(peat_d_data_indication(REC, a->number, GIVEN, OUT));
    case D_END_INDICATION: return WORD(peat_d_end_indication(REC, a->number, GIVEN, OUT));
    case D_END_CONFIRMATION: return WORD(peat_d_end_confirmation(REC, a->number, n[0], GIVEN, OUT));
    case D_ABORT_INDICATION: return WORD(peat_d_abort_indication(REC, a->number, n[0], GIVEN, OUT));
    case D_P_ABORT_INDICATION: return WORD(peat_d_p_abort_indication(REC, a->number, OUT));
    case READ_ENVELOPE: return WORD(peat_read_envelope(a->bytes.at, a->bytes.len, a->first.at, a->first.len));
    case WRITE_ENVELOPE: return WORD(peat_write_envelope(n[0], n[1], n[2], a->msgs.at, a->msgs.len, a->first.at, a->first.len));
    case DATA_PART: return WORD(peat_data_part(n[0], a->bytes.at, a->bytes.len, a->first.at, a->first.len));
    case FORWARD_PART: return WORD(peat_forward_part(n[0], a->bytes.at, a->bytes.len, a->first.at, a->first.len));
    case READ_FORWARD: return WORD(peat_read_forward(a->bytes.at, a->bytes.len, a->ids.at, a->ids.len, a->first.at, a->first.len, n[0]));
    case READ_APDU: return WORD(peat_read_apdu(n[0], a->bytes.at, a->bytes.len));
    case READ_MESSAGE: return WORD(peat_read_message(n[0], a->bytes.at, a->bytes.len, n[1], a->rec.at, a->rec.len, a->first.at, a->first.len));
    case WRITE_MESSAGE: return WORD(peat_write_message(n[0], a->ids.at, a->ids.len, a->msgs.at, a->msgs.len, a->first.at, a->first.len));
    default: return WORD(peat_fresh(REC, n[0], n[1], n[2], n[3], n[4]));
    }
#undef REC
#undef DATA
#undef GIVEN
#undef OUT
}

static const char *const names[CALLS] = {
    "peat_start", "peat_start_response", "peat_dsc_start_response", "peat_message_request", "peat_end_request",
    "peat_dsc_end_request", "peat_end_response", "peat_dsc_end_response", "peat_user_abort", "peat_forward_request",
    "peat_timer_expiry", "peat_system_error", "peat_d_start_indication", "peat_d_start_confirmation", "peat_d_data_indication", "peat_d_end_indication",
    "peat_d_end_confirmation", "peat_d_abort_indication", "peat_d_p_abort_indication", "peat_fresh", "peat_read_envelope", "peat_write_envelope",
    "peat_data_part", "peat_forward_part", "peat_read_forward", "peat_read_apdu", "peat_read_message", "peat_write_message"};

#endif
