/*
 * The card's calls, answered by the model of tests/card, which shares no code with the card. With it the bridge can be built
 * for a processor that the card's archive is not for, and run there with the address sanitizer, which no emulator takes.
 */
#include "../card/model.h"
#include "peatribbon.h"

/* A model's range is lent for writing; what the header lends as const is only read. */
static struct range lent(const uint8_t *at, size_t len) { return (struct range){(uint8_t *)(uintptr_t)at, len}; }

#define RECORD uint8_t *rec, size_t rec_len
#define MESSAGE_DATA const uint8_t *identifier, size_t identifier_len, const uint8_t *message, size_t message_len, uint64_t message_bits, const uint8_t *check, \
    size_t check_len, uint64_t check_bits
#define USER_DATA uint64_t has_user_data, const uint8_t *user_data, size_t user_data_len
#define BUFFERS uint8_t *apdu, size_t apdu_len, uint8_t *data, size_t data_len

/* what every machine's call is lent, and what some are */
#define BASE .rec = {rec, rec_len}, .first = {apdu, apdu_len}, .second = {data, data_len}
#define WITH_MESSAGE \
    .ids = lent(identifier, identifier_len), .msgs = lent(message, message_len), .message = message_bits, .checks = lent(check, check_len), .check = check_bits
#define WITH_USER_DATA .given = has_user_data, .bytes = lent(user_data, user_data_len)
#define ASK(type, which, ...) \
    do { \
        struct args a = {__VA_ARGS__}; \
        return (struct type){model_call(which, &a)}; \
    } while (0)

struct peat_outcome peat_fresh(RECORD, uint64_t side, uint64_t policy, uint64_t forwards, uint64_t version, uint64_t type)
{
    ASK(peat_outcome, FRESH, .rec = {rec, rec_len}, .n = {side, policy, forwards, version, type});
}

struct peat_answer peat_start(RECORD, uint64_t number, uint64_t mode, uint64_t class_, uint64_t security, MESSAGE_DATA, BUFFERS)
{
    ASK(peat_answer, START_REQUEST, BASE, WITH_MESSAGE, .number = number, .n = {mode, class_, security});
}
struct peat_answer peat_start_response(RECORD, uint64_t result, MESSAGE_DATA, BUFFERS) { ASK(peat_answer, START_RESPONSE, BASE, WITH_MESSAGE, .n = {result}); }
struct peat_answer peat_dsc_start_response(RECORD, uint64_t result, MESSAGE_DATA, BUFFERS) { ASK(peat_answer, DSC_START_RESPONSE, BASE, WITH_MESSAGE, .n = {result}); }
struct peat_answer peat_dsc_end_request(RECORD, MESSAGE_DATA, BUFFERS) { ASK(peat_answer, DSC_END_REQUEST, BASE, WITH_MESSAGE); }
struct peat_answer peat_dsc_end_response(RECORD, uint64_t result, MESSAGE_DATA, BUFFERS) { ASK(peat_answer, DSC_END_RESPONSE, BASE, WITH_MESSAGE, .n = {result}); }
struct peat_answer peat_message_request(RECORD, uint64_t job, MESSAGE_DATA, BUFFERS) { ASK(peat_answer, MESSAGE_REQUEST, BASE, WITH_MESSAGE, .n = {job}); }
struct peat_answer peat_end_request(RECORD, MESSAGE_DATA, BUFFERS) { ASK(peat_answer, END_REQUEST, BASE, WITH_MESSAGE); }
struct peat_answer peat_end_response(RECORD, uint64_t result, MESSAGE_DATA, BUFFERS) { ASK(peat_answer, END_RESPONSE, BASE, WITH_MESSAGE, .n = {result}); }
struct peat_answer peat_user_abort(RECORD, uint64_t reason, BUFFERS) { ASK(peat_answer, USER_ABORT, BASE, .n = {reason}); }
struct peat_answer peat_forward_request(RECORD, uint64_t number, uint64_t class_, uint64_t security, uint64_t year, uint64_t month, uint64_t day,
    uint64_t hours, uint64_t minutes, uint64_t seconds, uint64_t characters, uint64_t flight, uint64_t address, uint64_t direction,
    const uint8_t *message, size_t message_len, uint64_t message_bits, BUFFERS)
{
    ASK(peat_answer, FORWARD_REQUEST, BASE, .number = number, .msgs = lent(message, message_len), .message = message_bits,
        .n = {class_, security, year, month, day, hours, minutes, seconds, characters, flight, address, direction});
}
struct peat_answer peat_timer_expiry(RECORD, BUFFERS) { ASK(peat_answer, TIMER_EXPIRY, BASE); }

struct peat_answer peat_d_start_indication(RECORD, uint64_t number, uint64_t peer, uint64_t security, uint64_t priority, uint64_t rate, uint64_t routing,
    uint64_t version, USER_DATA, BUFFERS)
{
    ASK(peat_answer, D_START_INDICATION, BASE, .number = number, WITH_USER_DATA, .n = {peer, security, priority, rate, routing, version});
}
struct peat_answer peat_d_start_confirmation(
    RECORD, uint64_t number, uint64_t result, uint64_t source, uint64_t security, uint64_t version, USER_DATA, BUFFERS)
{
    ASK(peat_answer, D_START_CONFIRMATION, BASE, .number = number, WITH_USER_DATA, .n = {result, source, security, version});
}
struct peat_answer peat_d_data_indication(RECORD, uint64_t number, USER_DATA, BUFFERS) { ASK(peat_answer, D_DATA_INDICATION, BASE, .number = number, WITH_USER_DATA); }
struct peat_answer peat_d_end_indication(RECORD, uint64_t number, USER_DATA, BUFFERS) { ASK(peat_answer, D_END_INDICATION, BASE, .number = number, WITH_USER_DATA); }
struct peat_answer peat_d_end_confirmation(RECORD, uint64_t number, uint64_t result, USER_DATA, BUFFERS) { ASK(peat_answer, D_END_CONFIRMATION, BASE, .number = number, WITH_USER_DATA, .n = {result}); }
struct peat_answer peat_d_abort_indication(RECORD, uint64_t number, uint64_t originator, USER_DATA, BUFFERS) { ASK(peat_answer, D_ABORT_INDICATION, BASE, .number = number, WITH_USER_DATA, .n = {originator}); }
struct peat_answer peat_d_p_abort_indication(RECORD, uint64_t number, BUFFERS) { ASK(peat_answer, D_P_ABORT_INDICATION, BASE, .number = number); }

struct peat_part_answer peat_data_part(uint64_t which, const uint8_t *delivered, size_t delivered_len, uint8_t *out, size_t out_len)
{
    ASK(peat_part_answer, DATA_PART, .n = {which}, .bytes = lent(delivered, delivered_len), .first = {out, out_len});
}
struct peat_forward_answer peat_forward_part(uint64_t which, const uint8_t *delivered, size_t delivered_len, uint8_t *out, size_t out_len)
{
    ASK(peat_forward_answer, FORWARD_PART, .n = {which}, .bytes = lent(delivered, delivered_len), .first = {out, out_len});
}
struct peat_forward_answer peat_read_forward(const uint8_t *delivered, size_t delivered_len, uint8_t *heading, size_t heading_len, uint8_t *out, size_t out_len, uint64_t type)
{
    ASK(peat_forward_answer, READ_FORWARD, .n = {type}, .bytes = lent(delivered, delivered_len), .ids = {heading, heading_len}, .first = {out, out_len});
}
struct peat_envelope_answer peat_read_envelope(const uint8_t *bytes, size_t bytes_len, uint8_t *job, size_t job_len)
{
    ASK(peat_envelope_answer, READ_ENVELOPE, .bytes = lent(bytes, bytes_len), .first = {job, job_len});
}
struct peat_written_envelope peat_write_envelope(uint64_t kind, uint64_t job, uint64_t bits, const uint8_t *body, size_t body_len, uint8_t *out, size_t out_len)
{
    ASK(peat_written_envelope, WRITE_ENVELOPE, .n = {kind, job, bits}, .msgs = lent(body, body_len), .first = {out, out_len});
}
struct peat_message_answer peat_read_message(uint64_t direction, const uint8_t *bits, size_t bits_len, uint64_t count, uint8_t *message, size_t message_len, uint8_t *text, size_t text_len)
{
    ASK(peat_message_answer, READ_MESSAGE, .n = {direction, count}, .bytes = lent(bits, bits_len), .rec = {message, message_len}, .first = {text, text_len});
}
struct peat_written_message peat_write_message(uint64_t direction, const uint8_t *message, size_t message_len, const uint8_t *text, size_t text_len, uint8_t *out, size_t out_len)
{
    ASK(peat_written_message, WRITE_MESSAGE, .n = {direction}, .ids = lent(message, message_len), .msgs = lent(text, text_len), .first = {out, out_len});
}
