/*
 * Peatribbon, as a C host calls it.
 *
 * A dialogue record (PEAT_RECORD_BYTES bytes) is one end, air or ground, of one dialogue. You store it, and lend it to each call of the
 * machine together with two output buffers. The call brings one event: a primitive of the user, a primitive of the dialogue service, the
 * expiry of t-start, or a system error. Its answer says which primitive to invoke of the dialogue service, with the APDU in buffer apdu,
 * and which to give to the user, with the message data in buffer data. Other calls need no dialogue record.
 *
 * Calls, and what reads their answers. Each group of calls answers a struct of its own, so the compiler refuses the accessor of another
 * group. peat_refusal(answer) reads every one of them.
 *
 *   To do                         Call                                     Answer, and its accessors
 *   ----------------------------  ---------------------------------------  ------------------------------------------------------
 *   make a dialogue record        peat_fresh                               peat_outcome
 *   a user starts, sends, ends    peat_start, peat_start_response,         peat_answer: peat_invoked, peat_invoked_parameter,
 *                                 peat_dsc_start_response,                   peat_invoked_security, peat_version, peat_told,
 *                                 peat_message_request,                      peat_told_parameter, peat_told_dsc,
 *                                 peat_end_request, peat_end_response,       peat_apdu_bits, peat_apdu_bytes,
 *                                 peat_dsc_end_request,                      peat_data_bits, peat_data_bytes,
 *                                 peat_dsc_end_response,                     peat_primitive_of
 *                                 peat_user_abort, peat_forward_request
 *   a timer, a system error       peat_timer_expiry, peat_system_error     peat_answer
 *   a primitive arrives           peat_hand_over; or one of                peat_answer
 *                                 peat_d_start_indication,
 *                                 peat_d_start_confirmation,
 *                                 peat_d_data_indication,
 *                                 peat_d_end_indication,
 *                                 peat_d_end_confirmation,
 *                                 peat_d_abort_indication,
 *                                 peat_d_p_abort_indication
 *   a part of delivered data      peat_data_part                           peat_part_answer: peat_part_given, _bits, _bytes
 *   a forwarded message           peat_read_forward, peat_forward_part     peat_forward_answer: peat_forward_value, _bytes
 *   what an APDU is               peat_read_apdu, peat_read_leading        peat_apdu_answer: peat_apdu_kind, _number, _has_data
 *   read an envelope              peat_read_envelope                       peat_envelope_answer: peat_envelope_kind, _bits, _body, _next
 *   .. that comes in fragments    peat_mail_fresh, peat_mail_end           peat_outcome
 *                                 peat_mail_take                           peat_envelope_answer: peat_mail_taken, and as above
 *   write an envelope             peat_write_envelope                      peat_written_envelope: peat_written_bytes
 *   compare two recordings        peat_compare                             peat_compare_answer: peat_comparison_of
 *   read a CPDLC message          peat_read_message                        peat_message_answer: peat_message_characters
 *   write a CPDLC message         peat_write_message                       peat_written_message: peat_message_bits, _bytes
 *   message numbers               peat_book_empty, peat_book_close         peat_outcome
 *                                 peat_book_open                           peat_open_answer: peat_opened_number
 *                                 peat_book_count                          peat_count_answer: peat_open_count
 *                                 peat_book_job                            a plain uint64_t
 *
 * Names of the codes, for a log, are in peatribbon_names.h.
 *
 * Ranges. A range is a pointer and, as the next parameter, its length in bytes.
 *   - A call reads and writes inside the ranges that it is lent, keeps no pointer, allocates nothing and has no memory of
 *     its own: calls on different records and buffers may run at the same time.
 *   - LENT RANGES MUST NOT OVERLAP: no byte of a range that is lent without const (rec, apdu, data, out, job, heading, mail, book,
 *     and message and text where they are read into) may be a byte of any other range of the same call. (Ranges lent as const are only
 *     read; they may share bytes with each other.) This is the host's to keep. No call can see it, and the promises below do
 *     not hold without it.
 *   - A range of length 0 is never looked at. Its pointer may be any pointer, the null pointer too.
 *
 * Numbers. A code is a uint64_t; a value outside its type is PEAT_SHAPE.
 *
 * Answers. An answer is a struct with one field, word. Its lowest 8 bits are 0 if the call was accepted; then use the accessors of the
 * table. If the call was refused:
 *   - the lowest 8 bits are the refusal (enum peat_refusal), which peat_refusal reads;
 *   - PEAT_SHORT to PEAT_DEFAULT have the position of the fault beside them, which peat_position reads; a recording that peat_compare
 *     refuses has its number and the byte, which peat_comparison_of reads; all other bits are 0;
 *   - NO byte of any lent range has changed. Only peat_mail_take and peat_mail_end keep the refusal of their input in mail.
 * Refusals are tried in the order ROOM, SHAPE, STALE, PROHIBITED, NO_MESSAGE, REPEAT; those of a book in the order SHAPE, then ALL_OPEN or
 * NOT_OPEN. A primitive of the dialogue service is refused with ROOM, SHAPE or STALE only: user data that is no valid PDU is not refused
 * but answered as the protocol says.
 *
 * The dialogue number. A carrier may hand over a primitive of an old dialogue after a new start. So every dialogue has a number, which
 * the record holds (peat_record_number, 0 at first). You give it with the start, above the last. Send it with every primitive that a call
 * invokes: the number that the record holds after that call. With every primitive that arrives, the carrier
 * gives the number that it was sent with. One of another number is PEAT_STALE and changes nothing; a D-START indication may bring a
 * higher one, which the record then holds, whatever becomes of the start. docs/HOST.md says how the host counts.
 *
 * The application type. A record is made for application type 22 (CPDLC with protected messages) or for type 2, the older one without
 * them, and stays so (peat_fresh, peat_record_type). Both ends of a dialogue are of one type: no APDU says which it is, so the host knows
 * it from the address. The calls are the same. Type 2 differs in this, and the calls below say it again where it matters:
 *   - a message has no identifier and no check, and the card reads it: what no CPDLC message of this direction is, is PEAT_SHAPE;
 *   - starts, rejections and ends need no message, and an acceptance has none; user data may then be absent;
 *   - security is not compared, and "no security" is sent;
 *   - the user abort reasons end with PEAT_INVALID_RESPONSE;
 *   - what a user is delivered is the message itself.
 *
 * What a machine's call writes, if it is not refused:
 *   - rec, all its bytes: the record after the event;
 *   - apdu, from its first byte on, peat_apdu_bytes(answer) bytes; the bits after the last bit of the APDU are zero;
 *   - data, from its first byte on, peat_data_bytes(answer) bytes; likewise.
 * Every other byte stays. A buffer with nothing to take stays whole.
 *
 * The archive is for x86-64 Linux, needs nothing but C's memset, and takes less than 4 KiB of stack in a call.
 *
 * The host keeps the clock: it starts t-start when a record's timer (peat_record_timer) begins to run, stops it when it no
 * longer runs, and reports the expiry. The host also keeps the names of the peers.
 *
 * Forwarding. A ground end may send a message to a ground end of another centre (peat_forward_request). It opens no dialogue: the other
 * end answers in the event of its D-START indication, and stays IDLE. Each record has a version, and says whether it supports
 * forwarding (peat_fresh); the version goes with the D-START that a forward is in and with an answer that says that it differs
 * (peat_version of the answer), and the host carries it. The D-STARTs of a dialogue have none.
 *
 * WHAT THE HOST OWES THE CARD is in docs/HOST.md, on one page: above all, what a call left of a record is on stable storage
 * before anything of that call leaves the host, and no record that has lived is ever replaced by a fresh one.
 *
 * SPDX-License-Identifier: Apache-2.0
 */
#ifndef PEATRIBBON_H
#define PEATRIBBON_H

#include <stddef.h>
#include <stdint.h>

#ifdef __cplusplus
extern "C" {
#endif

/* ---- the version
 *
 * VERSION of the project: what the header is of, as a string and in three numbers. CHANGELOG.md says what changed.
 */

#define PEAT_VERSION "0.16.0"
#define PEAT_VERSION_MAJOR 0
#define PEAT_VERSION_MINOR 16
#define PEAT_VERSION_PATCH 0

/* What the archive is of: "peatribbon VERSION, rattle logic HASH", where the hash names the logic in which its card was proved.
   Of the installed archive, libpeatribbon.a (make install, make dist); target/staticlib/libcard.a is the card alone and does
   not have it. A host that logs it at its start knows which card it runs. */
extern const char peat_archive_version[];

/* ---- sizes */

#define PEAT_RECORD_BYTES 25   /* a record, exactly */
#define PEAT_BUFFER_LEAST 2112 /* each output buffer, at least; there is no upper limit */
#define PEAT_IDENTIFIER_MOST 16 /* algorithm identifier, contents octets; 0 octets: no identifier */
#define PEAT_MESSAGE_MOST 16383 /* CPDLC message, bits */
#define PEAT_CHECK_MOST 64     /* integrity check, bits */
#define PEAT_FLIGHT_LEAST 2    /* aircraft flight identification of a forward message, characters */
#define PEAT_FLIGHT_MOST 8
#define PEAT_ENVELOPE_MOST 2061 /* an envelope, bytes */
#define PEAT_MAIL_HEAD 11      /* a mail record, bytes before those of the envelope */
#define PEAT_MAIL_BYTES (PEAT_MAIL_HEAD + PEAT_ENVELOPE_MOST) /* a mail record, exactly */
#define PEAT_JOB_BYTES 8       /* the range that takes the job of an envelope, exactly */
#define PEAT_HEADING_BYTES 80  /* the range that takes the heading of a forward message, exactly */
#define PEAT_RECORDING_MOST 32768 /* a recording that is compared, bytes */
#define PEAT_LIST_MOST 65784   /* a list of jobs that no two recordings fill, bytes: 8,223 jobs */
#define PEAT_COUNTS_BYTES 6    /* the range that takes the counts of three lists, exactly */
#define PEAT_INNER_BYTES 132   /* a message range, exactly */
#define PEAT_INNER_PLACES 5    /* the elements of a message, at most */
#define PEAT_BOOK_BYTES 520    /* a book, exactly */
#define PEAT_BOOK_NUMBERS 64   /* message identification numbers: 0 to 63 */

/* The count or reason that says "none": no message, no abort reason. */
#define PEAT_NONE ((uint64_t)-1)

/* Ranges as a call takes them: a whole array (not a pointer, whose size is another), the two buffers of a machine's call,
   and message data that are none: no identifier, no message, a check of no bits. */
#define PEAT_ARRAY(array) (array), sizeof(array)
#define PEAT_BUFFERS(apdu, data) PEAT_ARRAY(apdu), PEAT_ARRAY(data)
#define PEAT_NO_DATA NULL, 0, NULL, 0, PEAT_NONE, NULL, 0, 0

/* Message data, each part by its name, and PEAT_DATA, which hands a struct peat_data to a call of the user where its message
   data belong. What is left zero is not there: no identifier, no message, a check of no bits. A message is there where its
   pointer is not NULL, also one of no bits. So a message alone, in C:
       struct peat_data one = {.message = bytes, .message_len = sizeof bytes, .message_bits = bits};
       answer = peat_message_request(PEAT_ARRAY(rec), job, PEAT_DATA(one), PEAT_BUFFERS(apdu, data)); */
struct peat_data {
    const uint8_t *identifier; /* its contents octets */
    size_t identifier_len;
    const uint8_t *message; /* the bytes that are lent for it, and how many of their bits it has */
    size_t message_len;
    uint64_t message_bits;
    const uint8_t *check; /* likewise */
    size_t check_len;
    uint64_t check_bits;
};
#define PEAT_DATA(parts) \
    (parts).identifier, (parts).identifier_len, (parts).message, (parts).message_len, peat_data_message_bits(&(parts)), (parts).check, (parts).check_len, (parts).check_bits

/* the bits of the message as a call takes them: PEAT_NONE where there is none */
static inline uint64_t peat_data_message_bits(const struct peat_data *parts) { return parts->message == NULL ? PEAT_NONE : parts->message_bits; }

/* ---- the answers
 *
 * One struct for each group of calls; the table above says which. In a register and on the stack each of them is a uint64_t.
 */

struct peat_answer { uint64_t word; };           /* of a machine's call: a user's primitive, a primitive of the dialogue service, a report */
struct peat_outcome { uint64_t word; };          /* of a call that answers its refusal, or 0, and no more */
struct peat_part_answer { uint64_t word; };      /* of peat_data_part */
struct peat_forward_answer { uint64_t word; };   /* of peat_read_forward and peat_forward_part */
struct peat_apdu_answer { uint64_t word; };      /* of peat_read_apdu and peat_read_leading */
struct peat_envelope_answer { uint64_t word; };  /* of peat_read_envelope and peat_mail_take */
struct peat_written_envelope { uint64_t word; }; /* of peat_write_envelope */
struct peat_compare_answer { uint64_t word; };   /* of peat_compare */
struct peat_message_answer { uint64_t word; };   /* of peat_read_message */
struct peat_written_message { uint64_t word; };  /* of peat_write_message */
struct peat_open_answer { uint64_t word; };      /* of peat_book_open */
struct peat_count_answer { uint64_t word; };     /* of peat_book_count */

/* ---- refusals */

/* The machine's calls answer 0 to 6, the readers of a message, of message data, of a forward message and of an APDU 1, 2 and 10 to 17, the reader of
   an envelope and that of fragments 2 and 20 to 23, the two writers 1 and 2, and the book's calls 2, 7 and 8. A machine's call that meets 10 to 17 in
   user data does as the protocol says. An envelope of kind 3 carries any of these numbers. */
enum peat_refusal {
    PEAT_TAKEN = 0,      /* not refused */
    PEAT_ROOM = 1,       /* an output buffer is under PEAT_BUFFER_LEAST bytes */
    PEAT_SHAPE = 2,      /* an argument breaks the sizes, its type or its codes; rec or mail is no record, or book no book; a
                            count is more than the lent bytes hold; an envelope to write that reading refuses; an element to
                            write that is not carried; of type 2, a message that is none of its direction, or what the type
                            has no place for */
    PEAT_PROHIBITED = 3, /* a user primitive with no action in this state, or an expiry while no timer runs */
    PEAT_NO_MESSAGE = 4, /* a message request without a CPDLC message */
    PEAT_REPEAT = 5,     /* a message request whose job number is not above the highest that the record has taken */
    PEAT_STALE = 6,      /* a start whose dialogue number is not above the record's, or another primitive of the dialogue service
                            whose number is not the record's */
    PEAT_ALL_OPEN = 7,   /* all PEAT_BOOK_NUMBERS numbers of a book are open */
    PEAT_NOT_OPEN = 8,   /* a number to close is not open, or is no number */
    PEAT_SHORT = 10,       /* the bits end inside a field */
    PEAT_RANGE = 11,       /* a value outside its type */
    PEAT_EXTENSION = 12,   /* an alternative or a value of a later edition; more than 64 additions of one, or none of them there */
    PEAT_LENGTH_FORM = 13, /* a length not in its shortest form, or fragmented */
    PEAT_LIMIT = 14,       /* well formed, outside the sizes: an identifier or a check. No length of a message is: what is
                              more than PEAT_MESSAGE_MOST bits comes in fragments, and is PEAT_LENGTH_FORM */
    PEAT_TAIL = 15,        /* a padding bit is 1, or whole bytes follow; of a message: any bit left over */
    PEAT_NOT_CARRIED = 16, /* an element whose argument kind the card does not carry, or constrained data */
    PEAT_DEFAULT = 17,     /* a field is present with its default value */
    PEAT_CUT = 20,       /* an envelope ends inside */
    PEAT_GROUPS = 21,    /* a number not in its shortest form or above 2^64 - 1, or job 0 */
    PEAT_KIND = 22,      /* a kind that is none of enum peat_envelope */
    PEAT_SIZE = 23       /* a bit count over PEAT_MESSAGE_MOST, a padding bit that is 1, or a refusal of other than 8 bits */
};

/* ---- codes */

enum peat_side { PEAT_AIR = 1, PEAT_GROUND = 2 };

/* the application type of a record: plain CPDLC (Doc 9705 Second Edition), or CPDLC with protected messages */
enum peat_type { PEAT_PLAIN = 2, PEAT_PROTECTED = 22 };

enum peat_state { PEAT_IDLE = 0, PEAT_START_REQ = 1, PEAT_START_IND = 2, PEAT_DIALOGUE = 3, PEAT_END = 4, PEAT_FORWARD = 5 };

/* The mode of a start. An air end may start in both; a ground end has no downstream mode. */
enum peat_mode { PEAT_CPDLC = 0, PEAT_DSC = 1 };

enum peat_security { PEAT_NO_SECURITY = 0, PEAT_SECURED_EXCHANGE = 1 };

/* A user's result and that of a D-END are ACCEPTED or REJECTED. In a D-START, REJECTED is "rejected (permanent)", and a
   confirmation may be REJECTED_TRANSIENT too. */
enum peat_result { PEAT_ACCEPTED = 0, PEAT_REJECTED = 1, PEAT_REJECTED_TRANSIENT = 2 };

/* Reject source of a D-START confirmation; PEAT_DS_USER in one that is accepted. */
enum peat_reject_source { PEAT_DS_USER = 0, PEAT_DS_PROVIDER = 1 };

enum peat_originator { PEAT_USER = 0, PEAT_PROVIDER = 1 };

/* DS user version number of a D-START: 1 to 255, or none */
enum peat_version { PEAT_NO_VERSION = 0, PEAT_VERSION_HIGHEST = 255 };

/* whether a centre supports forwarding */
enum peat_forwarding { PEAT_FORWARDS_NOT = 0, PEAT_FORWARDS = 1 };

/* ATCForwardResponse: the result of a forward */
enum peat_forward_result { PEAT_FORWARD_SUCCESS = 0, PEAT_SERVICE_NOT_SUPPORTED = 1, PEAT_VERSION_NOT_EQUAL = 2 };

/* what the bits of a forward message are */
enum peat_forward_direction { PEAT_FORWARD_UPLINK = 0, PEAT_FORWARD_DOWNLINK = 1 };

/* What the calling peer ID of a D-START indication is: a facility designation or an aircraft address. */
enum peat_peer { PEAT_FACILITY = 0, PEAT_AIRCRAFT = 1 };

/* Class of communication, and the routing class of a quality of service: no preference, or A to H. */
enum peat_class {
    PEAT_CLASS_ANY = 0,
    PEAT_CLASS_A = 1,
    PEAT_CLASS_B = 2,
    PEAT_CLASS_C = 3,
    PEAT_CLASS_D = 4,
    PEAT_CLASS_E = 5,
    PEAT_CLASS_F = 6,
    PEAT_CLASS_G = 7,
    PEAT_CLASS_H = 8
};

/* The quality of service that is right in a D-START: priority "high priority flight safety messages", residual error rate
   "low", and any class above. As received, each of the three may be any number. */
enum peat_qos { PEAT_HIGH_PRIORITY = 1, PEAT_LOW_ERROR_RATE = 1 };

/* whether a primitive of the dialogue service carries user data */
enum peat_user_data { PEAT_NO_USER_DATA = 0, PEAT_USER_DATA = 1 };

/* CPDLCUserAbortReason; those behind PEAT_INVALID_RESPONSE are of type 22 alone */
enum peat_user_reason {
    PEAT_UNDEFINED = 0,
    PEAT_NO_MESSAGE_IDENTIFICATION_NUMBERS_AVAILABLE = 1,
    PEAT_DUPLICATE_MESSAGE_IDENTIFICATION_NUMBERS = 2,
    PEAT_NO_LONGER_NEXT_DATA_AUTHORITY = 3,
    PEAT_CURRENT_DATA_AUTHORITY_ABORT = 4,
    PEAT_COMMANDED_TERMINATION = 5,
    PEAT_INVALID_RESPONSE = 6,
    PEAT_TIME_OUT_OF_SYNCHRONISATION = 7,
    PEAT_UNKNOWN_INTEGRITY_CHECK = 8,
    PEAT_VALIDATION_FAILURE = 9,
    PEAT_UNABLE_TO_DECODE_MESSAGE = 10,
    PEAT_USER_INVALID_PDU = 11,
    PEAT_INVALID_CPDLC_MESSAGE = 12
};

/* CPDLCProviderAbortReason; the last is told to a user only and is in no APDU */
enum peat_provider_reason {
    PEAT_TIMER_EXPIRED = 0,
    PEAT_UNDEFINED_ERROR = 1,
    PEAT_INVALID_PDU = 2,
    PEAT_PROTOCOL_ERROR = 3,
    PEAT_COMMUNICATION_SERVICE_ERROR = 4,
    PEAT_COMMUNICATION_SERVICE_FAILURE = 5,
    PEAT_INVALID_QOS_PARAMETER = 6,
    PEAT_EXPECTED_PDU_MISSING = 7,
    PEAT_NOT_PERMITTED_PDU = 8
};

/* who sends a message: the aircraft down, the ground up */
enum peat_direction { PEAT_DOWNLINK = 1, PEAT_UPLINK = 2 };

/* the unit of a level, and the numbers that it has. Feet and metres may be below zero, so they are counted from the lowest. */
enum peat_unit {
    PEAT_FEET = 0,               /* tens of feet, 0 to 7060: 0 is PEAT_FEET_LOWEST */
    PEAT_METRES = 1,             /* 0 to 25030: 0 is PEAT_METRES_LOWEST */
    PEAT_FLIGHT_LEVEL = 2,       /* 30 to 700 */
    PEAT_METRIC_FLIGHT_LEVEL = 3 /* tens of metres, 100 to 2500 */
};
#define PEAT_FEET_LOWEST (-60)
#define PEAT_METRES_LOWEST (-30)

/* which argument an element has */
enum peat_kind {
    PEAT_KIND_NOT_CARRIED = 0, /* one that the card does not carry, or no such element */
    PEAT_KIND_NONE = 1,
    PEAT_KIND_LEVEL = 2,
    PEAT_KIND_TWO_LEVELS = 3,
    PEAT_KIND_TIME = 4,
    PEAT_KIND_CODE = 5,
    PEAT_KIND_FREE_TEXT = 6,
    PEAT_KIND_FACILITY = 7,
    PEAT_KIND_FACILITY_DESIGNATION = 8,
    PEAT_KIND_ATIS_CODE = 9
};

/* The kind of an element, by enum peat_direction and number; PEAT_KIND_NOT_CARRIED if there is no element with that number. docs/ELEMENTS.md
   lists the elements that are carried. One digit an element, from number 0 on, written by tools/elements from the card's
   own table. */
static inline unsigned peat_element_kind(uint64_t direction, uint64_t number)
{
    static const char uplink[] =
        "111111240404000000022002000000333122222211000000000000000000"
        "000000010404100000000000000000000400100000000001000000001000"
        "000511112201110111111111111120000010109071181101166000021111"
        "3016000600010166666611166666600100001112201111410111111110";
    static const char downlink[] =
        "111111232220000000001000000022202000022001040045000111211010"
        "020181166100201133090020000220666666666111110021140010";
    if (direction == PEAT_UPLINK && number < sizeof uplink - 1)
        return (unsigned)(uplink[number] - '0');
    if (direction == PEAT_DOWNLINK && number < sizeof downlink - 1)
        return (unsigned)(downlink[number] - '0');
    return PEAT_KIND_NOT_CARRIED;
}

/* what an envelope is: its kind */
enum peat_envelope {
    PEAT_ENVELOPE_TO_SEND = 1,   /* a message to send: its bits */
    PEAT_ENVELOPE_DELIVERED = 2, /* a delivered message: its bits */
    PEAT_ENVELOPE_REFUSAL = 3    /* a refusal: its number in 8 bits */
};

/* ---- the answer of a machine's call */

/* the primitive of the dialogue service that the host invokes, with the APDU in buffer apdu as its user data */
enum peat_invoked {
    PEAT_SILENT = 0,
    PEAT_D_START_REQUEST = 1,  /* parameter: routing class; security; version. Priority and error rate: PEAT_HIGH_PRIORITY, PEAT_LOW_ERROR_RATE */
    PEAT_D_START_RESPONSE = 2, /* parameter: result; security; version */
    PEAT_D_DATA_REQUEST = 3,
    PEAT_D_END_REQUEST = 4,
    PEAT_D_END_RESPONSE = 5,   /* parameter: result */
    PEAT_D_ABORT_REQUEST = 6   /* parameter: originator */
};

/* the primitive that the host gives to the user, with the message data (1 to 5) or the forward message (8) in buffer data */
enum peat_told {
    PEAT_UNTOLD = 0,
    PEAT_START_INDICATION = 1,         /* parameter: class of communication; DSC or not */
    PEAT_START_CONFIRMATION = 2,       /* parameter: result; DSC or not */
    PEAT_MESSAGE_INDICATION = 3,
    PEAT_END_INDICATION = 4,           /* DSC or not */
    PEAT_END_CONFIRMATION = 5,         /* parameter: result; DSC or not */
    PEAT_USER_ABORT_INDICATION = 6,    /* parameter: enum peat_user_reason */
    PEAT_PROVIDER_ABORT_INDICATION = 7, /* parameter: enum peat_provider_reason */
    PEAT_FORWARD_INDICATION = 8,
    PEAT_FORWARD_CONFIRMATION = 9      /* parameter: enum peat_forward_result; version */
};

/* bits of an answer: the place of the lowest, and how many */
#define PEAT_REFUSAL_AT 0
#define PEAT_REFUSAL_BITS 8
#define PEAT_INVOKED_AT 8
#define PEAT_INVOKED_PARAMETER_AT 12
#define PEAT_INVOKED_SECURITY_AT 16
#define PEAT_TOLD_AT 17
#define PEAT_TOLD_PARAMETER_AT 21
#define PEAT_TOLD_DSC_AT 25
#define PEAT_CODE_BITS 4
#define PEAT_FLAG_BITS 1
#define PEAT_APDU_BITS_AT 26
#define PEAT_DATA_BITS_AT 41
#define PEAT_COUNT_BITS 15
#define PEAT_VERSION_AT 56
#define PEAT_VERSION_BITS 8

static inline unsigned peat_bits_of(uint64_t word, unsigned at, unsigned bits)
{
    return (unsigned)((word >> at) & (((uint64_t)1 << bits) - 1));
}

/* The refusal of any answer, enum peat_refusal; PEAT_TAKEN: it was accepted. A macro, so that it takes every struct of the answers. */
#define peat_refusal(answer) peat_refusal_in((answer).word)
static inline unsigned peat_refusal_in(uint64_t word) { return peat_bits_of(word, PEAT_REFUSAL_AT, PEAT_REFUSAL_BITS); }

/* the place of a position in a refusal */
#define PEAT_POSITION_AT 8
#define PEAT_POSITION_BITS 56

/* The position in a refusal PEAT_SHORT to PEAT_DEFAULT: the bit at which the field begins that was refused, counted from 0, which
   is the highest bit of the first byte that the call was lent to read. So byte position / 8, bit position % 8 from the top.
   - A length is one field, also where 8 of its 16 bits are there; the presence bits of a SEQUENCE are one field; contents
     begin behind their length; an extension bit, a digit and an index are fields of their own. Of additions from a later
     edition the count is one field of 7 bits, and the bits that say which are there are one.
   - PEAT_NOT_CARRIED: the element's index, or the presence bit of constrained data. PEAT_DEFAULT: the value's bit.
   - PEAT_TAIL: the first padding bit that is 1; where there is none, the first bit of the bytes that follow, whatever they
     hold. Of a message: the first bit left over.
   0 for any other answer. (0 is a position too: the number tells.) A machine's call has none: there these faults are no
   refusals. A macro, as peat_refusal is. */
#define peat_position(answer) peat_position_in((answer).word)
static inline uint64_t peat_position_in(uint64_t word)
{
    return peat_refusal_in(word) >= PEAT_SHORT && peat_refusal_in(word) <= PEAT_DEFAULT ? word >> PEAT_POSITION_AT : 0;
}

/* enum peat_invoked, its parameter, and its security value */
static inline unsigned peat_invoked(struct peat_answer answer) { return peat_bits_of(answer.word, PEAT_INVOKED_AT, PEAT_CODE_BITS); }
static inline unsigned peat_invoked_parameter(struct peat_answer answer) { return peat_bits_of(answer.word, PEAT_INVOKED_PARAMETER_AT, PEAT_CODE_BITS); }
static inline unsigned peat_invoked_security(struct peat_answer answer) { return peat_bits_of(answer.word, PEAT_INVOKED_SECURITY_AT, PEAT_FLAG_BITS); }

/* enum peat_told, its parameter, and whether it is the DSC- primitive (1) or the CPDLC- one (0) */
static inline unsigned peat_told(struct peat_answer answer) { return peat_bits_of(answer.word, PEAT_TOLD_AT, PEAT_CODE_BITS); }
static inline unsigned peat_told_parameter(struct peat_answer answer) { return peat_bits_of(answer.word, PEAT_TOLD_PARAMETER_AT, PEAT_CODE_BITS); }
static inline unsigned peat_told_dsc(struct peat_answer answer) { return peat_bits_of(answer.word, PEAT_TOLD_DSC_AT, PEAT_FLAG_BITS); }

/* The version: of the D-START request or response that carries a forward message or its response, or that a forward
   confirmation tells; PEAT_NO_VERSION where there is none. The D-STARTs of a dialogue carry none. */
static inline unsigned peat_version(struct peat_answer answer) { return peat_bits_of(answer.word, PEAT_VERSION_AT, PEAT_VERSION_BITS); }

/* the APDU in buffer apdu: its bits before the padding, and the bytes that it takes */
static inline unsigned peat_apdu_bits(struct peat_answer answer) { return peat_bits_of(answer.word, PEAT_APDU_BITS_AT, PEAT_COUNT_BITS); }
static inline size_t peat_apdu_bytes(struct peat_answer answer) { return (peat_apdu_bits(answer) + 7u) / 8u; }

/* The message data in buffer data, likewise. In type 2 they are the CPDLC message itself, from its first bit on, ready for
   peat_read_message; 0 bits: there is none, and the buffer stays. In type 22 they are in unaligned PER: a bit 0; a bit, whether there is an
   identifier; a bit, whether there is a message; the identifier, as its octets counted in 8 bits and then the octets; the
   message, as its bits counted and then the bits; the check, likewise. A count of bits under 128 takes 8 bits, a greater
   one takes 16: the bits 10 and then 14 bits. Additions from a later edition, which the APDU may have had behind the check, are
   left out. peat_data_part takes one of the parts out. With PEAT_FORWARD_INDICATION the buffer has a forward message
   instead: an ATCForwardMessage in its own encoding from its first bit on, which peat_read_forward takes apart. */
static inline unsigned peat_data_bits(struct peat_answer answer) { return peat_bits_of(answer.word, PEAT_DATA_BITS_AT, PEAT_COUNT_BITS); }
static inline size_t peat_data_bytes(struct peat_answer answer) { return (peat_data_bits(answer) + 7u) / 8u; }

/* a part of message data, for peat_data_part */
enum peat_part { PEAT_PART_IDENTIFIER = 0, PEAT_PART_MESSAGE = 1, PEAT_PART_CHECK = 2 };

/* bits of what it answers; the lowest 8 are the refusal */
#define PEAT_PART_GIVEN_AT 8
#define PEAT_PART_GIVEN_BITS 8
#define PEAT_PART_BITS_AT 16
#define PEAT_PART_BITS_BITS 16

/* 1: the part is there, 0: it is not; its bits, and the bytes that they take of the buffer */
static inline unsigned peat_part_given(struct peat_part_answer answer) { return peat_bits_of(answer.word, PEAT_PART_GIVEN_AT, PEAT_PART_GIVEN_BITS); }
static inline unsigned peat_part_bits(struct peat_part_answer answer) { return peat_bits_of(answer.word, PEAT_PART_BITS_AT, PEAT_PART_BITS_BITS); }
static inline size_t peat_part_bytes(struct peat_part_answer answer) { return (peat_part_bits(answer) + 7u) / 8u; }

/* A part of a forward message, for peat_read_forward and peat_forward_part. For peat_forward_part of a forward message of type 2, add
   PEAT_FORWARD_PLAIN to the part. */
enum peat_forward_part {
    PEAT_FORWARD_YEAR = 0,       /* 1996 to 2095 */
    PEAT_FORWARD_MONTH = 1,      /* 1 to 12 */
    PEAT_FORWARD_DAY = 2,        /* 1 to 31 */
    PEAT_FORWARD_HOURS = 3,      /* 0 to 23 */
    PEAT_FORWARD_MINUTES = 4,    /* 0 to 59 */
    PEAT_FORWARD_SECONDS = 5,    /* 0 to 59 */
    PEAT_FORWARD_CHARACTERS = 6, /* of the flight identification, PEAT_FLIGHT_LEAST to PEAT_FLIGHT_MOST */
    PEAT_FORWARD_FLIGHT = 7,     /* they as one number, as peat_flight gives it */
    PEAT_FORWARD_ADDRESS = 8,    /* the aircraft's address, 24 bits */
    PEAT_FORWARD_DIRECTION = 9,  /* enum peat_forward_direction */
    PEAT_FORWARD_MESSAGE = 10    /* the message's bits, into the buffer */
};
#define PEAT_FORWARD_PLAIN 16u

/* the part; of the message's bits, their count, and the bytes that they take of the buffer */
static inline uint64_t peat_forward_value(struct peat_forward_answer answer) { return answer.word >> PEAT_REFUSAL_BITS; }
static inline size_t peat_forward_bytes(struct peat_forward_answer answer) { return (size_t)((peat_forward_value(answer) + 7u) / 8u); }

/* A flight identification as one number: its characters, seven bits each, the first on top. And character i of `characters`. */
static inline uint64_t peat_flight(const char *characters, size_t count)
{
    uint64_t n = 0;
    size_t i;
    for (i = 0; i < count; i++)
        n = n << 7 | ((uint64_t)(unsigned char)characters[i] & 127u);
    return n;
}
static inline char peat_flight_character(uint64_t flight, size_t count, size_t i) { return (char)(flight >> 7 * (count - 1 - i) & 127u); }

/* The type that an APDU is of: AircraftPDUs are what an air end sends, GroundPDUs what a ground end sends. The last two are those of
   application type 2. Byte PEAT_RECORD_SIDE of a record is the code of what it sends. */
enum peat_apdu_type { PEAT_AIRCRAFT_PDUS = 1, PEAT_GROUND_PDUS = 2, PEAT_PLAIN_AIRCRAFT_PDUS = 3, PEAT_PLAIN_GROUND_PDUS = 4 };

/* an APDU's alternative, by its tag. A start is startdown or startup; GroundPDUs alone have the last two. */
enum peat_apdu_kind {
    PEAT_APDU_ABORT_USER = 0,
    PEAT_APDU_ABORT_PROVIDER = 1,
    PEAT_APDU_START = 2,
    PEAT_APDU_SEND = 3,
    PEAT_APDU_FORWARD = 4,
    PEAT_APDU_FORWARD_RESPONSE = 5
};

/* bits of what peat_read_apdu and peat_read_leading answer; the lowest 8 are the refusal */
#define PEAT_APDU_KIND_AT 8
#define PEAT_APDU_NUMBER_AT 16
#define PEAT_APDU_DATA_AT 24
#define PEAT_APDU_PART_BITS 8

/* enum peat_apdu_kind; the reason of an abort (enum peat_user_reason, enum peat_provider_reason), the mode of a start (enum
   peat_mode), the result of a forward response (enum peat_forward_result), else 0; and whether it has message data (1: a start or
   a send, 0: any other, and a start of type 2 without a message) */
static inline unsigned peat_apdu_kind(struct peat_apdu_answer answer) { return peat_bits_of(answer.word, PEAT_APDU_KIND_AT, PEAT_APDU_PART_BITS); }
static inline unsigned peat_apdu_number(struct peat_apdu_answer answer) { return peat_bits_of(answer.word, PEAT_APDU_NUMBER_AT, PEAT_APDU_PART_BITS); }
static inline unsigned peat_apdu_has_data(struct peat_apdu_answer answer) { return peat_bits_of(answer.word, PEAT_APDU_DATA_AT, PEAT_APDU_PART_BITS); }

/* ---- the answer of an envelope's call */

/* bits of what peat_read_envelope answers; the lowest 8 are the refusal */
#define PEAT_ENVELOPE_KIND_AT 8
#define PEAT_ENVELOPE_KIND_BITS 8
#define PEAT_ENVELOPE_BITS_AT 16
#define PEAT_ENVELOPE_BODY_AT 32
#define PEAT_ENVELOPE_NEXT_AT 48
#define PEAT_ENVELOPE_COUNT_BITS 16

/* of what peat_write_envelope answers, likewise */
#define PEAT_WRITTEN_BYTES_AT 8
#define PEAT_WRITTEN_BYTES_BITS 16

/* enum peat_envelope; the bits of the body; the bytes before the body; and the bytes before the next envelope, which are
   those of this one */
static inline unsigned peat_envelope_kind(struct peat_envelope_answer answer) { return peat_bits_of(answer.word, PEAT_ENVELOPE_KIND_AT, PEAT_ENVELOPE_KIND_BITS); }
static inline unsigned peat_envelope_bits(struct peat_envelope_answer answer) { return peat_bits_of(answer.word, PEAT_ENVELOPE_BITS_AT, PEAT_ENVELOPE_COUNT_BITS); }
static inline size_t peat_envelope_body(struct peat_envelope_answer answer) { return peat_bits_of(answer.word, PEAT_ENVELOPE_BODY_AT, PEAT_ENVELOPE_COUNT_BITS); }
static inline size_t peat_envelope_next(struct peat_envelope_answer answer) { return peat_bits_of(answer.word, PEAT_ENVELOPE_NEXT_AT, PEAT_ENVELOPE_COUNT_BITS); }

/* the bytes that the envelope takes of the buffer */
static inline size_t peat_written_bytes(struct peat_written_envelope answer) { return peat_bits_of(answer.word, PEAT_WRITTEN_BYTES_AT, PEAT_WRITTEN_BYTES_BITS); }

/* Of what peat_mail_take answers: the bytes of the fragment that were taken. peat_envelope_kind, _bits and _body say which
   envelope was finished, as of what peat_read_envelope answers; a kind of 0 says that none was. */
static inline size_t peat_mail_taken(struct peat_envelope_answer answer) { return peat_bits_of(answer.word, PEAT_ENVELOPE_NEXT_AT, PEAT_ENVELOPE_COUNT_BITS); }

/* ---- the answer of two recordings compared */

/* the field in which two envelopes differ */
enum peat_field { PEAT_FIELD_NONE = 0, PEAT_FIELD_KIND = 1, PEAT_FIELD_JOB = 2, PEAT_FIELD_BITS = 3, PEAT_FIELD_BODY = 4 };

/* bits of what peat_compare answers; the lowest 8 are the refusal */
#define PEAT_COMPARED_RECORDING_AT 8
#define PEAT_COMPARED_RECORDING_BITS 8
#define PEAT_COMPARED_BYTE_AT 16
#define PEAT_COMPARED_INDEX_AT 32
#define PEAT_COMPARED_COUNT_BITS 16
#define PEAT_COMPARED_FIELD_AT 48
#define PEAT_COMPARED_FIELD_BITS 8

/* What peat_compare said. */
struct peat_comparison {
    unsigned refusal;     /* 0, or why nothing was compared */
    unsigned recording;   /* of a refused envelope, or of the rest: 1 the first, 2 the second; else 0 */
    size_t byte;          /* where the refused envelope, the first one that differs, or the rest begins */
    unsigned envelopes;   /* how many envelopes are before the first one that differs */
    unsigned field;       /* enum peat_field: in which the first one that differs does; PEAT_FIELD_NONE where none differs */
    unsigned only_first;  /* how many jobs each list has taken */
    unsigned only_second;
    unsigned repeated;
};

/* the answer taken apart; counts is the range that the call was lent */
static inline struct peat_comparison peat_comparison_of(struct peat_compare_answer answer, const uint8_t *counts)
{
    struct peat_comparison c;
    c.refusal = peat_refusal(answer);
    c.recording = peat_bits_of(answer.word, PEAT_COMPARED_RECORDING_AT, PEAT_COMPARED_RECORDING_BITS);
    c.byte = peat_bits_of(answer.word, PEAT_COMPARED_BYTE_AT, PEAT_COMPARED_COUNT_BITS);
    c.envelopes = peat_bits_of(answer.word, PEAT_COMPARED_INDEX_AT, PEAT_COMPARED_COUNT_BITS);
    c.field = peat_bits_of(answer.word, PEAT_COMPARED_FIELD_AT, PEAT_COMPARED_FIELD_BITS);
    c.only_first = c.refusal ? 0u : (unsigned)counts[0] << 8 | counts[1];
    c.only_second = c.refusal ? 0u : (unsigned)counts[2] << 8 | counts[3];
    c.repeated = c.refusal ? 0u : (unsigned)counts[4] << 8 | counts[5];
    return c;
}

/* whether the recordings are equal, byte for byte */
static inline int peat_comparison_equal(const struct peat_comparison *c) { return !c->refusal && !c->field && !c->recording; }

/* ---- the answer of a message's call */

/* bits of the answer above the refusal: reading and writing count different things, and each has places of its own */
#define PEAT_MESSAGE_CHARACTERS_AT 8
#define PEAT_MESSAGE_BITS_AT 24
#define PEAT_MESSAGE_COUNT_BITS 16

/* what peat_read_message left in the text; what peat_write_message left in the buffer: bits, and the bytes that they take */
static inline unsigned peat_message_characters(struct peat_message_answer answer) { return peat_bits_of(answer.word, PEAT_MESSAGE_CHARACTERS_AT, PEAT_MESSAGE_COUNT_BITS); }
static inline unsigned peat_message_bits(struct peat_written_message answer) { return peat_bits_of(answer.word, PEAT_MESSAGE_BITS_AT, PEAT_MESSAGE_COUNT_BITS); }
static inline size_t peat_message_bytes(struct peat_written_message answer) { return (peat_message_bits(answer) + 7u) / 8u; }

/* ---- the answer of a book's call */

/* of all but peat_book_job: bits of the answer above the refusal */
#define PEAT_BOOK_ANSWER_AT 8
#define PEAT_BOOK_ANSWER_BITS 8

/* the number that peat_book_open gives, 0 to 63; how many are open, 0 to 64, of peat_book_count */
static inline unsigned peat_opened_number(struct peat_open_answer answer) { return peat_bits_of(answer.word, PEAT_BOOK_ANSWER_AT, PEAT_BOOK_ANSWER_BITS); }
static inline unsigned peat_open_count(struct peat_count_answer answer) { return peat_bits_of(answer.word, PEAT_BOOK_ANSWER_AT, PEAT_BOOK_ANSWER_BITS); }

/* ---- the message range: 132 bytes that the host may keep anywhere, read and write; of a number in two bytes the more
 * significant is first
 *
 * The front, then PEAT_INNER_PLACES places of PEAT_PLACE_BYTES bytes each, the first at PEAT_PLACE_FIRST: the elements in
 * order, one a place. What is absent, what an element's argument kind does not use, and places not used are zero.
 */

#define PEAT_INNER_IDENTIFICATION 0 /* 0 to 63 */
#define PEAT_INNER_REFERENCED 1     /* 1: there is a reference number; 0: there is none */
#define PEAT_INNER_REFERENCE 2      /* 0 to 63 */
#define PEAT_INNER_YEAR 3           /* two bytes: 1996 to 2095 */
#define PEAT_INNER_MONTH 5          /* 1 to 12 */
#define PEAT_INNER_DAY 6            /* 1 to 31 */
#define PEAT_INNER_HOURS 7          /* 0 to 23 */
#define PEAT_INNER_MINUTES 8        /* 0 to 59 */
#define PEAT_INNER_SECONDS 9        /* 0 to 59 */
#define PEAT_INNER_ACKNOWLEDGED 10  /* 1: a logical acknowledgement is required; 0: it is not */
#define PEAT_INNER_COUNT 11         /* the places used, 1 to PEAT_INNER_PLACES, from the first on */
#define PEAT_PLACE_FIRST 12
#define PEAT_PLACE_BYTES 24

/* bytes of a place */
#define PEAT_PLACE_NUMBER 0     /* the element's number, uM0 to uM236 or dM0 to dM113 */
#define PEAT_PLACE_CHARACTERS 1 /* two bytes: how many characters of the text are its own */
#define PEAT_PLACE_LEVEL 3      /* a level, or the first of two */
#define PEAT_PLACE_OTHER 10     /* the other level of two */
#define PEAT_PLACE_HOURS 17
#define PEAT_PLACE_MINUTES 18
#define PEAT_PLACE_CODE 19      /* four digits, 0 to 7 */
#define PEAT_PLACE_ZERO 23

/* bytes of a level */
#define PEAT_LEVEL_BLOCK 0         /* 1: a block of two; 0: one level, and the second is zero */
#define PEAT_LEVEL_UNIT 1          /* enum peat_unit */
#define PEAT_LEVEL_NUMBER 2        /* two bytes */
#define PEAT_LEVEL_SECOND_UNIT 4   /* likewise, of the second */
#define PEAT_LEVEL_SECOND_NUMBER 5
#define PEAT_LEVEL_BYTES 7

/* where place i of a message range begins, i from 0 on */
static inline size_t peat_place_at(unsigned i) { return PEAT_PLACE_FIRST + (size_t)i * PEAT_PLACE_BYTES; }

/* a number in two bytes (a year, a count of characters, a level's number) */
static inline unsigned peat_two_bytes(const uint8_t *at) { return (unsigned)at[0] << 8 | at[1]; }
static inline void peat_put_two_bytes(uint8_t *at, unsigned n)
{
    at[0] = (uint8_t)(n >> 8);
    at[1] = (uint8_t)n;
}

/* The number that a level has in a place, or -1 where its unit has no such level. level is what is said: feet, metres, a
   flight level, or a metric flight level (tens of metres). So 35000 feet are 3560, 10670 metres 10700, FL350 is 350 and
   metric FL1067 is 1067. (350 as a number of feet would be 2,900 ft.) */
static inline long peat_level_number(unsigned unit, long level)
{
    switch (unit) {
    case PEAT_FEET: return level % 10 == 0 && level >= 10L * PEAT_FEET_LOWEST && level <= 70000 ? level / 10 - PEAT_FEET_LOWEST : -1;
    case PEAT_METRES: return level >= PEAT_METRES_LOWEST && level <= 25000 ? level - PEAT_METRES_LOWEST : -1;
    case PEAT_FLIGHT_LEVEL: return level >= 30 && level <= 700 ? level : -1;
    case PEAT_METRIC_FLIGHT_LEVEL: return level >= 100 && level <= 2500 ? level : -1;
    default: return -1;
    }
}

/* the level that a number is, in the same words */
static inline long peat_level_said(unsigned unit, unsigned number)
{
    switch (unit) {
    case PEAT_FEET: return ((long)number + PEAT_FEET_LOWEST) * 10;
    case PEAT_METRES: return (long)number + PEAT_METRES_LOWEST;
    default: return (long)number;
    }
}

/* One level, no block, into the PEAT_LEVEL_BYTES bytes that begin at `at` (PEAT_PLACE_LEVEL or PEAT_PLACE_OTHER of a place).
   1; or 0, and nothing is written, where there is no such level.
   A LEVEL THAT IS FORGOTTEN IS A LEVEL: a place whose level was left zero reads as unit PEAT_FEET, number 0, and
   peat_write_message writes it as -600 ft. Nothing in the bytes says that nobody put it there, so it is no SHAPE. Put the
   level of every element of kind PEAT_KIND_LEVEL and both of PEAT_KIND_TWO_LEVELS. */
static inline int peat_put_level(uint8_t *at, unsigned unit, long level)
{
    long number = peat_level_number(unit, level);
    size_t i;
    if (number < 0)
        return 0;
    for (i = 0; i < PEAT_LEVEL_BYTES; i++)
        at[i] = 0;
    at[PEAT_LEVEL_UNIT] = (uint8_t)unit;
    peat_put_two_bytes(at + PEAT_LEVEL_NUMBER, (unsigned)number);
    return 1;
}

/* ---- the record: 25 bytes that the host may keep anywhere, copy, and read with these; it writes them through calls only */

#define PEAT_RECORD_SIDE 0 /* and the type: 1 air, 2 ground of type 22; 3 air, 4 ground of type 2 */
#define PEAT_RECORD_STATE 1
#define PEAT_RECORD_DSC 2
#define PEAT_RECORD_TIMER 3
#define PEAT_RECORD_ACTIVE 4
#define PEAT_RECORD_REQUEST 5
#define PEAT_RECORD_POLICY 6
#define PEAT_RECORD_FORWARDS 7
#define PEAT_RECORD_VERSION 8
#define PEAT_RECORD_HIGHEST 9
#define PEAT_RECORD_NUMBER 17

static inline unsigned peat_record_side(const uint8_t *rec) { return rec[PEAT_RECORD_SIDE] % 2u ? PEAT_AIR : PEAT_GROUND; }     /* enum peat_side */
static inline unsigned peat_record_type(const uint8_t *rec) { return rec[PEAT_RECORD_SIDE] > 2u ? PEAT_PLAIN : PEAT_PROTECTED; } /* enum peat_type */
static inline unsigned peat_record_state(const uint8_t *rec) { return rec[PEAT_RECORD_STATE]; }     /* enum peat_state */
static inline unsigned peat_record_dsc(const uint8_t *rec) { return rec[PEAT_RECORD_DSC]; }         /* 0 or 1 */
static inline unsigned peat_record_timer(const uint8_t *rec) { return rec[PEAT_RECORD_TIMER]; }     /* 1: t-start runs */
static inline unsigned peat_record_active(const uint8_t *rec) { return rec[PEAT_RECORD_ACTIVE]; }   /* 1: the user is active */
static inline unsigned peat_record_request(const uint8_t *rec) { return rec[PEAT_RECORD_REQUEST]; } /* security of its last start request */
static inline unsigned peat_record_policy(const uint8_t *rec) { return rec[PEAT_RECORD_POLICY]; }   /* the security that policy accepts */
static inline unsigned peat_record_forwards(const uint8_t *rec) { return rec[PEAT_RECORD_FORWARDS]; } /* enum peat_forwarding */
static inline unsigned peat_record_version(const uint8_t *rec) { return rec[PEAT_RECORD_VERSION]; }   /* the own version, 1 to 255 */

/* a number in eight bytes, the most significant first; not a loop, so that compilers make one load of it */
static inline uint64_t peat_eight_bytes(const uint8_t *at)
{
    return (uint64_t)at[0] << 56 | (uint64_t)at[1] << 48 | (uint64_t)at[2] << 40 | (uint64_t)at[3] << 32 | (uint64_t)at[4] << 24 |
           (uint64_t)at[5] << 16 | (uint64_t)at[6] << 8 | at[7];
}

/* the highest job taken, 0 at first */
static inline uint64_t peat_record_highest(const uint8_t *rec) { return peat_eight_bytes(rec + PEAT_RECORD_HIGHEST); }

/* The dialogue number, 0 at first. After a call that invokes a primitive of the dialogue service, it is the number to send with it. */
static inline uint64_t peat_record_number(const uint8_t *rec) { return peat_eight_bytes(rec + PEAT_RECORD_NUMBER); }

/* ---- a fresh record */

/* Makes a fresh record: IDLE, DSC false, timer stopped, user not active, highest job 0, dialogue
   number 0, request value "no security". side: enum peat_side. policy: the enum peat_security that local policy accepts.
   forwards: enum peat_forwarding. version: the own version, 1 to PEAT_VERSION_HIGHEST, which a forward compares. type: enum peat_type,
   the application type. All of these stay for the life of the record.
   Answers 0 and writes rec, PEAT_RECORD_BYTES; or PEAT_SHAPE (rec_len is not that, or one of the five is none of its codes),
   and rec stays.
   A dialogue that closes needs no fresh record; one would forget the highest job taken and the dialogue number. */
struct peat_outcome peat_fresh(uint8_t *rec, size_t rec_len, uint64_t side, uint64_t policy, uint64_t forwards, uint64_t version, uint64_t type);

/* ---- primitives of the user
 *
 * Message data are given as three ranges, each used from its first bit on, the highest bit of a byte first:
 *   identifier  the contents octets of the algorithm identifier, 1 to PEAT_IDENTIFIER_MOST; length 0: no identifier
 *   message     the CPDLC message: its first message_bits bits, 0 to PEAT_MESSAGE_MOST; message_bits = PEAT_NONE: no message (and the range
 *               is not looked at). A message of no bits is a message.
 *   check       the integrity check: its first check_bits bits, 0 to PEAT_CHECK_MOST
 * The ranges of the message and the check may be longer than their bits.
 * At a record of type 2 there is a message or none: an identifier or a check is PEAT_SHAPE, and so are bits that peat_read_message does
 * not take, to the last one, in the direction that the side sends. A start goes without a message too. A rejection, an end and its
 * response without a message invoke their primitive without user data (peat_apdu_bits is 0). A start that is accepted takes no message:
 * with one it is PEAT_SHAPE.
 * All calls refuse with PEAT_ROOM (apdu or data) and PEAT_SHAPE (rec is
 * not a record, message data outside these sizes, a code outside its type), and then with PEAT_PROHIBITED where it says so.
 * They write rec and apdu, and data stays.
 */

/* Start request: the CPDLC-start request in mode PEAT_CPDLC, the DSC-start request in mode PEAT_DSC. number: the dialogue's,
   which the record holds from then on; STALE unless it is above peat_record_number, in every state. mode: enum peat_mode;
   PEAT_DSC is SHAPE at the ground end, in every state. class_: enum peat_class. security: enum peat_security; a record of type 2
   sends PEAT_NO_SECURITY whatever it is.
   PROHIBITED unless IDLE. Invokes D-START request; the timer begins to run, and in mode PEAT_DSC the record's DSC is set. */
struct peat_answer peat_start(uint8_t *rec, size_t rec_len, uint64_t number, uint64_t mode, uint64_t class_, uint64_t security,
    const uint8_t *identifier, size_t identifier_len, const uint8_t *message, size_t message_len, uint64_t message_bits,
    const uint8_t *check, size_t check_len, uint64_t check_bits,
    uint8_t *apdu, size_t apdu_len, uint8_t *data, size_t data_len);

/* CPDLC-start response. result: PEAT_ACCEPTED or PEAT_REJECTED.
   PROHIBITED unless START-IND with DSC false. Invokes D-START response. */
struct peat_answer peat_start_response(uint8_t *rec, size_t rec_len, uint64_t result,
    const uint8_t *identifier, size_t identifier_len, const uint8_t *message, size_t message_len, uint64_t message_bits,
    const uint8_t *check, size_t check_len, uint64_t check_bits,
    uint8_t *apdu, size_t apdu_len, uint8_t *data, size_t data_len);

/* DSC-start response, of the ground user. result: PEAT_ACCEPTED or PEAT_REJECTED.
   PROHIBITED at the air end and unless START-IND with DSC true. Invokes D-START response. */
struct peat_answer peat_dsc_start_response(uint8_t *rec, size_t rec_len, uint64_t result,
    const uint8_t *identifier, size_t identifier_len, const uint8_t *message, size_t message_len, uint64_t message_bits,
    const uint8_t *check, size_t check_len, uint64_t check_bits,
    uint8_t *apdu, size_t apdu_len, uint8_t *data, size_t data_len);

/* CPDLC-message request. job: 1 to 2^64 - 1 (0: SHAPE), remembered if and only if the request is taken, also over the end
   of the dialogue. PROHIBITED unless in DIALOGUE, or at the air end in END with DSC false, or at the ground end in END with
   DSC true; then NO_MESSAGE where message_bits is PEAT_NONE; then REPEAT where job is not above peat_record_highest.
   Invokes D-DATA request.
   The highest job taken decides REPEAT, so offer a job only when the one before it was taken: a job that waits while a
   later one is taken is REPEAT from then on. PROHIBITED says nothing of whether a job is new: it comes before REPEAT. */
struct peat_answer peat_message_request(uint8_t *rec, size_t rec_len, uint64_t job,
    const uint8_t *identifier, size_t identifier_len, const uint8_t *message, size_t message_len, uint64_t message_bits,
    const uint8_t *check, size_t check_len, uint64_t check_bits,
    uint8_t *apdu, size_t apdu_len, uint8_t *data, size_t data_len);

/* CPDLC-end request, of the ground user. PROHIBITED at the air end and unless DIALOGUE with DSC false.
   Invokes D-END request. */
struct peat_answer peat_end_request(uint8_t *rec, size_t rec_len,
    const uint8_t *identifier, size_t identifier_len, const uint8_t *message, size_t message_len, uint64_t message_bits,
    const uint8_t *check, size_t check_len, uint64_t check_bits,
    uint8_t *apdu, size_t apdu_len, uint8_t *data, size_t data_len);

/* DSC-end request, of the air user. PROHIBITED at the ground end and unless DIALOGUE with DSC true.
   Invokes D-END request. */
struct peat_answer peat_dsc_end_request(uint8_t *rec, size_t rec_len,
    const uint8_t *identifier, size_t identifier_len, const uint8_t *message, size_t message_len, uint64_t message_bits,
    const uint8_t *check, size_t check_len, uint64_t check_bits,
    uint8_t *apdu, size_t apdu_len, uint8_t *data, size_t data_len);

/* CPDLC-end response, of the air user. result: PEAT_ACCEPTED (the dialogue closes) or PEAT_REJECTED (back to DIALOGUE).
   PROHIBITED at the ground end and unless END with DSC false. Invokes D-END response. */
struct peat_answer peat_end_response(uint8_t *rec, size_t rec_len, uint64_t result,
    const uint8_t *identifier, size_t identifier_len, const uint8_t *message, size_t message_len, uint64_t message_bits,
    const uint8_t *check, size_t check_len, uint64_t check_bits,
    uint8_t *apdu, size_t apdu_len, uint8_t *data, size_t data_len);

/* DSC-end response, of the ground user. result: as above.
   PROHIBITED at the air end and unless END with DSC true. Invokes D-END response. */
struct peat_answer peat_dsc_end_response(uint8_t *rec, size_t rec_len, uint64_t result,
    const uint8_t *identifier, size_t identifier_len, const uint8_t *message, size_t message_len, uint64_t message_bits,
    const uint8_t *check, size_t check_len, uint64_t check_bits,
    uint8_t *apdu, size_t apdu_len, uint8_t *data, size_t data_len);

/* CPDLC-user-abort request. reason: enum peat_user_reason, or PEAT_NONE, which is sent as PEAT_UNDEFINED; at a record of type 2, up to
   PEAT_INVALID_RESPONSE.
   PROHIBITED in IDLE. Invokes D-ABORT request with originator PEAT_USER. */
struct peat_answer peat_user_abort(uint8_t *rec, size_t rec_len, uint64_t reason,
    uint8_t *apdu, size_t apdu_len, uint8_t *data, size_t data_len);

/* CPDLC-forward request, of the ground user: a CPDLC message of an aircraft to another centre. number: the dialogue's, as of
   peat_start: the record holds it from then on; STALE unless it is above peat_record_number, in every state. class_: enum
   peat_class. security: enum peat_security. year to seconds: when the message was composed (enum peat_forward_part has the
   ranges). characters, flight: the aircraft's flight identification, PEAT_FLIGHT_LEAST to PEAT_FLIGHT_MOST characters, and they
   as one number (peat_flight). address: 24 bits. direction: enum peat_forward_direction, what the message's bits are: the first
   message_bits bits of the range message, 0 to PEAT_MESSAGE_MOST. A record of type 22 does not look into them. Those of type 2 are the message's elements
   alone, without its header, and the card reads them to the last bit. Values outside these are SHAPE.
   PROHIBITED at the air end and unless IDLE. Invokes D-START request with the record's version; the timer begins to run, and
   every call of the user but peat_user_abort is PROHIBITED until PEAT_FORWARD_CONFIRMATION, an abort or the expiry. A forward has
   no job number: one that is asked for twice is sent twice. Whether the record supports forwarding does not matter here.
   The receiving centre answers in the event of its D-START indication: it invokes D-START response with result PEAT_REJECTED,
   which is no failure, and stays IDLE. If it supports forwarding and the versions are equal, its user is told
   PEAT_FORWARD_INDICATION in that event: both buffers are filled. */
struct peat_answer peat_forward_request(uint8_t *rec, size_t rec_len, uint64_t number, uint64_t class_, uint64_t security,
    uint64_t year, uint64_t month, uint64_t day, uint64_t hours, uint64_t minutes, uint64_t seconds,
    uint64_t characters, uint64_t flight, uint64_t address, uint64_t direction,
    const uint8_t *message, size_t message_len, uint64_t message_bits,
    uint8_t *apdu, size_t apdu_len, uint8_t *data, size_t data_len);

/* ---- what the host reports; both calls write rec and apdu, and data stays */

/* t-start expires. PROHIBITED while no timer runs. Invokes D-ABORT request with originator PEAT_PROVIDER, reason
   PEAT_TIMER_EXPIRED, and tells an active user. */
struct peat_answer peat_timer_expiry(uint8_t *rec, size_t rec_len, uint8_t *apdu, size_t apdu_len, uint8_t *data, size_t data_len);

/* An unrecoverable system error; never PROHIBITED. Outside IDLE it invokes D-ABORT request with originator PEAT_PROVIDER,
   reason PEAT_UNDEFINED_ERROR, and tells an active user. In IDLE it does nothing. */
struct peat_answer peat_system_error(uint8_t *rec, size_t rec_len, uint8_t *apdu, size_t apdu_len, uint8_t *data, size_t data_len);

/* ---- primitives of the dialogue service
 *
 * has_user_data: PEAT_USER_DATA, the user data being all the bytes of the range; or PEAT_NO_USER_DATA, and the range is not looked
 * at. Another number is SHAPE. User data of no bytes are user data, and no valid PDU: a primitive that came without user data
 * is PEAT_NO_USER_DATA. At a record of type 2 the responses to a start and the ends may come so. User data that are lent may be read
 * also where the outcome does not depend on them.
 * number: the dialogue number that the primitive carries; what the carrier itself makes carries that of the record.
 * All refuse with PEAT_ROOM and PEAT_SHAPE (rec is not a record, a code outside its type), and then with PEAT_STALE where number is
 * not peat_record_number. They write rec, apdu (an abort or a forward response, if one is invoked) and data (message data or a
 * forward message, if some are delivered).
 */

/* D-START indication. peer: enum peat_peer. security: enum peat_security, which a record of type 2 does not compare. priority, rate,
   routing: the quality of service as received, any numbers. version: the DS user version number, or PEAT_NO_VERSION where none came.
   STALE unless number is above peat_record_number; the record then holds it, also where the start is turned away.
   A FORWARD BELONGS TO AN IDLE RECORD: at a record that is busy with an aircraft, any D-START indication breaks that dialogue. So a
   centre keeps records of their own for the forwards that it gets. */
struct peat_answer peat_d_start_indication(uint8_t *rec, size_t rec_len, uint64_t number, uint64_t peer, uint64_t security,
    uint64_t priority, uint64_t rate, uint64_t routing, uint64_t version, uint64_t has_user_data, const uint8_t *user_data, size_t user_data_len,
    uint8_t *apdu, size_t apdu_len, uint8_t *data, size_t data_len);

/* D-START confirmation. result: enum peat_result. source: enum peat_reject_source. security: enum peat_security.
   version: as above. */
struct peat_answer peat_d_start_confirmation(uint8_t *rec, size_t rec_len, uint64_t number, uint64_t result, uint64_t source, uint64_t security,
    uint64_t version, uint64_t has_user_data, const uint8_t *user_data, size_t user_data_len,
    uint8_t *apdu, size_t apdu_len, uint8_t *data, size_t data_len);

/* D-DATA indication. */
struct peat_answer peat_d_data_indication(uint8_t *rec, size_t rec_len, uint64_t number, uint64_t has_user_data, const uint8_t *user_data, size_t user_data_len,
    uint8_t *apdu, size_t apdu_len, uint8_t *data, size_t data_len);

/* D-END indication. */
struct peat_answer peat_d_end_indication(uint8_t *rec, size_t rec_len, uint64_t number, uint64_t has_user_data, const uint8_t *user_data, size_t user_data_len,
    uint8_t *apdu, size_t apdu_len, uint8_t *data, size_t data_len);

/* D-END confirmation. result: PEAT_ACCEPTED or PEAT_REJECTED; another, PEAT_REJECTED_TRANSIENT too, is SHAPE. */
struct peat_answer peat_d_end_confirmation(uint8_t *rec, size_t rec_len, uint64_t number, uint64_t result,
    uint64_t has_user_data, const uint8_t *user_data, size_t user_data_len,
    uint8_t *apdu, size_t apdu_len, uint8_t *data, size_t data_len);

/* D-ABORT indication. originator: enum peat_originator. */
struct peat_answer peat_d_abort_indication(uint8_t *rec, size_t rec_len, uint64_t number, uint64_t originator,
    uint64_t has_user_data, const uint8_t *user_data, size_t user_data_len,
    uint8_t *apdu, size_t apdu_len, uint8_t *data, size_t data_len);

/* D-P-ABORT indication, which has no user data. */
struct peat_answer peat_d_p_abort_indication(uint8_t *rec, size_t rec_len, uint64_t number,
    uint8_t *apdu, size_t apdu_len, uint8_t *data, size_t data_len);

/* ---- a primitive on its way, from the host that invokes it to the host that is handed it
 *
 * Both hosts need the same two steps: one makes a primitive of an answer, the other makes the right call of the primitive. In between your
 * carrier brings the fields of struct peat_primitive, and beside them the user data: the first user_data_len bytes of buffer apdu.
 *
 *     answer = peat_message_request(PEAT_ARRAY(rec), job, PEAT_DATA(one), PEAT_BUFFERS(apdu, data));
 *     sent = peat_primitive_of(answer, rec);
 *     if (sent.kind != PEAT_SILENT)
 *         ..                               store rec; then send the fields of sent, and sent.user_data_len bytes of apdu
 *
 *     answer = peat_hand_over(PEAT_ARRAY(rec), came, PEAT_AIRCRAFT, user_data, PEAT_BUFFERS(apdu, data));
 */

/* A primitive of the dialogue service as its host invokes it. It has no pointer: copy it, store it, send it. */
struct peat_primitive {
    uint64_t number;        /* of the dialogue */
    size_t user_data_len;   /* bytes of user data */
    unsigned kind;          /* enum peat_invoked */
    unsigned parameter;     /* routing class, result or originator, as enum peat_invoked says */
    unsigned security;      /* of a D-START: enum peat_security */
    unsigned version;       /* of a D-START between centres; else PEAT_NO_VERSION */
    unsigned has_user_data; /* enum peat_user_data */
};

/* The primitive that the answer of a machine's call asks you to invoke; its kind is PEAT_SILENT where there is none, and where the call was
   refused. rec: the record after the call, whose number it carries. Its user data are in buffer apdu. */
static inline struct peat_primitive peat_primitive_of(struct peat_answer answer, const uint8_t *rec)
{
    struct peat_primitive p;
    p.number = peat_record_number(rec);
    p.user_data_len = peat_apdu_bytes(answer);
    p.kind = peat_invoked(answer);
    p.parameter = peat_invoked_parameter(answer);
    p.security = peat_invoked_security(answer);
    p.version = peat_version(answer);
    p.has_user_data = peat_apdu_bits(answer) > 0 ? PEAT_USER_DATA : PEAT_NO_USER_DATA;
    return p;
}

/* Hands a primitive over to the record that it arrives at: a request as its indication, a response as its confirmation. The answer is that
   of the call. peer: who sent it, enum peat_peer; it matters to a D-START alone. user_data: user_data_len bytes, as they were sent. The
   quality of service is the right one, and a rejection is the user's; a carrier that received another one, or rejects a start itself,
   makes the call itself, and so does one that lost its connection (peat_d_p_abort_indication). PEAT_SHAPE also where the kind is none that
   is sent. */
static inline struct peat_answer peat_hand_over(uint8_t *rec, size_t rec_len, struct peat_primitive primitive, uint64_t peer, const uint8_t *user_data,
    uint8_t *apdu, size_t apdu_len, uint8_t *data, size_t data_len)
{
    const uint64_t number = primitive.number, has = primitive.has_user_data;
    const size_t len = primitive.user_data_len;
    struct peat_answer none;
    switch (primitive.kind) {
    case PEAT_D_START_REQUEST:
        return peat_d_start_indication(rec, rec_len, number, peer, primitive.security, PEAT_HIGH_PRIORITY, PEAT_LOW_ERROR_RATE, primitive.parameter,
            primitive.version, has, user_data, len, apdu, apdu_len, data, data_len);
    case PEAT_D_START_RESPONSE:
        return peat_d_start_confirmation(rec, rec_len, number, primitive.parameter, PEAT_DS_USER, primitive.security, primitive.version, has, user_data,
            len, apdu, apdu_len, data, data_len);
    case PEAT_D_DATA_REQUEST: return peat_d_data_indication(rec, rec_len, number, has, user_data, len, apdu, apdu_len, data, data_len);
    case PEAT_D_END_REQUEST: return peat_d_end_indication(rec, rec_len, number, has, user_data, len, apdu, apdu_len, data, data_len);
    case PEAT_D_END_RESPONSE:
        return peat_d_end_confirmation(rec, rec_len, number, primitive.parameter, has, user_data, len, apdu, apdu_len, data, data_len);
    case PEAT_D_ABORT_REQUEST:
        return peat_d_abort_indication(rec, rec_len, number, primitive.parameter, has, user_data, len, apdu, apdu_len, data, data_len);
    default: none.word = PEAT_SHAPE; return none;
    }
}

/* ---- message data that were delivered */

/* Takes one part out of message data of type 22, into out from its first bit on. (Those of type 2 are the message itself.) which: enum
   peat_part. delivered: the message data, all bytes of the range, as a call left them in buffer data (peat_data_bytes of them).
   Answers PEAT_ROOM (out is under PEAT_BUFFER_LEAST bytes); PEAT_SHAPE (which is none of its codes); or where the bytes are
   no message data the fault met first, PEAT_SHORT to PEAT_TAIL, with its position (never for what a call left there); and then
   out stays.
   Else peat_part_given says whether the part is there. If it is, out has it in its first peat_part_bits(answer) bits, the
   bits after the last one are zero up to the end of the byte, and every other byte stays; if not, out stays. */
struct peat_part_answer peat_data_part(uint64_t which, const uint8_t *delivered, size_t delivered_len, uint8_t *out, size_t out_len);

/* All parts of a forward message as it was delivered. delivered: the forward message, all bytes of the range, as a call that told
   PEAT_FORWARD_INDICATION left them in buffer data (peat_data_bytes of them). type: enum peat_type, that of the record.
   Answers PEAT_ROOM (out is under PEAT_BUFFER_LEAST bytes); PEAT_SHAPE (type is none of its codes, or heading is not of
   PEAT_HEADING_BYTES bytes); or where the bytes are no forward message the fault met first, PEAT_SHORT, PEAT_RANGE, PEAT_EXTENSION,
   PEAT_LENGTH_FORM, PEAT_TAIL or PEAT_NOT_CARRIED, with its position (never for what a call left there); and then heading and out stay.
   (PEAT_LENGTH_FORM is of type 22 alone, PEAT_EXTENSION and PEAT_NOT_CARRIED of type 2.)
   Else heading has the numbers, which peat_heading_value reads. peat_forward_value(answer) is the count of the message's bits: out
   has them in its first so many bits, those after the last one are zero up to the end of the byte, and every other byte stays. */
struct peat_forward_answer peat_read_forward(const uint8_t *delivered, size_t delivered_len, uint8_t *heading, size_t heading_len, uint8_t *out, size_t out_len,
    uint64_t type);

/* a number that peat_read_forward left in heading: PEAT_FORWARD_YEAR to PEAT_FORWARD_DIRECTION, in eight bytes each, the most
   significant first */
static inline uint64_t peat_heading_value(const uint8_t *heading, enum peat_forward_part which) { return peat_eight_bytes(heading + 8u * (unsigned)which); }

/* One part of a forward message as it was delivered, for a host that wants no other. which: enum peat_forward_part; of a forward message
   of type 2, PEAT_FORWARD_PLAIN more. delivered: as for peat_read_forward.
   Answers PEAT_ROOM (out is under PEAT_BUFFER_LEAST bytes); PEAT_SHAPE (which is none of its codes); or where the bytes are no
   forward message the fault met first, PEAT_SHORT, PEAT_RANGE, PEAT_EXTENSION, PEAT_LENGTH_FORM, PEAT_TAIL or PEAT_NOT_CARRIED, as of
   peat_read_forward; and then out stays.
   Else peat_forward_value reads the part. Of PEAT_FORWARD_MESSAGE that is the count of its bits: out has them in its first so many
   bits, those after the last one are zero up to the end of the byte, and every other byte stays. For any other part out stays. */
struct peat_forward_answer peat_forward_part(uint64_t which, const uint8_t *delivered, size_t delivered_len, uint8_t *out, size_t out_len);

/* ---- an APDU by itself, as it was recorded: for whoever looks for a fault. No machine is asked whether it is permitted. */

/* Reads the lent bytes as one APDU. which: enum peat_apdu_type. bytes: all of the range.
   Answers PEAT_SHAPE (which is none of its codes); or the fault met first, PEAT_SHORT to PEAT_DEFAULT, with its position; in type 22
   no message is looked into, so that PEAT_NOT_CARRIED is of type 2 alone, and there no length has a form or a limit. Else
   peat_apdu_kind, peat_apdu_number and peat_apdu_has_data read the answer. A forward APDU is read to its end. Writes nothing. */
struct peat_apdu_answer peat_read_apdu(uint64_t which, const uint8_t *bytes, size_t bytes_len);

/* What an APDU is, from its leading bits: for a router. Looks at the first byte and at nothing behind it. which: PEAT_AIRCRAFT_PDUS or
   PEAT_GROUND_PDUS, for both application types: their leading bits are the same. bytes: the APDU, or its first byte alone.
   Answers PEAT_SHAPE (which is none of its codes); or PEAT_SHORT, PEAT_RANGE, PEAT_EXTENSION or PEAT_DEFAULT, with its position: then
   peat_read_apdu refuses the APDU too, for this fault or another. Else peat_apdu_kind is its kind, and peat_apdu_number the mode of a
   start and 0 for every other kind; where peat_read_apdu accepts the APDU, it says the same kind and mode. Whether it accepts it is
   not said here, and peat_apdu_has_data is 0. Writes nothing. */
struct peat_apdu_answer peat_read_leading(uint64_t which, const uint8_t *bytes, size_t bytes_len);

/* ---- the broker's envelope
 *
 * Kind, job number and bit count, each in groups of seven bits, the lowest group first, the top bit set on all but the last
 * byte and the shortest form only; then the body, padded with zero bits to a whole byte. The broker hands over envelopes
 * one behind the other; these calls read and write one, and look at no record.
 */

/* The envelope at the front of the lent bytes; what follows it is not looked at.
   Answers PEAT_SHAPE (job is not of PEAT_JOB_BYTES bytes); PEAT_CUT (the bytes end inside the envelope; none at all, too),
   PEAT_GROUPS, PEAT_KIND or PEAT_SIZE, whichever it meets first in the order kind, job, bit count, body; and job stays.
   Else peat_envelope_kind, _bits, _body and _next read the answer: the body is peat_envelope_bits bits, from byte
   peat_envelope_body of the lent ones on, and the next envelope, if there are bytes left, begins at byte
   peat_envelope_next. Both places are at most PEAT_ENVELOPE_MOST. And job has the job number, 1 to 2^64 - 1, which takes
   all bits of a number and so is not in the answer: peat_job_number reads it there. */
struct peat_envelope_answer peat_read_envelope(const uint8_t *lent, size_t lent_len, uint8_t *job, size_t job_len);

/* the job number that peat_read_envelope or peat_mail_take left in job, PEAT_JOB_BYTES bytes, the most significant first */
static inline uint64_t peat_job_number(const uint8_t *job) { return peat_eight_bytes(job); }

/* An envelope into out, from its first byte on. kind: enum peat_envelope. job: 1 to 2^64 - 1. bits: of the body, 0 to
   PEAT_MESSAGE_MOST, and 8 where the kind is PEAT_ENVELOPE_REFUSAL. body: its bits from the first bit on; the range may be
   longer, and the bits of its last byte in use past the count must be zero.
   Answers PEAT_ROOM (out is under PEAT_BUFFER_LEAST bytes); PEAT_SHAPE (a kind, job or bit count outside these, a count
   more than the body holds, a padding bit that is 1), and out stays. Else out has the envelope in its first
   peat_written_bytes(answer) bytes, at most PEAT_ENVELOPE_MOST, and every other byte stays; peat_read_envelope reads it
   back. body and out must not overlap. */
struct peat_written_envelope peat_write_envelope(uint64_t kind, uint64_t job, uint64_t bits, const uint8_t *body, size_t body_len,
    uint8_t *out, size_t out_len);

/* ---- envelopes as they arrive
 *
 * A socket hands over fragments that begin and end anywhere. A mail record of PEAT_MAIL_BYTES bytes keeps what has come of an
 * envelope until the rest is there. The host makes it fresh, hands over each fragment, and says when the input has ended:
 *
 *     peat_mail_fresh(mail, sizeof mail);
 *     while ((n = read(socket, at = bytes, sizeof bytes)) > 0)
 *         for (; n > 0; at += peat_mail_taken(answer), n -= peat_mail_taken(answer)) {
 *             answer = peat_mail_take(mail, sizeof mail, at, n, job, sizeof job);
 *             if (peat_refusal(answer) != PEAT_TAKEN)
 *                 ..                       the input is refused, from byte peat_mail_place(mail) of it on
 *             if (peat_envelope_kind(answer) != 0)
 *                 ..                       an envelope: its body is peat_mail_body(mail, answer), its job peat_job_number(job)
 *         }
 *     if (peat_refusal(peat_mail_end(mail, sizeof mail)) == PEAT_CUT)
 *         ..                               the input ended inside an envelope
 *
 * However the input is cut into fragments, the envelopes, the refusal and the record are those of the whole: the record is
 * determined by the bytes taken. PEAT_GROUPS, PEAT_KIND and PEAT_SIZE come with the first byte that decides them.
 */

/* bytes of a mail record. PEAT_MAIL_STATE: 0 an envelope that is not finished, or none; 1 a finished one; PEAT_CUT to
   PEAT_SIZE the refusal. PEAT_MAIL_COUNT, two bytes: how many bytes of the envelope are held, from PEAT_MAIL_HEAD on. The
   card leaves zeros behind them, and does not look at what is there. PEAT_MAIL_PLACE, eight bytes: where the envelope that
   is held or refused begins, counted from the first byte since the record was made fresh; 2^64 - 1 says that or more. Both
   numbers have their most significant byte first. */
#define PEAT_MAIL_STATE 0
#define PEAT_MAIL_COUNT 1
#define PEAT_MAIL_PLACE 3

/* Makes a fresh record in mail. Answers PEAT_SHAPE (mail is not of PEAT_MAIL_BYTES bytes), and mail stays; else 0, and every
   byte of mail is written. */
struct peat_outcome peat_mail_fresh(uint8_t *mail, size_t mail_len);

/* The next fragment of the input, or what an earlier call left of it. Its length may be anything, 0 too.
   Answers PEAT_SHAPE (job is not of PEAT_JOB_BYTES bytes; mail is not of PEAT_MAIL_BYTES bytes, or these are no record: a state
   that is none, more bytes held than PEAT_ENVELOPE_MOST, or bytes held of an unfinished envelope that are not the beginning of
   one), and mail stays.
   Answers PEAT_GROUPS, PEAT_KIND or PEAT_SIZE where the input has an envelope that peat_read_envelope refuses so: mail then
   holds the refusal and the place, no byte of the fragment is taken, and every later call answers the same refusal and
   changes nothing, until mail is made fresh. (PEAT_CUT comes that way too, after peat_mail_end answered it.)
   Else peat_mail_taken(answer) bytes were taken from the front of the fragment. Where peat_envelope_kind(answer) is not 0,
   they finish an envelope: it stands in mail until the next call that takes a byte, its body of peat_envelope_bits(answer)
   bits from byte peat_envelope_body(answer) of mail on, job has its job number (peat_job_number reads it), and the host calls
   again with the rest of the fragment. Where the kind is 0, all bytes were taken and no envelope is finished. job stays wherever
   no envelope is finished. A call takes at most PEAT_ENVELOPE_MOST bytes, and at least one of a fragment that has one. */
struct peat_envelope_answer peat_mail_take(uint8_t *mail, size_t mail_len, const uint8_t *fragment, size_t fragment_len, uint8_t *job, size_t job_len);

/* The input has ended. Answers PEAT_SHAPE for mail as peat_mail_take does; PEAT_CUT where an envelope is unfinished, and mail holds that
   refusal from then on; the refusal that mail holds already; else 0, and mail stays. */
struct peat_outcome peat_mail_end(uint8_t *mail, size_t mail_len);

/* How many bytes of an envelope are held, and where the envelope that is held or refused begins. */
static inline size_t peat_mail_held(const uint8_t *mail) { return (size_t)mail[PEAT_MAIL_COUNT] << 8 | mail[PEAT_MAIL_COUNT + 1]; }
static inline uint64_t peat_mail_place(const uint8_t *mail) { return peat_eight_bytes(mail + PEAT_MAIL_PLACE); }

/* Of an envelope that was finished: its body, where it stands in mail. */
static inline const uint8_t *peat_mail_body(const uint8_t *mail, struct peat_envelope_answer answer) { return mail + peat_envelope_body(answer); }

/* ---- two recordings compared
 *
 * A recording is what a host that keeps its envelopes in a file leaves there: envelopes one behind the other. Air and ground keep one
 * each, and the two are compared:
 *
 *     static uint8_t left[PEAT_LIST_MOST], right[PEAT_LIST_MOST], twice[PEAT_LIST_MOST], counts[PEAT_COUNTS_BYTES];
 *     struct peat_compare_answer answer = peat_compare(air, air_len, ground, ground_len, PEAT_ARRAY(left), PEAT_ARRAY(right), PEAT_ARRAY(twice),
 *         PEAT_ARRAY(counts));
 *     struct peat_comparison c = peat_comparison_of(answer, counts);
 *     for (i = 0; i < c.only_first; i++)
 *         printf("%llu only in the first\n", (unsigned long long)peat_job_number(left + PEAT_JOB_BYTES * i));
 *
 * A list is any range of bytes; its places are PEAT_JOB_BYTES bytes each, and bytes behind the last whole place stay. Recordings of more
 * than PEAT_RECORDING_MOST bytes are compared piece by piece: see peat-compare.
 */

/* Two recordings compared. The jobs that are in only the first go to left, those in only the second to right, those that are in the first
   or in the second more than once to twice, whatever the kinds of their envelopes: each job once, rising, PEAT_JOB_BYTES bytes each.
   Answers PEAT_SHAPE (a recording over PEAT_RECORDING_MOST bytes, or counts not of PEAT_COUNTS_BYTES); PEAT_CUT, PEAT_GROUPS, PEAT_KIND
   or PEAT_SIZE of the first refused envelope, the first recording read to its end before the second, with the recording and the byte where
   the envelope begins; PEAT_ROOM (a list has fewer places than jobs to take); and every lent byte stays.
   Else peat_comparison_of reads the answer. Where field is not PEAT_FIELD_NONE, the envelope at that byte of both recordings is the first
   that differs. Where it is PEAT_FIELD_NONE and recording is not 0, one recording is the beginning of the other, and from that byte on the
   recording of that number has the rest. Where both are 0, the recordings are equal. counts has how many jobs each list has taken, two bytes
   each, and every byte behind the jobs of a list stays. The six ranges must not overlap; first and second alone may. */
struct peat_compare_answer peat_compare(const uint8_t *first, size_t first_len, const uint8_t *second, size_t second_len, uint8_t *left, size_t left_len,
    uint8_t *right, size_t right_len, uint8_t *twice, size_t twice_len, uint8_t *counts, size_t counts_len);

/* ---- the CPDLC message
 *
 * A message is kept in a message range (PEAT_INNER_BYTES, see above), and its characters in a text: those of all elements,
 * one a byte (0 to 127), one element's behind another's. The argument kinds that the card carries, and what an element of
 * each uses beside its number:
 *   none                  nothing
 *   level                 PEAT_PLACE_LEVEL
 *   two levels            PEAT_PLACE_LEVEL and PEAT_PLACE_OTHER
 *   time                  PEAT_PLACE_HOURS, PEAT_PLACE_MINUTES
 *   code                  PEAT_PLACE_CODE
 *   free text             1 to 256 characters
 *   facility              no characters: no facility; else 4 to 8
 *   facility designation  4 to 8 characters
 *   ATIS code             1 character
 */

/* Reads the first `count` bits of the lent ones as a message. direction: enum peat_direction. text: PEAT_BUFFER_LEAST bytes
   at least, which no message's characters pass.
   Answers PEAT_ROOM (text is under that); PEAT_SHAPE (direction is none of its codes, message is not PEAT_INNER_BYTES
   bytes, count is over PEAT_MESSAGE_MOST or more than the lent bytes hold); or the fault met first in the bits, PEAT_SHORT
   to PEAT_DEFAULT, with its position in these bits; and then message and text stay. (PEAT_LENGTH_FORM and PEAT_LIMIT never come here: a message has no field
   whose length has a form or a limit of its own. They come from peat_data_part.) Else message is written whole, text has the characters in its first
   peat_message_characters(answer) bytes, and its other bytes stay. */
struct peat_message_answer peat_read_message(uint64_t direction, const uint8_t *bits, size_t bits_len, uint64_t count,
    uint8_t *message, size_t message_len, uint8_t *text, size_t text_len);

/* Writes a message into out, from its first bit on. direction: as above. text: the characters of its elements and no more;
   its length is their sum.
   Answers PEAT_ROOM (out is under PEAT_BUFFER_LEAST bytes); PEAT_SHAPE (direction is none of its codes, message is not
   PEAT_INNER_BYTES bytes, a number, digit or character is outside its type, an element is not carried, something is not
   zero that is absent or not used, text has more or fewer characters, or the message has more than PEAT_MESSAGE_MOST bits,
   which no message of these kinds has: five texts of 256 characters are 9,097 at most); and then out stays. Else out has
   the message in its first peat_message_bits(answer) bits, the bits after the last one are zero up to the end of the byte,
   and every other byte stays; peat_read_message reads it back. */
struct peat_written_message peat_write_message(uint64_t direction, const uint8_t *message, size_t message_len, const uint8_t *text, size_t text_len,
    uint8_t *out, size_t out_len);

/* ---- the book of message identification numbers
 *
 * One book stands beside one record: which of the numbers 0 to 63 are open in this end's direction, and the job that each is
 * open for. The host opens a number for each message that it sends, and puts it into the message (PEAT_INNER_IDENTIFICATION);
 * it closes the number when the exchange is over, for example when the reply came, which has it as its reference number. The
 * book does not look at the record or into a message: the host empties it when a new dialogue opens, and closes what it
 * opened for a request that was then refused.
 *
 * A book is PEAT_BOOK_BYTES bytes that the host may keep anywhere and copy; it writes them through calls only. Of a number in
 * eight bytes the most significant is first.
 *   byte 0          eight bytes, the open numbers: bit n, counted from the lowest, is 1 where number n is open
 *   byte 8 (n + 1)  eight bytes, the job of number n: 0 where it is not open
 * The jobs decide which numbers are open, so two books with the same open numbers and jobs have the same bytes. Any other
 * bytes are no book: every call but peat_book_empty looks at all of them first, and refuses them.
 */

/* Empties a book, or makes one of any bytes: no number is open.
   Answers 0 and writes book, all zeros; or PEAT_SHAPE (book_len is not PEAT_BOOK_BYTES), and book stays. */
struct peat_outcome peat_book_empty(uint8_t *book, size_t book_len);

/* Opens the lowest free number for a job, 1 to 2^64 - 1. The book does not mind a job that has a number already: it then has
   two. Answers PEAT_SHAPE (job is 0, or book is not a book); PEAT_ALL_OPEN, exactly where all PEAT_BOOK_NUMBERS are open; and
   book stays. Else peat_opened_number reads the answer. */
struct peat_open_answer peat_book_open(uint8_t *book, size_t book_len, uint64_t job);

/* Closes a number that is open; it may be given again from then on.
   Answers PEAT_SHAPE (book is not a book); PEAT_NOT_OPEN (number is not open, or above 63); and book stays. Else 0. */
struct peat_outcome peat_book_close(uint8_t *book, size_t book_len, uint64_t number);

/* How many numbers are open: peat_open_count reads the answer. Or PEAT_SHAPE (book is not a book). Writes nothing. */
struct peat_count_answer peat_book_count(const uint8_t *book, size_t book_len);

/* The job that a number is open for, 1 to 2^64 - 1; 0 where it is not open, is above 63, or book is not a book. (A job takes
   all bits of a number, so no refusal has room beside it; peat_book_count tells whether a range is a book.) Writes nothing. */
uint64_t peat_book_job(const uint8_t *book, size_t book_len, uint64_t number);

#ifdef __cplusplus
}
#endif

#endif
