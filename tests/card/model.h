/*
 * The card as the documents give it, to be compared with the card as it is: Doc 9880 3.5.3 and 3.5.4, Doc 9705 2.3.4 and
 * 2.3.5, X.691 and document 01; for application type 2 (document 02, E14) the tables of source document 004. It shares no code and no header with the card. The two machines are written apart and by
 * event; the card has one machine over the side. model.c has the machines, the APDUs and the envelope, message.c the CPDLC
 * message.
 */
#ifndef MODEL_H
#define MODEL_H

#include <stddef.h>
#include <stdint.h>

enum which {
    START_REQUEST, START_RESPONSE, DSC_START_RESPONSE, MESSAGE_REQUEST, END_REQUEST, DSC_END_REQUEST, END_RESPONSE,
    DSC_END_RESPONSE, USER_ABORT, FORWARD_REQUEST, TIMER_EXPIRY, SYSTEM_ERROR, D_START_INDICATION, D_START_CONFIRMATION,
    D_DATA_INDICATION, D_END_INDICATION, D_END_CONFIRMATION, D_ABORT_INDICATION, D_P_ABORT_INDICATION, FRESH, READ_ENVELOPE,
    WRITE_ENVELOPE, DATA_PART, FORWARD_PART, READ_FORWARD, READ_APDU, READ_MESSAGE, WRITE_MESSAGE, CALLS
};

struct range {
    uint8_t *at;
    size_t len;
};

/* what a call is lent and given; `n` holds its codes in the order of its parameters. An envelope, message data, a forward
   message, an APDU and the bits of a message are read from `bytes`. An envelope is written of the body `msgs` into `first`, and
   there go a part of message data and one of a forward message; the heading of a forward message goes into `ids`. A message is read into the message range `rec` and the text
   `first`, and written of the message range `ids` and the text `msgs` into `first`. */
struct args {
    struct range rec, ids, msgs, checks, bytes, first, second;
    uint64_t n[12], message, check, given;
    uint64_t number; /* the dialogue's, of a start and of a primitive of the dialogue service */
};

/* does to the lent ranges what the call must do, and answers what it must answer */
uint64_t model_call(enum which which, struct args *a);

/* document 01's sizes, with those of document 02, E3: the bits of a message, the bytes of an output buffer; a record's bytes, a job's, and a forward heading's */
enum { MESSAGE_MOST = 16383, BUFFER_LEAST = 2112, RECORD_BYTES = 25, JOB_BYTES = 8, HEADING_BYTES = 80 };

/* bits, one in a byte: the largest APDU has 16,615 */
struct bits {
    size_t n;
    uint8_t bit[20000];
};

void put(struct bits *b, uint64_t value, unsigned width);
void put_range(struct bits *b, const uint8_t *bytes, size_t count);
void put_length(struct bits *b, size_t count);
/* message data: an identifier where octets > 0, a message where message is not NONE, and a check */
void put_data(struct bits *b, const struct args *a);
/* into bytes, padded with zeros; the number of bytes */
size_t whole(const struct bits *b, uint8_t *bytes);

/* reads the first `end` bits of a range; `bad` is the refusal of the fault that it met first, or 0, and `where` the bit at which
   its field begins. `field` is where the field begins that is being read. */
struct reader {
    struct range in;
    size_t end, at, field, where;
    unsigned bad;
};

struct reader reader_of(struct range in, size_t end);

enum { SHORT = 10, RANGE, EXTENSION, LENGTH_FORM, LIMIT, TAIL, NOT_CARRIED, DEFAULT };

void fault(struct reader *r, unsigned refusal);
/* what the call answers that met a fault */
uint64_t refused(const struct reader *r);
/* a field begins; a field of so many bits; so many bits more of the field; a field that is not looked at */
void begin(struct reader *r);
uint64_t get(struct reader *r, size_t width);
uint64_t get_more(struct reader *r, size_t width);
void skip(struct reader *r, size_t width);

/* message.c. A message of a direction in place, or its elements alone: the reader goes behind it, and meets its faults. */
void get_message(struct reader *r, unsigned direction);
void get_elements(struct reader *r, unsigned direction);
uint64_t read_message(struct args *a);
uint64_t write_message(struct args *a);
/* a message range and its text that are a message, or nearly; the length of the text */
size_t make_message(uint64_t (*any)(void), unsigned direction, uint8_t *message, uint8_t *text);
/* the bits of a header, of what a message range says */
size_t header_bits(const uint8_t *message);

#define NONE ((uint64_t)-1)

#endif
