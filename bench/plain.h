/*
 * A coder as one writes it in C: the same bits and the same limits as the card's, a small buffer of bits, no proof. The bench
 * holds the card to it. A reader answers 1, or 0 where the bytes are refused; a writer the bits, or 0 where the value is.
 */
#ifndef PLAIN_H
#define PLAIN_H

#include <stddef.h>
#include <stdint.h>

/* ---- GroundPDUs, the alternative send */

struct plain_data {
    size_t octets; /* of the identifier; 0: none */
    int messaged;
    size_t message_bits, check_bits;
    uint8_t identifier[16], message[2048], check[8];
};

size_t plain_write_send(uint8_t *out, size_t room, const struct plain_data *d);
int plain_read_send(const uint8_t *in, size_t bytes, struct plain_data *d);
/* the message data alone, as they are delivered to a user */
size_t plain_write_data(uint8_t *out, size_t room, const struct plain_data *d);

/* ---- ATCUplinkMessage */

/* the argument kinds, and kinds[] of the 237 root alternatives (target/bench/kinds.h) */
enum plain_kind { K_NOT_CARRIED, K_NONE, K_LEVEL, K_TWO_LEVELS, K_TIME, K_CODE, K_TEXT, K_FACILITY, K_DESIGNATION, K_ATIS };

struct plain_level {
    int block;
    unsigned unit[2]; /* 0 feet, 1 metres, 2 flight level, 3 metric flight level */
    int number[2];
};

struct plain_element {
    unsigned number;
    struct plain_level level[2];
    unsigned hours, minutes;
    uint8_t code[4];
    size_t characters;
    char text[256];
};

struct plain_message {
    unsigned identification, referenced, reference;
    unsigned year, month, day, hours, minutes, seconds, acknowledged;
    size_t count;
    struct plain_element element[5];
};

size_t plain_write_message(uint8_t *out, size_t room, const struct plain_message *m);
int plain_read_message(const uint8_t *in, size_t bits, struct plain_message *m);

/* the message as the card keeps it, in a message range and a text: loaded (0 where the text is not as long as the elements say), and laid
   (the characters of the text) */
int plain_load_message(const uint8_t *laid, const uint8_t *text, size_t characters, struct plain_message *m);
size_t plain_lay_message(const struct plain_message *m, uint8_t *laid, uint8_t *text);

/* ---- the broker's envelope */

struct plain_envelope {
    uint64_t kind, job, bits;
    const uint8_t *body;
};

/* the bytes, or 0 */
size_t plain_write_envelope(uint8_t *out, size_t room, const struct plain_envelope *e);
size_t plain_read_envelope(const uint8_t *in, size_t bytes, struct plain_envelope *e);

#endif
