/*
 * What users send: clearances and reports, as CPDLC messages. Clearance n of a side is one message, the same each time: its
 * time stamp is second n of the run, and its elements with their arguments follow from n. So a message that arrives says
 * which clearance it is, and what it has to be: all but one number, which the host sets when it gives the message to the
 * card. Of an uplink that is its identification number, from the book; of a downlink the number that it replies to.
 */
#ifndef CLEARANCE_H
#define CLEARANCE_H

#include "book.h"
#include "peatribbon.h"

#define CLEARANCE_BYTES ((PEAT_MESSAGE_MOST + 7) / 8)

struct clearance {
    uint8_t message[PEAT_INNER_BYTES]; /* the message range */
    size_t characters;
    uint8_t text[PEAT_BUFFER_LEAST];
    unsigned bits; /* 0: the card refused to write it, which may not be */
    uint8_t bit[PEAT_BUFFER_LEAST];
};

/* clearance n, 1 and up, as the user of a side composes it: laid into the message range, and written */
void clearance_compose(struct clearance *c, unsigned side, uint64_t n);

/* a message of a side as the card reads it; 0 where it does not */
int clearance_read(struct clearance *c, unsigned side, const uint8_t *bit, unsigned bits);

/* the number that the host set, and setting it: 0 to 63, or of a downlink NO_NUMBER, which replies to none */
unsigned clearance_numbered(const struct clearance *c, unsigned side);
void clearance_set_number(struct clearance *c, unsigned side, unsigned number);

/* Which clearance of a side these bits are; 0 where they are none: the card does not read them, or the clearance of that
   number, with the number that the host set, has other bits, another range or another text. */
uint64_t clearance_of(const struct clearance *c, unsigned side);

/* The number of the clearance that has the time stamp of a message range. */
uint64_t clearance_stamped(const uint8_t *message);

/* Its elements alone, the bits behind those of the header: what a forward of type 2 has. They go into PEAT_BUFFER_LEAST bytes; their count. */
unsigned clearance_elements(const struct clearance *c, uint8_t *bit);

/* the elements of clearance n by name and number, for the story; room of 64 characters */
void clearance_said(char *said, size_t room, unsigned side, uint64_t n);

#endif
