/*
 * Recordings of both ends, for peat-compare (peat-host --record FOLDER): the files FOLDER/air and FOLDER/ground, envelopes of the messages of every
 * dialogue that both ends ended and nothing broke, as each end knows them. Of a dialogue the controller's messages stand first. The sender keeps what
 * it gave the card, the other end what the envelope from its card says; the job is the clearance and the direction. So the two files of right hosts are equal.
 */
#ifndef RECORDING_H
#define RECORDING_H

#include <stdint.h>

struct end;
struct envelope;

/* begins both files; -1 where they can not be written. Without this the others do nothing. */
int recording_begin(const char *folder);

/* the message that a call was given; and that it was taken, as this clearance */
void recording_asked(const uint8_t *message, unsigned bits);
void recording_took(const struct end *e, uint64_t clearance);

/* an envelope with a delivered message */
void recording_got(const struct end *e, const struct envelope *l);

/* a dialogue begins at an end: what was kept of the one before is left out */
void recording_starts(const struct end *e);

/* both ends are IDLE and nothing is under way: what they kept goes to the files, unless the dialogue broke */
void recording_ends(const struct end *air, const struct end *ground, int broke);

/* ends both files: -1 where one was not written whole */
int recording_end(void);

#endif
