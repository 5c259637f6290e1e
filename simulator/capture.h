/*
 * A capture of what the carrier hands over, for Wireshark: each entry in the frames of an ATN connection, its APDU in
 * exactly its bits. Nothing here is the card's: it shows the card's bits to a program that shares no code with it.
 */
#ifndef CAPTURE_H
#define CAPTURE_H

struct entry;

/* begins a file of frames; -1 where it can not be written. pad: see peat-host --help. */
int capture_begin(const char *path, int pad);

/* An entry that an end of a dialogue sent reaches the other end. type: enum peat_type, which a start says as its AE qualifier. Without a
   file it does nothing. */
void capture_entry(int dialogue, int from_air, unsigned type, const struct entry *e);

/* ends the file: -1 where it was not written whole */
int capture_end(void);

#endif
