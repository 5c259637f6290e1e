/*
 * What the parts of the test share: its counts, its chance, the lent ranges, and the two ends of scripted dialogues. One part a file; card.c runs them.
 */
#ifndef CARD_H
#define CARD_H

#include "../lib/answers.h"
#include "model.h"

/* ---- what is counted, chance, the lent ranges (lent.c) */

extern unsigned long passed, failed;
int check(int right, const char *name);
uint64_t any(void);
unsigned below(unsigned n);
int once_in(unsigned n);
void fill(uint8_t *at, size_t len);

#define PLACES 7
#define PLACE 4096u /* bytes; one page */
extern uint8_t *lent[PLACES]; /* the end of each place, where an unreadable page begins */
void make_places(void);
/* a range of this length at the end of its place; the null pointer, now and then, for one of no bytes */
void lend(struct args *a, int i, size_t len);
/* the refusals that a call may answer */
int can_refuse(enum which w, unsigned x);
/* Makes the call: a refusal is its number and its position alone and changes no byte, else it does what the model does. */
int agrees(enum which w, struct args *a, uint64_t *said);

/* ---- random.c */

int is_plain(const struct args *a);
void random_calls(unsigned long calls);

/* ---- machine_edges.c */

/* the numbers of a call that are right, or would be in another state */
void set_codes(struct args *a, enum which w);
#define RECORDS 1344
/* The record of a number below RECORDS: each side and type, state and flag, and codes and states that are none. 1: it is a record. */
int numbered_record(struct args *a, unsigned n);
void edges(void);
void start_everywhere(void);

/* ---- envelope_edges.c */

void known_envelopes(void);
void job_ranges(void);
void damaged_envelopes(void);
void written_envelopes(void);

/* ---- message_edges.c: by hand, a forward APDU of each type */

extern const uint8_t plain_by_hand[15];
extern const uint8_t by_hand[16];
void message_edges(void);
void apdu_edges(void);

/* ---- dialogues.c */

extern uint8_t air[PEAT_RECORD_BYTES], ground[PEAT_RECORD_BYTES];
extern uint8_t first[PEAT_BUFFER_LEAST], second[PEAT_BUFFER_LEAST], line[PEAT_BUFFER_LEAST]; /* the two buffers, and what was sent last */
extern size_t line_len;
extern uint64_t number; /* of the dialogue */
uint64_t above(void);
struct peat_answer sent(struct peat_answer answer);
int invokes(struct peat_answer answer, unsigned primitive, unsigned parameter);
int told(struct peat_answer answer, unsigned primitive, unsigned parameter, unsigned dsc);
int states(unsigned a, unsigned g);
void fresh_of(unsigned type);
void fresh(void);
void opens(void);
struct peat_answer says(uint8_t *rec, uint64_t job, const uint8_t *message, uint64_t bits);
void ends(void);
void open_message_end_again(void);
void downstream(void);
void aborts(void);
void timer(void);
void jobs(void);
void stale(void);
void largest(void);
void later_edition(void);
#define BUFFERS first, sizeof first, second, sizeof second
#define BARE NULL, 0, NULL, 0, PEAT_NONE, NULL, 0, 0
#define AIR_REC air, sizeof air
#define GROUND_REC ground, sizeof ground
#define LINE PEAT_USER_DATA, line, line_len

/* ---- forwards.c */

extern const uint8_t forwarded[2];
extern uint8_t other[PEAT_RECORD_BYTES]; /* the receiving centre */
void centres(unsigned forwarding, unsigned version, unsigned other_version);
struct peat_answer hears(uint64_t held, unsigned version);
void forward_answered(void);
void forward_refused(void);
void forward_misused(void);
void largest_forward(void);
void forward_everywhere(void);
#define OTHER_REC other, sizeof other
#define HEADING 2026, 11, 15, 12, 30, 59, 6, peat_flight("BAW123", 6), 0x400123, PEAT_FORWARD_DOWNLINK

/* ---- plain.c */

void plain_bare(unsigned mode);
void plain_with_messages(void);
void plain_refused(void);
void plain_misused(void);
void plain_forward(void);

#endif
