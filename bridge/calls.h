/*
 * What the files that call the card share: calls.c for dialogues, forward.c for other centres. The buffers of every call are one pair: the bridge
 * makes one call at a time, and uses what a call wrote before the next.
 */
#ifndef CALLS_H
#define CALLS_H

#include "bridge.h"

extern uint8_t call_apdu[PEAT_BUFFER_LEAST], call_data[PEAT_BUFFER_LEAST];

#define RECORD(d) (d)->kept.record, sizeof (d)->kept.record
#define BUFFERS PEAT_BUFFERS(call_apdu, call_data)

/* What the card says of a job, whichever call said it: the refusal, and the bit where bits are at fault. */
struct verdict {
    unsigned refusal;
    uint64_t position;
};
#define VERDICT(answer) call_verdict((answer).word)
static inline struct verdict call_verdict(uint64_t word) { return (struct verdict){peat_refusal_in(word), peat_position_in(word)}; }

/* Collects what the answer of a call asks for. `before`: the state before the call; `why`: for the notice, if the dialogue, or the forward, is over by
   it. Answers the refusal. */
unsigned call_act(struct bridge *, struct dialogue *, unsigned before, struct peat_answer answer, const char *why);
/* The same of a call that the record's state allows. */
void call_must(struct bridge *, struct dialogue *, const char *call, struct peat_answer answer, const char *why, unsigned before);

/* The number of the next dialogue, or of the next forward. */
uint64_t call_next_number(const struct dialogue *);
/* until the next start, or the next connection */
void call_wait_longer(struct bridge *, struct dialogue *);

/* A job was taken: that is decided, and its fate is owed. Or it was refused, by the card's verdict. */
void call_taken(struct bridge *, struct dialogue *, uint64_t job);
void call_refused(struct bridge *, struct dialogue *, uint64_t job, struct verdict);

/* A primitive may not come from there: it is counted, and said now and then. */
void call_turn_away(struct bridge *, struct dialogue *, const struct primitive *, const char *why);

/* ---- letters */

#define HEADS_OF_LETTER 20000 /* of headers, the message as JSON among them */

void call_letter(struct bridge *, const struct dialogue *, const char *type, const char *heads, const void *body, size_t bytes);
/* With an envelope of a delivered message; its job is its number among those of the place. */
void call_delivered(struct bridge *, struct dialogue *, const char *type, const char *heads, unsigned bits, const uint8_t *message);
void call_add_head(char *heads, const char *name, const char *value);
void call_add_number(char *heads, const char *name, uint64_t number);
void call_add_refusal(char *heads, struct verdict);

#endif
