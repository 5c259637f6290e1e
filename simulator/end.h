/*
 * One end of a dialogue, air or ground: its record and what its host does with the answer of a call. The rule of this file
 * is the first duty of docs/HOST.md: keep, then release. What a call changed is in the journal before its primitive, its
 * word for the user or an acknowledgement leaves.
 */
#ifndef END_H
#define END_H

#include "book.h"
#include "broker.h"
#include "carrier.h"
#include "clearance.h"
#include "journal.h"
#include "memory.h"
#include "position.h"
#include "user.h"

#define DIALOGUES 48
#define HELD_MOST 8 /* jobs that came before their turn and wait for it */

struct held {
    uint64_t job; /* 0: nothing is held here */
    unsigned bits;
    uint8_t body[CLEARANCE_BYTES];
};

#define UNHEARD_MOST 8

/* messages that a wrong host was given for its user, and has not shown yet */
struct unheard {
    unsigned count, bits[UNHEARD_MOST];
    uint8_t message[UNHEARD_MOST][PEAT_BUFFER_LEAST];
};

/* what an end is made as, and stays: its name in the journal's and in the story */
struct setting {
    const char *name;
    unsigned side, forwarding, version, type;
};

/* What the simulator knows of an end, and no host does: it holds the dialogue to docs/PAIR.md. */
struct watch {
    unsigned state;              /* after its last call */
    uint64_t number;             /* of the dialogue that what follows is of */
    unsigned sent;               /* the clearances that it took in this dialogue, in order */
    uint64_t clearance[OPEN_MOST];
    unsigned seen;               /* how many of the other end's it was shown */
    struct book_watch numbers;   /* of a ground end: those of its messages that are open */
    int broke;                   /* it invoked D-ABORT in this dialogue, or the carrier failed */
    uint64_t forward;            /* of an end that gets forwards: the last that its user was shown */
    struct memory kept;          /* what the journal has to give back */
    unsigned long entries;       /* that it put on its line */
    uint64_t delivered;          /* messages that its broker was given */
    struct position position;    /* what it shows of its dialogues: by the answers that were kept */
};

struct end {
    int dialogue; /* or link (forward.h), from DIALOGUES on */
    struct setting setting;
    struct end *peer;
    struct memory memory;           /* lost with the power, and loaded from the journal */
    struct held held[HELD_MOST];    /* lost with the power */
    struct unheard unheard;         /* likewise */
    struct journal journal;         /* what follows is not: the disk, the carrier, the broker, the user */
    struct line out;                /* what this end sent and the carrier has not delivered */
    struct broker broker;
    struct user user;
    int down;                       /* its power failed, and it is not up again */
    int apart;                      /* it has heard that the connection is lost, and the other end has not yet */
    struct watch watch;
};

/* The buffers of every call: a call's answer is used before the next call. */
extern uint8_t call_apdu[PEAT_BUFFER_LEAST], call_data[PEAT_BUFFER_LEAST];

#define REC(e) PEAT_ARRAY((e)->memory.rec)
#define BUFFERS PEAT_BUFFERS(call_apdu, call_data)

static inline unsigned side(const struct end *e) { return peat_record_side(e->memory.rec); }
static inline uint64_t number(const struct end *e) { return peat_record_number(e->memory.rec); }
static inline unsigned state(const struct end *e) { return peat_record_state(e->memory.rec); }
static inline int idle(const struct end *e) { return state(e) == PEAT_IDLE; }
static inline int is_air(const struct end *e) { return side(e) == PEAT_AIR; }

/* it is of application type 2, where a message has no check and may be absent */
static inline int is_plain(const struct end *e) { return e->setting.type == PEAT_PLAIN; }

/* it is one of a link between two centres */
static inline int of_link(const struct end *e) { return e->dialogue >= DIALOGUES; }

/* makes the record of an end, once, and begins its journal; -1 where that does not go */
int end_begin(struct end *e, int dialogue, const struct setting *as, struct end *peer, const char *folder);

/* Makes the record of an end fresh, which a host does once, and the wrong ones again. The answer of the card. */
unsigned end_fresh(struct end *e);

/* Does what the answer of a call says; `what` names the call. The refusal, or PEAT_TAKEN. */
unsigned end_act(struct end *e, const char *what, struct peat_answer answer);

/* likewise of a call of its user that makes it active, or closes it */
unsigned end_invokes(struct end *e, const char *what, enum invocation by, struct peat_answer answer);

/* likewise of a message request, which took a job, with the number that was set in the message */
void end_takes(struct end *e, uint64_t job, unsigned number, struct peat_answer answer);

/* likewise of a forward request */
void end_forwards(struct end *e, uint64_t job, struct peat_answer answer);

/* A job was refused for good: that is kept, and its user will be told. */
void end_refuses(struct end *e, uint64_t job, unsigned refusal);

/* The connection of a dialogue is gone, released (ENDED) or lost (BROKEN): the jobs that were taken in it have this fate. */
void end_settles(struct end *e, enum fate fate);

/* Its position is shown an abort that no call told, as two of the faults have it. */
void end_shows_abort(struct end *e);

/* Its user is shown what was put off, as one of the faults has it. */
void end_hears(struct end *e);

/* the oldest notices were given to the broker, which confirmed them */
void end_confirmed(struct end *e, unsigned notices);

/* The power is back: everything is as the journal has it. */
void end_loads(struct end *e);

/* what the carrier loses of a line, the youngest first */
void lose_youngest(struct end *e, unsigned n);

#endif
