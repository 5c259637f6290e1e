/*
 * A recorded day: what the bridge did in each dialogue, one line a move, for `peat-replay` (docs/HOST.md, "A recorded day").
 *
 * A line that is kept with a commit is written before it, behind the line `commit N`; a bridge that comes up takes back the lines of a commit that
 * its journal does not have. What leaves is written when it leaves. So a kill at any line leaves a day that is true, but for the last `sends`
 * before it, which peat-replay puts back where the aircraft has heard of it.
 *
 * Without `moves` in the configuration nothing here does anything. A day that can't be written any more is left alone, with a line in the log.
 */
#ifndef DAY_H
#define DAY_H

#include "peatribbon.h"

struct bridge;
struct dialogue;
struct primitive;

/* of a dialogue */
struct day {
    int file;                                /* -1: it is not recorded */
    int is_connected;                        /* the last connection is not lost */
    int is_left;                             /* the file that is there is left alone */
    uint64_t notices;                        /* that were made */
    unsigned posted;                         /* the kind of the envelope in which the last message went to its user; 0: none did */
    char *waiting;                           /* lines for the next commit */
    size_t count, room;
    uint64_t *job;                           /* of envelopes that were read and whose payload has no receipt yet */
    size_t jobs, due, job_room;              /* due: those of payloads that were read to their end */
};

/* A dialogue is this bridge's, and its record was not loaded yet; and when what that broke is committed. */
void day_begin(struct bridge *, struct dialogue *);
void day_began(struct bridge *, struct dialogue *);

/* A line for the next commit; one that is true at once. */
void day_keeps(struct dialogue *, const char *format, ...);
void day_says(struct dialogue *, const char *format, ...);

/* The notice of a job that has its fate. */
void day_tells(struct dialogue *, const char *fate, uint64_t job);

/* The connection is there; it is over, for whatever reason. */
void day_meets(struct dialogue *);
void day_loses(struct dialogue *);

/* A primitive reaches the record, or a record that is IDLE; the card's answer. When what that asks for is done, a message of it is kept to be shown. */
void day_hears(struct dialogue *, const struct primitive *, struct peat_answer);
void day_shows(struct dialogue *, struct peat_answer);

/* The bits of the message that the card took, or handed out. */
void day_bits(struct dialogue *, const uint8_t *message, unsigned bits);

/* A job is refused for this reason, and that is told. */
void day_refuses(struct dialogue *, uint64_t job, unsigned reason, unsigned told);

/* An envelope was read and decided; its payload was read to its end; it is acknowledged; it comes again. */
void day_reads(struct dialogue *, uint64_t job);
void day_payload_read(struct dialogue *);
void day_acknowledges(struct dialogue *);
void day_forgets(struct dialogue *);

/* Before the commit of a batch. */
void day_commit(struct bridge *);

void day_end(struct dialogue *);

#endif
