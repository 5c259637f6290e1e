/*
 * The journal: what the bridge must still know after it was killed. For each dialogue its record, how often it was started
 * and its floor; the decision on each job; and the outbox, the letters that the broker has not confirmed.
 *
 * Everything between two commits is kept together or not at all, and commit returns only when it is on stable storage. No
 * call answers a failure: where the journal fails the process ends (EXIT_JOURNAL), and since nothing of a batch leaves the
 * bridge before its commit, nothing has left.
 *
 * A process writes of the dialogues that it has taken, and of no others. In SQLite it takes all, since the file is its alone.
 * In PostgreSQL several processes share the dialogues: each has a lease, whose number rises with every taking. A commit that
 * touches a dialogue holds only where the number is still the one that this process got; else the process ends (EXIT_FENCED).
 *
 * The bridge sees this face only; journal_sqlite.c and journal_postgres.c are behind it.
 */
#ifndef JOURNAL_H
#define JOURNAL_H

#include <stddef.h>
#include <stdint.h>

#include "peatribbon.h"

/* what is kept of a dialogue */
struct kept {
    uint8_t record[PEAT_RECORD_BYTES];
    uint64_t run;        /* the starts so far: the number of the dialogue that is open, or was last */
    uint64_t deliveries; /* the messages that came down in all of them */
    uint64_t floor;      /* no job up to here is taken unless it was decided before */
    uint8_t book[PEAT_BOOK_BYTES]; /* the message identification numbers that are open in the dialogue, and their jobs */
};

/* Jobs first to last, one behind the other, were decided alike in one run. Ranges never overlap. */
struct decision {
    uint64_t first, last;
    unsigned outcome; /* enum peat_refusal: PEAT_TAKEN, or why not; or LAID_ASIDE */
    uint64_t run;
};

#define LAID_ASIDE 255 /* the card was not asked: a dead letter has the job */

#define JOURNAL_ID 17 /* 16 hexadecimal digits */

/* A letter to the broker. Its id, with the id that the journal had when it was posted, is never given twice. Its turn is its
   place among those of this process, and rises. */
struct letter {
    uint64_t turn, id;
    const char *journal;
    unsigned dialogue;
    const char *type;   /* delivered, refused, ended, broken, dead */
    const char *reason; /* of a dead one; else empty */
    const char *heads;  /* headers (heads.h); empty: none */
    uint64_t since;     /* wall clock, ms */
    const uint8_t *body;
    size_t bytes;
};

#define OWNER_TEXT 100

/* a dialogue that was taken: under which number, and from whom (empty: nobody had it) */
struct taken {
    unsigned dialogue;
    uint64_t lease;
    char was[OWNER_TEXT];
};

struct journal {
    char id[JOURNAL_ID]; /* made at init, and anew when a copy is restored */
    int shared;          /* other processes have dialogues of this journal */
    void *store;

    /* Takes dialogues that this process may have now; how many. Each is loaded next. */
    unsigned (*take)(struct journal *, struct taken *);
    /* Makes sure, where that was not heard lately, that the dialogues are still this process's. */
    void (*renew)(struct journal *);
    /* Gives a dialogue back with the next commit, unless letters of it wait. 1: it is none of ours from now on. */
    int (*give_back)(struct journal *, unsigned dialogue);

    void (*load)(struct journal *, unsigned dialogue, struct kept *);
    void (*keep)(struct journal *, unsigned dialogue, const struct kept *);

    /* puts a range, or makes the range that begins there longer */
    void (*decide)(struct journal *, unsigned dialogue, const struct decision *);
    /* 1: the range that has the job */
    int (*find)(struct journal *, unsigned dialogue, uint64_t job, struct decision *);
    /* hands over each range of a run, in rising order */
    void (*of_run)(struct journal *, unsigned dialogue, uint64_t run, void (*each)(void *with, const struct decision *), void *with);

    /* A letter without an id gets one; one that has an id comes from another journal, and keeps it. */
    void (*post)(struct journal *, const struct letter *);
    /* 1: the first letter behind a turn; its texts and body stand until the next call */
    int (*next)(struct journal *, uint64_t behind, struct letter *);
    void (*settle)(struct journal *, uint64_t turn);
    /* letters that wait, and since when the oldest does (wall clock, ms; 0: none) */
    uint64_t (*waiting)(struct journal *, uint64_t *since);

    void (*commit)(struct journal *);
    /* how far the journal has come: rises with the commits, over all runs of all bridges */
    uint64_t (*commits)(struct journal *);
    /* gives back what this process has, and closes */
    void (*close)(struct journal *);
    /* A restored copy becomes a journal of its own: it gets another id, with the next commit. Letters that it posts from then
       on are told apart from those that were posted after the copy was made. A journal that is being moved is whole with it. */
    void (*rename)(struct journal *);
    /* With the next commit: what was given under an id is settled, by a floor above all of it. So witnesses that know that id are taken. */
    void (*settle_id)(struct journal *, const char *id);
    /* 1: it is */
    int (*knew)(struct journal *, const char *id);

    /* what is to be done now and then while a call waits for the store; NULL: nothing */
    void (*meanwhile)(void *with);
    void *with;
    /* 1: what was decided of a dialogue is not kept yet, since another has its row: nothing of it may leave. */
    int (*late)(struct journal *, unsigned dialogue);
    int patient; /* whoever has the journal looks at `late`. Else a commit keeps all of a batch, or ends the process */
};

/* ---- opening */

enum journal_open { JOURNAL_INIT, JOURNAL_RUN, JOURNAL_MOVE };

struct config;

/* Opens the journal that the configuration names: a file of SQLite's, or a database of PostgreSQL's. JOURNAL_INIT makes it,
   with fresh records, and refuses one that is there; it is whole when it is closed, and what was left by one that was broken off
   before makes room. JOURNAL_RUN refuses one that is not there, or not whole. JOURNAL_MOVE: a file
   may have the mark that it was moved; a database is made on which no bridge runs until it is renamed (move.h). */
void journal_open(struct journal *, const struct config *, enum journal_open how);

void journal_open_sqlite(struct journal *, const struct config *, enum journal_open how);
void journal_open_postgres(struct journal *, const struct config *, enum journal_open how);

/* A file gets the mark that it was moved: no bridge runs on it from then on. */
void journal_mark_moved(struct journal *);

/* ---- what both stores share */

/* A new id: 16 digits drawn by chance. */
void journal_make_id(char *id);

/* The sum that is stored with a dialogue: the card can not see damage of a record, so the journal must. */
uint32_t journal_sum(unsigned dialogue, const struct kept *);

/* The book as it is stored: an empty one, as every dialogue of a journal up to 0.11.0 has, is no bytes. How many they are. */
size_t journal_book_bytes(const struct kept *);
/* Takes the book that a store read: PEAT_BOOK_BYTES bytes, or none. Other bytes end the process. */
void journal_take_book(struct kept *, const uint8_t *book, size_t bytes);

/* Takes the record of a dialogue that a store read, when the rest of it is in kept already. One of version 0.3.0 ends before the dialogue number,
   and gets 0: no start had a number then, and the next one's is above it. It and one of 0.4.0 have no version, and get the bridge's; neither forwards.
   Another size, or another sum than the stored one, ends the process. */
void journal_take_record(unsigned dialogue, struct kept *, const uint8_t *record, size_t bytes, uint32_t sum);

/* A dialogue that never was, of an application type: what `init` keeps. */
struct kept journal_fresh(unsigned type);
/* The same of any place; a centre that is new to the configuration gets its two when the journal is opened. */
struct kept journal_fresh_place(const struct config *, unsigned place);

#endif
