/*
 * The account of a run: for each job what was given, what the flight deck saw, and what the position was told. Its verdict
 * is what the bridge promises:
 *
 *   - no job is seen twice by a flight deck;
 *   - every job that was given is told one fate, once: ended, broken, refused, or laid aside (dead);
 *   - a job whose dialogue ended was seen; a refused one or one laid aside was not.
 */
#ifndef ACCOUNT_H
#define ACCOUNT_H

#include <stddef.h>
#include <stdint.h>
#include <stdio.h>

#include "../config.h"

struct fate {
    uint32_t given, seen, ended, broken, refused, dead;
};

struct account {
    struct fate *job[DIALOGUES_MOST]; /* by number */
    size_t room[DIALOGUES_MOST];
    uint64_t *id, ids, places; /* the letters that were counted, by a hash of their message-id; 0: a free place */
    uint64_t repeated, delivered, dead, odd;
};

struct verdict {
    uint64_t jobs, seen, duplicates, silent, told_twice, ended_unseen, refused_seen, ended, broken, refused, dead;
};

/* the place of a job, which may be new */
struct fate *account_job(struct account *, unsigned dialogue, uint64_t job);

/* A letter came from the broker. One that came before, by its message-id, counts once. */
void account_letter(struct account *, const char *id, unsigned dialogue, const char *type, const uint8_t *body, size_t bytes);

/* What the flight decks saw, from the aircraft's file; 0: it can not be read. */
int account_decks(struct account *, const char *path);

struct verdict account_verdict(const struct account *);
int verdict_good(const struct verdict *);
void verdict_print(const struct verdict *, const struct account *, FILE *);

/* Forgets everything and gives the memory back. */
void account_clear(struct account *);

#endif
