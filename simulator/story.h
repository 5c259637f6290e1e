/*
 * The story of one dialogue as a message sequence (--trace N): one line for each call that was taken, with the states
 * before and after, what it put on the line and what it told its user; and one for each thing that happened to the
 * dialogue. Entries of a line are named by their sender and number, a3 or g3. Columns are two spaces apart or more:
 * tools/draw reads them.
 */
#ifndef STORY_H
#define STORY_H

#include "peatribbon.h"

struct end;
struct entry;
struct notice;

/* tells the story of this dialogue; -1: of none */
extern int story_of;

/* the step of the run that the story is at */
extern unsigned long story_step;

/* a call, before it is kept and released */
void story_call(const struct end *e, const char *what, struct peat_answer answer);
void story_took(const struct end *e, uint64_t job, struct peat_answer answer);

void story_again(const struct end *e, uint64_t job, unsigned refusal);
void story_shown(const struct end *e, uint64_t clearance);
void story_forward(const struct end *e, uint64_t n);
void story_told(const struct end *e, const struct notice *n);
void story_loaded(const struct end *e);

/* an entry of this end's line was lost, or reaches the other end */
void story_lost(const struct end *e, const struct entry *n);
void story_arrives(const struct end *from, const struct entry *n, int discarded);

/* an entry of an old dialogue is refused at the other end */
void story_stale(const struct end *from, const struct entry *n);

/* anything else */
void story_note(const struct end *e, const char *words);

#endif
