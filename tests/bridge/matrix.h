/*
 * What the tests of the matrix share: the stage that a test plays on, and how it says what is wrong.
 */
#ifndef MATRIX_H
#define MATRIX_H

#include "stage.h"

#define PLENTY 60000 /* ms: a machine may be busy */

extern struct memory *memory;
extern struct stage stage;

/* Whether a test of this name is to run. */
int chosen(const char *name);
void check(int good, const char *name, const char *what);
/* A fresh stage; and one with dialogues of application type 2, as 0-3,7. */
void set(unsigned dialogues);
void set_types(unsigned dialogues, const char *plain);
/* Ends a play: it stopped in order, and its verdict is good. */
void judged(int stopped, const char *name);

unsigned letters_of(const char *type, const char *reason);
/* a port of the loopback address that is free now */
unsigned free_port(void);
#ifdef NO_PAGE
#define HAS_PAGE 0 /* this bridge was built without libmicrohttpd */
#else
#define HAS_PAGE 1
#endif
#define SHOWN_MS 60 /* what the page shows is a round and 20 ms behind */
void read_page(unsigned port, char *text, size_t size);

/* ---- troubles.c: what must not stall the bridge, nor lock up a dialogue */

void troubles(void);

/* ---- whole.c: message numbers, the message itself, and what comes beside it */

void whole_host(void);

/* ---- centres.c: two centres, and forwards between them */

void centres(void);

#endif
