/*
 * Headers of a broker's message: one text, a line `name=value` for each. A job brings some of them, and a letter has some; a value has no
 * line end.
 */
#ifndef HEADS_H
#define HEADS_H

#include <stddef.h>

#define HEADS_MOST 2048       /* of a job's headers, with the zero behind them */
#define HEADS_UNREADABLE "!"  /* the text of headers that are too long, or of another kind than a text */

/* Adds a line. 0: there is no room for it, and the text is as it was. */
int heads_add(char *heads, size_t room, const char *name, const char *value);

/* The value of a name, and its length; NULL: there is none. */
const char *heads_find(const char *heads, const char *name, size_t *length);

/* 1: the text has this name and its value fits; then it is in `value`. */
int heads_take(const char *heads, const char *name, char *value, size_t room);

#endif
