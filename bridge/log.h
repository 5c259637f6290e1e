/*
 * The log: one line of JSON on standard error for each event. A line has the time, the level, the event's name and what
 * the event is about. Job numbers are written as text: JSON's readers keep 53 bits of a number, and a job has 64.
 *
 * Writing never waits: a line that nobody takes is dropped, and the next one that is taken says how many were (`lost`).
 */
#ifndef LOG_H
#define LOG_H

#include <stddef.h>
#include <stdint.h>

enum log_level { LOG_FINE, LOG_INFO, LOG_WARN, LOG_FAIL };

struct log_field {
    const char *name; /* NULL ends the fields */
    const char *text; /* NULL: the number counts */
    uint64_t number;
};

#define TEXT(name, value) {name, value, 0}
#define NUMBER(name, value) {name, NULL, value}
#define ABOUT(d) NUMBER("dialogue", (d)->number)

/* Lines below this level are not written. At first: LOG_INFO. */
void log_from(enum log_level least);

/* Lines of LOG_INFO and above are also handed to `tap`, without their end, whether anybody takes them on standard error or not. NULL: no more. */
void log_tap(void (*tap)(void *with, const char *line, size_t bytes), void *with);

void log_fields(enum log_level level, const char *event, const struct log_field *fields);

/* log_line(LOG_INFO, "opened", ABOUT(d), NUMBER("run", 3)) */
#define log_line(level, event, ...) log_fields(level, event, (const struct log_field[]){__VA_ARGS__, {NULL, NULL, 0}})

/* how the process ends when it may not go on */
enum exit_status {
    EXIT_STOPPED = 0, /* it was told to stop, and did */
    EXIT_USAGE = 2,   /* the command line or the configuration is wrong */
    EXIT_JOURNAL = 3, /* the journal failed: nothing of the last batch has left the process */
    EXIT_REFUSED = 4, /* it may not run on this journal or this queue */
    EXIT_FENCED = 5,  /* another bridge has taken over its dialogues: nothing of the last batch has left the process */
    EXIT_SLOW = 6,    /* the database took too long for an answer: nothing of the last batch has left the process */
    EXIT_MEMORY = 7   /* there is no memory: nothing of the last batch has left the process */
};

/* Standard input, output and error are open from now on: a descriptor that was closed is /dev/null, and no file or socket gets its
   number. 0: that can not be had. */
int log_hold_descriptors(void);

/* The last line, then the end of the process: no buffer is flushed, no connection is closed in order. */
void log_and_exit(enum exit_status status, const char *event, const char *what, const char *why)
#ifdef __GNUC__
    __attribute__((noreturn))
#endif
    ;

#endif
