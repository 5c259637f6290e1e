/*
 * A set of job numbers as ranges in rising order. The jobs of a dialogue come in rising order and mostly without gaps, so a
 * set of a million jobs is a handful of ranges. Its text is exact: "1-40,42,44-45".
 */
#ifndef JOBS_H
#define JOBS_H

#include <stddef.h>
#include <stdint.h>

struct job_range {
    uint64_t first, last;
};

struct jobs {
    struct job_range *range;
    size_t ranges, room;
};

/* Adds a range that lies above all that are there. Ends the process where there is no memory. */
void jobs_add(struct jobs *j, uint64_t first, uint64_t last);

void jobs_clear(struct jobs *j);

/* The text, which the caller frees. */
char *jobs_text(const struct jobs *j);

/* Reads a text back: hands each range to `each`. Answers 0 where the text is none. */
int jobs_read(const char *text, void (*each)(void *with, uint64_t first, uint64_t last), void *with);

/* More room for an array: `room` places become at least `need`. Ends the process where there is no memory. */
void *grow(void *old, size_t *room, size_t need, size_t each);

#endif
