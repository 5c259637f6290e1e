#include "jobs.h"

#include <stdio.h>
#include <stdlib.h>
#include <string.h>

#include "log.h"

void *grow(void *old, size_t *room, size_t need, size_t each)
{
    size_t more = *room < 16 ? 16 : *room;
    void *new;
    if (need <= *room)
        return old;
    while (more < need)
        more *= 2;
    new = realloc(old, more * each);
    if (new == NULL)
        log_and_exit(EXIT_MEMORY, "memory", "a batch does not fit", "out of memory");
    *room = more;
    return new;
}

void jobs_add(struct jobs *j, uint64_t first, uint64_t last)
{
    if (j->ranges > 0 && j->range[j->ranges - 1].last + 1 == first) {
        j->range[j->ranges - 1].last = last;
        return;
    }
    j->range = grow(j->range, &j->room, j->ranges + 1, sizeof *j->range);
    j->range[j->ranges++] = (struct job_range){first, last};
}

void jobs_clear(struct jobs *j) { j->ranges = 0; }

#define RANGE_CHARACTERS 42 /* two numbers of 20 digits, a dash and a comma */

char *jobs_text(const struct jobs *j)
{
    char *text = NULL;
    size_t room = 0, used = 0, i;
    text = grow(text, &room, j->ranges * RANGE_CHARACTERS + 1, 1);
    text[0] = '\0';
    for (i = 0; i < j->ranges; i++) {
        const struct job_range *r = &j->range[i];
        used += (size_t)sprintf(text + used, "%s%llu", i > 0 ? "," : "", (unsigned long long)r->first);
        if (r->last > r->first)
            used += (size_t)sprintf(text + used, "-%llu", (unsigned long long)r->last);
    }
    return text;
}

/* a number at the front of a text, which moves on */
static int number_at(const char **text, uint64_t *n)
{
    char *end;
    if (**text < '0' || **text > '9')
        return 0;
    *n = strtoull(*text, &end, 10);
    *text = end;
    return 1;
}

int jobs_read(const char *text, void (*each)(void *, uint64_t, uint64_t), void *with)
{
    uint64_t first, last;
    while (*text != '\0') {
        if (!number_at(&text, &first))
            return 0;
        last = first;
        if (*text == '-') {
            text++;
            if (!number_at(&text, &last) || last < first)
                return 0;
        }
        each(with, first, last);
        if (*text == ',')
            text++;
        else if (*text != '\0')
            return 0;
    }
    return 1;
}
