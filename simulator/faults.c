#include "faults.h"

#include <string.h>

enum fault fault_on;

static const char *const names[FAULTS] = {"none", "keeps-late", "fresh-at-restart", "without-order", "takes-far-ahead", "tells-prohibited", "forgets-refusals",
    "acknowledges-early", "silent-on-break", "no-abort-at-restart", "forgets-highest", "tells-one-end", "loses-aborts", "loses-messages", "turns-lines", "loses-oldest",
    "drops-a-bit", "mixes-refusals", "mixes-kinds", "silent-turn-back", "hands-over-twice", "numbers-itself", "closes-another-number",
    "closes-too-early", "closes-none", "forgets-numbers", "loses-answers", "drops-versions", "forwards-again", "answers-before-showing",
    "answers-unheard", "shows-closed-twice", "shows-late-abort", "takes-any-start"};

enum fault fault_named(const char *name)
{
    int f;
    for (f = FAULTS - 1; f > NO_FAULT; f--)
        if (strcmp(name, names[f]) == 0)
            break;
    return (enum fault)f;
}

const char *fault_name(enum fault f) { return names[f]; }
