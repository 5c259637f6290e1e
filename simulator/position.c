#include "position.h"

#include "account.h"
#include "peatribbon.h"

/* the two abort indications */
static int aborts(struct peat_answer answer) { return peat_told(answer) == PEAT_USER_ABORT_INDICATION || peat_told(answer) == PEAT_PROVIDER_ABORT_INDICATION; }

/* what the user received makes it active, or closes it */
static int opened_by(struct peat_answer answer) { return peat_told(answer) == PEAT_START_INDICATION; }

static int closed_by(struct peat_answer answer)
{
    int accepted = peat_told_parameter(answer) == PEAT_ACCEPTED;
    switch (peat_told(answer)) {
    case PEAT_START_CONFIRMATION: return !accepted;
    case PEAT_END_CONFIRMATION: return accepted;
    case PEAT_FORWARD_CONFIRMATION: return 1;
    default: return aborts(answer);
    }
}

int position_opens(enum invocation by, struct peat_answer answer) { return by == STARTS || opened_by(answer); }

int position_closes(enum invocation by, struct peat_answer answer) { return by == CLOSES || closed_by(answer); }

void position_shows(struct position *p, enum invocation by, struct peat_answer answer)
{
    int opens = position_opens(by, answer), closes = position_closes(by, answer);
    account.abort_after_call += (p->called || by == CLOSES) && aborts(answer);
    account.closed_wrong += (opens && closes) || (opens && p->activations > 0 && p->since != 1);
    account.activations += (unsigned long)opens;
    account.closings += (unsigned long)closes;
    account.closing_calls += by == CLOSES;
    p->activations += (unsigned long)opens;
    p->closings += (unsigned long)closes;
    p->since = opens ? 0 : p->since + (unsigned long)closes;
    p->called = opens ? 0 : closes ? by == CLOSES : p->called;
}

void position_examine(const struct position *p, int active) { account.closed_wrong += p->activations != p->closings + (unsigned long)active; }
