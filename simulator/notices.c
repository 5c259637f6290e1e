#include "notices.h"

#include "account.h"
#include "end.h"
#include "faults.h"
#include "forward.h"
#include "envelopes.h"
#include "moves.h"
#include "power.h"
#include "story.h"

/* A refusal goes as an envelope with its number, which the broker reads: what it says. */
static unsigned refusal_posted(uint64_t job, unsigned refusal)
{
    struct outbox_bytes m = {0};
    struct envelope l;
    struct arrival a = {0};
    uint8_t number = (uint8_t)(fault(MIXES_REFUSALS) ? PEAT_SHAPE : refusal);
    outbox_post(&m, PEAT_ENVELOPE_REFUSAL, job, 8, &number);
    account.refused_told++;
    while (outbox_next(&m, &a, &l))
        must(l.kind == PEAT_ENVELOPE_REFUSAL && l.job == job && l.body[0] == PEAT_PROHIBITED ? PEAT_TAKEN : PEAT_KIND);
    return number;
}

void notices_post(struct end *e)
{
    unsigned i, posts = e->memory.posts;
    for (i = 0; i < posts; i++) {
        const struct notice *n = &e->memory.post[i];
        int news = n->id > e->user.heard;
        unsigned reason = 0;
        power_point(e);
        if (n->fate == REFUSED)
            reason = refusal_posted(n->job, n->refusal);
        account.notices += news && !of_link(e);
        account.broken_told += news && n->fate == BROKEN && !of_link(e);
        if (news && of_link(e))
            forward_told(e, n);
        account.told_wrong += !user_told_fate(&e->user, &e->broker, n);
        story_told(e, n);
        moves_tells(e, n, reason);
    }
    if (posts > 0)
        end_confirmed(e, posts);
}
