#include "memory.h"

#include <assert.h>
#include <string.h>

void memory_begin(struct memory *m, const uint8_t *rec)
{
    memset(m, 0, sizeof *m);
    memcpy(m->rec, rec, sizeof m->rec);
    m->wanted = 1;
    (void)peat_book_empty(PEAT_ARRAY(m->book)); /* refused for another length only */
}

int memory_refused(const struct memory *m, uint64_t job)
{
    return job < m->wanted && (m->wanted - job > REFUSED_KEPT || m->refused[job % REFUSED_KEPT]);
}

struct change no_change(const struct memory *m)
{
    struct change c;
    memset(&c, 0, sizeof c);
    memcpy(c.rec, m->rec, sizeof c.rec);
    return c;
}

static void post(struct memory *m, enum fate fate, uint64_t job, unsigned refusal)
{
    struct notice *n = &m->post[m->posts++];
    assert(m->posts <= OUTBOX_MOST);
    n->id = ++m->notices;
    n->fate = fate;
    n->job = job;
    n->refusal = refusal;
}

static void decide(struct memory *m, uint64_t job, unsigned outcome)
{
    if (job >= m->wanted)
        m->wanted = job + 1;
    m->refused[job % REFUSED_KEPT] = outcome != PEAT_TAKEN;
    if (outcome != PEAT_TAKEN) {
        post(m, REFUSED, job, outcome);
    } else {
        assert(m->open < OPEN_MOST);
        m->opened[m->open++] = job;
    }
}

/* A change was made of what the book had to give, and from the journal it is made again: the answers are the same. */
static void renumber(struct memory *m, const struct change *c)
{
    struct peat_open_answer opened = {0};
    unsigned refusal = PEAT_TAKEN;
    switch (c->book) {
    case BOOK_STAYS: break;
    case BOOK_EMPTIED: refusal = peat_refusal(peat_book_empty(PEAT_ARRAY(m->book))); break;
    case NUMBER_OPENED:
        opened = peat_book_open(PEAT_ARRAY(m->book), c->job);
        refusal = peat_refusal(opened);
        assert(peat_opened_number(opened) == c->number);
        break;
    case NUMBER_CLOSED: refusal = peat_refusal(peat_book_close(PEAT_ARRAY(m->book), c->number)); break;
    }
    assert(refusal == PEAT_TAKEN);
    (void)refusal;
}

static void close_all(struct memory *m, enum fate fate)
{
    unsigned i;
    for (i = 0; i < m->open; i++)
        post(m, fate, m->opened[i], 0);
    m->open = 0;
}

void memory_apply(struct memory *m, const struct change *c)
{
    memcpy(m->rec, c->rec, sizeof m->rec);
    if (c->job != 0)
        decide(m, c->job, c->outcome);
    renumber(m, c);
    if (c->over != NOTHING_TOLD)
        close_all(m, c->over);
    m->posts -= c->confirmed;
    memmove(m->post, m->post + c->confirmed, m->posts * sizeof *m->post);
}
