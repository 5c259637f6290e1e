#include "story.h"

#include <stdarg.h>
#include <stdio.h>

#include "end.h"
#include "peatribbon_names.h"

int story_of = -1;
unsigned long story_step;

static int silent(const struct end *e) { return e->dialogue != story_of; }

static char letter_of(const struct end *e) { return e->setting.name[0]; }

/* step, end, what, states, effect */
static void line(const struct end *e, const char *what, const char *states, const char *effect)
{
    printf("%6lu  %-6s  %-42s  %-20s  %s\n", story_step, e->setting.name, what, states, effect);
}

static void words(const struct end *e, const char *what, const char *format, ...)
{
    char effect[128];
    va_list more;
    va_start(more, format);
    vsnprintf(effect, sizeof effect, format, more);
    va_end(more);
    line(e, what, peat_state_name(e->watch.state), effect);
}

static void said(const struct end *e, const char *what, struct peat_answer answer)
{
    char states[32], effect[128] = "-";
    size_t n = 0;
    snprintf(states, sizeof states, "%s > %s", peat_state_name(e->watch.state), peat_state_name(peat_record_state(e->memory.rec)));
    if (peat_invoked(answer) != PEAT_SILENT)
        n = (size_t)snprintf(effect, sizeof effect, "sends %c%lu: %s, %u bytes", letter_of(e), e->watch.entries + 1,
            peat_invoked_name(peat_invoked(answer)), (unsigned)peat_apdu_bytes(answer));
    if (peat_told(answer) != PEAT_UNTOLD)
        snprintf(effect + n, sizeof effect - n, "%stells %s", n ? ", " : "", peat_told_name(peat_told(answer), peat_told_dsc(answer)));
    line(e, what, states, effect);
}

void story_call(const struct end *e, const char *what, struct peat_answer answer)
{
    if (!silent(e))
        said(e, what, answer);
}

void story_took(const struct end *e, uint64_t job, struct peat_answer answer)
{
    char what[64];
    if (silent(e))
        return;
    snprintf(what, sizeof what, of_link(e) ? "job %llu: forward %llu" : "job %llu: clearance %llu", (unsigned long long)job,
        broker_knows(&e->broker, job) ? (unsigned long long)broker_job(&e->broker, job)->clearance : 0);
    said(e, what, answer);
}

void story_again(const struct end *e, uint64_t job, unsigned refusal)
{
    char what[64];
    if (silent(e))
        return;
    snprintf(what, sizeof what, "job %llu again", (unsigned long long)job);
    words(e, what, "%s: acknowledged", peat_refusal_name(refusal));
}

void story_shown(const struct end *e, uint64_t clearance)
{
    char elements[64];
    if (silent(e))
        return;
    clearance_said(elements, sizeof elements, e->peer->user.side, clearance);
    words(e, "the user is shown", "clearance %llu: %s", (unsigned long long)clearance, elements);
}

void story_forward(const struct end *e, uint64_t n)
{
    if (!silent(e))
        words(e, "the user is shown", "forward %llu", (unsigned long long)n);
}

void story_told(const struct end *e, const struct notice *n)
{
    static const char *const fates[] = {"?", "refused", "ended", "broken", "success", "service-not-supported", "version-not-equal"};
    if (!silent(e))
        words(e, "the user is told", "job %llu: %s%s%s", (unsigned long long)n->job, fates[n->fate], n->fate == REFUSED ? ", " : "",
            n->fate == REFUSED ? peat_refusal_name(n->refusal) : "");
}

void story_loaded(const struct end *e)
{
    if (!silent(e))
        words(e, "POWER FAILED, record loaded", "highest job %llu, jobs open: %u", (unsigned long long)peat_record_highest(e->memory.rec), e->memory.open);
}

void story_lost(const struct end *e, const struct entry *n)
{
    if (!silent(e))
        words(e, "the carrier loses", "%c%lu: %s", letter_of(e), n->serial, peat_invoked_name(n->primitive.kind));
}

void story_arrives(const struct end *from, const struct entry *n, int discarded)
{
    if (!silent(from))
        words(from->peer, discarded ? "discarded, the end is IDLE" : "arrives", "%c%lu: %s", letter_of(from), n->serial, peat_invoked_name(n->primitive.kind));
}

void story_stale(const struct end *from, const struct entry *n)
{
    if (!silent(from))
        words(from->peer, "refused as STALE", "%c%lu: %s", letter_of(from), n->serial, peat_invoked_name(n->primitive.kind));
}

void story_note(const struct end *e, const char *note)
{
    if (!silent(e))
        line(e, note, peat_state_name(e->watch.state), "-");
}
