#include "status.h"

#include <stdarg.h>
#include <stdio.h>
#include <string.h>

#include "bridge.h"
#include "clock.h"
#include "peatribbon_names.h"

#define STANDS_STILL_MS 5000  /* a round takes a tenth of a second, and comes twice a second where there is nothing to do */
#define NEARLY 5              /* the outbox is nearly full when less than a fifth of it is free */
#define RECENT_MS 300000      /* a refusal or a break is worth a word for so long */

/* ---- the round's side */

void status_begin(struct status *s, const struct bridge *b)
{
    const struct config *c = b->config;
    snprintf(s->host, sizeof s->host, "%s", c->host);
    snprintf(s->broker_name, sizeof s->broker_name, "%s", c->broker);
    snprintf(s->aircraft, sizeof s->aircraft, "%s", c->link);
    s->dialogues = c->dialogues;
    s->outbox_most = c->outbox_most;
    s->port = c->port;
    s->standby = c->standby;
    s->shared = b->journal->shared;
    s->began_at = s->broker_since = wall_ms();
}

void status_broker(struct status *s, const char *why) { snprintf(s->broker_why, sizeof s->broker_why, "%s", why != NULL ? why : ""); }

/* A line that is too long for its place is left out: half of it would be no JSON. */
void status_event(void *with, const char *line, size_t bytes)
{
    struct status *s = with;
    if (bytes >= EVENT_TEXT)
        return;
    memcpy(s->event[s->events % EVENTS], line, bytes);
    s->event[s->events % EVENTS][bytes] = '\0';
    s->events++;
}

static uint64_t jobs_of(const struct jobs *j)
{
    uint64_t n = 0;
    size_t i;
    for (i = 0; i < j->ranges; i++)
        n += j->range[i].last - j->range[i].first + 1;
    return n;
}

static uint64_t payloads_of(const struct dialogue *d)
{
    const struct payload *p;
    uint64_t n = 0;
    for (p = d->inbox; p != NULL; p = p->behind)
        n++;
    return n;
}

static enum status_consumer consumer_of(const struct dialogue *d)
{
    if (d->queue == QUEUE_CONSUMED)
        return CONSUMER_THERE;
    if (d->queue_away)
        return CONSUMER_LOST;
    return d->queue == QUEUE_ASKED ? CONSUMER_ASKED : d->queue == QUEUE_LEAVING ? CONSUMER_LEAVING : CONSUMER_NONE;
}

static void take_dialogue(struct status_dialogue *s, const struct bridge *b, const struct dialogue *d, uint64_t wall, uint64_t now)
{
    int ours = d->lease != 0, changed = s->ours != ours || s->since == 0 || (ours && s->state != state_of(d));
    uint64_t since = changed ? wall : s->since;
    memset(s, 0, sizeof *s);
    s->since = since;
    if (!ours)
        return;
    s->ours = 1;
    s->state = (uint8_t)state_of(d);
    s->consumer = (uint8_t)consumer_of(d);
    s->late = b->journal->late(b->journal, d->number) != 0;
    s->run = d->kept.run;
    s->lease = d->lease;
    s->t_start_ms = d->expires > now ? d->expires - now : 0;
    s->jobs_open = jobs_of(&d->held);
    s->jobs_waiting = payloads_of(d);
    s->unsent = d->out.count;
    s->refusal = d->shown.refusal;
    s->refused_job = d->shown.refused_job;
    s->refused_at = d->shown.refused_at;
    s->fate = d->shown.fate;
    s->why = d->shown.why;
    s->over_at = d->shown.over_at;
}

static void take_hour(struct status_hour *h, const struct metrics *m, uint64_t wall)
{
    uint64_t minute = wall / 60000, total[3] = {m->taken, 0, m->broken};
    int i;
    for (i = 1; i < REFUSALS; i++)
        total[HOUR_REFUSED] += m->refused[i];
    if (h->minute == 0 || minute > h->minute + MINUTES || minute < h->minute) { /* or the clock was set */
        memset(h->count, 0, sizeof h->count);
        h->minute = minute;
    }
    for (; h->minute < minute; h->minute++)
        for (i = 0; i < 3; i++)
            h->count[i][(h->minute + 1) % MINUTES] = 0;
    for (i = 0; i < 3; i++) {
        h->count[i][minute % MINUTES] += (uint32_t)(total[i] - h->seen[i]);
        h->seen[i] = total[i];
    }
}

void status_take(struct status *s, const struct bridge *b)
{
    uint64_t wall = wall_ms(), now = now_ms();
    unsigned d;
    if (s->broker_state != (int)b->state && (s->broker_state == BROKER_OURS || b->state == BROKER_OURS))
        s->broker_since = wall;
    if (b->state == BROKER_OURS)
        s->broker_why[0] = '\0';
    s->broker_state = (int)b->state;
    s->metrics = b->metrics;
    s->stopping = b->stop_by != 0;
    s->commits = b->journal->commits(b->journal);
    snprintf(s->journal_id, sizeof s->journal_id, "%s", b->journal->id);
    for (d = 0; d < DIALOGUES_MOST && d < b->config->dialogues; d++)
        take_dialogue(&s->dialogue[d], b, &b->dialogue[d], wall, now);
    take_hour(&s->hour, &b->metrics, wall);
    s->at = wall;
    s->round_ms = now;
}

/* ---- a text under way */

struct text {
    char *at;
    size_t room, used;
};

static void put(struct text *t, const char *form, ...)
{
    va_list a;
    int n;
    va_start(a, form);
    n = vsnprintf(t->at + t->used, t->room - t->used, form, a);
    va_end(a);
    if (n > 0 && (size_t)n < t->room - t->used)
        t->used += (size_t)n;
}

/* as a JSON string; a character that JSON does not take is written as a point */
static void put_string(struct text *t, const char *s)
{
    put(t, "\"");
    for (; *s != '\0'; s++)
        put(t, "%s%c", *s == '"' || *s == '\\' ? "\\" : "", (unsigned char)*s < ' ' || (unsigned char)*s > '~' ? '.' : *s);
    put(t, "\"");
}

static void name_string(struct text *t, const char *name, const char *s)
{
    put(t, "\"%s\":", name);
    put_string(t, s);
    put(t, ",");
}

static void name_number(struct text *t, const char *name, uint64_t n) { put(t, "\"%s\":%llu,", name, (unsigned long long)n); }

static void name_truth(struct text *t, const char *name, int truth) { put(t, "\"%s\":%s,", name, truth ? "true" : "false"); }

/* the comma behind the last one goes */
static void close_with(struct text *t, const char *end)
{
    if (t->used > 0 && t->at[t->used - 1] == ',')
        t->used--;
    put(t, "%s", end);
}

/* ---- what needs attention: the worst first. What is of the whole bridge makes it unhealthy; what is of one dialogue does not */

enum level { LEVEL_BAD, LEVEL_WARN, LEVELS };

/* Who is told: of the bridge, number is -1. */
typedef void tell(void *with, enum level, int number, const char *code, const char *what);

static void say(tell *told, void *with, enum level level, int number, const char *code, const char *form, ...)
{
    char what[STATUS_TEXT + CONFIG_TEXT + 100];
    va_list a;
    va_start(a, form);
    vsnprintf(what, sizeof what, form, a);
    va_end(a);
    told(with, level, number, code, what);
}

static uint64_t stands_still_for(const struct status *s, uint64_t now) { return now > s->round_ms ? now - s->round_ms : 0; }

static void of_bridge(const struct status *s, uint64_t now, tell *told, void *with)
{
    const struct metrics *m = &s->metrics;
    if (s->round_ms == 0) {
        say(told, with, LEVEL_BAD, -1, "starting", "the bridge is starting: its journal is not open yet");
        return;
    }
    if (stands_still_for(s, now) > STANDS_STILL_MS)
        say(told, with, LEVEL_BAD, -1, "stands-still", "the bridge has stood still for %llu s: its disk or its database does not answer", (unsigned long long)stands_still_for(s, now) / 1000);
    if (s->stopping)
        say(told, with, LEVEL_BAD, -1, "stopping", "the bridge was told to stop, and ends its dialogues");
    if (s->broker_state != BROKER_OURS)
        say(told, with, LEVEL_BAD, -1, "broker-away", "the broker %s:%llu is not connected%s%s", s->broker_name, (unsigned long long)s->port, s->broker_why[0] ? ": " : "", s->broker_why);
    if (m->blocked)
        say(told, with, LEVEL_BAD, -1, "broker-blocked", "the broker takes no letters: it is short of memory or disk");
    if (m->letters >= s->outbox_most)
        say(told, with, LEVEL_BAD, -1, "outbox-full", "the outbox is full: no job is taken and no aircraft is heard until letters leave it");
    if (m->late > 0)
        say(told, with, LEVEL_BAD, -1, "journal-held-up", "%llu dialogues are held up: another session of the database has their rows", (unsigned long long)m->late);
}

static void of_letters(const struct status *s, tell *told, void *with)
{
    const struct metrics *m = &s->metrics;
    if (m->letters_held)
        say(told, with, LEVEL_BAD, -1, "letters-refused", "the broker refuses letters: a queue of them is full or gone");
    if (m->letters < s->outbox_most && m->letters >= s->outbox_most - s->outbox_most / NEARLY)
        say(told, with, LEVEL_WARN, -1, "outbox-nearly-full", "the outbox is nearly full: %llu of %llu letters", (unsigned long long)m->letters, (unsigned long long)s->outbox_most);
    if (m->broker_waits_ms > STANDS_STILL_MS)
        say(told, with, LEVEL_WARN, -1, "broker-silent", "the broker has been silent in the middle of a call for %llu s", (unsigned long long)m->broker_waits_ms / 1000);
}

static void of_centres(const struct status *s, tell *told, void *with)
{
    unsigned i;
    for (i = 0; i < CENTRES_MOST; i++)
        if (s->metrics.centre[i] == 1)
            say(told, with, LEVEL_BAD, -1, "centre-away", "the link to centre %u is down: forwards to it wait", i);
}

static int is_recent(const struct status *s, uint64_t at) { return at != 0 && s->at < at + RECENT_MS; }

static int is_broken(const struct status_dialogue *d) { return d->ours && d->state != PEAT_DIALOGUE && d->fate != NULL && strcmp(d->fate, "broken") == 0; }

static void of_dialogue(const struct status *s, int n, tell *told, void *with)
{
    const struct status_dialogue *d = &s->dialogue[n];
    if (!d->ours)
        return;
    if (d->consumer == CONSUMER_LOST)
        say(told, with, LEVEL_BAD, n, "consumer-lost", "its queue of jobs is not consumed: it is gone, or may not be read");
    if (is_broken(d))
        say(told, with, LEVEL_BAD, n, "broken", "its dialogue broke (%s) and is not open again", d->why);
    if (d->late)
        say(told, with, LEVEL_BAD, n, "held-up", "it is held up: another session of the database has its row");
    if (s->metrics.number_awaited[n])
        say(told, with, LEVEL_WARN, n, "number-awaited", "all %u message numbers are open, and a job waits for one", PEAT_BOOK_NUMBERS);
    if (d->refusal != 0 && is_recent(s, d->refused_at))
        say(told, with, LEVEL_WARN, n, "refused", "job %llu was refused: %s (%u)", (unsigned long long)d->refused_job, peat_refusal_name(d->refusal), d->refusal);
}

struct list {
    struct text *t;
    enum level level;
    unsigned told;
};

static void list_one(void *with, enum level level, int number, const char *code, const char *what)
{
    static const char *const names[LEVELS] = {"bad", "warn"};
    struct list *l = with;
    if (level != l->level)
        return;
    l->told++;
    put(l->t, "{");
    name_string(l->t, "level", names[level]);
    name_string(l->t, "code", code);
    if (number >= 0)
        name_number(l->t, "dialogue", (uint64_t)number);
    name_string(l->t, "what", what);
    close_with(l->t, "},");
}

static void all(const struct status *s, uint64_t now, tell *told, void *with)
{
    unsigned n;
    of_bridge(s, now, told, with);
    of_letters(s, told, with);
    of_centres(s, told, with);
    for (n = 0; n < s->dialogues && n < DIALOGUES_MOST; n++)
        of_dialogue(s, (int)n, told, with);
}

/* ---- health */

static void one_reason(void *with, enum level level, int number, const char *code, const char *what)
{
    struct list *l = with;
    (void)level;
    (void)number;
    l->told++;
    put(l->t, "%s: %s\n", code, what);
}

size_t status_health(const struct status *s, uint64_t now, char *text, size_t room, int *good)
{
    struct text t = {text, room, 0};
    struct list l = {&t, LEVEL_BAD, 0};
    of_bridge(s, now, one_reason, &l);
    *good = l.told == 0;
    if (*good)
        put(&t, "ok\n");
    return t.used;
}

/* ---- the whole as JSON */

static void put_broker(struct text *t, const struct status *s)
{
    static const char *const names[] = {[BROKER_AWAY] = "away", [BROKER_TAKEN] = "taken by another bridge", [BROKER_TRYING] = "connecting", [BROKER_OURS] = "connected"};
    const struct metrics *m = &s->metrics;
    put(t, "\"broker\":{");
    name_string(t, "name", s->broker_name);
    name_number(t, "port", s->port);
    name_string(t, "state", m->blocked ? "blocked" : names[s->broker_state]);
    name_string(t, "why", s->broker_why);
    name_number(t, "since", s->broker_since);
    name_number(t, "connections", m->connections);
    name_number(t, "lost", m->lost);
    name_number(t, "silent_ms", m->broker_waits_ms);
    close_with(t, "},");
}

static void put_journal(struct text *t, const struct status *s)
{
    const struct metrics *m = &s->metrics;
    put(t, "\"journal\":{");
    name_string(t, "kind", s->shared ? "database" : "file");
    name_string(t, "id", s->journal_id);
    name_number(t, "commits", s->commits);
    name_number(t, "commit_us", m->commits > 0 ? m->commit_us / m->commits : 0);
    name_number(t, "held_up", m->late);
    close_with(t, "},\"outbox\":{");
    name_number(t, "letters", m->letters);
    name_number(t, "most", s->outbox_most);
    name_number(t, "oldest_ms", m->oldest_ms);
    name_truth(t, "refused", m->letters_held != 0);
    close_with(t, "},");
}

static void put_totals(struct text *t, const struct status *s)
{
    const struct metrics *m = &s->metrics;
    put(t, "\"totals\":{");
    name_number(t, "jobs_taken", m->taken);
    name_number(t, "jobs_refused", s->hour.seen[HOUR_REFUSED]);
    name_number(t, "jobs_repeated", m->repeats);
    name_number(t, "dead_letters", m->dead);
    name_number(t, "messages_delivered", m->delivered);
    name_number(t, "dialogues_open", m->open);
    name_number(t, "dialogues_owned", m->owned);
    name_number(t, "dialogues_broken", m->broken);
    close_with(t, "},");
}

static void put_refused(struct text *t, const struct status_dialogue *d)
{
    if (d->refusal == 0)
        return;
    put(t, "\"refused\":{\"job\":\"%llu\",", (unsigned long long)d->refused_job); /* as text: a job has 64 bits */
    name_number(t, "refusal", d->refusal);
    name_string(t, "name", peat_refusal_name(d->refusal));
    name_number(t, "at", d->refused_at);
    close_with(t, "},");
}

static void put_dialogue(struct text *t, const struct status *s, unsigned n)
{
    static const char *const consumers[] = {"none", "asked", "there", "leaving", "lost"};
    const struct status_dialogue *d = &s->dialogue[n];
    char path[CONFIG_TEXT + 8], *name;
    config_name(s->aircraft, n, path, sizeof path);
    name = strrchr(path, '/') != NULL ? strrchr(path, '/') + 1 : path;
    put(t, "{");
    name_number(t, "number", n);
    name_string(t, "aircraft", name);
    name_truth(t, "ours", d->ours);
    name_number(t, "since", d->since);
    if (d->ours) {
        name_string(t, "state", peat_state_name(d->state));
        name_truth(t, "open", d->state == PEAT_DIALOGUE);
        name_truth(t, "broken", is_broken(d));
        name_number(t, "run", d->run);
        name_number(t, "t_start_ms", d->t_start_ms);
        name_number(t, "jobs_open", d->jobs_open);
        name_number(t, "jobs_waiting", d->jobs_waiting);
        name_number(t, "unsent", d->unsent);
        name_number(t, "numbers_open", s->metrics.numbers_open[n]);
        name_truth(t, "number_awaited", s->metrics.number_awaited[n]);
        name_string(t, "consumer", consumers[d->consumer]);
        name_truth(t, "held_up", d->late);
        name_number(t, "lease", d->lease);
        name_string(t, "host", s->host);
        put_refused(t, d);
        if (d->fate != NULL) {
            put(t, "\"last\":{");
            name_string(t, "fate", d->fate);
            name_string(t, "why", d->why);
            name_number(t, "at", d->over_at);
            close_with(t, "},");
        }
    }
    close_with(t, "},");
}

static void put_hour(struct text *t, const struct status_hour *h)
{
    static const char *const names[3] = {"jobs", "refused", "broken"};
    int i, m;
    put(t, "\"hour\":{");
    name_number(t, "end", h->minute * 60000);
    for (i = 0; i < 3; i++) {
        put(t, "\"%s\":[", names[i]);
        for (m = 1; m <= MINUTES; m++)
            put(t, "%u,", h->count[i][(h->minute + (uint64_t)m) % MINUTES]);
        close_with(t, "],");
    }
    close_with(t, "},");
}

static void put_events(struct text *t, const struct status *s)
{
    uint64_t n, oldest = s->events > EVENTS ? s->events - EVENTS : 0;
    put(t, "\"events\":[");
    for (n = s->events; n > oldest; n--)
        put(t, "%s,", s->event[(n - 1) % EVENTS]);
    close_with(t, "]");
}

size_t status_json(const struct status *s, uint64_t now, char *text, size_t room)
{
    struct text t = {text, room, 0};
    struct list l = {&t, LEVEL_BAD, 0};
    char reasons[2048];
    int good;
    unsigned n;
    status_health(s, now, reasons, sizeof reasons, &good);
    put(&t, "{");
    name_string(&t, "version", PEAT_VERSION);
    name_string(&t, "host", s->host);
    name_string(&t, "role", s->standby ? "standby" : "bridge");
    name_number(&t, "time", s->at);
    name_number(&t, "age_ms", s->round_ms != 0 ? stands_still_for(s, now) : 0);
    name_number(&t, "began", s->began_at);
    name_truth(&t, "healthy", good);
    put(&t, "\"attention\":[");
    for (l.level = LEVEL_BAD; l.level < LEVELS; l.level++)
        all(s, now, list_one, &l);
    close_with(&t, "],");
    put_broker(&t, s);
    put_journal(&t, s);
    put_totals(&t, s);
    put(&t, "\"dialogues\":[");
    for (n = 0; n < s->dialogues && n < DIALOGUES_MOST; n++)
        put_dialogue(&t, s, n);
    close_with(&t, "],");
    put_hour(&t, &s->hour);
    put_events(&t, s);
    put(&t, "}\n");
    return t.used;
}
