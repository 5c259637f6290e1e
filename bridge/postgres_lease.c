/*
 * Leases: which dialogues this process has, under which numbers, and that nothing is kept under a number that is not its own
 * any more.
 */
#include <stdio.h>
#include <string.h>

#include "clock.h"
#include "log.h"
#include "postgres.h"

#define RENEWALS 3 /* in the time of a lease */
#define LATE_RENEWAL_MS 50 /* between renewals while a row is locked: when it is free its lease has run out */
#define LOOK_AGAIN_MS 2000 /* that a process takes at most, at its end, to find out why its session is gone */

void postgres_fenced(const struct store *s)
{
    log_and_exit(EXIT_FENCED, "fenced", s->owner, "another bridge has taken a dialogue of this one; nothing of the last batch has left");
}

static int patient(const struct store *s) { return s->config->standby && now_ms() - s->began < s->config->standby_wait; }

/* Links to other centres do not count. */
static unsigned room_for_free(const struct store *s)
{
    unsigned d, held = 0;
    for (d = 0; d < DIALOGUES_MOST; d++)
        held += s->hold[d].lease != 0;
    return patient(s) || held >= s->config->share ? 0 : (unsigned)s->config->share - held;
}

/* the places that this bridge's configuration has are below this one */
static unsigned places_end(const struct store *s) { return DIALOGUES_MOST + 2 * (unsigned)s->config->centres; }

unsigned postgres_take(struct journal *j, struct taken *to)
{
    struct store *s = store_of(j);
    int i, n;
    pg_meanwhile(s->pg, j->meanwhile, j->with);
    pg_text(s->pg, s->owner);
    if (pg_ask(s->pg, LOOK) == 0)
        return 0;
    pg_text(s->pg, s->owner);
    pg_number(s->pg, s->config->lease);
    pg_ask(s->pg, OUST);
    pg_text(s->pg, s->owner);
    pg_number(s->pg, s->config->lease);
    pg_number(s->pg, s->config->standby ? s->config->standby_wait : 0);
    pg_number(s->pg, room_for_free(s));
    pg_number(s->pg, patient(s) ? DIALOGUES_MOST : places_end(s));
    pg_number(s->pg, places_end(s));
    n = pg_ask(s->pg, TAKE);
    for (i = 0; i < n; i++) {
        unsigned d = (unsigned)pg_number_at(s->pg, i, 0);
        if (d >= PLACES_MOST || !config_has_place(s->config, (unsigned)d))
            log_and_exit(EXIT_JOURNAL, "journal", "take", "a dialogue that there is not");
        to[i].dialogue = d;
        to[i].lease = s->hold[d].lease = pg_number_at(s->pg, i, 1);
        snprintf(to[i].was, sizeof to[i].was, "%s", pg_text_at(s->pg, i, 2));
        s->held++;
    }
    return (unsigned)n;
}

/* A row that was not renewed is locked: another session has it, an administrator's or one that takes the dialogue. While the lease
   runs nobody takes it; from then on nothing of it leaves until that is known. */
static int note_renewal(struct store *s, int row)
{
    uint64_t d = pg_number_at(s->pg, row, 0);
    int renewed = pg_number_at(s->pg, row, 1) == 1;
    if (d >= PLACES_MOST || !config_has_place(s->config, (unsigned)d))
        log_and_exit(EXIT_JOURNAL, "journal", "renew", "a dialogue that there is not");
    s->hold[d].unsure = !renewed && pg_number_at(s->pg, row, 2) == 1;
    return renewed;
}

void postgres_renew_now(struct store *s)
{
    uint64_t asked = now_ms();
    int i, n, renewed = 0;
    pg_text(s->pg, s->owner);
    pg_number(s->pg, s->config->lease);
    n = pg_ask(s->pg, RENEW);
    if ((unsigned)n != s->held)
        postgres_fenced(s);
    for (i = 0; i < n; i++)
        renewed += note_renewal(s, i);
    if (renewed > 0 && !pg_warned(s->pg)) /* then it wrote, and waited for its commit: what was in the log before has come as far */
        s->position = pg_number_at(s->pg, 0, 3);
    s->renewed = asked;
}

/* Whose lease has not run out is not being taken. */
void postgres_look_again(void *with)
{
    struct store *s = with;
    struct pg *other;
    char text[240];
    if (s->held == 0)
        return;
    other = pg_open(s->config->database, "peat-bridge looks again");
    snprintf(text, sizeof text, "SELECT count(*) FROM dialogue WHERE owner = '%s' AND until >= clock_timestamp()", s->owner);
    pg_limit(other, LOOK_AGAIN_MS);
    pg_say(other, text);
    if (pg_number_at(other, 0, 0) != s->held)
        postgres_fenced(s);
    pg_close(other);
}

static int any_late(struct store *s)
{
    unsigned d;
    for (d = 0; d < PLACES_MOST && !postgres_is_late(s, d); d++) {}
    return d < PLACES_MOST;
}

void postgres_renew(struct journal *j)
{
    struct store *s = store_of(j);
    uint64_t due = s->config->lease / RENEWALS;
    pg_meanwhile(s->pg, j->meanwhile, j->with); /* from here on it is the round that waits */
    if (any_late(s) && due > LATE_RENEWAL_MS)
        due = LATE_RENEWAL_MS;
    if (now_ms() - s->renewed >= due)
        postgres_renew_now(s);
}

void postgres_lease(struct store *s, unsigned dialogue)
{
    pg_number(s->pg, dialogue);
    pg_number(s->pg, s->hold[dialogue].lease);
}

int postgres_give_back(struct journal *j, unsigned dialogue)
{
    struct store *s = store_of(j);
    if (s->letters.of[dialogue] > 0 || postgres_is_late(s, dialogue))
        return 0;
    postgres_lease(s, dialogue);
    pg_add(s->pg, GIVE_BACK, 1, dialogue);
    s->hold[dialogue].leaves = 1;
    return 1;
}

/* ---- a batch */

/* What a batch touched and did not write must be ours as well. */
void postgres_fence(struct store *s)
{
    unsigned d;
    for (d = 0; d < PLACES_MOST; d++) {
        struct hold *h = &s->hold[d];
        if (h->touched && !h->written) {
            postgres_lease(s, d);
            pg_add(s->pg, FENCE, 1, d);
            h->written = 1;
        }
    }
}

int postgres_is_late(void *with, unsigned dialogue)
{
    const struct store *s = with;
    return s->hold[dialogue].late != 0 || s->hold[dialogue].unsure;
}

static int in_batch(const struct hold *h) { return h->touched || h->written || h->leaves || h->late != 0; }

#define LOCK_TEXT (4 * PLACES_MOST + 3)

/* the dialogues of the batch, as an array of the database's */
static void lock_parameter(struct store *s)
{
    char text[LOCK_TEXT];
    size_t used = 0;
    unsigned d;
    for (d = 0; d < PLACES_MOST; d++)
        if (in_batch(&s->hold[d]))
            used += (size_t)snprintf(text + used, sizeof text - used, "%s%u", used == 0 ? "{" : ",", d);
    snprintf(text + used, sizeof text - used, "%s", used == 0 ? "{}" : "}");
    pg_text(s->pg, text);
}

/* It is said when a dialogue becomes late, and when it is no longer. */
static void note_late(struct store *s, unsigned dialogue, int locked)
{
    struct hold *h = &s->hold[dialogue];
    if (locked && h->late != 0)
        log_line(LOG_INFO, "goes on", NUMBER("dialogue", dialogue), NUMBER("after_ms", now_ms() - h->late));
    if (!locked && h->late == 0)
        log_line(LOG_WARN, "held up", NUMBER("dialogue", dialogue), TEXT("why", "another session of the database has its row locked"));
    if (locked)
        h->late = 0;
    else if (h->late == 0)
        h->late = now_ms();
}

unsigned postgres_lock(struct store *s)
{
    unsigned char locked[PLACES_MOST] = {0};
    unsigned d, late = 0;
    int i, n;
    lock_parameter(s);
    n = pg_begin(s->pg, LOCK);
    for (i = 0; i < n; i++) {
        uint64_t one = pg_number_at(s->pg, i, 0);
        if (one < PLACES_MOST)
            locked[one] = 1;
    }
    for (d = 0; d < PLACES_MOST; d++) {
        if (in_batch(&s->hold[d]))
            note_late(s, d, locked[d]);
        if (locked[d])
            s->hold[d].unsure = 0; /* the row's own number decides now */
        late += in_batch(&s->hold[d]) && !locked[d];
    }
    return late;
}

void postgres_let_go(struct store *s)
{
    unsigned d;
    for (d = 0; d < PLACES_MOST; d++) {
        struct hold *h = &s->hold[d];
        if (postgres_is_late(s, d))
            continue;
        h->touched = h->written = 0;
        h->unkept = 0;
        if (!h->leaves)
            continue;
        memset(h, 0, sizeof *h);
        s->held--;
        letters_forget(&s->letters, d);
    }
}
