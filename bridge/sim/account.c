#include "account.h"

#include <stdlib.h>
#include <string.h>

#include "../jobs.h"
#include "../payload.h"
#include "peatribbon.h"

#define JOBS_MOST 10000000 /* a job above this is none that a simulator gives */

struct fate *account_job(struct account *a, unsigned dialogue, uint64_t job)
{
    static struct fate nowhere;
    size_t before;
    if (dialogue >= DIALOGUES_MOST || job > JOBS_MOST) {
        a->odd++;
        return &nowhere;
    }
    before = a->room[dialogue];
    a->job[dialogue] = grow(a->job[dialogue], &a->room[dialogue], (size_t)job + 1, sizeof *a->job[dialogue]);
    memset(a->job[dialogue] + before, 0, (a->room[dialogue] - before) * sizeof *a->job[dialogue]);
    return &a->job[dialogue][job];
}

/* ---- letters, once each */

static uint64_t hash_of(const char *s)
{
    uint64_t h = UINT64_C(0xCBF29CE484222325);
    for (; *s != '\0'; s++)
        h = (h ^ (uint8_t)*s) * UINT64_C(0x100000001B3);
    return h | 1;
}

static int put_id(uint64_t *table, uint64_t places, uint64_t hash)
{
    uint64_t i = hash % places;
    for (; table[i] != 0; i = (i + 1) % places)
        if (table[i] == hash)
            return 0;
    table[i] = hash;
    return 1;
}

/* The table of message-ids is at most half full. */
static void widen(struct account *a)
{
    uint64_t places = a->places == 0 ? 1024 : 4 * a->places, i, *table;
    if (2 * (a->ids + 1) <= a->places)
        return;
    table = calloc(places, sizeof *table);
    if (table == NULL)
        abort();
    for (i = 0; i < a->places; i++)
        if (a->id[i] != 0)
            put_id(table, places, a->id[i]);
    free(a->id);
    a->id = table;
    a->places = places;
}

/* 1: this message-id is new */
static int new_id(struct account *a, const char *id)
{
    widen(a);
    if (!put_id(a->id, a->places, hash_of(id)))
        return 0;
    a->ids++;
    return 1;
}

struct telling {
    struct account *account;
    unsigned dialogue;
    int ended;
};

static void tell_range(void *with, uint64_t first, uint64_t last)
{
    struct telling *t = with;
    if (last > JOBS_MOST) { /* none that was given */
        t->account->odd++;
        return;
    }
    for (; first <= last; first++) {
        struct fate *f = account_job(t->account, t->dialogue, first);
        ++*(t->ended ? &f->ended : &f->broken);
    }
}

/* A notice: its jobs are the last value, between quotes. */
static void tell_fate(struct account *a, unsigned dialogue, int ended, const uint8_t *body, size_t bytes)
{
    struct telling t = {a, dialogue, ended};
    static const char mark[] = "\"jobs\":\"";
    char *text = calloc(bytes + 1, 1), *jobs;
    if (text == NULL)
        abort();
    memcpy(text, body, bytes);
    jobs = strstr(text, mark);
    if (jobs == NULL) {
        a->odd++;
    } else {
        jobs += sizeof mark - 1;
        jobs[strcspn(jobs, "\"")] = '\0';
        a->odd += !jobs_read(jobs, tell_range, &t);
    }
    free(text);
}

/* An envelope: a refusal, or a job that was laid aside. Other bytes that were laid aside are no job's. */
static void tell_envelope(struct account *a, unsigned dialogue, int dead, const uint8_t *body, size_t bytes)
{
    struct payload_reader m;
    struct envelope e;
    payload_begin(&m, body, bytes);
    if (payload_take(&m, &e) != PEAT_TAKEN || e.kind != (dead ? PEAT_ENVELOPE_TO_SEND : PEAT_ENVELOPE_REFUSAL)) {
        a->odd += !dead;
        return;
    }
    if (dead && e.job > JOBS_MOST)
        return;
    ++*(dead ? &account_job(a, dialogue, e.job)->dead : &account_job(a, dialogue, e.job)->refused);
}

void account_letter(struct account *a, const char *id, unsigned dialogue, const char *type, const uint8_t *body, size_t bytes)
{
    if (!new_id(a, id)) {
        a->repeated++;
        return;
    }
    if (strcmp(type, "delivered") == 0) {
        a->delivered++;
    } else if (strcmp(type, "dead") == 0) {
        a->dead++;
        tell_envelope(a, dialogue, 1, body, bytes);
    } else if (strcmp(type, "refused") == 0) {
        tell_envelope(a, dialogue, 0, body, bytes);
    } else {
        tell_fate(a, dialogue, strcmp(type, "ended") == 0, body, bytes);
    }
}

/* ---- the flight decks */

int account_decks(struct account *a, const char *path)
{
    FILE *f = fopen(path, "r");
    unsigned dialogue, times;
    unsigned long job;
    if (f == NULL)
        return 0;
    if (fscanf(f, "#%*[^\n]") < 0) {
        fclose(f);
        return 0;
    }
    while (fscanf(f, "%u %lu %u", &dialogue, &job, &times) == 3)
        account_job(a, dialogue, job)->seen += times;
    fclose(f);
    return 1;
}

/* ---- the verdict */

static void judge(struct verdict *v, const struct fate *f)
{
    uint32_t told = f->ended + f->broken + f->refused + f->dead;
    if (f->given == 0 && told == 0 && f->seen == 0)
        return;
    v->jobs++;
    v->seen += f->seen > 0;
    v->duplicates += f->seen > 1;
    v->silent += told == 0;
    v->told_twice += told > 1;
    v->ended_unseen += f->ended > 0 && f->seen == 0;
    v->refused_seen += (f->refused > 0 || f->dead > 0) && f->seen > 0;
    v->ended += f->ended > 0;
    v->broken += f->broken > 0;
    v->refused += f->refused > 0;
    v->dead += f->dead > 0;
}

struct verdict account_verdict(const struct account *a)
{
    struct verdict v = {0};
    unsigned d;
    size_t j;
    for (d = 0; d < DIALOGUES_MOST; d++)
        for (j = 1; j < a->room[d]; j++)
            judge(&v, &a->job[d][j]);
    return v;
}

int verdict_good(const struct verdict *v)
{
    return v->duplicates == 0 && v->silent == 0 && v->told_twice == 0 && v->ended_unseen == 0 && v->refused_seen == 0;
}

#define ROW(text, number) fprintf(to, "%-44s %llu\n", text, (unsigned long long)(number))

void verdict_print(const struct verdict *v, const struct account *a, FILE *to)
{
    ROW("jobs given", v->jobs);
    ROW("  seen by a flight deck", v->seen);
    ROW("  told: ended", v->ended);
    ROW("  told: broken", v->broken);
    ROW("  told: refused", v->refused);
    ROW("  told: laid aside", v->dead);
    ROW("messages that came down", a->delivered);
    ROW("letters that came again under their id", a->repeated);
    ROW("duplicates seen by a flight deck", v->duplicates);
    ROW("silent losses", v->silent);
    ROW("told two fates", v->told_twice);
    ROW("ended, and not seen", v->ended_unseen);
    ROW("refused or laid aside, and seen", v->refused_seen);
}

void account_clear(struct account *a)
{
    unsigned d;
    for (d = 0; d < DIALOGUES_MOST; d++)
        free(a->job[d]);
    free(a->id);
    memset(a, 0, sizeof *a);
}
