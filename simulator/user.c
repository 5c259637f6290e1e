#include "user.h"

#include <stdio.h>
#include <stdlib.h>
#include <string.h>

#include "chance.h"

#define BACKLOG 6 /* jobs that it lets wait */

/* ---- lists that grow */

static void *grown(void *list, uint64_t *room, uint64_t need, size_t size)
{
    uint64_t old = *room;
    if (need < old)
        return list;
    *room = 2 * need + 64;
    list = realloc(list, *room * size);
    if (list == NULL) {
        fputs("peat-host: there is no memory for what a user knows\n", stderr);
        exit(2);
    }
    memset((char *)list + old * size, 0, (*room - old) * size);
    return list;
}

/* ---- giving */

static void to_give_again(struct user *u, uint64_t clearance)
{
    u->again = grown(u->again, &u->room_again, u->again_end, sizeof *u->again);
    u->again[u->again_end++] = clearance;
}

void user_gives(struct user *u, struct broker *b)
{
    if (!u->talking || broker_waiting(b) >= BACKLOG)
        return;
    if (u->again_first < u->again_end) {
        broker_give(b, u->again[u->again_first++]);
    } else {
        broker_give(b, u->next);
        u->next += u->apart;
    }
}

/* ---- knowing */

unsigned user_shown(struct user *u, uint64_t clearance)
{
    u->shown = grown(u->shown, &u->room_shown, clearance, sizeof *u->shown);
    return ++u->shown[clearance];
}

unsigned user_saw(const struct user *u, uint64_t clearance) { return clearance < u->room_shown ? u->shown[clearance] : 0; }

enum fate user_knows(const struct user *u, uint64_t job) { return job < u->room_told ? (enum fate)u->told[job] : NOTHING_TOLD; }

int user_told_fate(struct user *u, const struct broker *b, const struct notice *n)
{
    if (n->id <= u->heard)
        return 1; /* the same notice again: it was published, and the power failed before that was kept */
    u->heard = n->id;
    if (user_knows(u, n->job) != NOTHING_TOLD)
        return 0;
    u->told = grown(u->told, &u->room_told, n->job, sizeof *u->told);
    u->told[n->job] = (unsigned char)n->fate;
    if (n->fate == REFUSED && broker_knows(b, n->job)) {
        u->talking = 0; /* there is no dialogue, whatever it believed */
        to_give_again(u, broker_job(b, n->job)->clearance);
    }
    return 1;
}
