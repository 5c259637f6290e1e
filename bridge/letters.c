#include "letters.h"

#include <stdlib.h>
#include <string.h>

#include "jobs.h"
#include "log.h"

/* A letter's texts and body are one piece of memory, the body first. */
static void copy_into(struct letter *to, const struct letter *from)
{
    size_t type = strlen(from->type) + 1, reason = strlen(from->reason) + 1, journal = strlen(from->journal) + 1, heads = strlen(from->heads) + 1;
    char *piece = malloc(from->bytes + type + reason + journal + heads);
    if (piece == NULL)
        log_and_exit(EXIT_MEMORY, "memory", "a letter does not fit", "out of memory");
    *to = *from;
    memcpy(piece, from->body, from->bytes);
    to->body = (const uint8_t *)piece;
    to->type = memcpy(piece + from->bytes, from->type, type);
    to->reason = memcpy(piece + from->bytes + type, from->reason, reason);
    to->journal = memcpy(piece + from->bytes + type + reason, from->journal, journal);
    to->heads = memcpy(piece + from->bytes + type + reason + journal, from->heads, heads);
}

static void release(struct letters *l, struct letter *gone)
{
    free((void *)(uintptr_t)gone->body);
    gone->body = NULL;
    l->waiting--;
    l->of[gone->dialogue]--;
}

/* Those at the front that are gone make room. */
static void close_up(struct letters *l)
{
    while (l->first < l->count && l->item[l->first].body == NULL)
        l->first++;
    if (l->first < l->count / 2 || l->first == 0)
        return;
    memmove(l->item, l->item + l->first, (l->count - l->first) * sizeof *l->item);
    l->count -= l->first;
    l->first = 0;
}

void letters_add(struct letters *l, const struct letter *new)
{
    l->item = grow(l->item, &l->room, l->count + 1, sizeof *l->item);
    copy_into(&l->item[l->count], new);
    l->item[l->count++].turn = ++l->turn;
    l->waiting++;
    l->of[new->dialogue]++;
}

/* the place of the first letter behind a turn, gone or not */
static size_t place_behind(const struct letters *l, uint64_t turn)
{
    size_t low = l->first, high = l->count;
    while (low < high) {
        size_t middle = low + (high - low) / 2;
        if (l->item[middle].turn <= turn)
            low = middle + 1;
        else
            high = middle;
    }
    return low;
}

const struct letter *letters_next(const struct letters *l, uint64_t behind)
{
    size_t i = place_behind(l, behind);
    while (i < l->count && l->item[i].body == NULL)
        i++;
    return i < l->count ? &l->item[i] : NULL;
}

static struct letter *item_at(const struct letters *l, uint64_t turn)
{
    size_t i = turn == 0 ? l->count : place_behind(l, turn - 1);
    return i < l->count && l->item[i].turn == turn && l->item[i].body != NULL ? &l->item[i] : NULL;
}

const struct letter *letters_at(const struct letters *l, uint64_t turn) { return item_at(l, turn); }

void letters_drop(struct letters *l, uint64_t turn)
{
    struct letter *gone = item_at(l, turn);
    if (gone != NULL)
        release(l, gone);
    close_up(l);
}

void letters_forget(struct letters *l, unsigned dialogue)
{
    size_t i;
    for (i = l->first; i < l->count; i++)
        if (l->item[i].body != NULL && l->item[i].dialogue == dialogue)
            release(l, &l->item[i]);
    close_up(l);
}

void letters_clear(struct letters *l)
{
    unsigned d;
    for (d = 0; d < PLACES_MOST; d++)
        letters_forget(l, d);
    free(l->item);
    memset(l, 0, sizeof *l);
}
