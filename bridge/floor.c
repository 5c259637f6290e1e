#include "floor.h"

#include <stdio.h>

#include "log.h"
#include "witness.h"

static void raise_one(struct journal *j, unsigned dialogue, uint64_t floor)
{
    struct kept k;
    j->load(j, dialogue, &k);
    if (floor > k.floor)
        k.floor = floor;
    j->keep(j, dialogue, &k);
    printf("dialogue %02u: floor %llu, highest job taken %llu\n", dialogue, (unsigned long long)k.floor,
        (unsigned long long)peat_record_highest(k.record));
}

void floor_raise(struct journal *j, const struct config *c, uint64_t floor, uint64_t dialogue)
{
    struct taken all[PLACES_MOST];
    struct witness w;
    unsigned d;
    if (j->take(j, all) != config_places(c)) {
        j->close(j); /* what it took is free again at once: two that try by turns would else keep each other out */
        log_and_exit(EXIT_REFUSED, "journal", "floor", "a bridge has dialogues of this journal, or a session has rows of it locked: end it first. What a bridge that was killed had is free after lease_ms");
    }
    w = witness_ask(c->witness, j);
    if (w.says != WITNESS_AGREES) {
        j->settle_id(j, j->id);
        if (w.id[0] != '\0')
            j->settle_id(j, w.id);
        j->rename(j);
    }
    for (d = 0; d < PLACES_MOST; d++)
        if (config_has_place(c, d) && (dialogue == ALL_DIALOGUES || dialogue == d))
            raise_one(j, d, floor);
    j->commit(j);
    witness_write(c->witness, j->id, j->commits(j));
}
