#include "renumber.h"

#include <stdio.h>

#include "clock.h"
#include "log.h"
#include "witness.h"

#define DAY_MS 86400000u

static void write_number(uint8_t *record, uint64_t n)
{
    int i;
    for (i = 0; i < 8; i++)
        record[PEAT_RECORD_NUMBER + i] = (uint8_t)(n >> (56 - 8 * i));
}

int renumber(struct journal *j, const struct config *c, unsigned dialogue)
{
    struct taken all[PLACES_MOST];
    struct kept k;
    uint64_t was, now = wall_ms();
    if (j->take(j, all) != config_places(c)) {
        j->close(j);
        log_and_exit(EXIT_REFUSED, "journal", "renumber", "a bridge has dialogues of this journal: stop it first");
    }
    j->load(j, dialogue, &k);
    was = peat_record_number(k.record);
    if (was <= now + DAY_MS) {
        printf("dialogue %02u: number %llu stays: a start can be above it\n", dialogue, (unsigned long long)was);
        return 0;
    }
    write_number(k.record, now);
    if (peat_record_number(k.record) != now)
        log_and_exit(EXIT_JOURNAL, "record", "renumber", "the record has its number at another place");
    j->keep(j, dialogue, &k);
    j->commit(j);
    witness_write(c->witness, j->id, j->commits(j));
    printf("dialogue %02u: number %llu becomes %llu; highest job taken %llu stays\n", dialogue, (unsigned long long)was, (unsigned long long)now,
        (unsigned long long)peat_record_highest(k.record));
    if (peat_record_state(k.record) != PEAT_IDLE)
        printf("dialogue %02u: it was open: the jobs taken in it are told as broken when the bridge starts\n", dialogue);
    return 1;
}
