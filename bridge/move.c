#include "move.h"

#include <stdio.h>

#include "journal.h"
#include "log.h"
#include "witness.h"

struct copying {
    struct journal *to;
    unsigned dialogue;
    unsigned long decisions;
};

static void copy_decision(void *with, const struct decision *d)
{
    struct copying *c = with;
    c->to->decide(c->to, c->dialogue, d);
    c->decisions++;
}

/* Every decision was made in a run, and the runs are counted. */
static unsigned long copy_dialogue(struct journal *from, struct journal *to, unsigned dialogue)
{
    struct copying c = {to, dialogue, 0};
    struct kept k;
    uint64_t run;
    from->load(from, dialogue, &k);
    to->keep(to, dialogue, &k);
    for (run = 0; run <= k.run; run++)
        from->of_run(from, dialogue, run, copy_decision, &c);
    return c.decisions;
}

/* Letters keep their ids: one that the broker has and did not confirm comes again under the same. */
static unsigned long copy_letters(struct journal *from, struct journal *to)
{
    struct letter l;
    unsigned long n = 0;
    l.turn = 0;
    while (from->next(from, l.turn, &l)) {
        to->post(to, &l);
        n++;
    }
    return n;
}

void journal_move(const struct config *from, const struct config *to)
{
    struct taken all[PLACES_MOST];
    struct journal file, database;
    unsigned long decisions = 0, letters;
    unsigned d;
    if (from->journal[0] == '\0' || to->database[0] == '\0' || from->dialogues != to->dialogues || from->centres != to->centres)
        log_and_exit(EXIT_USAGE, "move", "configuration", "the first names a journal, the second a database, for as many dialogues and centres");
    journal_open(&file, from, JOURNAL_MOVE);
    witness_admit(from->witness, &file);
    journal_open(&database, to, JOURNAL_MOVE);
    if (database.take(&database, all) != config_places(to))
        log_and_exit(EXIT_REFUSED, "move", "database", "a bridge has dialogues of it");
    journal_mark_moved(&file);
    for (d = 0; d < PLACES_MOST; d++)
        if (config_has_place(from, d))
            decisions += copy_dialogue(&file, &database, d);
    letters = copy_letters(&file, &database);
    database.rename(&database); /* which makes it whole */
    database.commit(&database);
    witness_write(to->witness, database.id, database.commits(&database));
    printf("moved: %u dialogues, %lu decisions, %lu letters\n", (unsigned)from->dialogues, decisions, letters);
    database.close(&database);
    file.close(&file);
}
