#include "restart.h"

#include "account.h"
#include "chance.h"
#include "faults.h"
#include "moves.h"
#include "power.h"
#include "story.h"

/* one step in so many has a failure of the power; more of them where a fault shows only if it fails at one point */
#define STEPS_A_FAILURE (fault(ANSWERS_BEFORE_SHOWING) ? 10u : fault(ANSWERS_UNHEARD) ? 30u : 150u)
#define POINTS 6            /* that a step may pass */
#define RACK 16             /* one failure at this centre in so many takes the whole rack */

int restart_parts;

/* ---- going down */

static void goes_down(struct dialogue *all, int count, struct end *e)
{
    int i, rack = e == in_rack(&all[e->dialogue]) && chance(RACK) == 0;
    account.restarts++;
    account.rack_restarts += (unsigned long)rack;
    e->down = 1;
    moves_power(e);
    for (i = 0; rack && i < count; i++) {
        in_rack(&all[i])->down = 1;
        moves_power(in_rack(&all[i]));
    }
}

/* ---- coming up */

/* What an end sent before its power failed may still arrive: the carrier is lost a while later. */
static void arrives_meanwhile(struct end *e)
{
    unsigned n = e->peer->down ? 0 : chance(e->out.entries + 1);
    while (n-- > 0)
        dialogue_hand_over(e);
}

static void comes_up(struct dialogue *all, struct end *e)
{
    arrives_meanwhile(e);
    end_loads(e);
    e->down = 0;
    if (restart_parts && !of_link(e) && !e->peer->down && !e->peer->apart)
        dialogue_part(e);
    else if (!fault(NO_ABORT_AT_RESTART))
        dialogue_fail(&all[e->dialogue]);
}

static struct end *one_down(struct dialogue *all, int count)
{
    int i;
    for (i = 0; i < 2 * count; i++)
        if (all[i / 2].end[i % 2].down)
            return &all[i / 2].end[i % 2];
    return NULL;
}

/* an end that is up again has its dialogue examined: it may be quiet now */
static void bring_up(struct dialogue *all, int count)
{
    struct end *e;
    while ((e = one_down(all, count)) != NULL) {
        power.points = chance(8) == 0 ? 1 + chance(POINTS) : 0; /* the power may fail again while it comes up */
        if (setjmp(power.lost) == 0) {
            comes_up(all, e);
            power.points = 0;
        } else {
            goes_down(all, count, power.failing);
        }
    }
}

void restart_around(struct dialogue *dialogues, int count, void (*step)(void))
{
    power.points = chance(STEPS_A_FAILURE) == 0 ? 1 + chance(POINTS) : 0;
    if (setjmp(power.lost) == 0) {
        step();
        power.points = 0;
        return;
    }
    goes_down(dialogues, count, power.failing);
    bring_up(dialogues, count);
}
