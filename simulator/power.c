#include "power.h"

struct power power;

void power_point(struct end *e)
{
    if (power.points == 0 || --power.points > 0)
        return;
    power.failing = e;
    longjmp(power.lost, 1);
}
