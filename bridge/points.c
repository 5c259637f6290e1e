#include "bridge.h"

void at_point(const struct bridge *b, enum point p)
{
    (void)b;
    (void)p;
}
