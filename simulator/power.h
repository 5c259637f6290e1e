/*
 * The power of an end's host, which fails at any of the points that its code passes. What the host had in memory is gone
 * then; the journal, the broker, the users and the carrier are not.
 */
#ifndef POWER_H
#define POWER_H

#include <setjmp.h>

struct end;

extern struct power {
    jmp_buf lost;        /* where a failure of the power goes on */
    unsigned points;     /* it fails at the point with this number from here, 0: it holds */
    struct end *failing; /* whose it was */
} power;

/* The power of an end may fail here. */
void power_point(struct end *e);

#endif
