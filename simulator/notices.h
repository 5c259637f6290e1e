/*
 * What became of a job goes back to whoever gave it, by the job's number: refused, with the card's number; ended, in a
 * dialogue that was closed in order; or broken, in a dialogue that broke, so that nobody knows whether it was shown.
 */
#ifndef NOTICES_H
#define NOTICES_H

struct end;

/* Gives the broker the notices that it has not confirmed, and keeps that it has. */
void notices_post(struct end *e);

#endif
