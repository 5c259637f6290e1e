/*
 * An end takes its broker's mail: jobs, each a message to send. The broker hands a job out at least once, in no strict
 * order; the card takes each at most once, and needs them in order. Between the two stand the held jobs and the decisions.
 */
#ifndef JOBS_H
#define JOBS_H

struct end;

/* The broker of an end hands over its mail. */
void jobs_offer(struct end *e);

#endif
