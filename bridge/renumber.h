/*
 * The way out of a record whose dialogue number can't be raised. A bridge of version 0.6.1 or earlier handed a start
 * from the aircraft to the record, with any number that the aircraft gave: after 2^64 - 1 every start is refused as STALE. The command gives
 * such a record the time of day as its number, which is what a start takes.
 *
 * What it means: the jobs that were taken in a dialogue that is open are told as broken when the bridge starts, as after any
 * restart. No job is forgotten and none is taken again: what was decided is in the journal, and the record's highest job stays.
 */
#ifndef RENUMBER_H
#define RENUMBER_H

#include "config.h"
#include "journal.h"

/* Lowers the number of a dialogue's record, and says so on standard output. A record whose number is no more than a day ahead of the clock stays
   as it is: the aircraft may hold it too, and would refuse a start below it. 1: it was lowered */
int renumber(struct journal *, const struct config *, unsigned dialogue);

#endif
