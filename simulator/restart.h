/*
 * The power of an end fails, or that of the whole rack with its 48 ground ends and an end of each link, and is back. To the card this is a step
 * that it knows: the carrier fails. The host loads every record, breaks the connection, and each end that is not IDLE gets
 * D-P-ABORT; so what docs/PAIR.md promises holds over restarts.
 */
#ifndef RESTART_H
#define RESTART_H

#include "dialogue.h"

/* The other end hears later that the connection is lost (--apart), and not in the same moment. */
extern int restart_parts;

/* Runs a step during which the power may fail, and then brings up every end that is down. */
void restart_around(struct dialogue *dialogues, int count, void (*step)(void));

#endif
