/*
 * A journal moves from a file of SQLite's to a database of PostgreSQL's. The file is marked before anything of it is in the
 * database: from then on no bridge runs on it. What it has goes over as one transaction; until that is committed no bridge runs
 * on the database. So whatever ends the move, one of the two at most is a journal, and the same command goes on.
 */
#ifndef MOVE_H
#define MOVE_H

#include "config.h"

/* Refused (EXIT_REFUSED) while a bridge has the file, where the file is an old copy, and where the database has a journal. */
void journal_move(const struct config *from, const struct config *to);

#endif
