/*
 * The files and folders that a configuration names: whether each is there and is what it should be. `bridge check` says it of all
 * of them; a bridge that starts looks at those without which it would never have its broker.
 */
#ifndef FILES_H
#define FILES_H

#include "config.h"

enum finding { FILES_GOOD, FILES_WARNS, FILES_BAD };

/* What is told of one name of the configuration: its value, what was found, and what that means. */
typedef void files_say(void *with, enum finding, const char *name, const char *value, const char *what);

/* Looks at every file and folder; how many are bad. Nothing is made, changed or connected to. */
unsigned files_look(const struct config *, files_say *, void *with);

/* Looks at what the connection to the broker needs: the password and the files of TLS. */
unsigned files_look_broker(const struct config *, files_say *, void *with);

#endif
