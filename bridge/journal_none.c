/* A bridge that is built without PostgreSQL's library knows no database. */
#include "config.h"
#include "journal.h"
#include "log.h"

void journal_open_postgres(struct journal *j, const struct config *c, enum journal_open how)
{
    (void)j;
    (void)how;
    log_and_exit(EXIT_USAGE, "database", c->database, "this bridge was built without PostgreSQL's library");
}
