/*
 * A bridge that kills itself: at the point whose number is in PEAT_POINT, once a job was decided where the point is one of a
 * batch. With PEAT_DISK its disk forgets what was not synced (tests/bridge/disk.h). Linked into the tests' bridge only.
 */
#include <signal.h>
#include <stdlib.h>
#include <unistd.h>

#include "../../bridge/bridge.h"
#include "../bridge/disk.h"

__attribute__((constructor)) static void choose_disk(void)
{
    if (getenv("PEAT_DISK") != NULL)
        disk_install(0);
}

static int decided_a_job(const struct bridge *b)
{
    uint64_t n = b->metrics.taken + b->metrics.dead + b->metrics.forwards_received;
    int i;
    for (i = 0; i < REFUSALS; i++)
        n += b->metrics.refused[i];
    return n > 0;
}

void at_point(const struct bridge *b, enum point p)
{
    const char *where = getenv("PEAT_POINT");
    int of_batch = p == AT_COMMIT || p == AT_COMMITTED || p == AT_SENDING || p == AT_SENT || p == AT_ACKNOWLEDGED;
    if (where != NULL && atoi(where) == (int)p && (!of_batch || decided_a_job(b)))
        kill(getpid(), SIGKILL);
}
