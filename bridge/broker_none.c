/* A bridge that is built without an AMQP library knows no broker. */
#include "broker.h"

#include <stddef.h>

int broker_open_rabbit(struct broker *b, const struct config *c)
{
    (void)c;
    b->ends = NULL;
    b->why = "this bridge was built without an AMQP library";
    return 0;
}
