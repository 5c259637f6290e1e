#include "page.h"

struct page *page_open(const struct config *c, const char **why)
{
    *why = c->metrics_port != 0 ? "this bridge was built without libmicrohttpd: there is no page" : NULL;
    return NULL;
}

int page_show(struct page *p, const struct status *s)
{
    (void)p;
    (void)s;
    return 1;
}

void page_close(struct page *p) { (void)p; }
