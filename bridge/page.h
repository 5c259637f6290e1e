/*
 * The operator's page: HTTP by libmicrohttpd, in a thread of its own. Nothing can be changed by it.
 *
 *     /             the page for people; it draws what /status.json says
 *     /status.json  the bridge as it is
 *     /metrics      the same as Prometheus text
 *     /health       200, or 503 and the reasons
 *
 * The round hands over a status and goes on: where the thread is just reading the last one, the round tries again at its next turn. So a
 * client, however slow, late or hostile, waits for nobody but himself. The thread lets in CLIENTS at a time (page.c), each for some seconds.
 */
#ifndef PAGE_H
#define PAGE_H

#include "config.h"
#include "status.h"

struct page;

/* Opens the page that the configuration asks for. NULL: there is none; then *why says why, or is NULL where none is wanted. */
struct page *page_open(const struct config *, const char **why);

/* Shows a status from now on. 0: not now, try again. Never waits. */
int page_show(struct page *, const struct status *);

/* Ends the thread, and gives everything back. */
void page_close(struct page *);

#endif
