#include "mailbox.h"

#include <fcntl.h>
#include <stdlib.h>
#include <string.h>
#include <unistd.h>

#include "log.h"

static void prepare(int descriptor)
{
    fcntl(descriptor, F_SETFD, FD_CLOEXEC);
    fcntl(descriptor, F_SETFL, O_NONBLOCK);
}

int mailbox_open(struct mailbox *m)
{
    memset(m, 0, sizeof *m);
    m->bell[0] = m->bell[1] = -1;
    if (pthread_mutex_init(&m->lock, NULL) != 0)
        return 0;
    if (pipe(m->bell) != 0)
        return 0;
    prepare(m->bell[0]);
    prepare(m->bell[1]);
    return 1;
}

void mailbox_close(struct mailbox *m)
{
    mailbox_empty(m);
    if (m->bell[0] >= 0)
        close(m->bell[0]);
    if (m->bell[1] >= 0)
        close(m->bell[1]);
    pthread_mutex_destroy(&m->lock);
}

static struct parcel *make(int what, size_t bytes, size_t heads)
{
    struct parcel *p = malloc(sizeof *p + bytes + heads);
    if (p == NULL)
        log_and_exit(EXIT_MEMORY, "memory", "a parcel does not fit", "out of memory");
    memset(p, 0, sizeof *p);
    p->what = what;
    p->bytes = bytes;
    p->heads = heads;
    return p;
}

struct parcel *parcel_make(int what, size_t bytes) { return make(what, bytes, 0); }

struct parcel *parcel_with_heads(int what, size_t bytes, const char *heads)
{
    size_t n = strlen(heads) + 1;
    struct parcel *p = make(what, bytes, n);
    memcpy(p->byte + bytes, heads, n);
    return p;
}

const char *parcel_heads(const struct parcel *p) { return p->heads > 0 ? (const char *)p->byte + p->bytes : ""; }

static size_t size_of(const struct parcel *p) { return sizeof *p + p->bytes + p->heads; }

/* The bell has one byte while a parcel waits. A pipe that is full or empty already is as it should be. */
static void ring(struct mailbox *m)
{
    if (write(m->bell[1], "", 1) < 0) {
        /* it rings already */
    }
}

static void hush(struct mailbox *m)
{
    char byte[8];
    while (read(m->bell[0], byte, sizeof byte) > 0) {}
}

void mailbox_put(struct mailbox *m, struct parcel *p)
{
    int first;
    p->behind = NULL;
    pthread_mutex_lock(&m->lock);
    first = m->first == NULL;
    if (first)
        m->first = p;
    else
        m->last->behind = p;
    m->last = p;
    m->bytes += size_of(p);
    if (first)
        ring(m);
    pthread_mutex_unlock(&m->lock);
}

struct parcel *mailbox_take(struct mailbox *m)
{
    struct parcel *p;
    pthread_mutex_lock(&m->lock);
    p = m->first;
    if (p != NULL) {
        m->first = p->behind;
        m->bytes -= size_of(p);
        if (m->first == NULL)
            hush(m);
    }
    pthread_mutex_unlock(&m->lock);
    return p;
}

void mailbox_empty(struct mailbox *m)
{
    struct parcel *p;
    while ((p = mailbox_take(m)) != NULL)
        free(p);
}

size_t mailbox_bytes(struct mailbox *m)
{
    size_t n;
    pthread_mutex_lock(&m->lock);
    n = m->bytes;
    pthread_mutex_unlock(&m->lock);
    return n;
}

int mailbox_waits(struct mailbox *m) { return mailbox_bytes(m) > 0; }

int mailbox_bell(const struct mailbox *m) { return m->bell[0]; }
