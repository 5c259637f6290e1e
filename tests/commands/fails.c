/*
 * Put before a program's libraries (LD_PRELOAD): the process kills itself before the call of that number that changes a file
 * (PEAT_KILL_AT), or has no memory from the allocation of that number on (PEAT_MEMORY_FROM), or lives at another time (PEAT_LATER).
 */
#define _GNU_SOURCE
#include <dlfcn.h>
#include <errno.h>
#include <fcntl.h>
#include <signal.h>
#include <stdarg.h>
#include <stdlib.h>
#include <sys/types.h>
#include <time.h>
#include <unistd.h>

static long changes, kill_at, allocations, memory_from;

__attribute__((constructor)) static void choose(void)
{
    const char *at = getenv("PEAT_KILL_AT"), *from = getenv("PEAT_MEMORY_FROM");
    kill_at = at != NULL ? atol(at) : 0;
    memory_from = from != NULL ? atol(from) : 0;
    changes = allocations = 0;
}

static void changed(void)
{
    if (kill_at != 0 && ++changes == kill_at)
        kill(getpid(), SIGKILL);
}

#define NEXT(name) ((__typeof__(&name))dlsym(RTLD_NEXT, #name))

ssize_t write(int f, const void *b, size_t n) { changed(); return NEXT(write)(f, b, n); }
ssize_t pwrite(int f, const void *b, size_t n, off_t at) { changed(); return NEXT(pwrite)(f, b, n, at); }
ssize_t pwrite64(int f, const void *b, size_t n, off64_t at) { changed(); return NEXT(pwrite64)(f, b, n, at); }
int fsync(int f) { changed(); return NEXT(fsync)(f); }
int fdatasync(int f) { changed(); return NEXT(fdatasync)(f); }
int ftruncate(int f, off_t n) { changed(); return NEXT(ftruncate)(f, n); }
int ftruncate64(int f, off64_t n) { changed(); return NEXT(ftruncate64)(f, n); }
int unlink(const char *name) { changed(); return NEXT(unlink)(name); }
int rename(const char *from, const char *to) { changed(); return NEXT(rename)(from, to); }

#define OPENS(name) \
    int name(const char *path, int flags, ...) \
    { \
        va_list more; \
        mode_t mode; \
        va_start(more, flags); \
        mode = (flags & O_CREAT) != 0 ? va_arg(more, mode_t) : 0; \
        va_end(more); \
        if ((flags & O_CREAT) != 0) \
            changed(); \
        return NEXT(name)(path, flags, mode); \
    }
OPENS(open)
OPENS(open64)

extern void *__libc_malloc(size_t), *__libc_calloc(size_t, size_t), *__libc_realloc(void *, size_t);

static int has_none(void)
{
    if (memory_from == 0 || ++allocations < memory_from)
        return 0;
    errno = ENOMEM;
    return 1;
}

void *malloc(size_t n) { return has_none() ? NULL : __libc_malloc(n); }
void *calloc(size_t n, size_t each) { return has_none() ? NULL : __libc_calloc(n, each); }
void *realloc(void *old, size_t n) { return has_none() ? NULL : __libc_realloc(old, n); }

/* PEAT_LATER: the time of day is so many seconds later. */
time_t time(time_t *at)
{
    const char *later = getenv("PEAT_LATER");
    struct timespec t;
    clock_gettime(CLOCK_REALTIME, &t);
    t.tv_sec += later != NULL ? atol(later) : 0;
    if (at != NULL)
        *at = t.tv_sec;
    return t.tv_sec;
}
