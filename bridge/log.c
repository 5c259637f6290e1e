#include "log.h"

#include <errno.h>
#include <fcntl.h>
#include <poll.h>
#include <stdio.h>
#include <string.h>
#include <time.h>
#include <unistd.h>

#include "clock.h"

static enum log_level least = LOG_INFO;

void log_from(enum log_level level) { least = level; }

static void (*tapped)(void *, const char *, size_t);
static void *tapped_with;

void log_tap(void (*tap)(void *, const char *, size_t), void *with)
{
    tapped = tap;
    tapped_with = with;
}

/* A line under way. What does not fit is cut; a line always ends as JSON. */
struct line {
    char text[1024];
    size_t used;
};

#define LINE_TAIL 8 /* room that is kept for the end of the line */

static void put(struct line *l, char c)
{
    if (l->used < sizeof l->text - LINE_TAIL)
        l->text[l->used++] = c;
}

static void put_plain(struct line *l, const char *s)
{
    while (*s != '\0')
        put(l, *s++);
}

/* as a JSON string; a character that JSON does not take is written as a point */
static void put_string(struct line *l, const char *s)
{
    put(l, '"');
    for (; *s != '\0' && l->used < sizeof l->text - 2 * LINE_TAIL; s++) {
        if (*s == '"' || *s == '\\')
            put(l, '\\');
        put(l, (unsigned char)*s < ' ' || (unsigned char)*s > '~' ? '.' : *s);
    }
    put(l, '"');
}

static void put_number(struct line *l, uint64_t n)
{
    char digits[24];
    snprintf(digits, sizeof digits, "%llu", (unsigned long long)n);
    put_plain(l, digits);
}

static void put_time(struct line *l)
{
    uint64_t ms = wall_ms();
    time_t seconds = (time_t)(ms / 1000);
    struct tm t;
    char text[40];
    size_t n;
    gmtime_r(&seconds, &t);
    n = strftime(text, sizeof text, "%Y-%m-%dT%H:%M:%S", &t);
    snprintf(text + n, sizeof text - n, ".%03uZ", (unsigned)(ms % 1000));
    put_string(l, text);
}

static void put_field(struct line *l, const struct log_field *f)
{
    put(l, ',');
    put_string(l, f->name);
    put(l, ':');
    if (f->text != NULL) {
        put_string(l, f->text);
    } else if (strcmp(f->name, "job") == 0) {
        put(l, '"');
        put_number(l, f->number);
        put(l, '"');
    } else {
        put_number(l, f->number);
    }
}

int log_hold_descriptors(void)
{
    int d, got;
    for (d = STDIN_FILENO; d <= STDERR_FILENO; d++)
        if (fcntl(d, F_GETFD) < 0 && errno == EBADF) {
            got = open("/dev/null", O_RDWR); /* the lowest number that is free */
            if (got != d)
                return 0;
        }
    return 1;
}

#define LAST_LINE_MS 200 /* that the last line of a process may wait to be taken */

static uint64_t lost; /* lines that nobody took */

/* A pipe or a socket that can be written takes a line at once: a line is shorter than what they take as a whole. */
static int is_taken(int ms)
{
    struct pollfd error = {STDERR_FILENO, POLLOUT, 0};
    return poll(&error, 1, ms) == 1 && (error.revents & POLLOUT) != 0;
}

void log_fields(enum log_level level, const char *event, const struct log_field *fields)
{
    static const char *const names[] = {"fine", "info", "warn", "fail"};
    struct line l = {{0}, 0};
    int taps = tapped != NULL && level >= LOG_INFO;
    if (level < least && !taps)
        return;
    put_plain(&l, "{\"time\":");
    put_time(&l);
    put_plain(&l, ",\"level\":");
    put_string(&l, names[level]);
    put_plain(&l, ",\"event\":");
    put_string(&l, event);
    for (; fields->name != NULL && l.used < sizeof l.text - 128; fields++)
        put_field(&l, fields);
    if (taps) {
        l.text[l.used] = '}';
        tapped(tapped_with, l.text, l.used + 1);
    }
    if (level < least)
        return;
    if (!is_taken(level == LOG_FAIL ? LAST_LINE_MS : 0)) {
        lost++;
        return;
    }
    if (lost > 0 && l.used < sizeof l.text - 64)
        put_field(&l, &(struct log_field)NUMBER("lost", lost));
    l.text[l.used++] = '}';
    l.text[l.used++] = '\n';
    if (write(STDERR_FILENO, l.text, l.used) < 0)
        lost++; /* nobody reads the log: the bridge goes on without it */
    else
        lost = 0;
}

void log_and_exit(enum exit_status status, const char *event, const char *what, const char *why)
{
    log_line(LOG_FAIL, event, TEXT("what", what), TEXT("why", why), NUMBER("status", (uint64_t)status));
    _exit((int)status);
}
