#include "day.h"

#include <errno.h>
#include <fcntl.h>
#include <stdarg.h>
#include <stdio.h>
#include <stdlib.h>
#include <string.h>
#include <unistd.h>

#include "bridge.h"
#include "calls.h"
#include "digest.h"
#include "log.h"

#define LINE 96 /* more than a line has */

/* ---- the file */

static int is_recorded(const struct dialogue *d) { return d->day.file >= 0; }

static void leave_alone(struct dialogue *d, const char *what, const char *why)
{
    log_line(LOG_WARN, "day not recorded", ABOUT(d), TEXT("what", what), TEXT("why", why));
    if (d->day.file >= 0)
        close(d->day.file);
    d->day.file = -1;
    d->day.is_left = 1;
}

static void write_out(struct dialogue *d, const char *bytes, size_t count)
{
    while (is_recorded(d) && count > 0) {
        ssize_t n = write(d->day.file, bytes, count);
        if (n < 0 && errno == EINTR)
            continue;
        if (n < 0) {
            leave_alone(d, "write", strerror(errno));
            return;
        }
        bytes += n;
        count -= (size_t)n;
    }
}

static int path_of(const struct bridge *b, const struct dialogue *d, char *path, size_t room)
{
    int n = snprintf(path, room, "%s/%02u.ground", b->config->moves, d->number);
    return n > 0 && (size_t)n < room;
}

/* What is in a file, with a zero behind it. */
static char *read_whole(int file)
{
    off_t end = lseek(file, 0, SEEK_END);
    char *bytes = end < 0 ? NULL : malloc((size_t)end + 1);
    size_t count = 0;
    ssize_t n = 1;
    if (bytes == NULL || lseek(file, 0, SEEK_SET) != 0) {
        free(bytes);
        return NULL;
    }
    while (count < (size_t)end && n > 0)
        if ((n = read(file, bytes + count, (size_t)end - count)) > 0)
            count += (size_t)n;
    bytes[count] = '\0';
    return bytes;
}

/* What the journal has of a day: where that ends, and the notices up to there. The last commit may not have come to pass. */
struct had {
    size_t end;
    uint64_t notices, last; /* last: the highest commit that the day names */
    int is_ours;            /* it is the day of this journal */
};

static struct had had_of(const char *bytes, const char *journal, uint64_t commits)
{
    struct had h = {0, 0, 0, 0};
    const char *at, *end;
    int is_had = 1;
    for (at = bytes; (end = strchr(at, '\n')) != NULL; at = end + 1) {
        if (strncmp(at, "journal ", 8) == 0)
            h.is_ours = strncmp(at + 8, journal, strlen(journal)) == 0 && at[8 + strlen(journal)] == '\n';
        if (strncmp(at, "commit ", 7) == 0)
            h.last = strtoull(at + 7, NULL, 10);
        is_had &= h.last <= commits;
        h.notices += is_had && strncmp(at, "tells-", 6) == 0;
        if (is_had)
            h.end = (size_t)(end + 1 - bytes);
    }
    return h;
}

/* ---- lines */

static void wait_with(struct dialogue *d, const char *line, size_t n)
{
    struct day *y = &d->day;
    y->waiting = grow(y->waiting, &y->room, y->count + n, 1);
    memcpy(y->waiting + y->count, line, n);
    y->count += n;
}

static size_t make_line(char *line, const char *format, va_list more)
{
    int n = vsnprintf(line, LINE - 1, format, more);
    size_t length = n < 0 ? 0 : (size_t)n < LINE - 2 ? (size_t)n : LINE - 2;
    line[length] = '\n';
    return length + 1;
}

void day_keeps(struct dialogue *d, const char *format, ...)
{
    char line[LINE];
    va_list more;
    if (!is_recorded(d))
        return;
    va_start(more, format);
    wait_with(d, line, make_line(line, format, more));
    va_end(more);
}

void day_says(struct dialogue *d, const char *format, ...)
{
    char line[LINE];
    va_list more;
    if (!is_recorded(d))
        return;
    va_start(more, format);
    write_out(d, line, make_line(line, format, more));
    va_end(more);
}

/* ---- beginning and end */

void day_begin(struct bridge *b, struct dialogue *d)
{
    struct day *y = &d->day;
    char path[CONFIG_TEXT + 16], *bytes;
    struct had had = {0, 0, 0, 0};
    uint64_t commits = b->journal->commits(b->journal);
    y->file = -1;
    y->is_connected = y->is_left = 0;
    y->count = y->jobs = y->due = 0;
    if (b->config->moves[0] == '\0' || place_is_link(d->number) || !path_of(b, d, path, sizeof path))
        return;
    y->file = open(path, O_RDWR | O_APPEND | O_CLOEXEC);
    if (y->file < 0)
        return; /* it begins when what was open before it is committed */
    bytes = read_whole(y->file);
    if (bytes != NULL)
        had = had_of(bytes, b->journal->id, commits);
    if (bytes == NULL)
        leave_alone(d, path, strerror(errno));
    else if (!had.is_ours || had.last > commits + 1)
        leave_alone(d, path, "it is the day of another journal, or of a newer one: name another folder");
    else if (ftruncate(y->file, (off_t)had.end) != 0)
        leave_alone(d, path, strerror(errno));
    free(bytes);
    y->notices = had.notices;
    day_says(d, "power-fails");
    day_keeps(d, "lost");
}

void day_began(struct bridge *b, struct dialogue *d)
{
    char path[CONFIG_TEXT + 16];
    if (b->config->moves[0] == '\0' || place_is_link(d->number) || is_recorded(d) || d->day.is_left || !path_of(b, d, path, sizeof path))
        return;
    d->day.notices = 0;
    d->day.file = open(path, O_RDWR | O_APPEND | O_CREAT | O_EXCL | O_CLOEXEC, 0640);
    if (d->day.file < 0) {
        leave_alone(d, path, strerror(errno));
        return;
    }
    day_says(d, "from %c %llu %llu", b->config->starts[d->number] == STARTS_GROUND ? 'g' : 'a', (unsigned long long)peat_record_number(d->kept.record),
        (unsigned long long)peat_record_highest(d->kept.record));
    day_says(d, "journal %s", b->journal->id);
}

void day_end(struct dialogue *d)
{
    if (is_recorded(d))
        close(d->day.file);
    d->day.file = -1;
    free(d->day.waiting);
    free(d->day.job);
}

/* ---- moves */

void day_tells(struct dialogue *d, const char *fate, uint64_t job)
{
    day_keeps(d, "tells-%s %llu %llu", fate, (unsigned long long)++d->day.notices, (unsigned long long)job);
}

void day_meets(struct dialogue *d)
{
    d->day.is_connected = 1;
    day_keeps(d, "meets");
}

void day_loses(struct dialogue *d)
{
    if (d->day.is_connected)
        day_keeps(d, "lost");
    d->day.is_connected = 0;
}

/* The end that was asked for is confirmed: the jobs are told as ended with it. */
static const char *word_of(const struct primitive *p, struct peat_answer answer)
{
    int accepted = p->is.parameter == PEAT_ACCEPTED;
    switch (p->is.kind) {
    case PEAT_D_START_REQUEST: return "start";
    case PEAT_D_START_RESPONSE: return accepted ? "start-accepted" : "start-rejected";
    case PEAT_D_DATA_REQUEST: return "data";
    case PEAT_D_END_REQUEST: return "end";
    case PEAT_D_END_RESPONSE:
        if (peat_refusal(answer) == PEAT_TAKEN && peat_told(answer) == PEAT_END_CONFIRMATION && accepted)
            return "end-confirmed";
        return accepted ? "end-accepted" : "end-rejected";
    default: return "abort";
    }
}

void day_hears(struct dialogue *d, const struct primitive *p, struct peat_answer answer)
{
    int taken = peat_refusal(answer) == PEAT_TAKEN;
    day_keeps(d, "hears-%s %llu%s", word_of(p, answer), (unsigned long long)p->is.number, taken && peat_invoked(answer) == PEAT_D_ABORT_REQUEST ? " aborts" : "");
    d->day.posted = 0;
}

/* Its letter is kept in the same commit. */
void day_shows(struct dialogue *d, struct peat_answer answer)
{
    if (peat_refusal(answer) != PEAT_TAKEN || peat_told(answer) != PEAT_MESSAGE_INDICATION)
        return;
    day_keeps(d, "shows");
    if (d->day.posted != 0)
        day_keeps(d, "posts %u", d->day.posted);
}

void day_bits(struct dialogue *d, const uint8_t *message, unsigned bits)
{
    if (is_recorded(d))
        day_keeps(d, "bits %llu", (unsigned long long)digest_of(message, bits));
}

void day_refuses(struct dialogue *d, uint64_t job, unsigned reason, unsigned told)
{
    day_keeps(d, "refuses %llu", (unsigned long long)job);
    day_keeps(d, "reason %u", reason);
    day_tells(d, "refused", job);
    day_keeps(d, "reason %u", told);
}

void day_reads(struct dialogue *d, uint64_t job)
{
    struct day *y = &d->day;
    if (!is_recorded(d))
        return;
    y->job = grow(y->job, &y->job_room, y->jobs + 1, sizeof *y->job);
    y->job[y->jobs++] = job;
}

void day_payload_read(struct dialogue *d) { d->day.due = d->day.jobs; }

void day_acknowledges(struct dialogue *d)
{
    struct day *y = &d->day;
    size_t i;
    for (i = 0; i < y->due; i++)
        day_says(d, "acknowledges %llu", (unsigned long long)y->job[i]);
    if (y->due > 0)
        memmove(y->job, y->job + y->due, (y->jobs - y->due) * sizeof *y->job);
    y->jobs -= y->due;
    y->due = 0;
}

void day_forgets(struct dialogue *d) { d->day.jobs = d->day.due = 0; }

void day_commit(struct bridge *b)
{
    unsigned i;
    for (i = 0; i < DIALOGUES_MOST; i++) {
        struct dialogue *d = &b->dialogue[i];
        char head[LINE];
        int n;
        if (d->lease == 0 || d->day.count == 0)
            continue;
        if (d->changed && d->day.is_connected)
            day_keeps(d, "record %u %u %llu %llu", state_of(d), (unsigned)peat_record_dsc(d->kept.record), (unsigned long long)peat_record_number(d->kept.record),
                (unsigned long long)peat_record_highest(d->kept.record));
        n = snprintf(head, sizeof head, "commit %llu\n", (unsigned long long)b->journal->commits(b->journal) + 1);
        write_out(d, head, (size_t)n);
        write_out(d, d->day.waiting, d->day.count);
        d->day.count = 0;
    }
}
