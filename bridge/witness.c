#include "witness.h"

#include <errno.h>
#include <fcntl.h>
#include <libgen.h>
#include <stdio.h>
#include <string.h>
#include <unistd.h>

#include "log.h"

#define WITNESS_TEXT 80

static int text_of(char *text, const char *id, uint64_t commits)
{
    return snprintf(text, WITNESS_TEXT, "peat-witness 1 %s %llu end\n", id, (unsigned long long)commits);
}

/* What was read is what would be written, to its last word: a part of it is no witness. */
static int read_text(const char *text, size_t bytes, char *id, uint64_t *commits)
{
    char same[WITNESS_TEXT];
    unsigned long long n = 0;
    if (sscanf(text, "peat-witness 1 %16[0-9a-f] %20llu", id, &n) != 2)
        return 0;
    *commits = n;
    return text_of(same, id, n) == (int)bytes && memcmp(text, same, bytes) == 0;
}

/* A journal that has come less far than it had is an old copy. */
static enum witness_says compare(uint64_t commits, uint64_t n)
{
    return commits < n ? WITNESS_NEWER : WITNESS_AGREES;
}

struct witness witness_ask(const char *path, struct journal *j)
{
    struct witness w = {WITNESS_DAMAGED, ""};
    char text[WITNESS_TEXT + 1], id[JOURNAL_ID] = "";
    uint64_t seen = 0;
    ssize_t bytes;
    int file = open(path, O_RDONLY);
    if (file < 0) {
        w.says = errno == ENOENT ? WITNESS_MISSING : WITNESS_DAMAGED;
        return w;
    }
    bytes = read(file, text, sizeof text - 1);
    close(file);
    text[bytes > 0 ? bytes : 0] = '\0';
    if (bytes <= 0 || !read_text(text, (size_t)bytes, id, &seen))
        return w;
    memcpy(w.id, id, sizeof w.id);
    w.says = strcmp(id, j->id) != 0 ? WITNESS_OTHER : compare(j->commits(j), seen);
    return w;
}

#define RAISE "Raise the floor above every job that was given (bridge floor JOB CONFIG), then start again"

void witness_admit(const char *path, struct journal *j)
{
    static const char *const why[] = {
        [WITNESS_MISSING] = "it is not there. A host that is new gets one by `bridge join`. Else: " RAISE,
        [WITNESS_DAMAGED] = "it can not be read to its last word. " RAISE,
        [WITNESS_OTHER] = "it is of another journal. " RAISE,
        [WITNESS_NEWER] = "it has seen more commits: the journal is an old copy. " RAISE,
        [WITNESS_AGREES] = NULL,
    };
    struct witness w = witness_ask(path, j);
    if (w.says == WITNESS_OTHER && j->knew(j, w.id)) {
        log_line(LOG_WARN, "witness", TEXT("what", path), TEXT("why", "another host raised the floor since this one ran; it goes on with the journal"));
        return;
    }
    if (why[w.says] != NULL)
        log_and_exit(EXIT_REFUSED, "witness", path, why[w.says]);
}

int folder_sync(const char *path)
{
    char copy[512];
    int folder, good;
    snprintf(copy, sizeof copy, "%s", path);
    folder = open(dirname(copy), O_RDONLY);
    good = folder >= 0 && fsync(folder) == 0;
    if (folder >= 0)
        close(folder);
    return good;
}

void witness_write(const char *path, const char *id, uint64_t commits)
{
    char text[WITNESS_TEXT], beside[512];
    int n = text_of(text, id, commits), file, good;
    snprintf(beside, sizeof beside, "%s.new", path);
    file = open(beside, O_WRONLY | O_CREAT | O_TRUNC, 0600);
    good = file >= 0 && write(file, text, (size_t)n) == n && fsync(file) == 0;
    if (file >= 0)
        close(file);
    if (!good || rename(beside, path) != 0 || !folder_sync(path))
        log_and_exit(EXIT_JOURNAL, "witness", path, "can not be written");
}
