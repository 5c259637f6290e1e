#define _POSIX_C_SOURCE 200809L
#include "journal.h"

#include <fcntl.h>
#include <stdio.h>
#include <stdlib.h>
#include <string.h>
#include <sys/stat.h>
#include <unistd.h>

/* ---- a change in bytes */

enum { COUNT = 0, RECORD = 8, JOB = RECORD + PEAT_RECORD_BYTES, OUTCOME = JOB + 8, OVER, CONFIRMED, BOOK = CONFIRMED + 2, NUMBER, SUM, CHANGE_BYTES = SUM + 4 };

static void put(uint8_t *at, uint64_t n, int bytes)
{
    while (bytes-- > 0)
        *at++ = (uint8_t)(n >> 8 * bytes);
}

static uint64_t get(const uint8_t *at, int bytes)
{
    uint64_t n = 0;
    while (bytes-- > 0)
        n = n << 8 | *at++;
    return n;
}

/* CRC-32 as Ethernet has it: every change of one to three bits, and every torn block of 32, is noticed */
static uint32_t checksum(const uint8_t *at, size_t bytes)
{
    uint32_t sum = UINT32_MAX;
    int i;
    while (bytes-- > 0) {
        sum ^= *at++;
        for (i = 0; i < 8; i++)
            sum = sum >> 1 ^ (sum & 1 ? UINT32_C(0xEDB88320) : 0);
    }
    return ~sum;
}

static void change_out(uint8_t *b, uint64_t count, const struct change *c)
{
    put(b + COUNT, count, 8);
    memcpy(b + RECORD, c->rec, PEAT_RECORD_BYTES);
    put(b + JOB, c->job, 8);
    put(b + OUTCOME, c->outcome, 1);
    put(b + OVER, c->over, 1);
    put(b + CONFIRMED, c->confirmed, 2);
    put(b + BOOK, c->book, 1);
    put(b + NUMBER, c->number, 1);
    put(b + SUM, checksum(b, SUM), 4);
}

/* whether these bytes are change `count` */
static int change_in(const uint8_t *b, uint64_t count, struct change *c)
{
    memcpy(c->rec, b + RECORD, PEAT_RECORD_BYTES);
    c->job = get(b + JOB, 8);
    c->outcome = b[OUTCOME];
    c->over = (enum fate)b[OVER];
    c->confirmed = (unsigned)get(b + CONFIRMED, 2);
    c->book = (enum numbering)b[BOOK];
    c->number = b[NUMBER];
    return get(b + SUM, 4) == checksum(b, SUM) && get(b + COUNT, 8) == count;
}

/* ---- the file */

static int write_all(int file, const uint8_t *b, size_t bytes)
{
    while (bytes > 0) {
        ssize_t n = write(file, b, bytes);
        if (n <= 0)
            return -1;
        b += n;
        bytes -= (size_t)n;
    }
    return 0;
}

int journal_append(struct journal *j, const struct change *c, void (*power)(void *), void *with)
{
    uint8_t b[CHANGE_BYTES];
    change_out(b, j->changes, c);
    if (write_all(j->file, b, RECORD + 5) != 0)
        return -1;
    power(with);
    if (write_all(j->file, b + RECORD + 5, sizeof b - RECORD - 5) != 0)
        return -1;
    /* here a host that has to outlive its machine calls fdatasync(j->file) */
    j->changes++;
    return 0;
}

static void power_is_steady(void *with) { (void)with; }

int journal_begin(struct journal *j, const char *folder, const char *name, const struct memory *m)
{
    struct change first = no_change(m);
    int n = snprintf(j->path, sizeof j->path, "%s/%s", folder, name);
    if (n < 0 || (size_t)n >= sizeof j->path)
        return -1;
    j->file = open(j->path, O_RDWR | O_CREAT | O_EXCL | O_APPEND, 0600);
    j->changes = 0;
    return j->file < 0 ? -1 : journal_append(j, &first, power_is_steady, NULL);
}

/* the whole file, which the caller frees */
static uint8_t *read_whole(int file, size_t *bytes)
{
    struct stat about;
    uint8_t *b;
    size_t at = 0;
    if (fstat(file, &about) != 0 || (b = malloc((size_t)about.st_size + 1)) == NULL)
        return NULL;
    while (at < (size_t)about.st_size) {
        ssize_t n = pread(file, b + at, (size_t)about.st_size - at, (off_t)at);
        if (n <= 0) {
            free(b);
            return NULL;
        }
        at += (size_t)n;
    }
    *bytes = at;
    return b;
}

enum loaded journal_load(struct journal *j, struct memory *m)
{
    size_t bytes, at = 0;
    uint8_t *b = read_whole(j->file, &bytes);
    struct change c;
    if (b == NULL)
        return NOT_LOADED;
    for (j->changes = 0; bytes - at >= CHANGE_BYTES && change_in(b + at, j->changes, &c); at += CHANGE_BYTES, j->changes++) {
        if (j->changes == 0)
            memory_begin(m, c.rec);
        memory_apply(m, &c);
    }
    free(b);
    if (j->changes == 0 || bytes - at >= CHANGE_BYTES || (bytes - at != 0 && ftruncate(j->file, (off_t)at) != 0))
        return NOT_LOADED;
    return bytes - at == 0 ? LOADED : LOADED_TORN;
}

void journal_end(struct journal *j)
{
    close(j->file);
    unlink(j->path);
}
