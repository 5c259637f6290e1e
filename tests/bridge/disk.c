#include "disk.h"

#include <sqlite3.h>
#include <stdio.h>
#include <stdlib.h>
#include <string.h>
#include <unistd.h>

#define NAME 300

/* A file: SQLite's own follows behind this one. */
struct file {
    sqlite3_file base;
    char name[NAME]; /* empty: a temporary one */
    sqlite3_file *real;
};

static sqlite3_vfs *under;
static unsigned syncs, failing;

#define REAL(f) (((struct file *)(f))->real)

/* Copies what a file has to NAME.synced, so that the copy is whole at any time. */
static void copy(const char *from, const char *to)
{
    char beside[NAME + 16], block[65536];
    FILE *in = fopen(from, "rb"), *out;
    size_t n;
    if (in == NULL)
        return;
    snprintf(beside, sizeof beside, "%s.copy", to);
    out = fopen(beside, "wb");
    if (out == NULL)
        abort();
    while ((n = fread(block, 1, sizeof block, in)) > 0)
        if (fwrite(block, 1, n, out) != n)
            abort();
    fclose(in);
    if (fclose(out) != 0 || rename(beside, to) != 0)
        abort();
}

static int disk_sync(sqlite3_file *f, int flags)
{
    struct file *file = (struct file *)f;
    char synced[NAME + 16];
    int done;
    if (failing != 0 && ++syncs >= failing)
        return SQLITE_IOERR_FSYNC;
    done = REAL(f)->pMethods->xSync(REAL(f), flags);
    if (file->name[0] != '\0') {
        snprintf(synced, sizeof synced, "%s.synced", file->name);
        copy(file->name, synced);
    }
    return done;
}

static int disk_close(sqlite3_file *f) { return REAL(f)->pMethods->xClose(REAL(f)); }
static int disk_read(sqlite3_file *f, void *to, int n, sqlite3_int64 at) { return REAL(f)->pMethods->xRead(REAL(f), to, n, at); }
static int disk_write(sqlite3_file *f, const void *from, int n, sqlite3_int64 at) { return REAL(f)->pMethods->xWrite(REAL(f), from, n, at); }
static int disk_truncate(sqlite3_file *f, sqlite3_int64 n) { return REAL(f)->pMethods->xTruncate(REAL(f), n); }
static int disk_size(sqlite3_file *f, sqlite3_int64 *n) { return REAL(f)->pMethods->xFileSize(REAL(f), n); }
static int disk_lock(sqlite3_file *f, int how) { return REAL(f)->pMethods->xLock(REAL(f), how); }
static int disk_unlock(sqlite3_file *f, int how) { return REAL(f)->pMethods->xUnlock(REAL(f), how); }
static int disk_reserved(sqlite3_file *f, int *out) { return REAL(f)->pMethods->xCheckReservedLock(REAL(f), out); }
static int disk_control(sqlite3_file *f, int what, void *with) { return REAL(f)->pMethods->xFileControl(REAL(f), what, with); }
static int disk_sector(sqlite3_file *f) { return REAL(f)->pMethods->xSectorSize(REAL(f)); }
static int disk_device(sqlite3_file *f) { return REAL(f)->pMethods->xDeviceCharacteristics(REAL(f)); }

/* Without the calls for shared memory: a journal that is locked for one process needs none. */
static const sqlite3_io_methods methods = {
    .iVersion = 1,
    .xClose = disk_close,
    .xRead = disk_read,
    .xWrite = disk_write,
    .xTruncate = disk_truncate,
    .xSync = disk_sync,
    .xFileSize = disk_size,
    .xLock = disk_lock,
    .xUnlock = disk_unlock,
    .xCheckReservedLock = disk_reserved,
    .xFileControl = disk_control,
    .xSectorSize = disk_sector,
    .xDeviceCharacteristics = disk_device,
};

static int disk_open(sqlite3_vfs *v, const char *name, sqlite3_file *f, int flags, int *out)
{
    struct file *file = (struct file *)f;
    int done;
    (void)v;
    memset(file, 0, sizeof *file);
    file->real = (sqlite3_file *)(file + 1);
    snprintf(file->name, sizeof file->name, "%s", name != NULL ? name : "");
    done = under->xOpen(under, name, file->real, flags, out);
    if (done == SQLITE_OK)
        file->base.pMethods = &methods;
    return done;
}

/* A file that is deleted is gone at once, and its copy with it. */
static int disk_delete(sqlite3_vfs *v, const char *name, int sync)
{
    char synced[NAME + 16];
    (void)v;
    snprintf(synced, sizeof synced, "%s.synced", name);
    unlink(synced);
    return under->xDelete(under, name, sync);
}

void disk_install(unsigned fail_at)
{
    static sqlite3_vfs over;
    syncs = 0;
    failing = fail_at;
    if (under != NULL)
        return;
    under = sqlite3_vfs_find(NULL);
    over = *under;
    over.zName = "forgetful";
    over.szOsFile = (int)sizeof(struct file) + under->szOsFile;
    over.xOpen = disk_open;
    over.xDelete = disk_delete;
    if (sqlite3_vfs_register(&over, 1) != SQLITE_OK)
        abort();
}

void disk_power_cut(const char *database)
{
    static const char *const parts[] = {"", "-wal"};
    char name[NAME], synced[NAME + 16];
    int i;
    for (i = 0; i < 2; i++) {
        snprintf(name, sizeof name, "%s%s", database, parts[i]);
        snprintf(synced, sizeof synced, "%s.synced", name);
        unlink(name);
        copy(synced, name);
    }
}
