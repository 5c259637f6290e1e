/*
 * A disk that forgets what was not synced, for SQLite: after a power cut each file has what it had at its last sync. And a
 * disk that fails: from some sync on, every sync does.
 */
#ifndef DISK_H
#define DISK_H

/* From now on SQLite's files are on such a disk. fail_at: which sync fails, from 1 on; 0: none. */
void disk_install(unsigned fail_at);

/* The power is cut and comes back: the files of a database are as they were synced. */
void disk_power_cut(const char *database);

#endif
