/*
 * Words to systemd: a datagram to the socket that the environment names in NOTIFY_SOCKET. Where it names none, nothing
 * happens.
 */
#ifndef NOTIFY_H
#define NOTIFY_H

#include <stdint.h>

/* "READY=1", "WATCHDOG=1", "STOPPING=1", "STATUS=.." */
void notify(const char *word);

/* how often the watchdog wants a word, ms; 0: it is off */
uint64_t notify_period(void);

#endif
