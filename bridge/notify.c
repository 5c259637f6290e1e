#include "notify.h"

#include <stddef.h>
#include <stdlib.h>
#include <string.h>
#include <sys/socket.h>
#include <sys/un.h>
#include <unistd.h>

void notify(const char *word)
{
    const char *path = getenv("NOTIFY_SOCKET");
    struct sockaddr_un to;
    int s;
    if (path == NULL || (path[0] != '/' && path[0] != '@') || strlen(path) >= sizeof to.sun_path)
        return;
    memset(&to, 0, sizeof to);
    to.sun_family = AF_UNIX;
    strcpy(to.sun_path, path);
    if (path[0] == '@')
        to.sun_path[0] = '\0'; /* a name outside the file system */
    s = socket(AF_UNIX, SOCK_DGRAM, 0);
    if (s < 0)
        return;
    if (sendto(s, word, strlen(word), MSG_NOSIGNAL | MSG_DONTWAIT, (const struct sockaddr *)&to,
            (socklen_t)(offsetof(struct sockaddr_un, sun_path) + strlen(path))) < 0) {
        /* systemd restarts what it does not hear of */
    }
    close(s);
}

uint64_t notify_period(void)
{
    const char *us = getenv("WATCHDOG_USEC"), *pid = getenv("WATCHDOG_PID");
    if (us == NULL || (pid != NULL && strtoull(pid, NULL, 10) != (unsigned long long)getpid()))
        return 0;
    return strtoull(us, NULL, 10) / 2000u; /* twice in the time that it allows */
}
