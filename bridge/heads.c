#include "heads.h"

#include <string.h>

int heads_add(char *heads, size_t room, const char *name, const char *value)
{
    size_t used = strlen(heads), n = strlen(name), v = strlen(value);
    if (used + n + v + 3 > room || strpbrk(value, "\n") != NULL)
        return 0;
    memcpy(heads + used, name, n);
    heads[used + n] = '=';
    memcpy(heads + used + n + 1, value, v);
    memcpy(heads + used + n + 1 + v, "\n", 2);
    return 1;
}

const char *heads_find(const char *heads, const char *name, size_t *length)
{
    size_t n = strlen(name);
    const char *line = heads;
    for (; *line != '\0'; line += strcspn(line, "\n"), line += *line == '\n')
        if (strncmp(line, name, n) == 0 && line[n] == '=') {
            *length = strcspn(line + n + 1, "\n");
            return line + n + 1;
        }
    return NULL;
}

int heads_take(const char *heads, const char *name, char *value, size_t room)
{
    size_t n = 0;
    const char *at = heads_find(heads, name, &n);
    if (at == NULL || n >= room)
        return 0;
    memcpy(value, at, n);
    value[n] = '\0';
    return 1;
}
