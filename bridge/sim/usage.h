/*
 * The words that every program knows: --help and --version. Another word that begins so, alone, is none.
 */
#ifndef USAGE_H
#define USAGE_H

#include <stdio.h>
#include <stdlib.h>
#include <string.h>

#include "peatribbon.h"

static inline void know_words(int argc, char **argv, const char *name, const char *usage)
{
    int is_help = argc == 2 && strcmp(argv[1], "--help") == 0, is_version = argc == 2 && strcmp(argv[1], "--version") == 0;
    if (argc != 2 || strncmp(argv[1], "--", 2) != 0)
        return;
    if (is_version)
        exit(printf("%s %s\n", name, PEAT_VERSION) < 0 || fflush(stdout) != 0 ? 2 : 0);
    fprintf(is_help ? stdout : stderr, "%s\n", usage);
    exit(is_help && fflush(stdout) == 0 ? 0 : 2);
}

#endif
