/*
 * The files of the page, as they stand in bridge/page/: the build packs them into the program (Makefile, page_files.c).
 */
#ifndef PAGE_FILES_H
#define PAGE_FILES_H

#include <stddef.h>

struct page_file {
    const char *path, *type; /* path NULL: the last one */
    const unsigned char *bytes;
    size_t count;
};

extern const struct page_file page_files[];

#endif
