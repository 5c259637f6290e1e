/*
 * Places for lent ranges. Each ends at a page that can not be touched, and begins behind one: a call that reads or writes a byte behind a
 * range that ends there stops the test. No sanitizer sees the card, which is linked as machine code.
 *
 * Define _DEFAULT_SOURCE before the first header where the standard is C99.
 */
#ifndef GUARD_H
#define GUARD_H

#include <stddef.h>
#include <stdint.h>
#include <stdlib.h>
#include <sys/mman.h>
#include <unistd.h>

#define GUARD_BYTES 65536u /* of each side; no machine has larger pages */

/* The end of a place of so many bytes, a multiple of a page's. What is in it is zeros. */
static inline uint8_t *guarded_end(size_t bytes)
{
    uint8_t *at = mmap(NULL, GUARD_BYTES + bytes + GUARD_BYTES, PROT_NONE, MAP_PRIVATE | MAP_ANONYMOUS, -1, 0);
    if (bytes % (size_t)sysconf(_SC_PAGESIZE) != 0 || at == MAP_FAILED || mprotect(at + GUARD_BYTES, bytes, PROT_READ | PROT_WRITE) != 0)
        exit(2);
    return at + GUARD_BYTES + bytes;
}

#endif
