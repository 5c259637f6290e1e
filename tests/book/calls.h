/* The calls of a book by number. */
#ifndef CALLS_H
#define CALLS_H

#include "../lib/answers.h"
#include "model.h"

static const char *const names[CALLS] = {"peat_book_empty", "peat_book_open", "peat_book_close", "peat_book_count", "peat_book_job"};

static uint64_t card_call(enum call c, uint8_t *bytes, size_t len, uint64_t n)
{
    switch (c) {
    case EMPTY: return WORD(peat_book_empty(bytes, len));
    case OPEN: return WORD(peat_book_open(bytes, len, n));
    case CLOSE: return WORD(peat_book_close(bytes, len, n));
    case COUNT: return WORD(peat_book_count(bytes, len));
    default: return peat_book_job(bytes, len, n);
    }
}

#endif
