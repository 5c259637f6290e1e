/*
 * Message identification numbers (docs/HOST.md, duty 11). A job's message has its number from the book of its dialogue, which is part of what is
 * kept of the dialogue and goes into the same commit as the record. A number is closed by the reply that came down or by a position's word
 * (words.h), and all of them when a dialogue opens.
 */
#ifndef BOOK_H
#define BOOK_H

#include <stdint.h>

#include "peatribbon.h"

#define BOOK_NONE PEAT_BOOK_NUMBERS /* no number */

void book_empty(uint8_t *book);

/* how many numbers are open */
unsigned book_open_numbers(const uint8_t *book);

/* Opens the lowest free number for a job, or this one where it is free; BOOK_NONE: all are open, or this one is. */
unsigned book_open(uint8_t *book, uint64_t job);
unsigned book_open_this(uint8_t *book, uint64_t job, unsigned number);

/* 1: it was open, and is closed now */
int book_close(uint8_t *book, unsigned number);

/* Closes the numbers of these jobs; how many were open. */
unsigned book_close_jobs(uint8_t *book, uint64_t first, uint64_t last);

/* the job that a number is open for; 0: it is not open */
static inline uint64_t book_job(const uint8_t *book, unsigned number) { return peat_book_job(book, PEAT_BOOK_BYTES, number); }

#endif
