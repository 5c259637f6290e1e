/*
 * A model of the book of message identification numbers, written from document 02 (E2) and the header, with no code of the
 * card. It knows the jobs of the 64 numbers and nothing else: bytes are taken apart into jobs, and the bytes of jobs are
 * written whole. Bytes are a book if they are those of the jobs that they say.
 */
#ifndef MODEL_H
#define MODEL_H

#include <stddef.h>
#include <stdint.h>

#define MODEL_NUMBERS 64
#define MODEL_BYTES 520

enum call { EMPTY, OPEN, CLOSE, COUNT, JOB, CALLS };

/* the answer of a call with this number (a job or a message identification number), and the bytes after it */
uint64_t model_call(enum call c, uint8_t *bytes, size_t len, uint64_t n);

/* whether bytes are a book, and how many numbers are open in it */
int model_is_book(const uint8_t *bytes, size_t len, unsigned *open);

#endif
