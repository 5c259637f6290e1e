/*
 * The card's book, answered by the model of tests/book, which shares no code with the card (see model_card.c). Both models have a function of one name:
 * this one is compiled under another.
 */
#define model_call book_model_call
#define model_is_book book_model_is_book
#include "../book/model.c"
#include "peatribbon.h"

/* A model's range is lent for writing; what the header lends as const is only read. */
static uint8_t *lent(const uint8_t *at) { return (uint8_t *)(uintptr_t)at; }

struct peat_outcome peat_book_empty(uint8_t *book, size_t book_len) { return (struct peat_outcome){model_call(EMPTY, book, book_len, 0)}; }
struct peat_open_answer peat_book_open(uint8_t *book, size_t book_len, uint64_t job) { return (struct peat_open_answer){model_call(OPEN, book, book_len, job)}; }
struct peat_outcome peat_book_close(uint8_t *book, size_t book_len, uint64_t number) { return (struct peat_outcome){model_call(CLOSE, book, book_len, number)}; }
struct peat_count_answer peat_book_count(const uint8_t *book, size_t book_len) { return (struct peat_count_answer){model_call(COUNT, lent(book), book_len, 0)}; }
uint64_t peat_book_job(const uint8_t *book, size_t book_len, uint64_t number) { return model_call(JOB, lent(book), book_len, number); }
