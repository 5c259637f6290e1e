#include "book.h"

#include <string.h>

#include "log.h"

#define BOOK book, PEAT_BOOK_BYTES

/* The book is the bridge's own, and was looked at when it was loaded. */
static unsigned must(const char *call, unsigned refusal, unsigned allowed)
{
    if (refusal != PEAT_TAKEN && refusal != allowed)
        log_and_exit(EXIT_JOURNAL, "card", call, "the book is refused");
    return refusal;
}

void book_empty(uint8_t *book) { must("peat_book_empty", peat_refusal(peat_book_empty(BOOK)), PEAT_TAKEN); }

unsigned book_open_numbers(const uint8_t *book)
{
    struct peat_count_answer answer = peat_book_count(BOOK);
    must("peat_book_count", peat_refusal(answer), PEAT_TAKEN);
    return peat_open_count(answer);
}

unsigned book_open(uint8_t *book, uint64_t job)
{
    struct peat_open_answer answer = peat_book_open(BOOK, job);
    return must("peat_book_open", peat_refusal(answer), PEAT_ALL_OPEN) == PEAT_TAKEN ? peat_opened_number(answer) : BOOK_NONE;
}

int book_close(uint8_t *book, unsigned number)
{
    return must("peat_book_close", peat_refusal(peat_book_close(BOOK, number)), PEAT_NOT_OPEN) == PEAT_TAKEN;
}

/* The card gives the lowest free number: those below the wanted one are opened on the way, and closed again. */
unsigned book_open_this(uint8_t *book, uint64_t job, unsigned number)
{
    uint8_t on_the_way[PEAT_BOOK_NUMBERS];
    unsigned n = 0, given;
    if (number >= PEAT_BOOK_NUMBERS || book_job(book, number) != 0)
        return BOOK_NONE;
    while ((given = book_open(book, job)) < number)
        on_the_way[n++] = (uint8_t)given;
    while (n > 0)
        book_close(book, on_the_way[--n]);
    return given;
}

unsigned book_close_jobs(uint8_t *book, uint64_t first, uint64_t last)
{
    unsigned n, closed = 0;
    for (n = 0; n < PEAT_BOOK_NUMBERS; n++) {
        uint64_t job = book_job(book, n);
        if (job != 0 && first <= job && job <= last)
            closed += (unsigned)book_close(book, n);
    }
    return closed;
}
