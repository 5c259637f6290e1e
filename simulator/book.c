#include "book.h"

#include <string.h>

#include "account.h"

unsigned book_next(const uint8_t *book, uint64_t job)
{
    uint8_t copy[PEAT_BOOK_BYTES];
    struct peat_open_answer answer;
    memcpy(copy, book, sizeof copy);
    answer = peat_book_open(PEAT_ARRAY(copy), job);
    if (peat_refusal(answer) == PEAT_TAKEN)
        return peat_opened_number(answer);
    must(peat_refusal(answer) == PEAT_ALL_OPEN ? PEAT_TAKEN : peat_refusal(answer));
    return NO_NUMBER;
}

/* ---- the watch */

static unsigned lowest_free(const struct book_watch *w)
{
    unsigned n = 0;
    while (n < PEAT_BOOK_NUMBERS && w->job[n] != 0)
        n++;
    return n;
}

void book_watch_begins(struct book_watch *w) { memset(w, 0, sizeof *w); }

void book_watch_gives(struct book_watch *w, unsigned number, uint64_t job, unsigned open)
{
    account.numbers++;
    if (number >= PEAT_BOOK_NUMBERS) {
        account.number_astray++;
        return;
    }
    account.number_twice += w->job[number] != 0;
    account.number_not_lowest += number != lowest_free(w);
    w->job[number] = job;
    if (open > account.numbers_most)
        account.numbers_most = open;
}

void book_watch_all_open(const struct book_watch *w)
{
    account.all_open++;
    account.number_astray += lowest_free(w) < PEAT_BOOK_NUMBERS;
}

uint64_t book_watch_job(const struct book_watch *w, const uint8_t *book, unsigned number)
{
    uint64_t job = peat_book_job(book, PEAT_BOOK_BYTES, number);
    return number < PEAT_BOOK_NUMBERS && w->job[number] == job ? job : 0;
}

void book_watch_replied(struct book_watch *w, unsigned number)
{
    if (number >= PEAT_BOOK_NUMBERS || w->job[number] == 0) {
        account.number_astray++;
        return;
    }
    account.numbers_closed++;
    w->job[number] = 0;
}

/* ---- what a flight deck owes */

void reply_owed(struct book_replies *r, unsigned number)
{
    if (r->owed < PEAT_BOOK_NUMBERS)
        r->number[(r->oldest + r->owed++) % PEAT_BOOK_NUMBERS] = (uint8_t)number;
}

unsigned reply_next(const struct book_replies *r) { return r->owed > 0 ? r->number[r->oldest] : NO_NUMBER; }

void reply_sent(struct book_replies *r)
{
    if (r->owed == 0)
        return;
    r->oldest = (r->oldest + 1) % PEAT_BOOK_NUMBERS;
    r->owed--;
}
