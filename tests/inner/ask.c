/*
 * Asks the card's calls of the CPDLC message, for tests/inner/run. A line of standard input is a question:
 *
 *     r DIRECTION COUNT BITS MESSAGE TEXT    reads BITS into a message range and a text of so many bytes
 *     w DIRECTION MESSAGE TEXT OUT           writes MESSAGE and TEXT into a buffer of so many bytes
 *
 * Bytes are in hexadecimal, `-` for none. The answer is the number, what was written, and `kept` where every other lent
 * byte is as it was, `lost` where one is not:
 *
 *     NUMBER MESSAGE TEXT kept               of a reading that is not refused
 *     NUMBER OUT kept                        of a writing that is not refused
 *     NUMBER kept                            of a refusal
 *
 * Each lent range ends where an unreadable page begins, and bytes before it are compared too.
 */
#define _DEFAULT_SOURCE
#include <inttypes.h>
#include <stdio.h>
#include <stdlib.h>
#include <string.h>

#include "../lib/guard.h"
#include "peatribbon.h"

#define PLACE 4096u /* bytes for a range; one page */
#define BESIDE 32u  /* bytes before a range that are compared */
#define MOST (PLACE - BESIDE)

/* a lent range and what it was before the call */
struct range {
    uint8_t *end, *at;
    size_t len;
    uint8_t before[PLACE];
};

static struct range bits, message, text, out;

static void make(struct range *r) { r->end = guarded_end(PLACE); }

/* the range, of so many bytes, which hold other numbers at each question */
static void lend(struct range *r, size_t len)
{
    static uint64_t n = 1;
    size_t i;
    if (len > MOST)
        exit(2);
    r->len = len;
    r->at = len > 0 ? r->end - len : NULL;
    for (i = len + BESIDE; i > 0; i--) {
        n = n * UINT64_C(6364136223846793005) + 1442695040888963407;
        *(r->end - i) = (uint8_t)(n >> 56);
    }
}

static void keep(struct range *r) { memcpy(r->before, r->end - PLACE, PLACE); }

/* all but the first n bytes of the range are as they were, also those before it */
static int kept(const struct range *r, size_t n)
{
    size_t begin = PLACE - r->len;
    return n <= r->len && memcmp(r->end - PLACE, r->before, begin) == 0 && memcmp(r->end - r->len + n, r->before + begin + n, r->len - n) == 0;
}

static char word[2 * PLACE + 2];

static const char *next_word(void)
{
    if (scanf("%8193s", word) != 1)
        exit(2);
    return word;
}

static uint64_t next_number(void) { return strtoull(next_word(), NULL, 10); }

static void next_bytes(struct range *r)
{
    size_t i;
    lend(r, strcmp(next_word(), "-") == 0 ? 0 : strlen(word) / 2);
    for (i = 0; i < r->len; i++) {
        char pair[3] = {word[2 * i], word[2 * i + 1], 0};
        r->at[i] = (uint8_t)strtoul(pair, NULL, 16);
    }
}

static void print_bytes(const struct range *r, size_t n)
{
    size_t i;
    for (i = 0; i < n && i < r->len; i++)
        printf("%02x", r->at[i]);
    printf("%s ", i == 0 ? "-" : "");
}

static void read_one(void)
{
    uint64_t direction = next_number(), count = next_number();
    struct peat_message_answer n;
    size_t characters = 0, written = 0;
    next_bytes(&bits);
    lend(&message, (size_t)next_number());
    lend(&text, (size_t)next_number());
    keep(&bits), keep(&message), keep(&text);
    n = peat_read_message(direction, bits.at, bits.len, count, message.at, message.len, text.at, text.len);
    printf("%" PRIu64 " ", n.word);
    if (peat_refusal(n) == PEAT_TAKEN) {
        characters = peat_message_characters(n);
        written = message.len;
        print_bytes(&message, written);
        print_bytes(&text, characters);
    }
    printf("%s\n", kept(&bits, 0) && kept(&message, written) && kept(&text, characters) ? "kept" : "lost");
}

static void write_one(void)
{
    uint64_t direction = next_number();
    struct peat_written_message n;
    size_t bytes = 0;
    next_bytes(&message);
    next_bytes(&text);
    lend(&out, (size_t)next_number());
    keep(&message), keep(&text), keep(&out);
    n = peat_write_message(direction, message.at, message.len, text.at, text.len, out.at, out.len);
    printf("%" PRIu64 " ", n.word);
    if (peat_refusal(n) == PEAT_TAKEN) {
        bytes = peat_message_bytes(n);
        print_bytes(&out, bytes);
    }
    printf("%s\n", kept(&message, 0) && kept(&text, 0) && kept(&out, bytes) ? "kept" : "lost");
}

int main(void)
{
    char what[2];
    make(&bits), make(&message), make(&text), make(&out);
    while (scanf("%1s", what) == 1) {
        if (what[0] == 'r')
            read_one();
        else if (what[0] == 'w')
            write_one();
        else
            return 2;
    }
    return 0;
}
