/*
 * Asks a card what it makes of APDUs, message data and envelopes, a line for each question of standard input:
 *
 *     apdu TYPE HEX       peat_read_apdu: the answer
 *     data HEX            peat_data_part of the message: the answer, and the bytes that it left
 *     deliver SIDE HEX    D-DATA indication to a record of that side in DIALOGUE: the answer, the record, the APDU, the message data
 *     envelope HEX        peat_read_envelope: the answer, and the job (0 where it is refused)
 *     mail HEX            the bytes one by one through peat_mail_take: the last answer, and how many were taken
 *
 * It is compiled with the header of the card that it asks, and prints `beside` where a call wrote a byte that it must leave.
 */
#include <stdio.h>
#include <stdlib.h>
#include <string.h>
#include "peatribbon.h"

#define ROOM 8192u
#define FILLED 0xC3
#define EARLIER_RECORD 16 /* a record's bytes before it had a version and a dialogue number (document 02, E8 and E9) */

static uint8_t bytes[ROOM], first[ROOM], second[ROOM];
static size_t count;

static int taken(const char *hex)
{
    unsigned byte;
    for (count = 0; hex[0] != '\0' && hex[0] != '\n' && hex[0] != '-'; hex += 2) {
        if (count == ROOM || sscanf(hex, "%2x", &byte) != 1)
            return 0;
        bytes[count++] = (uint8_t)byte;
    }
    return 1;
}

static void show(const uint8_t *at, size_t n)
{
    putchar(' ');
    if (n == 0)
        putchar('-');
    while (n-- > 0)
        printf("%02x", *at++);
}

/* what a call left in a buffer that was filled before, and whether the rest is as it was */
static void show_left(const uint8_t *at, size_t n)
{
    size_t i;
    show(at, n);
    for (i = n; i < ROOM; i++)
        if (at[i] != FILLED) {
            printf(" beside");
            return;
        }
}

static void ask_apdu(uint64_t type) { printf("%llu", (unsigned long long)peat_read_apdu(type, bytes, count).word); }

static void ask_data(void)
{
    struct peat_part_answer n = peat_data_part(PEAT_PART_MESSAGE, bytes, count, first, ROOM);
    printf("%llu", (unsigned long long)n.word);
    show_left(first, peat_refusal(n) == PEAT_TAKEN ? peat_part_bytes(n) : 0);
}

static void ask_deliver(uint64_t side)
{
    uint8_t rec[PEAT_RECORD_BYTES] = {0};
    struct peat_answer n;
    rec[0] = (uint8_t)side, rec[1] = PEAT_DIALOGUE, rec[4] = 1, rec[PEAT_RECORD_VERSION] = 1;
    n = peat_d_data_indication(PEAT_ARRAY(rec), peat_record_number(rec), PEAT_USER_DATA, bytes, count, first, ROOM, second, ROOM);
    printf("%llu", (unsigned long long)n.word);
    memmove(rec + PEAT_RECORD_VERSION, rec + PEAT_RECORD_HIGHEST, 8); /* as the earlier one stood: a zero, and the highest job */
    show(rec, EARLIER_RECORD);
    show_left(first, peat_apdu_bytes(n));
    show_left(second, peat_data_bytes(n));
}

static void ask_envelope(void)
{
    uint8_t job[PEAT_JOB_BYTES] = {0};
    struct peat_envelope_answer n = peat_read_envelope(bytes, count, PEAT_ARRAY(job));
    printf("%llu %llu", (unsigned long long)n.word, (unsigned long long)peat_job_number(job));
}

static void ask_mail(void)
{
    static uint8_t mail[PEAT_MAIL_BYTES];
    uint8_t job[PEAT_JOB_BYTES];
    struct peat_envelope_answer n = {0};
    size_t at;
    peat_mail_fresh(mail, sizeof mail);
    for (at = 0; at < count; at++) {
        n = peat_mail_take(mail, sizeof mail, bytes + at, 1, PEAT_ARRAY(job));
        if (peat_refusal(n) != PEAT_TAKEN)
            break;
    }
    printf("%llu %lu", (unsigned long long)n.word, (unsigned long)at);
}

int main(void)
{
    static char line[2 * ROOM + 64];
    char word[16];
    while (fgets(line, sizeof line, stdin) != NULL) {
        unsigned long number = 0;
        int at = 0;
        if (sscanf(line, "%15s %n", word, &at) != 1)
            return 2;
        if (strcmp(word, "apdu") == 0 || strcmp(word, "deliver") == 0)
            number = strtoul(line + at, NULL, 10), at += 2;
        memset(first, FILLED, sizeof first), memset(second, FILLED, sizeof second);
        if (!taken(line + at))
            return 2;
        if (strcmp(word, "apdu") == 0)
            ask_apdu(number);
        else if (strcmp(word, "data") == 0)
            ask_data();
        else if (strcmp(word, "deliver") == 0)
            ask_deliver(number);
        else if (strcmp(word, "envelope") == 0)
            ask_envelope();
        else if (strcmp(word, "mail") == 0)
            ask_mail();
        else
            return 2;
        putchar('\n');
    }
    return 0;
}
