/*
 * Makes the calls of the card's archive that it reads, one a line, and prints a line for each.
 *
 * A call: its number in enum which (tests/card/model.h), the record in hexadecimal digits, the dialogue number, twelve codes, the bits of the message or
 * PEAT_NONE, whether there is user data, and the user data in hexadecimal digits or -.
 * What is printed: refusal, record, primitive invoked, its parameter, security and version, primitive told, its parameter and whether it is the DSC- one,
 * bits of message data; the APDU's kind and number (9 and 0: none), and its bytes or -.
 */
#include <inttypes.h>
#include <stdio.h>
#include <stdlib.h>
#include <string.h>

#include "calls.h"

static void fail(const char *why)
{
    fprintf(stderr, "calls: %s\n", why);
    exit(2);
}

static const char *word(void)
{
    const char *at = strtok(NULL, " \n");
    if (at == NULL)
        fail("a line is too short");
    return at;
}

static uint64_t number(void) { return strtoull(word(), NULL, 10); }

static size_t bytes(const char *digits, uint8_t *into, size_t most)
{
    size_t n = 0;
    unsigned value;
    if (strcmp(digits, "-") == 0)
        return 0;
    for (; digits[0] != 0 && digits[1] != 0; digits += 2) {
        if (n == most || sscanf(digits, "%2x", &value) != 1)
            fail("no bytes");
        into[n++] = (uint8_t)value;
    }
    return n;
}

static void print_bytes(const uint8_t *at, size_t n)
{
    putchar(' ');
    if (n == 0)
        putchar('-');
    while (n-- > 0)
        printf("%02x", *at++);
}

int main(void)
{
    static uint8_t rec[PEAT_RECORD_BYTES], user[4096], first[PEAT_BUFFER_LEAST], second[PEAT_BUFFER_LEAST];
    static uint8_t message[] = {0xA5}, plain_message[8], check[] = {0}; /* of type 2: dM0 or uM0 of 1996-01-01, and their elements, are zeros */
    static char line[16384];
    while (fgets(line, sizeof line, stdin) != NULL) {
        struct args a;
        struct peat_answer said;
        struct peat_apdu_answer apdu = {9u << PEAT_APDU_KIND_AT};
        size_t i, sent;
        unsigned long which = strtoul(strtok(line, " \n"), NULL, 10);
        memset(&a, 0, sizeof a);
        if (which > D_P_ABORT_INDICATION || bytes(word(), rec, sizeof rec) != sizeof rec)
            fail("no call, or no record");
        a.number = number();
        for (i = 0; i < sizeof a.n / sizeof *a.n; i++)
            a.n[i] = number();
        a.message = number();
        a.given = number();
        a.bytes.at = user, a.bytes.len = bytes(word(), user, sizeof user);
        a.rec.at = rec, a.rec.len = sizeof rec;
        a.msgs.at = message, a.msgs.len = sizeof message;
        if (peat_record_type(rec) == PEAT_PLAIN)
            a.msgs.at = plain_message, a.msgs.len = sizeof plain_message;
        a.checks.at = check, a.checks.len = sizeof check;
        a.first.at = first, a.first.len = sizeof first;
        a.second.at = second, a.second.len = sizeof second;
        said = AS(peat_answer, card_call((enum which)which, &a));
        sent = peat_refusal(said) == PEAT_TAKEN ? peat_apdu_bytes(said) : 0;
        if (sent > 0)
            apdu = peat_read_apdu(rec[PEAT_RECORD_SIDE], first, sent);
        if (peat_refusal(apdu) != PEAT_TAKEN)
            fail("what was sent is no APDU");
        printf("%u", peat_refusal(said));
        print_bytes(rec, sizeof rec);
        printf(" %u %u %u %u %u %u %u %u %u %u", peat_invoked(said), peat_invoked_parameter(said), peat_invoked_security(said), peat_version(said), peat_told(said),
            peat_told_parameter(said), peat_told_dsc(said), peat_data_bits(said), peat_apdu_kind(apdu), peat_apdu_number(apdu));
        print_bytes(first, sent);
        putchar('\n');
        fflush(stdout);
    }
    return 0;
}
