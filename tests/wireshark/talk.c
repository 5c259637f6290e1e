/*
 * Traffic of two cards for Wireshark, and beside it what each APDU is. Each entry goes into the capture, and a line to
 * standard output says what it must be shown as.
 *
 *     talk FILE PAD TYPE messages COUNT     COUNT messages by turns, in dialogues
 *     talk FILE PAD TYPE flipped COUNT      the same, one bit of each message flipped in the capture (not in what is printed)
 *     talk FILE PAD TYPE kinds              every kind of APDU, every abort reason; in type 2 starts, rejections and ends with a message and without
 *     talk FILE PAD TYPE forwards COUNT     COUNT forwards between two centres, each with its answer
 *     talk - 0 TYPE clearances              of each line "air N" or "ground N" of standard input: that clearance
 *
 * TYPE is the application type, 2 or 22. A line is the words that must be shown; or `message`, or `start` and its mode, with the message range and
 * the text in hexadecimal; or `nothing` for an entry without user data.
 */
#include <stdio.h>
#include <stdlib.h>
#include <string.h>

#include "capture.h"
#include "carrier.h"
#include "chance.h"
#include "clearance.h"
#include "peatribbon_names.h"

struct end {
    uint8_t rec[PEAT_RECORD_BYTES], apdu[PEAT_BUFFER_LEAST], data[PEAT_BUFFER_LEAST];
    unsigned side;
};

static struct end air, ground;
static int flips;
static unsigned type;

#define REC(e) PEAT_ARRAY((e)->rec)
#define BUFFERS(e) PEAT_BUFFERS((e)->apdu, (e)->data)

static struct end *other(struct end *e) { return e == &air ? &ground : &air; }

static void fresh(void)
{
    air.side = PEAT_AIR;
    ground.side = PEAT_GROUND;
    peat_fresh(REC(&air), PEAT_AIR, PEAT_NO_SECURITY, PEAT_FORWARDS_NOT, 1, type);
    peat_fresh(REC(&ground), PEAT_GROUND, PEAT_NO_SECURITY, PEAT_FORWARDS_NOT, 1, type);
}

/* What may not be refused ends the program. */
static void must(unsigned refusal)
{
    if (refusal != PEAT_TAKEN) {
        fprintf(stderr, "talk: a call is refused: %s\n", peat_refusal_name(refusal));
        exit(1);
    }
}

static struct peat_answer taken(struct peat_answer answer)
{
    must(peat_refusal(answer));
    return answer;
}

/* ---- entries */

static struct entry entry_of(const struct end *from, struct peat_answer answer)
{
    struct entry e;
    memset(&e, 0, sizeof e);
    e.primitive = peat_primitive_of(answer, from->rec);
    e.bits = peat_apdu_bits(answer);
    memcpy(e.apdu, from->apdu, e.primitive.user_data_len);
    return e;
}

static struct peat_answer arrives(struct end *to, const struct entry *e)
{
    return taken(peat_hand_over(REC(to), e->primitive, to == &air ? PEAT_FACILITY : PEAT_AIRCRAFT, e->apdu, BUFFERS(to)));
}

static int is_plain(void) { return type == PEAT_PLAIN; }

static const char *type_of(const struct end *from)
{
    return is_plain() ? (from == &air ? "AircraftPDUs" : "GroundPDUs") : from == &air ? "ProtectedAircraftPDUs" : "ProtectedGroundPDUs";
}

static void captured(const struct end *from, const struct entry *e) { capture_entry(0, from == &air, type, e); }

/* An entry goes into the capture and to the other end. What is shown of it is printed by the caller. */
static struct peat_answer carried(struct end *from, struct peat_answer answer)
{
    struct entry e = entry_of(from, taken(answer));
    captured(from, &e);
    return arrives(other(from), &e);
}

/* ---- what a line says of a message */

static void print_hex(const uint8_t *b, size_t n)
{
    size_t i;
    putchar(' ');
    if (n == 0)
        putchar('-');
    for (i = 0; i < n; i++)
        printf("%02x", b[i]);
}

static void print_message(const char *words, unsigned side, const struct clearance *c)
{
    if (c->bits == 0) {
        fputs("talk: a clearance is not written\n", stderr);
        exit(1);
    }
    printf("%s %s %u", words, peat_side_name(side), c->bits);
    print_hex(c->message, sizeof c->message);
    print_hex(c->text, c->characters);
    putchar('\n');
}

/* What goes with a start, a response or an end: nothing, or in type 2 a clearance where one is asked for. */
static struct clearance beside;

static struct peat_data data_beside(const struct end *e, unsigned long n)
{
    struct peat_data data = {0};
    if (n != 0) {
        clearance_compose(&beside, e->side, n);
        data.message = beside.bit, data.message_len = (beside.bits + 7) / 8, data.message_bits = beside.bits;
    }
    return data;
}

/* ---- a dialogue */

/* a dialogue number above what either end holds */
static uint64_t above(void)
{
    uint64_t a = peat_record_number(air.rec), g = peat_record_number(ground.rec);
    return 1 + (a > g ? a : g);
}

/* n: the clearance that goes with it, or 0 */
static struct peat_answer start_with(struct end *e, int dsc, unsigned long n)
{
    struct peat_data data = data_beside(e, n);
    if (n != 0)
        print_message(dsc ? "start dsc" : "start cpdlc", e->side, &beside);
    else
        printf("%s: %s (2)%s%s\n", type_of(e), e == &air ? "startdown" : "startup", dsc ? " | mode: dsc (1)" : "", is_plain() ? " | noMessage: NULL" : "");
    return carried(e, peat_start(REC(e), above(), dsc ? PEAT_DSC : PEAT_CPDLC, PEAT_CLASS_ANY, PEAT_NO_SECURITY, PEAT_DATA(data), BUFFERS(e)));
}

static struct peat_answer start(struct end *e, int dsc) { return start_with(e, dsc, 0); }

/* a response or an end; n: the clearance in it, or 0 */
static void send_with(struct end *e, unsigned long n, struct peat_answer answer)
{
    if (n != 0)
        print_message("message", e->side, &beside);
    else if (is_plain())
        puts("nothing");
    else
        printf("%s: send (3)\n", type_of(e));
    carried(e, answer);
}

/* An acceptance has no message in type 2. */
static void open_with(struct end *e, int dsc, unsigned result, unsigned long n)
{
    struct end *o = other(e);
    unsigned long reason = result == PEAT_ACCEPTED ? 0 : n;
    struct peat_data data;
    start_with(e, dsc, n);
    data = data_beside(o, reason);
    send_with(o, reason, dsc ? peat_dsc_start_response(REC(o), result, PEAT_DATA(data), BUFFERS(o)) : peat_start_response(REC(o), result, PEAT_DATA(data), BUFFERS(o)));
}

static void open_dialogue(struct end *e, int dsc, unsigned result) { open_with(e, dsc, result, 0); }

static void close_with(int dsc, unsigned result, unsigned long n)
{
    struct end *e = dsc ? &air : &ground, *o = other(e);
    struct peat_data data = data_beside(e, n);
    send_with(e, n, dsc ? peat_dsc_end_request(REC(e), PEAT_DATA(data), BUFFERS(e)) : peat_end_request(REC(e), PEAT_DATA(data), BUFFERS(e)));
    data = data_beside(o, n);
    send_with(o, n, dsc ? peat_dsc_end_response(REC(o), result, PEAT_DATA(data), BUFFERS(o)) : peat_end_response(REC(o), result, PEAT_DATA(data), BUFFERS(o)));
}

static void close_dialogue(int dsc, unsigned result) { close_with(dsc, result, 0); }

/* ---- messages */

/* the message that an end was told of; its bits */
static unsigned message_told(const struct end *e, struct peat_answer answer, uint8_t *message)
{
    struct peat_part_answer part;
    if (is_plain()) {
        memcpy(message, e->data, peat_data_bytes(answer));
        return peat_data_bits(answer);
    }
    part = peat_data_part(PEAT_PART_MESSAGE, e->data, peat_data_bytes(answer), message, PEAT_BUFFER_LEAST);
    must(peat_refusal(part));
    return peat_part_bits(part);
}

#define CHECK_BITS 32
#define MANY_BESIDE 100 /* clearances that go with starts, rejections and ends */

/* The card is given a clearance, in type 22 with a check; the other end must be told the same bits. */
static void say(struct end *e, uint64_t n)
{
    static struct clearance c;
    uint8_t part[PEAT_BUFFER_LEAST], check[CHECK_BITS / 8] = {0x12, 0x34, 0x56, 0x78};
    struct entry sent;
    clearance_compose(&c, e->side, n);
    print_message("message", e->side, &c);
    sent = entry_of(e, taken(peat_message_request(REC(e), n, NULL, 0, c.bit, (c.bits + 7) / 8, c.bits, PEAT_ARRAY(check), is_plain() ? 0 : CHECK_BITS, BUFFERS(e))));
    if (message_told(other(e), arrives(other(e), &sent), part) != c.bits || memcmp(part, c.bit, (c.bits + 7) / 8) != 0) {
        fputs("talk: a message arrives as another\n", stderr);
        exit(1);
    }
    if (flips) { /* a bit of the message: behind it there are only the check and its count, and those in type 22 alone */
        unsigned bit = sent.bits - (is_plain() ? 0 : 8 + CHECK_BITS) - 1 - chance(c.bits);
        sent.apdu[bit / 8] ^= (uint8_t)(0x80 >> bit % 8);
    }
    captured(e, &sent);
}

static void messages(unsigned long count)
{
    unsigned long n;
    fresh();
    for (n = 1; n <= count; n++) {
        if (n % 100 == 1) {
            if (n > 1)
                close_dialogue(0, PEAT_ACCEPTED);
            open_dialogue(n % 200 == 1 ? &air : &ground, 0, PEAT_ACCEPTED);
        }
        say(n % 2 ? &air : &ground, n);
    }
}

/* clearances by their numbers, each with the number that the host set in it (simulator/clearance.h) */
static void clearances(void)
{
    static struct clearance c;
    char word[8];
    unsigned long n;
    unsigned number;
    while (scanf("%7s %lu %u", word, &n, &number) == 3) {
        unsigned side = strcmp(word, "air") == 0 ? PEAT_AIR : PEAT_GROUND;
        clearance_compose(&c, side, n);
        clearance_set_number(&c, side, number);
        print_message("message", side, &c);
    }
}

/* ---- every kind of APDU */

static void print_reason(const struct end *e, int provider, unsigned reason)
{
    const char *choice = provider ? "abortProvider" : "abortUser";
    const char *name = provider ? peat_provider_reason_name(reason) : peat_user_reason_name(reason);
    printf("%s: %s (%d) | %s: %s (%u)\n", type_of(e), choice, provider, choice, name, reason);
}

/* A dialogue to abort. In type 2 the dissector shows an abort when it has seen the answer to the start. */
static void begin_abort(struct end *e)
{
    if (is_plain())
        open_dialogue(e, 0, PEAT_ACCEPTED);
    else
        start(e, 0);
}

/* every reason of a user, sent by the card */
static void user_aborts(struct end *e)
{
    unsigned reason;
    for (reason = 0; reason <= (is_plain() ? PEAT_INVALID_RESPONSE : PEAT_INVALID_CPDLC_MESSAGE); reason++) {
        fresh();
        begin_abort(e);
        print_reason(e, 0, reason);
        if (peat_told_parameter(carried(e, peat_user_abort(REC(e), reason, BUFFERS(e)))) != reason)
            exit(1);
    }
}

/* Every reason of a provider: one by the card, the others from its bits with another reason in the last three. The card at the other
   end tells its user the same reason. */
static void provider_aborts(struct end *e)
{
    unsigned reason;
    for (reason = 0; reason < PEAT_NOT_PERMITTED_PDU; reason++) {
        struct entry sent;
        struct peat_answer told;
        fresh();
        begin_abort(e);
        sent = entry_of(e, taken(peat_system_error(REC(e), BUFFERS(e))));
        sent.apdu[0] = (uint8_t)((sent.apdu[0] & ~(7u << (8 - sent.bits))) | reason << (8 - sent.bits));
        print_reason(e, 1, reason);
        captured(e, &sent);
        told = arrives(other(e), &sent);
        if (peat_told(told) != PEAT_PROVIDER_ABORT_INDICATION || peat_told_parameter(told) != reason) {
            fputs("talk: an abort is told with another reason\n", stderr);
            exit(1);
        }
    }
}

/* type 2: starts of both ends, rejections, ends and their answers with a message, in each mode */
static void kinds_with_messages(void)
{
    unsigned long n;
    for (n = 1; n <= MANY_BESIDE; n++) {
        int dsc = (int)(n % 2);
        unsigned result = n / 2 % 2 ? PEAT_ACCEPTED : PEAT_REJECTED;
        fresh();
        open_with(&air, dsc, PEAT_REJECTED, n);
        fresh();
        open_with(&ground, 0, result, n);
        fresh();
        open_with(&air, dsc, PEAT_ACCEPTED, n);
        close_with(dsc, result, n);
    }
}

static void kinds(void)
{
    int dsc;
    unsigned result;
    for (dsc = 0; dsc < 2; dsc++)
        for (result = PEAT_ACCEPTED; result <= PEAT_REJECTED; result++) {
            fresh();
            open_dialogue(&air, dsc, result);
            if (!dsc) {
                fresh();
                open_dialogue(&ground, 0, result);
            }
            fresh();
            open_dialogue(&air, dsc, PEAT_ACCEPTED);
            close_dialogue(dsc, result);
        }
    if (is_plain())
        kinds_with_messages();
    user_aborts(&air);
    user_aborts(&ground);
    provider_aborts(&air);
    provider_aborts(&ground);
}

/* ---- forwards between two centres */

static struct end centre; /* the other one */

static char drawn_character(void) { return (char)('0' + chance(43) % 36 + (chance(2) ? 0 : 7)); }

/* The receiving centre is not known to the dissector as one: what both centres send goes into the capture as a ground end's, the answer on a
   connection that an aircraft began. */
static void answer_of(struct peat_answer answer)
{
    static const char *const results[] = {"success", "service-not-supported", "version-not-equal"};
    struct entry e = entry_of(&centre, taken(answer));
    unsigned result = (unsigned)(e.apdu[0] >> 1 & 3);
    start(&air, 0);
    printf("%s: forwardresponse (5) | forwardresponse: %s (%u)\n", type_of(&ground), results[result], result);
    capture_entry(0, 0, type, &e);
}

static void forward(unsigned long n)
{
    static struct clearance c;
    char flight[PEAT_FLIGHT_MOST];
    uint8_t bit[PEAT_BUFFER_LEAST];
    unsigned bits;
    unsigned side = n % 2 ? PEAT_AIR : PEAT_GROUND, address = chance(1u << 24), i;
    size_t characters = PEAT_FLIGHT_LEAST + chance(7);
    unsigned when[] = {1996 + chance(100), 1 + chance(12), 1 + chance(31), chance(24), chance(60), chance(60)};
    struct entry e;
    for (i = 0; i < characters; i++)
        flight[i] = drawn_character();
    clearance_compose(&c, side, n);
    fresh();
    centre.side = PEAT_GROUND;
    peat_fresh(REC(&centre), PEAT_GROUND, PEAT_NO_SECURITY, n % 3 ? PEAT_FORWARDS : PEAT_FORWARDS_NOT, n % 3 == 1 ? 1 : 2, type);
    memcpy(bit, c.bit, sizeof bit);
    bits = is_plain() ? clearance_elements(&c, bit) : c.bits;
    printf("%s: forward (4)", type_of(&ground));
    for (i = 0; i < 6; i++)
        printf(" | %s: %u", (const char *const[]){"year", "month", "day", "hours", "minutes", "seconds"}[i], when[i]);
    printf(" | aircraftID: %.*s | aircraftAddress: %06x | forwardMessage: %s (%u) | bits: %u", (int)characters, flight, address,
        side == PEAT_AIR ? "downElementIDs" : "upElementIDs", side == PEAT_AIR, bits);
    putchar('\n');
    e = entry_of(&ground, taken(peat_forward_request(REC(&ground), 1, PEAT_CLASS_ANY, PEAT_NO_SECURITY, when[0], when[1], when[2], when[3], when[4], when[5],
        characters, peat_flight(flight, characters), address, side == PEAT_AIR, bit, (bits + 7) / 8, bits, BUFFERS(&ground))));
    captured(&ground, &e);
    answer_of(peat_d_start_indication(REC(&centre), 1, PEAT_FACILITY, PEAT_NO_SECURITY, PEAT_HIGH_PRIORITY, PEAT_LOW_ERROR_RATE, e.primitive.parameter, 1,
        PEAT_USER_DATA, e.apdu, e.primitive.user_data_len, BUFFERS(&centre)));
}

static void forwards(unsigned long count)
{
    unsigned long n;
    for (n = 1; n <= count; n++)
        forward(n);
}

int main(int argc, char **argv)
{
    int written;
    if (argc < 5)
        return 2;
    type = (unsigned)atoi(argv[3]);
    written = strcmp(argv[1], "-") != 0;
    if (written && capture_begin(argv[1], atoi(argv[2])) != 0)
        return 2;
    chance_begin(1);
    flips = strcmp(argv[4], "flipped") == 0;
    if (strcmp(argv[4], "kinds") == 0)
        kinds();
    else if (strcmp(argv[4], "clearances") == 0)
        clearances();
    else if (strcmp(argv[4], "forwards") == 0 && argc > 5)
        forwards(strtoul(argv[5], NULL, 10));
    else if (argc > 5)
        messages(strtoul(argv[5], NULL, 10));
    return written && capture_end() != 0 ? 2 : 0;
}
