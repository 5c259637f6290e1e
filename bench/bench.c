/*
 * What is measured, and the clock.
 *
 *     bench right     makes each call once and holds what it left to what it should leave
 *     bench rows      the rows: number, job, case, bytes, coder
 *     bench time      nanoseconds of a call of each row: median and least of the rounds
 *     bench count     makes each row's call twice, in order; run counts the instructions of the second (callgrind)
 *     bench scale-rows, scale-count      the same of the rows that show how a call grows with its message
 *     bench dialogues                    calls of 1 dialogue and of 48 by turns, in a second
 *
 * A new row is one entry of `rows`: the job, the case, the coder, the call, and the test of what it left. Nothing is cleared
 * between the calls that are measured; what a coder clears by itself is in its row. WITHOUT_ASN1C leaves asn1c out.
 */
#define _POSIX_C_SOURCE 199309L
#include <stdio.h>
#include <stdlib.h>
#include <string.h>
#include <time.h>

#include "asn1c.h"
#include "model.h"
#include "peatribbon.h"
#include "plain.h"

#define ROUNDS 301
#define ROUND_NS 100000.0
#define ROOM 4096u

/* ---- the cases: what is coded */

struct job_case {
    const char *title;
    struct plain_data data;
    struct plain_message message;
    struct plain_envelope envelope;
    /* their codings, by plain.c; the others must agree with it */
    uint8_t apdu[ROOM], delivered[ROOM], inner[ROOM], sealed[ROOM];
    size_t apdu_bits, delivered_bits, inner_bits, sealed_bytes;
    /* the message as the card keeps it */
    uint8_t laid[PEAT_INNER_BYTES], text[PEAT_BUFFER_LEAST];
    size_t characters;
    /* asn1c's values */
    void *ground, *uplink;
};

enum { TYPICAL, MIDDLE, LARGEST, SCALE };
static const size_t scale_bits[] = {0, 1, 7, 8, 9, 16, 32, 64, 120, 128, 256, 384, 512, 768, 1024, 1280, 1536, 1792, 2047, 2048, 2049, 4096, 8192, 12288, 16382, 16383};
#define SCALES (sizeof scale_bits / sizeof scale_bits[0])
static struct job_case cases[SCALE + SCALES];

static void fill(uint8_t *bytes, size_t n, uint32_t seed)
{
    for (; n > 0; n--) {
        seed = seed * 1664525u + 1013904223u;
        *bytes++ = (uint8_t)(seed >> 24);
    }
}

static struct plain_message dated(void)
{
    struct plain_message m;
    memset(&m, 0, sizeof m);
    m.identification = 5, m.year = 2026, m.month = 11, m.day = 15, m.hours = 4, m.minutes = 38, m.seconds = 2;
    return m;
}

/* CLIMB TO FL350, SQUAWK 7500, as an answer to message 17 */
static struct plain_message typical_message(void)
{
    struct plain_message m = dated();
    m.referenced = 1, m.reference = 17, m.count = 2;
    m.element[0].number = 20, m.element[0].level[0].unit[0] = 2, m.element[0].level[0].number[0] = 350;
    m.element[1].number = 123, m.element[1].code[0] = 7, m.element[1].code[1] = 5;
    return m;
}

/* five free texts */
static struct plain_message texts(const size_t characters[5])
{
    struct plain_message m = dated();
    size_t i, k;
    m.referenced = 1, m.reference = 17, m.acknowledged = 1, m.count = 5;
    for (i = 0; i < 5; i++) {
        m.element[i].number = 169;
        m.element[i].characters = characters[i];
        for (k = 0; k < characters[i]; k++)
            m.element[i].text[k] = (char)(32 + (7 * k + 13 * i) % 95);
    }
    return m;
}

/* 273 characters together: 2,048 bits exactly; and the largest message: 9,097 bits */
static const size_t middle_texts[5] = {55, 55, 55, 54, 54}, largest_texts[5] = {256, 256, 256, 256, 256};

static void stop(const char *why)
{
    fprintf(stderr, "bench: %s\n", why);
    exit(1);
}

static void put_two(uint8_t *at, unsigned n) { at[0] = (uint8_t)(n >> 8), at[1] = (uint8_t)n; }

/* The message of a case in a message range and a text. Its levels are flight levels, one in each place at most. */
static void lay(struct job_case *c)
{
    const struct plain_message *m = &c->message;
    uint8_t *b = c->laid;
    size_t i;
    b[PEAT_INNER_IDENTIFICATION] = (uint8_t)m->identification;
    b[PEAT_INNER_REFERENCED] = (uint8_t)m->referenced, b[PEAT_INNER_REFERENCE] = (uint8_t)m->reference;
    put_two(b + PEAT_INNER_YEAR, m->year), b[PEAT_INNER_MONTH] = (uint8_t)m->month, b[PEAT_INNER_DAY] = (uint8_t)m->day;
    b[PEAT_INNER_HOURS] = (uint8_t)m->hours, b[PEAT_INNER_MINUTES] = (uint8_t)m->minutes, b[PEAT_INNER_SECONDS] = (uint8_t)m->seconds;
    b[PEAT_INNER_ACKNOWLEDGED] = (uint8_t)m->acknowledged, b[PEAT_INNER_COUNT] = (uint8_t)m->count;
    for (i = 0; i < m->count; i++) {
        const struct plain_element *e = &m->element[i];
        uint8_t *place = b + PEAT_PLACE_FIRST + i * PEAT_PLACE_BYTES;
        place[PEAT_PLACE_NUMBER] = (uint8_t)e->number;
        put_two(place + PEAT_PLACE_CHARACTERS, (unsigned)e->characters);
        place[PEAT_PLACE_LEVEL + PEAT_LEVEL_UNIT] = (uint8_t)e->level[0].unit[0];
        put_two(place + PEAT_PLACE_LEVEL + PEAT_LEVEL_NUMBER, (unsigned)e->level[0].number[0]);
        memcpy(place + PEAT_PLACE_CODE, e->code, sizeof e->code);
        memcpy(c->text + c->characters, e->text, e->characters);
        c->characters += e->characters;
    }
}

static void make_case(struct job_case *c, size_t octets, size_t message_bits, size_t check_bits)
{
    struct plain_data *d = &c->data;
    c->inner_bits = plain_write_message(c->inner, ROOM, &c->message);
    if (c->inner_bits == 0)
        stop("a message of the bench is none");
    lay(c);
    d->octets = octets, d->messaged = 1, d->message_bits = message_bits, d->check_bits = check_bits;
    fill(d->identifier, octets, 1);
    fill(d->message, (message_bits + 7) / 8, 2);
    if (message_bits == c->inner_bits)
        memcpy(d->message, c->inner, (message_bits + 7) / 8);
    else if (message_bits % 8)
        d->message[message_bits / 8] &= (uint8_t)(0xFF00 >> message_bits % 8);
    fill(d->check, (check_bits + 7) / 8, 3);
    c->apdu_bits = plain_write_send(c->apdu, ROOM, d);
    c->delivered_bits = plain_write_data(c->delivered, ROOM, d);
    c->envelope.kind = 1, c->envelope.job = octets ? UINT64_MAX : 300;
    c->envelope.bits = message_bits, c->envelope.body = d->message;
    c->sealed_bytes = plain_write_envelope(c->sealed, ROOM, &c->envelope);
    if (c->apdu_bits == 0 || c->sealed_bytes == 0)
        stop("a case of the bench is refused");
#ifndef WITHOUT_ASN1C
    c->ground = asn1c_read(ASN1C_GROUND, c->apdu, (c->apdu_bits + 7) / 8);
    c->uplink = asn1c_read(ASN1C_UPLINK, c->inner, (c->inner_bits + 7) / 8);
    if (c->ground == NULL || c->uplink == NULL)
        stop("asn1c's code refuses a case of the bench");
#endif
}

static void make_cases(void)
{
    size_t i;
    cases[TYPICAL].title = "typical", cases[TYPICAL].message = typical_message();
    make_case(&cases[TYPICAL], 0, plain_write_message(cases[TYPICAL].inner, ROOM, &cases[TYPICAL].message), 32);
    cases[MIDDLE].title = "2,048 bits", cases[MIDDLE].message = texts(middle_texts);
    make_case(&cases[MIDDLE], 16, 2048, 64);
    cases[LARGEST].title = "largest", cases[LARGEST].message = texts(largest_texts);
    make_case(&cases[LARGEST], 16, PEAT_MESSAGE_MOST, 64);
    for (i = 0; i < SCALES; i++) {
        static char titles[SCALES][16];
        sprintf(titles[i], "%u", (unsigned)scale_bits[i]);
        cases[SCALE + i].title = titles[i], cases[SCALE + i].message = typical_message();
        make_case(&cases[SCALE + i], 0, scale_bits[i], 0);
    }
}

/* ---- what a call leaves */

static uint8_t rec[PEAT_RECORD_BYTES], first[ROOM], second[ROOM];
static size_t left; /* bits or bytes that the call answered; for the card its whole answer */
static struct peat_answer said;
static struct peat_written_envelope said_sealed;
static struct peat_envelope_answer said_unsealed;
static struct peat_written_message said_written;
static struct peat_message_answer said_read;
static struct plain_data data_read;
static struct plain_message message_read;
static struct plain_envelope envelope_read;
#ifndef WITHOUT_ASN1C
static void *value_read;
#endif

#define RANGE(a) a, sizeof a

static void record(unsigned side, unsigned state)
{
    memset(rec, 0, sizeof rec);
    rec[PEAT_RECORD_SIDE] = (uint8_t)side, rec[PEAT_RECORD_STATE] = (uint8_t)state;
    rec[PEAT_RECORD_ACTIVE] = state != PEAT_IDLE, rec[PEAT_RECORD_VERSION] = 1;
}

/* ---- the card: one step each, with the APDU's coding in it */

static void at_ground(void) { record(PEAT_GROUND, PEAT_DIALOGUE); }
static void at_air(void) { record(PEAT_AIR, PEAT_DIALOGUE); }

static void card_message_request(const struct job_case *c)
{
    static uint64_t job;
    const struct plain_data *d = &c->data;
    said = peat_message_request(RANGE(rec), ++job, d->identifier, d->octets, RANGE(d->message), d->message_bits,
        RANGE(d->check), d->check_bits, RANGE(first), RANGE(second));
}

static void card_d_data(const struct job_case *c)
{
    said = peat_d_data_indication(RANGE(rec), 0, PEAT_USER_DATA, c->apdu, (c->apdu_bits + 7) / 8, RANGE(first), RANGE(second));
}

/* the record is put back before each call, 25 bytes */
static const uint8_t open_record[PEAT_RECORD_BYTES] = {PEAT_AIR, PEAT_DIALOGUE, 0, 0, 1, 0, 0, PEAT_FORWARDS_NOT, 1};

static void card_user_abort(const struct job_case *c)
{
    (void)c;
    memcpy(rec, open_record, sizeof rec);
    said = peat_user_abort(RANGE(rec), PEAT_COMMANDED_TERMINATION, RANGE(first), RANGE(second));
}

static void card_sealed(const struct job_case *c)
{
    const struct plain_envelope *e = &c->envelope;
    said_sealed = peat_write_envelope(e->kind, e->job, e->bits, e->body, (e->bits + 7) / 8, RANGE(first));
}

static uint8_t laid_read[PEAT_INNER_BYTES];

static void card_inner_written(const struct job_case *c)
{
    said_written = peat_write_message(PEAT_UPLINK, RANGE(c->laid), c->text, c->characters, RANGE(first));
}

static void card_inner_read(const struct job_case *c)
{
    said_read = peat_read_message(PEAT_UPLINK, RANGE(c->inner), c->inner_bits, RANGE(laid_read), RANGE(second));
}

static void card_unsealed(const struct job_case *c)
{
    uint8_t job[PEAT_JOB_BYTES];
    said_unsealed = peat_read_envelope(c->sealed, c->sealed_bytes, RANGE(job));
    envelope_read.job = peat_job_number(job);
}

/* ---- the others */

static void plain_apdu_written(const struct job_case *c) { left = plain_write_send(first, ROOM, &c->data); }
static void plain_apdu_read(const struct job_case *c) { left = (size_t)plain_read_send(c->apdu, (c->apdu_bits + 7) / 8, &data_read); }
static void plain_apdu_delivered(const struct job_case *c)
{
    plain_apdu_read(c);
    left = plain_write_data(second, ROOM, &data_read);
}
static void plain_inner_written(const struct job_case *c) { left = plain_write_message(first, ROOM, &c->message); }
static void plain_inner_read(const struct job_case *c) { left = (size_t)plain_read_message(c->inner, c->inner_bits, &message_read); }
static void plain_sealed(const struct job_case *c) { left = plain_write_envelope(first, ROOM, &c->envelope); }
static void plain_unsealed(const struct job_case *c) { left = plain_read_envelope(c->sealed, c->sealed_bytes, &envelope_read); }

/* from and into what the card keeps a message in */
static struct plain_message message_loaded;
static void plain_inner_from_range(const struct job_case *c)
{
    left = plain_load_message(c->laid, c->text, c->characters, &message_loaded) ? plain_write_message(first, ROOM, &message_loaded) : 0;
}
static void plain_inner_into_range(const struct job_case *c)
{
    left = plain_read_message(c->inner, c->inner_bits, &message_read) ? 1 + plain_lay_message(&message_read, laid_read, second) : 0;
}

/* tests/card/model.c, a plain C machine by event */

/* The step of a message request, of a D-DATA indication: with the least APDU, which the model codes bit by bit; the APDU of the case is plain.c's */
static void model_message_request(const struct job_case *c)
{
    static uint64_t job;
    static struct args a = {.rec = {RANGE(rec)}, .first = {RANGE(first)}, .second = {RANGE(second)}};
    a.n[0] = ++job;
    said.word = model_call(MESSAGE_REQUEST, &a);
    left = plain_write_send(first, ROOM, &c->data);
}

static void model_d_data(const struct job_case *c)
{
    static uint8_t least[] = {0x32, 0x00, 0x00}; /* a send: no identifier, a message of no bits, a check of none */
    static struct args a = {.rec = {RANGE(rec)}, .bytes = {RANGE(least)}, .first = {RANGE(first)}, .second = {RANGE(second)}, .given = 1};
    said.word = model_call(D_DATA_INDICATION, &a);
    plain_apdu_delivered(c);
}

static void model_user_abort(const struct job_case *c)
{
    static struct args a = {.rec = {RANGE(rec)}, .first = {RANGE(first)}, .second = {RANGE(second)}, .n = {PEAT_COMMANDED_TERMINATION}};
    (void)c;
    memcpy(rec, open_record, sizeof rec);
    said.word = model_call(USER_ABORT, &a);
}

#ifndef WITHOUT_ASN1C
static void asn1c_apdu_written(const struct job_case *c) { left = asn1c_write(ASN1C_GROUND, c->ground, first, ROOM); }
static void asn1c_apdu_read(const struct job_case *c)
{
    value_read = asn1c_read(ASN1C_GROUND, c->apdu, (c->apdu_bits + 7) / 8);
    left = value_read != NULL;
    asn1c_free(ASN1C_GROUND, value_read);
}
static void asn1c_apdu_delivered(const struct job_case *c)
{
    value_read = asn1c_read(ASN1C_GROUND, c->apdu, (c->apdu_bits + 7) / 8);
    left = asn1c_write(ASN1C_DATA, asn1c_data(value_read), second, ROOM);
    asn1c_free(ASN1C_GROUND, value_read);
}
static void asn1c_inner_written(const struct job_case *c) { left = asn1c_write(ASN1C_UPLINK, c->uplink, first, ROOM); }
static void asn1c_inner_read(const struct job_case *c)
{
    value_read = asn1c_read(ASN1C_UPLINK, c->inner, (c->inner_bits + 7) / 8);
    left = value_read != NULL;
    asn1c_free(ASN1C_UPLINK, value_read);
}
#endif

static void memcpy_apdu(const struct job_case *c) { memcpy(first, c->apdu, (c->apdu_bits + 7) / 8); }
static void memcpy_inner(const struct job_case *c) { memcpy(first, c->inner, (c->inner_bits + 7) / 8); }
static void memcpy_sealed(const struct job_case *c) { memcpy(first, c->sealed, c->sealed_bytes); }
static void memcpy_record(const struct job_case *c) { (void)c, memcpy(rec, open_record, sizeof rec); }

/* ---- whether it left what it should */

static int same_bits(const uint8_t *a, const uint8_t *b, size_t bits) { return memcmp(a, b, (bits + 7) / 8) == 0; }

static int wrote_apdu(const struct job_case *c) { return left == c->apdu_bits && same_bits(first, c->apdu, left); }
static int wrote_inner(const struct job_case *c) { return left == c->inner_bits && same_bits(first, c->inner, left); }
static int wrote_data(const struct job_case *c) { return left == c->delivered_bits && same_bits(second, c->delivered, left); }
static int wrote_sealed(const struct job_case *c) { return left == c->sealed_bytes && memcmp(first, c->sealed, left) == 0; }
#ifndef WITHOUT_ASN1C
static int took(const struct job_case *c) { return (void)c, left != 0; }
#endif

static int read_data(const struct job_case *c)
{
    const struct plain_data *a = &data_read, *b = &c->data;
    return left && a->octets == b->octets && a->messaged == b->messaged && a->message_bits == b->message_bits && a->check_bits == b->check_bits
        && memcmp(a->identifier, b->identifier, a->octets) == 0 && same_bits(a->message, b->message, a->message_bits)
        && same_bits(a->check, b->check, a->check_bits);
}
static int read_inner(const struct job_case *c) { return left && memcmp(&message_read, &c->message, sizeof message_read) == 0; }
static int read_sealed(const struct job_case *c)
{
    const struct plain_envelope *a = &envelope_read, *b = &c->envelope;
    return left == c->sealed_bytes && a->kind == b->kind && a->job == b->job && a->bits == b->bits && same_bits(a->body, b->body, a->bits);
}

static int card_wrote(const struct job_case *c)
{
    left = peat_apdu_bits(said);
    return peat_refusal(said) == 0 && peat_invoked(said) == PEAT_D_DATA_REQUEST && wrote_apdu(c);
}
static int stepped_and_wrote(const struct job_case *c)
{
    return peat_refusal(said) == 0 && peat_invoked(said) == PEAT_D_DATA_REQUEST && wrote_apdu(c);
}
static int stepped_and_delivered(const struct job_case *c)
{
    return peat_refusal(said) == 0 && peat_told(said) == PEAT_MESSAGE_INDICATION && wrote_data(c);
}
static int card_delivered(const struct job_case *c)
{
    left = peat_data_bits(said);
    return peat_refusal(said) == 0 && peat_told(said) == PEAT_MESSAGE_INDICATION && wrote_data(c);
}
static int card_wrote_inner(const struct job_case *c)
{
    left = peat_message_bits(said_written);
    return peat_refusal(said_written) == 0 && wrote_inner(c);
}
static int card_read_inner(const struct job_case *c)
{
    return peat_refusal(said_read) == 0 && peat_message_characters(said_read) == c->characters && memcmp(laid_read, c->laid, sizeof laid_read) == 0
        && memcmp(second, c->text, c->characters) == 0;
}
static int laid_inner(const struct job_case *c)
{
    return left == 1 + c->characters && memcmp(laid_read, c->laid, sizeof laid_read) == 0 && memcmp(second, c->text, c->characters) == 0;
}
static int card_wrote_sealed(const struct job_case *c)
{
    left = peat_written_bytes(said_sealed);
    return peat_refusal(said_sealed) == 0 && wrote_sealed(c);
}
static int card_read_sealed(const struct job_case *c)
{
    envelope_read.kind = peat_envelope_kind(said_unsealed), envelope_read.bits = peat_envelope_bits(said_unsealed);
    envelope_read.body = c->sealed + peat_envelope_body(said_unsealed), left = peat_envelope_next(said_unsealed);
    return peat_refusal(said_unsealed) == 0 && read_sealed(c);
}
static int aborted(const struct job_case *c)
{
    (void)c; /* GroundPDUs and AircraftPDUs have four and three bits before the reason; the air end sends the second */
    return peat_refusal(said) == 0 && peat_invoked(said) == PEAT_D_ABORT_REQUEST && peat_apdu_bits(said) == 8 && first[0] == PEAT_COMMANDED_TERMINATION
        && rec[PEAT_RECORD_STATE] == PEAT_IDLE;
}
static int always(const struct job_case *c) { return (void)c, 1; }

/* ---- the rows */

struct row {
    const char *job;
    const struct job_case *on;
    const char *coder;
    void (*before)(void); /* once, before the first call */
    void (*call)(const struct job_case *);
    int (*right)(const struct job_case *);
    size_t (*bytes)(const struct job_case *);
};

static size_t apdu_bytes(const struct job_case *c) { return (c->apdu_bits + 7) / 8; }
static size_t inner_bytes(const struct job_case *c) { return (c->inner_bits + 7) / 8; }
static size_t sealed_bytes(const struct job_case *c) { return c->sealed_bytes; }
static size_t record_bytes(const struct job_case *c) { return (void)c, sizeof rec; }

#ifdef WITHOUT_ASN1C
#define ASN1C(job, call, right, bytes)
#else
#define ASN1C(job, call, right, bytes) EACH(job, "asn1c", NULL, call, right, bytes),
#endif
#define EACH(job, coder, before, call, right, bytes) \
    {job, &cases[TYPICAL], coder, before, call, right, bytes}, {job, &cases[MIDDLE], coder, before, call, right, bytes}, \
    {job, &cases[LARGEST], coder, before, call, right, bytes}

static const struct row rows[] = {
    EACH("APDU written", "card, its step in it", at_ground, card_message_request, card_wrote, apdu_bytes),
    ASN1C("APDU written", asn1c_apdu_written, wrote_apdu, apdu_bytes)
    EACH("APDU written", "plain C", NULL, plain_apdu_written, wrote_apdu, apdu_bytes),
    EACH("APDU written", "plain C, the model's step in it", at_ground, model_message_request, stepped_and_wrote, apdu_bytes),
    EACH("APDU written", "memcpy", NULL, memcpy_apdu, always, apdu_bytes),

    EACH("APDU read and its data delivered", "card, its step in it", at_air, card_d_data, card_delivered, apdu_bytes),
    ASN1C("APDU read and its data delivered", asn1c_apdu_delivered, wrote_data, apdu_bytes)
    EACH("APDU read and its data delivered", "plain C", NULL, plain_apdu_delivered, wrote_data, apdu_bytes),
    EACH("APDU read and its data delivered", "plain C, the model's step in it", at_air, model_d_data, stepped_and_delivered, apdu_bytes),
    EACH("APDU read and its data delivered", "memcpy", NULL, memcpy_apdu, always, apdu_bytes),
    ASN1C("APDU read", asn1c_apdu_read, took, apdu_bytes)
    EACH("APDU read", "plain C", NULL, plain_apdu_read, read_data, apdu_bytes),

    EACH("inner message written", "card", NULL, card_inner_written, card_wrote_inner, inner_bytes),
    ASN1C("inner message written", asn1c_inner_written, wrote_inner, inner_bytes)
    EACH("inner message written", "plain C", NULL, plain_inner_written, wrote_inner, inner_bytes),
    EACH("inner message written", "plain C, from the 132 bytes", NULL, plain_inner_from_range, wrote_inner, inner_bytes),
    EACH("inner message written", "memcpy", NULL, memcpy_inner, always, inner_bytes),

    EACH("inner message read", "card", NULL, card_inner_read, card_read_inner, inner_bytes),
    ASN1C("inner message read", asn1c_inner_read, took, inner_bytes)
    EACH("inner message read", "plain C", NULL, plain_inner_read, read_inner, inner_bytes),
    EACH("inner message read", "plain C, into the 132 bytes", NULL, plain_inner_into_range, laid_inner, inner_bytes),
    EACH("inner message read", "memcpy", NULL, memcpy_inner, always, inner_bytes),

    {"one step, a user abort", &cases[TYPICAL], "card", NULL, card_user_abort, aborted, record_bytes},
    {"one step, a user abort", &cases[TYPICAL], "plain C", NULL, model_user_abort, aborted, record_bytes},
    {"one step, a user abort", &cases[TYPICAL], "memcpy", NULL, memcpy_record, always, record_bytes},

    EACH("envelope written", "card", NULL, card_sealed, card_wrote_sealed, sealed_bytes),
    EACH("envelope read", "card", NULL, card_unsealed, card_read_sealed, sealed_bytes),
    EACH("envelope written", "plain C", NULL, plain_sealed, wrote_sealed, sealed_bytes),
    EACH("envelope written", "memcpy", NULL, memcpy_sealed, always, sealed_bytes),
    EACH("envelope read", "plain C", NULL, plain_unsealed, read_sealed, sealed_bytes),
    EACH("envelope read", "memcpy", NULL, memcpy_sealed, always, sealed_bytes),
};
#define ROWS (sizeof rows / sizeof rows[0])

/* how a call grows with its message: these rows over every length of scale_bits */
static const struct row growing[] = {
    {"message request", NULL, "card", at_ground, card_message_request, card_wrote, apdu_bytes},
    {"message request", NULL, "plain C", NULL, plain_apdu_written, wrote_apdu, apdu_bytes},
    {"D-DATA indication", NULL, "card", at_air, card_d_data, card_delivered, apdu_bytes},
    {"D-DATA indication", NULL, "plain C", NULL, plain_apdu_delivered, wrote_data, apdu_bytes},
};
#define GROWING (sizeof growing / sizeof growing[0])
static struct row scale_rows[GROWING * SCALES];

static void make_scale_rows(void)
{
    size_t i, k;
    for (i = 0; i < GROWING; i++)
        for (k = 0; k < SCALES; k++) {
            scale_rows[i * SCALES + k] = growing[i];
            scale_rows[i * SCALES + k].on = &cases[SCALE + k];
        }
}

/* the one place from which calls are made; callgrind collects inside it */
__attribute__((noinline)) void measured(const struct row *r)
{
    r->call(r->on);
    __asm__ volatile("" ::: "memory");
}

static int call_rightly(const struct row *r)
{
    memset(first, 0xA5, sizeof first);
    memset(second, 0xA5, sizeof second);
    memset(&data_read, 0, sizeof data_read);
    left = 0, said.word = 0;
    if (r->before)
        r->before();
    measured(r);
    return r->right(r->on);
}

static void all_right(const struct row *r, size_t n)
{
    for (; n > 0; n--, r++)
        if (!call_rightly(r)) {
            fprintf(stderr, "bench: %s, %s, by %s is wrong\n", r->job, r->on->title, r->coder);
            exit(1);
        }
}

static void print_rows(const struct row *r, size_t n)
{
    size_t i;
    for (i = 0; i < n; i++)
        printf("%u\t%s\t%s\t%u\t%s\n", (unsigned)i, r[i].job, r[i].on->title, (unsigned)r[i].bytes(r[i].on), r[i].coder);
}

static void count(const struct row *r, size_t n)
{
    for (; n > 0; n--, r++) {
        if (r->before)
            r->before();
        measured(r);
        measured(r);
    }
}

/* ---- the clock */

static double now(void)
{
    struct timespec t;
    clock_gettime(CLOCK_MONOTONIC, &t);
    return 1e9 * (double)t.tv_sec + (double)t.tv_nsec;
}

static double some(const struct row *r, unsigned long calls)
{
    unsigned long i;
    double began;
    if (r->before)
        r->before();
    began = now();
    for (i = 0; i < calls; i++)
        measured(r);
    return (now() - began) / (double)calls;
}

static int by_size(const void *a, const void *b) { return (*(const double *)a > *(const double *)b) - (*(const double *)a < *(const double *)b); }

/* The rows take turns: what slows the machine for a moment slows one round of each. */
static void time_all(const struct row *r, size_t n)
{
    static double took_ns[ROWS][ROUNDS];
    static unsigned long calls[ROWS];
    size_t i, round;
    for (i = 0; i < n; i++) {
        double one = some(&r[i], 2000);
        calls[i] = (unsigned long)(ROUND_NS / (one > 0.5 ? one : 0.5)) + 1;
    }
    for (round = 0; round < ROUNDS; round++)
        for (i = 0; i < n; i++)
            took_ns[i][round] = some(&r[i], calls[i]);
    for (i = 0; i < n; i++) {
        qsort(took_ns[i], ROUNDS, sizeof(double), by_size);
        printf("%u\t%.1f\t%.1f\n", (unsigned)i, took_ns[i][ROUNDS / 2], took_ns[i][0]);
    }
}

/* ---- dialogues by turns: each end has its own record and buffers, and sends a typical message to the other */

#define DIALOGUES 48

struct end {
    uint8_t rec[PEAT_RECORD_BYTES], first[PEAT_BUFFER_LEAST], second[PEAT_BUFFER_LEAST];
};
static struct end ends[DIALOGUES][2];

#define END_RANGES(e) RANGE((e)->first), RANGE((e)->second)

static void open_dialogue(struct end *air, struct end *ground)
{
    struct peat_answer n;
    peat_fresh(RANGE(air->rec), PEAT_AIR, PEAT_NO_SECURITY, PEAT_FORWARDS_NOT, 1, PEAT_PROTECTED);
    peat_fresh(RANGE(ground->rec), PEAT_GROUND, PEAT_NO_SECURITY, PEAT_FORWARDS_NOT, 1, PEAT_PROTECTED);
    n = peat_start(RANGE(air->rec), 1, PEAT_CPDLC, PEAT_CLASS_ANY, PEAT_NO_SECURITY, PEAT_NO_DATA, END_RANGES(air));
    peat_d_start_indication(RANGE(ground->rec), 1, PEAT_AIRCRAFT, PEAT_NO_SECURITY, PEAT_HIGH_PRIORITY, PEAT_LOW_ERROR_RATE, PEAT_CLASS_ANY,
        PEAT_NO_VERSION, PEAT_USER_DATA, air->first, peat_apdu_bytes(n), END_RANGES(ground));
    n = peat_start_response(RANGE(ground->rec), PEAT_ACCEPTED, PEAT_NO_DATA, END_RANGES(ground));
    peat_d_start_confirmation(RANGE(air->rec), 1, PEAT_ACCEPTED, PEAT_DS_USER, PEAT_NO_SECURITY, PEAT_NO_VERSION, PEAT_USER_DATA,
        ground->first, peat_apdu_bytes(n), END_RANGES(air));
    if (peat_record_state(air->rec) != PEAT_DIALOGUE || peat_record_state(ground->rec) != PEAT_DIALOGUE)
        stop("a dialogue does not open");
}

static void exchange(struct end *from, struct end *to, uint64_t job)
{
    const struct plain_data *d = &cases[TYPICAL].data;
    struct peat_answer n = peat_message_request(RANGE(from->rec), job, NULL, 0, RANGE(d->message), d->message_bits, RANGE(d->check), d->check_bits,
        END_RANGES(from));
    n = peat_d_data_indication(RANGE(to->rec), 1, PEAT_USER_DATA, from->first, peat_apdu_bytes(n), END_RANGES(to));
    if (peat_told(n) != PEAT_MESSAGE_INDICATION)
        stop("a message is not delivered");
}

static double calls_a_second(size_t dialogues)
{
    double began, ns;
    uint64_t job, calls = 0;
    size_t i;
    for (i = 0; i < dialogues; i++)
        open_dialogue(&ends[i][0], &ends[i][1]);
    began = now();
    for (job = 1; calls < 400000; job++)
        for (i = 0; i < dialogues; i++) {
            exchange(&ends[i][0], &ends[i][1], job);
            exchange(&ends[i][1], &ends[i][0], job);
            calls += 4;
        }
    ns = now() - began;
    return 1e9 * (double)calls / ns;
}

static void dialogues(void)
{
    static const size_t at_once[] = {1, DIALOGUES};
    double rates[2][ROUNDS];
    size_t i, round;
    for (round = 0; round < 15; round++)
        for (i = 0; i < 2; i++)
            rates[i][round] = calls_a_second(at_once[i]);
    for (i = 0; i < 2; i++) {
        qsort(rates[i], 15, sizeof(double), by_size);
        printf("%u\t%.0f\n", (unsigned)at_once[i], rates[i][7]);
    }
}

int main(int argc, char **argv)
{
    const char *what = argc > 1 ? argv[1] : "";
    make_cases();
    make_scale_rows();
    if (strcmp(what, "right") == 0)
        all_right(rows, ROWS), all_right(scale_rows, GROWING * SCALES);
    else if (strcmp(what, "rows") == 0)
        print_rows(rows, ROWS);
    else if (strcmp(what, "time") == 0)
        time_all(rows, ROWS);
    else if (strcmp(what, "count") == 0)
        count(rows, ROWS);
    else if (strcmp(what, "scale-rows") == 0)
        print_rows(scale_rows, GROWING * SCALES);
    else if (strcmp(what, "scale-count") == 0)
        count(scale_rows, GROWING * SCALES);
    else if (strcmp(what, "dialogues") == 0)
        dialogues();
    else
        return 2;
    return 0;
}
