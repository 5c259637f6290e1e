/*
 * Random calls of every entry point, each as the model has it; and whether every cell of both machines was met.
 */
#include <stdio.h>
#include <string.h>

#include "calls.h"
#include "card.h"

static uint64_t code(unsigned most)
{
    return once_in(40) ? any() : once_in(40) ? most + 1 : below(most + 1);
}

static void random_record(struct args *a)
{
    static const uint8_t most[8] = {2, 5, 1, 1, 1, 1, 1, 1};
    uint8_t *x;
    int i;
    lend(a, 0, once_in(200) ? below(28) : PEAT_RECORD_BYTES);
    x = a->rec.at;
    if (a->rec.len != PEAT_RECORD_BYTES)
        return;
    for (i = 0; i < 8; i++)
        x[i] = (uint8_t)below(most[i] + 1u);
    x[0] = (uint8_t)(1 + below(4));
    x[8] = (uint8_t)(once_in(60) ? 0 : once_in(3) ? 1 + below(255) : 1 + below(2));
    fill(x + 9, 16);
    if (once_in(2))
        memset(x + 9, 0, 7);
    if (once_in(2))
        memset(x + 17, 0, 7);
    if (once_in(50))
        x[below(9)] = (uint8_t)any();
    if (once_in(200))
        fill(x, PEAT_RECORD_BYTES);
}

/* a dialogue number: mostly one that is not stale, else one beside the record's, or any */
static uint64_t random_number(enum which w, const struct args *a)
{
    uint64_t held = a->rec.len == PEAT_RECORD_BYTES ? peat_record_number(a->rec.at) : 0;
    int start = w == START_REQUEST || w == FORWARD_REQUEST || w == D_START_INDICATION;
    if (once_in(12))
        return any() >> below(64);
    if (once_in(12))
        return held - 1 + below(3);
    return start ? held + 1 + (once_in(4) ? any() >> (1 + below(63)) : 0) : held;
}

/* a count of message bits, often one at an edge of its length's forms or of the limit */
static size_t message_bits(void)
{
    static const size_t edge[] = {0, 1, 7, 8, 9, 126, 127, 128, 129, 2047, 2048, 2049, 16382, 16383, 16384};
    return once_in(8) ? edge[below(sizeof edge / sizeof edge[0])] : once_in(16) ? below(PEAT_MESSAGE_MOST + 20) : once_in(8) ? below(2060) : below(140);
}

static void random_data(struct args *a)
{
    size_t bits = message_bits();
    a->message = once_in(6) ? NONE : bits;
    lend(a, 2, once_in(30) ? bits / 8 : bits / 8 + 1);
    lend(a, 1, once_in(2) ? 0 : below(18));
    a->check = once_in(30) ? below(80) : below(65);
    lend(a, 3, once_in(30) ? below(9) : a->check / 8 + 1);
    if (once_in(200))
        a->message = any();
    if (once_in(200))
        a->check = any();
    fill(lent[2] - 24, 24);
    fill(lent[3] - 8, 8);
}

int is_plain(const struct args *a) { return a->rec.len == PEAT_RECORD_BYTES && a->rec.at[0] > 2; }
static unsigned sends_direction(const struct args *a) { return peat_record_side(a->rec.at) == PEAT_AIR ? PEAT_DOWNLINK : PEAT_UPLINK; }

/* a message of a direction in bits, or its elements alone, now and then one that is not carried; how many bits */
static size_t some_message(unsigned direction, int elements, uint8_t *bytes)
{
    static struct bits b;
    uint8_t message[132], text[5 * 256], made[PEAT_BUFFER_LEAST];
    struct args m;
    uint64_t n;
    size_t i, from;
    do {
        memset(&m, 0, sizeof m);
        m.n[0] = direction;
        m.msgs.at = text, m.msgs.len = make_message(any, direction, message, text);
        m.ids.at = message, m.ids.len = sizeof message;
        m.first.at = made, m.first.len = sizeof made;
        n = model_call(WRITE_MESSAGE, &m);
    } while (n < 256);
    b.n = 0;
    from = elements ? header_bits(message) : 0;
    for (i = from; i < peat_message_bits(AS(peat_written_message, n)); i++)
        put(&b, made[i / 8] >> (7 - i % 8) & 1, 1);
    if (b.n > 60 && once_in(10)) /* an index, or what is behind it */
        b.bit[b.n - 1 - below(50)] ^= 1;
    whole(&b, bytes);
    return b.n;
}

/* message data for a record of type 2: a message of its direction or none, now and then of the other, damaged, or with what the type has not */
static void random_plain_data(struct args *a, int elements, unsigned direction)
{
    uint8_t bytes[PEAT_BUFFER_LEAST] = {0};
    size_t bits = some_message(once_in(20) ? 3 - direction : direction, elements, bytes);
    if (once_in(20))
        bytes[below((unsigned)bits / 8 + 1)] ^= (uint8_t)(1u << below(8));
    if (once_in(20))
        bits = once_in(2) ? bits - 1 : bits + 1;
    lend(a, 2, once_in(40) ? bits / 8 : bits / 8 + 1);
    memcpy(lent[2] - a->msgs.len, bytes, a->msgs.len);
    a->message = once_in(200) ? any() : bits;
    if (elements)
        return;
    if (once_in(2))
        a->message = NONE;
    lend(a, 1, once_in(20) ? below(18) : 0);
    a->check = once_in(20) ? below(65) : 0;
    lend(a, 3, a->check / 8 + below(2));
}

/* a length and as many items, now and then in the longer form, or marked as fragments */
static void put_items(struct bits *b, size_t n, unsigned unit)
{
    size_t i;
    if (once_in(40))
        put(b, 0x8000 | n, 16);
    else if (once_in(80))
        put(b, 0xC000 | n, 16);
    else
        put_length(b, n);
    for (i = 0; i < n; i++)
        put(b, any(), unit);
}

/* additions from a later edition, few of them there; now and then none, or a count in its long form */
static void put_additions(struct bits *b)
{
    unsigned n = once_in(8) ? 64 : 1 + below(9), i, there = 0;
    put(b, once_in(40), 1);
    put(b, n - 1, 6);
    for (i = 0; i < n; i++) {
        unsigned mark = there < 3 && below(n) < 2;
        put(b, mark, 1);
        there += mark;
    }
    for (i = 0; i < there; i++)
        put_items(b, once_in(6) ? 0 : 1 + below(9), 8);
}

static void put_random_data(struct bits *b)
{
    unsigned extended = once_in(4), identifier = below(2), message = !once_in(6);
    put(b, extended, 1);
    put(b, 2 * identifier + message, 2);
    if (identifier)
        put_items(b, once_in(15) ? 17 * below(2) : 1 + below(16), 8);
    if (message)
        put_items(b, message_bits(), 1);
    put_items(b, once_in(15) ? 63 + below(4) : below(65), 1);
    if (extended && !once_in(20))
        put_additions(b);
}

/* a version, mostly that of the record or none */
static uint64_t random_version(const struct args *a)
{
    uint64_t own = a->rec.len == PEAT_RECORD_BYTES ? peat_record_version(a->rec.at) : 1;
    return once_in(40) ? any() : once_in(40) ? 255 + below(2) : once_in(4) ? PEAT_NO_VERSION : once_in(4) ? 1 + below(3) : own;
}

/* an ATCForwardMessage, now and then with a number outside its type */
static void put_message(struct bits *b, unsigned direction, int elements)
{
    uint8_t bytes[PEAT_BUFFER_LEAST] = {0};
    put_range(b, bytes, some_message(direction, elements, bytes));
}

static void put_random_forward(struct bits *b, int plain)
{
    static const unsigned width[] = {7, 4, 5, 5, 6, 6, 3}, values[] = {100, 12, 31, 24, 60, 60, 7};
    unsigned i, n = 0;
    for (i = 0; i < 7; i++) {
        n = once_in(40) ? below(1u << width[i]) : below(values[i]);
        put(b, n, width[i]);
    }
    for (i = 0; i < n + 2; i++)
        put(b, any(), 7);
    put(b, any(), 24);
    n = below(2);
    put(b, n, 1);
    if (plain)
        put_message(b, once_in(20) || n == 0 ? PEAT_UPLINK : PEAT_DOWNLINK, 1);
    else
        put_items(b, message_bits(), 1);
}

/* message data of a start or a send, of application type 2 */
static void put_random_plain(struct bits *b, int start, unsigned aircraft)
{
    int given = !start || once_in(2);
    if (start)
        put(b, (unsigned)given, 1);
    if (given)
        put_message(b, once_in(20) ? PEAT_UPLINK : aircraft ? PEAT_DOWNLINK : PEAT_UPLINK, 0);
}

/* user data: an APDU of an alternative, of one of the two types, now and then with a fault; it is of application type 2 or not */
static void random_pdu(struct args *a, unsigned index, unsigned aircraft, int plain)
{
    static struct bits b;
    uint8_t bytes[2600];
    size_t len;
    b.n = 0;
    put(&b, once_in(50), 1);
    put(&b, index, aircraft ? 2 : 3);
    if (!aircraft && index == 4)
        put_random_forward(&b, plain);
    else if (!aircraft && index == 5)
        put(&b, once_in(20) ? below(8) : below(3), 3);
    else if (index == 0 && plain)
        put(&b, once_in(20) ? below(16) : below(7), 4);
    else if (index == 0)
        put(&b, once_in(20) ? below(32) : below(13), 5);
    else if (index == 1)
        put(&b, once_in(20) ? below(16) : below(8), 4);
    else {
        if (index == 2 && aircraft)
            put(&b, below(2) ? 3 : once_in(10) ? 2 : 0, 1 + below(2));
        if (plain)
            put_random_plain(&b, index == 2, aircraft);
        else
            put_random_data(&b);
    }
    len = whole(&b, bytes);
    if (once_in(10))
        bytes[below((unsigned)len)] ^= (uint8_t)(1u << below(8));
    if (once_in(30))
        bytes[len++] = (uint8_t)any();
    if (once_in(30))
        len = below((unsigned)len + 1);
    if (once_in(50))
        fill(bytes, len);
    lend(a, 4, len);
    if (len > 0)
        memcpy(a->bytes.at, bytes, len);
    a->given = once_in(plain ? 4 : 12) ? 0 : once_in(100) ? any() : 1;
}

/* mostly of the record's application type */
static int type_of_pdu(const struct args *a) { return once_in(20) ? (int)below(2) : is_plain(a); }

static void random_apdu(struct args *a)
{
    unsigned index = below(once_in(20) ? 8 : 4), aircraft = below(2);
    random_pdu(a, !aircraft && once_in(8) ? 4 + below(2) : index, aircraft, type_of_pdu(a));
}

/* a forward that reaches an IDLE ground record, or the answer to one that is in FORWARD, mostly as it should be */
static void random_centre(enum which w, struct args *a)
{
    uint8_t *x = a->rec.at;
    if (a->rec.len != PEAT_RECORD_BYTES || x[0] > 4)
        return;
    x[0] = (uint8_t)(x[0] > 2 ? 4 : 2);
    x[1] = w == D_START_INDICATION ? PEAT_IDLE : PEAT_FORWARD;
    if (w == D_START_INDICATION) {
        a->n[0] = PEAT_FACILITY, a->n[1] = once_in(8) ? below(2) : x[PEAT_RECORD_POLICY];
        random_pdu(a, PEAT_APDU_FORWARD, 0, type_of_pdu(a));
    } else {
        a->n[0] = once_in(8) ? below(3) : PEAT_REJECTED, a->n[1] = once_in(8) ? below(2) : PEAT_DS_USER;
        a->n[2] = once_in(8) ? below(2) : x[PEAT_RECORD_REQUEST];
        random_pdu(a, once_in(8) ? below(6) : PEAT_APDU_FORWARD_RESPONSE, 0, type_of_pdu(a));
    }
}

/* ---- random envelopes */

/* a job number of any length; now and then 0 */
static uint64_t some_job(void) { return once_in(30) ? 0 : any() >> below(64); }

/* a number in groups, now and then in a longer form or in too many groups */
static size_t put_groups(uint8_t *at, uint64_t value)
{
    size_t n = 0, more = once_in(40) ? 1 + below(3) : once_in(60) ? 9 + below(3) : 0;
    for (; value > 127; value >>= 7)
        at[n++] = (uint8_t)(0x80 | value);
    at[n++] = (uint8_t)value;
    for (; more > 0 && n < 12; more--) {
        at[n - 1] |= 0x80;
        at[n++] = (uint8_t)(once_in(2) ? 0 : below(128));
    }
    return n;
}

/* fills a body of so many bits, mostly with zeros behind them */
static void random_body(uint8_t *at, size_t bits)
{
    fill(at, (bits + 7) / 8);
    if (bits % 8 != 0 && !once_in(12))
        at[bits / 8] &= (uint8_t)(0xFF00 >> bits % 8);
}

/* an envelope, now and then with a fault, and with bytes behind it or without */
static void random_envelope(struct args *a)
{
    uint8_t bytes[2600];
    unsigned kind = once_in(15) ? below(300) : 1 + below(3);
    size_t bits = kind == 3 && !once_in(10) ? 8 : message_bits(), len = put_groups(bytes, kind);
    len += put_groups(bytes + len, some_job());
    len += put_groups(bytes + len, once_in(60) ? any() : bits);
    random_body(bytes + len, bits);
    len += (bits + 7) / 8;
    if (once_in(3)) {
        size_t more = 1 + below(20);
        fill(bytes + len, more);
        len += more;
    }
    if (once_in(10))
        bytes[below(once_in(2) ? 4 : (unsigned)len)] ^= (uint8_t)(1u << below(8));
    if (once_in(10))
        len = below((unsigned)len + 1);
    if (once_in(30))
        fill(bytes, len);
    lend(a, 4, len);
    if (len > 0)
        memcpy(a->bytes.at, bytes, len);
    lend(a, 5, once_in(30) ? below(20) : PEAT_JOB_BYTES);
    fill(lent[5] - PEAT_JOB_BYTES, PEAT_JOB_BYTES);
}

static void random_content(struct args *a)
{
    size_t bits = message_bits();
    a->n[0] = once_in(15) ? any() >> below(64) : 1 + below(3);
    a->n[1] = some_job();
    if (a->n[0] == 3 && !once_in(10))
        bits = 8;
    a->n[2] = once_in(60) ? any() : bits;
    lend(a, 2, once_in(30) ? bits / 8 : (bits + 7) / 8 + (once_in(3) ? below(3) : 0));
    random_body(lent[2] - a->msgs.len, bits < 8 * a->msgs.len ? bits : 8 * a->msgs.len);
}

/* ---- random message data and messages */

static void random_part(struct args *a)
{
    static struct bits b;
    uint8_t bytes[2600];
    size_t len;
    b.n = 0;
    put_random_data(&b);
    len = whole(&b, bytes);
    if (once_in(15))
        bytes[below(once_in(2) ? (unsigned)len : 3)] ^= (uint8_t)(1u << below(8));
    if (once_in(30))
        bytes[len++] = (uint8_t)(any() & any());
    if (once_in(20))
        len = below((unsigned)len + 1);
    lend(a, 4, len);
    if (len > 0)
        memcpy(a->bytes.at, bytes, len);
    a->n[0] = code(2);
}

/* a forward message by itself, now and then with a fault */
static void random_forward(struct args *a, enum which w)
{
    static struct bits b;
    uint8_t bytes[2600];
    size_t len;
    int plain = once_in(2);
    b.n = 0;
    put_random_forward(&b, once_in(20) ? !plain : plain);
    len = whole(&b, bytes);
    if (once_in(15))
        bytes[below(once_in(2) ? (unsigned)len : 14)] ^= (uint8_t)(1u << below(8));
    if (once_in(30))
        bytes[len++] = (uint8_t)(any() & any());
    if (once_in(20))
        len = below((unsigned)len + 1);
    lend(a, 4, len);
    if (len > 0)
        memcpy(a->bytes.at, bytes, len);
    a->n[0] = w == READ_FORWARD ? (once_in(40) ? any() >> below(64) : plain ? PEAT_PLAIN : PEAT_PROTECTED) : code(PEAT_FORWARD_MESSAGE) + (plain ? PEAT_FORWARD_PLAIN : 0);
}

/* the numbers of a forward request and its message, now and then outside their types */
static void random_heading(struct args *a)
{
    static const unsigned low[] = {1996, 1, 1, 0, 0, 0, PEAT_FLIGHT_LEAST}, high[] = {2095, 12, 31, 23, 59, 59, PEAT_FLIGHT_MOST};
    size_t bits = message_bits();
    unsigned i;
    a->n[0] = code(PEAT_CLASS_H);
    for (i = 0; i < 7; i++)
        a->n[2 + i] = once_in(150) ? any() >> below(64) : once_in(150) ? high[i] + 1 : once_in(150) ? low[i] - (uint64_t)1 : low[i] + below(high[i] - low[i] + 1);
    a->n[9] = any() >> (once_in(40) || a->n[8] < 1 || a->n[8] > PEAT_FLIGHT_MOST ? below(64) : 64 - 7 * a->n[8]);
    a->n[10] = once_in(60) ? any() >> below(64) : any() >> 40;
    a->n[11] = code(1);
    a->message = once_in(100) ? any() : once_in(100) ? NONE : bits;
    lend(a, 2, once_in(40) ? bits / 8 : bits / 8 + 1);
    fill(lent[2] - 24, 24);
    if (is_plain(a) && !once_in(20))
        random_plain_data(a, 1, a->n[11] == 0 ? PEAT_UPLINK : PEAT_DOWNLINK);
}

/* a message range and a text, now and then with a fault */
static void random_message(struct args *a)
{
    uint8_t message[132], text[5 * 256 + 2];
    size_t len;
    a->n[0] = once_in(40) ? any() : 1 + below(2);
    len = make_message(any, 1 + below(20) % 2, message, text);
    if (a->n[0] == 1 || a->n[0] == 2)
        len = make_message(any, (unsigned)a->n[0], message, text);
    if (once_in(4)) {
        uint8_t *at = &message[once_in(2) ? below(36) : below(132)];
        *at = (uint8_t)(once_in(2) ? *at + 1 - 2 * (any() & 1) : any());
    }
    if (once_in(15) && len > 0)
        text[below((unsigned)len)] |= 0x80;
    if (once_in(20))
        len = once_in(2) || len == 0 ? len + 1 : len - 1;
    lend(a, 1, once_in(60) ? below(200) : sizeof message);
    if (a->ids.len == sizeof message)
        memcpy(a->ids.at, message, sizeof message);
    lend(a, 2, len);
    if (len > 0)
        memcpy(a->msgs.at, text, len);
}

/* the bits of a message, now and then with a fault, or some other bits */
static void random_bits(struct args *a)
{
    struct args made;
    uint8_t message[132], text[5 * 256], bytes[PEAT_BUFFER_LEAST + 1] = {0};
    uint64_t n;
    size_t bits;
    do {
        memset(&made, 0, sizeof made);
        made.n[0] = 1 + below(2);
        made.msgs.at = text, made.msgs.len = make_message(any, (unsigned)made.n[0], message, text);
        made.ids.at = message, made.ids.len = sizeof message;
        made.first.at = bytes, made.first.len = PEAT_BUFFER_LEAST;
        n = model_call(WRITE_MESSAGE, &made);
    } while (n < 256);
    bits = peat_message_bits(AS(peat_written_message, n));
    a->n[0] = once_in(60) ? any() : once_in(20) ? 3 - made.n[0] : made.n[0];
    if (once_in(3))
        bytes[once_in(2) ? below(9) : below((unsigned)bits / 8 + 1)] ^= (uint8_t)(1u << below(8));
    if (once_in(30))
        fill(bytes, (bits + 7) / 8);
    if (once_in(10))
        bits = below((unsigned)bits + 1);
    if (once_in(15))
        bits += 1 + below(9);
    lend(a, 4, once_in(60) ? bits / 8 : bits / 8 + 1);
    if (a->bytes.len > 0)
        memcpy(a->bytes.at, bytes, a->bytes.len < sizeof bytes ? a->bytes.len : sizeof bytes);
    a->n[1] = once_in(60) ? any() >> below(64) : bits;
    lend(a, 0, once_in(60) ? below(200) : 132);
    fill(lent[0] - 132, 132);
}

static void random_call(enum which w, struct args *a)
{
    int i;
    memset(a, 0, sizeof *a);
    random_record(a);
    a->number = random_number(w, a);
    for (i = 1; i < 5; i++)
        lend(a, i, 0);
    for (i = 5; i < 7; i++) {
        lend(a, i, once_in(60) ? PEAT_BUFFER_LEAST - 1 : once_in(60) ? below(PEAT_BUFFER_LEAST) : PEAT_BUFFER_LEAST + (once_in(4) ? below(100) : 0));
        *(lent[i] - PEAT_BUFFER_LEAST + below(PEAT_BUFFER_LEAST)) = (uint8_t)any();
    }
    for (i = 0; i < 5; i++)
        a->n[i] = code(1);
    switch (w) {
    case START_REQUEST: a->n[1] = code(8); break;
    case MESSAGE_REQUEST: a->n[0] = once_in(3) ? below(256) : any(); break;
    case USER_ABORT: a->n[0] = once_in(4) ? NONE : code(12); break;
    case D_START_CONFIRMATION: a->n[0] = code(2), a->n[3] = random_version(a); break;
    case D_START_INDICATION:
        a->n[5] = random_version(a);
        a->n[2] = once_in(12) ? any() : 1;
        a->n[3] = once_in(12) ? below(3) : 1;
        a->n[4] = once_in(12) ? any() : below(10);
        break;
    case FRESH:
        a->n[0] = once_in(8) ? any() : below(4), a->n[3] = once_in(4) ? any() : below(258);
        a->n[4] = once_in(8) ? any() >> below(64) : once_in(2) ? PEAT_PLAIN : PEAT_PROTECTED;
        break;
    case FORWARD_REQUEST: random_heading(a); break;
    default: break;
    }
    if (w <= DSC_END_RESPONSE && is_plain(a) && !once_in(20))
        random_plain_data(a, 0, sends_direction(a));
    else if (w <= DSC_END_RESPONSE)
        random_data(a);
    if (w >= D_START_INDICATION && w <= D_ABORT_INDICATION)
        random_apdu(a);
    if ((w == D_START_INDICATION || w == D_START_CONFIRMATION) && once_in(3))
        random_centre(w, a);
    if (w == READ_ENVELOPE)
        random_envelope(a);
    if (w == WRITE_ENVELOPE)
        random_content(a);
    if (w == DATA_PART)
        random_part(a);
    if (w == FORWARD_PART || w == READ_FORWARD)
        random_forward(a, w);
    if (w == READ_FORWARD)
        lend(a, 1, once_in(60) ? below(100) : PEAT_HEADING_BYTES);
    if (w == READ_APDU) {
        random_apdu(a);
        a->n[0] = once_in(40) ? any() : once_in(40) ? below(6) : 1 + below(2) + (is_plain(a) ? 2 : 0);
    }
    if (w == READ_MESSAGE)
        random_bits(a);
    if (w == WRITE_MESSAGE)
        random_message(a);
}

/* how often a call came to each side, of each application type, in each state and DSC, of the start those in mode dsc apart, and how often each
   invoked and told each primitive, and without user data */
#define KINDS 4 /* air and ground of type 22, and of type 2 */
static unsigned long cells[KINDS][6][2][CALLS], dsc_starts[KINDS][6][2], invoked[KINDS][16], bare[KINDS][16], reported[KINDS][16], both_buffers;
static int type_changed;

static void seen(enum which w, const struct args *a, const uint8_t *rec, struct peat_answer said)
{
    unsigned side = rec[PEAT_RECORD_SIDE] - 1u;
    if (w >= FRESH || peat_refusal(said) == PEAT_ROOM || peat_refusal(said) == PEAT_SHAPE)
        return;
    if (w == START_REQUEST && a->n[0] == PEAT_DSC)
        dsc_starts[side][peat_record_state(rec)][peat_record_dsc(rec)]++;
    else
        cells[side][peat_record_state(rec)][peat_record_dsc(rec)][w]++;
    if (peat_refusal(said) == PEAT_TAKEN) {
        type_changed |= a->rec.at[PEAT_RECORD_SIDE] != rec[PEAT_RECORD_SIDE];
        invoked[side][peat_invoked(said)]++;
        bare[side][peat_invoked(said)] += peat_apdu_bits(said) == 0;
        reported[side][peat_told(said)]++;
        both_buffers += peat_apdu_bits(said) > 0 && peat_data_bits(said) > 0;
        if (peat_apdu_bits(said) > 0 && peat_data_bits(said) > 0)
            check(peat_told(said) == PEAT_FORWARD_INDICATION && peat_invoked(said) == PEAT_D_START_RESPONSE, "an event that fills both buffers");
    }
}

static void all_seen(void)
{
    unsigned side, state, dsc, w, x;
    unsigned long least = (unsigned long)-1;
    for (side = 0; side < KINDS; side++) {
        for (state = 0; state < 6; state++)
            for (dsc = 0; dsc < 2; dsc++) {
                for (w = 0; w < FRESH; w++)
                    least = cells[side][state][dsc][w] < least ? cells[side][state][dsc][w] : least;
                check(side % 2 == 0 ? dsc_starts[side][state][dsc] >= 100 : dsc_starts[side][state][dsc] == 0, "mode dsc hardly reached a state, or the ground end");
            }
        for (x = 0; x < 16; x++) {
            check((invoked[side][x] > 0) == (x <= PEAT_D_ABORT_REQUEST), "a primitive of the dialogue service that no call, or a wrong one, invokes");
            /* at an air record in FORWARD, which no run reaches, the confirmation is told too */
            check((reported[side][x] > 0) == (x <= PEAT_FORWARD_CONFIRMATION && !(side % 2 == 0 && x == PEAT_FORWARD_INDICATION)),
                "a user primitive that no call, or a wrong one, invokes");
            check(x == PEAT_SILENT || (bare[side][x] > 0) == (side >= 2 && (x == PEAT_D_START_RESPONSE || x == PEAT_D_END_REQUEST || x == PEAT_D_END_RESPONSE)),
                "a primitive without user data that has some, or of type 22");
        }
    }
    check(both_buffers >= 100, "hardly an event filled both buffers");
    check(!type_changed, "a call changed the type of its record");
    printf("each call reached each side of each type in each state and DSC %lu times or more\n", least);
    check(least >= 100, "a call hardly reached a state");
}

/* a table of how often calls were answered in each way */
static void print_answers(unsigned long answered[][PEAT_SIZE + 1], int from, int to, const unsigned *way, const char *const *title, int ways)
{
    int w, i;
    printf("%-26s %9s", "calls", "taken");
    for (i = 0; i < ways; i++)
        printf(" %10s", title[i]);
    for (w = from; w <= to; w++) {
        printf("\n%-26s %9lu", names[w], answered[w][0]);
        for (i = 0; i < ways; i++)
            printf(" %10lu", answered[w][way[i]]);
    }
    printf("\n");
}

/* Each entry point agrees with the model on all its calls, and its calls were of every kind: taken, and refused with
   each number that it can answer. */
void random_calls(unsigned long calls)
{
    static unsigned long answered[CALLS][PEAT_SIZE + 1], wrong[CALLS];
    static const unsigned machine[] = {1, 2, 6, 3, 4, 5}, envelope[] = {1, 2, 20, 21, 22, 23}, message[] = {1, 2, 10, 11, 12, 13, 14, 15, 16, 17};
    static const char *const machine_title[] = {"ROOM", "SHAPE", "STALE", "PROHIBITED", "NO-MESSAGE", "REPEAT"};
    static const char *const envelope_title[] = {"ROOM", "SHAPE", "CUT", "GROUPS", "KIND", "SIZE"};
    static const char *const message_title[] = {"ROOM", "SHAPE", "SHORT", "RANGE", "EXTENSION", "FORM", "LIMIT", "TAIL", "CARRIED", "DEFAULT"};
    unsigned long n;
    int w;
    unsigned x;
    for (n = 0; n < calls; n++) {
        struct args a;
        uint64_t said;
        uint8_t before[PEAT_RECORD_BYTES];
        w = (int)below(CALLS);
        random_call((enum which)w, &a);
        memcpy(before, lent[0] - sizeof before, sizeof before);
        if (!agrees((enum which)w, &a, &said) && wrong[w]++ == 0)
            printf("card: %s, call %lu: answers %llx, which is not as the model has it\n", names[w], n, (unsigned long long)said);
        answered[w][peat_refusal_in(said)]++;
        seen((enum which)w, &a, before, AS(peat_answer, said));
    }
    if (calls >= 500000)
        all_seen();
    print_answers(answered, 0, FRESH, machine, machine_title, 6);
    print_answers(answered, READ_ENVELOPE, WRITE_ENVELOPE, envelope, envelope_title, 6);
    print_answers(answered, DATA_PART, WRITE_MESSAGE, message, message_title, 10);
    for (w = 0; w < CALLS; w++) {
        check(wrong[w] == 0, names[w]);
        for (x = 0; x <= PEAT_SIZE && calls >= 100000; x++)
            check((answered[w][x] > 0) == (x == 0 || can_refuse((enum which)w, x)),
                "an entry point's random calls do not have all its answers, or have others");
    }
}
