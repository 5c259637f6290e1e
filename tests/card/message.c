/*
 * The CPDLC message as the documents give it: ATCDownlinkMessage and ATCUplinkMessage (Doc 9705, 2.3.4.3), X.691, document
 * 01's sizes and refusals, and the message range as include/peatribbon.h has it.
 */
#include <string.h>

#include "kinds.h" /* downlink, uplink: made by tests/card/kinds */
#include "model.h"

enum { NOT_THERE, NOTHING, LEVEL, TWO_LEVELS, TIME, CODE, FREE_TEXT, FACILITY, DESIGNATION, ATIS };
enum { DOWN = 1, UP = 2 };

static unsigned last_element(uint64_t direction) { return (unsigned)(direction == DOWN ? sizeof downlink : sizeof uplink) - 1; }
static unsigned kind_of(uint64_t direction, unsigned element) { return direction == DOWN ? downlink[element] : uplink[element]; }

/* feet and metres are counted from the lowest, -60 and -30 */
static const unsigned least_level[4] = {0, 0, 30, 100}, most_level[4] = {7000 + 60, 25000 + 30, 700, 2500};

/* the sizes of a string */
static unsigned least_text(unsigned kind) { return kind == FREE_TEXT || kind == ATIS ? 1 : 4; }
static unsigned most_text(unsigned kind) { return kind == FREE_TEXT ? 256 : kind == ATIS ? 1 : 8; }

/* the bits that the numbers 0 to most need (11.5.7.1) */
static unsigned width_of(unsigned most)
{
    unsigned w = 0;
    for (; most > 0; most >>= 1)
        w++;
    return w;
}

/* ---- reading */

static unsigned get_whole(struct reader *r, unsigned least, unsigned most)
{
    unsigned n = (unsigned)get(r, width_of(most - least));
    if (n > most - least)
        fault(r, RANGE);
    return r->bad ? least : least + n;
}

static void keep(uint8_t *at, unsigned n) { at[0] = (uint8_t)(n / 256), at[1] = (uint8_t)n; }

static void get_level(struct reader *r, uint8_t *at)
{
    unsigned i, types = 1 + get_whole(r, 0, 1);
    at[0] = (uint8_t)(types - 1);
    for (i = 0; i < types; i++) {
        unsigned unit = get_whole(r, 0, 3);
        at[1 + 3 * i] = (uint8_t)unit;
        keep(at + 2 + 3 * i, get_whole(r, least_level[unit], most_level[unit]));
    }
}

static void get_text(struct reader *r, unsigned kind, uint8_t *place, uint8_t *text, size_t *characters)
{
    unsigned n = get_whole(r, least_text(kind), most_text(kind));
    begin(r); /* the contents are one field */
    if (7 * n > r->end - r->at)
        fault(r, SHORT);
    if (r->bad)
        return;
    keep(place + 1, n);
    while (n-- > 0)
        text[(*characters)++] = (uint8_t)get(r, 7);
}

static void get_element(struct reader *r, uint64_t direction, uint8_t *place, uint8_t *text, size_t *characters)
{
    unsigned element, i;
    if (get(r, 1))
        fault(r, EXTENSION);
    element = get_whole(r, 0, last_element(direction));
    if (r->bad)
        return;
    place[0] = (uint8_t)element;
    switch (kind_of(direction, element)) {
    case NOT_THERE: fault(r, NOT_CARRIED); break;
    case NOTHING: break;
    case TWO_LEVELS: get_level(r, place + 3), get_level(r, place + 10); break;
    case LEVEL: get_level(r, place + 3); break;
    case TIME: place[17] = (uint8_t)get_whole(r, 0, 23), place[18] = (uint8_t)get_whole(r, 0, 59); break;
    case CODE:
        for (i = 0; i < 4; i++)
            place[19 + i] = (uint8_t)get_whole(r, 0, 7);
        break;
    case FACILITY:
        if (get_whole(r, 0, 1))
            get_text(r, FACILITY, place, text, characters);
        break;
    default: get_text(r, kind_of(direction, element), place, text, characters); break;
    }
}

static void get_header(struct reader *r, uint8_t *m)
{
    unsigned here = (unsigned)get(r, 2);
    m[0] = (uint8_t)get_whole(r, 0, 63);
    if (here & 2)
        m[1] = 1, m[2] = (uint8_t)get_whole(r, 0, 63);
    keep(m + 3, get_whole(r, 1996, 2095));
    m[5] = (uint8_t)get_whole(r, 1, 12), m[6] = (uint8_t)get_whole(r, 1, 31);
    m[7] = (uint8_t)get_whole(r, 0, 23), m[8] = (uint8_t)get_whole(r, 0, 59), m[9] = (uint8_t)get_whole(r, 0, 59);
    m[10] = here & 1;
    if (here & 1 && get(r, 1)) /* logicalAck DEFAULT notRequired (1) */
        fault(r, DEFAULT);
}

static size_t get_places(struct reader *r, uint64_t direction, uint8_t *m, uint8_t *text)
{
    size_t characters = 0;
    unsigned i;
    if (get(r, 1))
        fault(r, NOT_CARRIED); /* constrained data */
    m[11] = (uint8_t)get_whole(r, 1, 5);
    for (i = 0; i < m[11] && !r->bad; i++)
        get_element(r, direction, m + 12 + 24 * i, text, &characters);
    return characters;
}

/* application type 2: in place, and nothing says where it ends (004, M-1.1.4, M-2.1.4; M-9.1.2, M-10.1.2) */
void get_elements(struct reader *r, unsigned direction)
{
    uint8_t m[132] = {0}, text[5 * 256];
    get_places(r, direction, m, text);
}

void get_message(struct reader *r, unsigned direction)
{
    uint8_t m[132] = {0};
    get_header(r, m);
    get_elements(r, direction);
}

size_t header_bits(const uint8_t *m) { return 41 + (m[1] ? 6 : 0) + (m[10] ? 1 : 0); }

uint64_t read_message(struct args *a)
{
    uint8_t m[132] = {0}, text[5 * 256];
    struct reader r = reader_of(a->bytes, (size_t)a->n[1]);
    size_t characters;
    if (a->first.len < BUFFER_LEAST)
        return 1;
    if (a->n[0] < DOWN || a->n[0] > UP || a->rec.len != sizeof m || a->n[1] > MESSAGE_MOST || a->n[1] > 8 * (uint64_t)a->bytes.len)
        return 2;
    get_header(&r, m);
    characters = get_places(&r, a->n[0], m, text);
    begin(&r);
    if (r.at != r.end)
        fault(&r, TAIL);
    if (r.bad)
        return refused(&r);
    memcpy(a->rec.at, m, sizeof m);
    if (characters > 0)
        memcpy(a->first.at, text, characters);
    return (uint64_t)characters << 8;
}

/* ---- writing */

/* bits that are put, and whether a value was outside its type */
struct writer {
    struct bits bits;
    int wrong;
};

static void put_whole(struct writer *w, unsigned n, unsigned least, unsigned most)
{
    w->wrong |= n < least || n > most;
    if (!w->wrong)
        put(&w->bits, n - least, width_of(most - least));
}

static unsigned kept(const uint8_t *at) { return at[0] * 256u + at[1]; }

static int zeros(const uint8_t *at, size_t n)
{
    while (n-- > 0)
        if (at[n] != 0)
            return 0;
    return 1;
}

static void put_level(struct writer *w, const uint8_t *at)
{
    unsigned i;
    put_whole(w, at[0], 0, 1);
    for (i = 0; i < 2; i++) {
        const uint8_t *type = at + 1 + 3 * i;
        if (i == 1 && at[0] == 0) {
            w->wrong |= !zeros(type, 3);
            break;
        }
        put_whole(w, type[0], 0, 3);
        put_whole(w, kept(type + 1), least_level[type[0] % 4], most_level[type[0] % 4]);
    }
}

static void put_text(struct writer *w, unsigned kind, const uint8_t *text, unsigned n)
{
    unsigned i;
    put_whole(w, n, least_text(kind), most_text(kind));
    for (i = 0; i < n && !w->wrong; i++)
        put_whole(w, text[i], 0, 127);
}

static void put_element(struct writer *w, uint64_t direction, const uint8_t *place, const uint8_t *text)
{
    unsigned kind, i, n = kept(place + 1);
    put(&w->bits, 0, 1);
    put_whole(w, place[0], 0, last_element(direction));
    if (w->wrong)
        return;
    kind = kind_of(direction, place[0]);
    w->wrong |= kind == NOT_THERE;
    /* what the kind does not use is zero */
    w->wrong |= (kind < FREE_TEXT && n != 0) || (kind != LEVEL && kind != TWO_LEVELS && !zeros(place + 3, 7)) || (kind != TWO_LEVELS && !zeros(place + 10, 7)) ||
                (kind != TIME && !zeros(place + 17, 2)) || (kind != CODE && !zeros(place + 19, 4)) || place[23] != 0;
    if (kind == LEVEL || kind == TWO_LEVELS)
        put_level(w, place + 3);
    if (kind == TWO_LEVELS)
        put_level(w, place + 10);
    if (kind == TIME)
        put_whole(w, place[17], 0, 23), put_whole(w, place[18], 0, 59);
    for (i = 0; kind == CODE && i < 4; i++)
        put_whole(w, place[19 + i], 0, 7);
    if (kind == FACILITY)
        put(&w->bits, n > 0, 1);
    if (kind >= FREE_TEXT && (kind != FACILITY || n > 0))
        put_text(w, kind, text, n);
}

uint64_t write_message(struct args *a)
{
    static struct writer w;
    const uint8_t *m = a->ids.at;
    size_t used = 0;
    unsigned i;
    if (a->first.len < BUFFER_LEAST)
        return 1;
    if (a->n[0] < DOWN || a->n[0] > UP || a->ids.len != 132)
        return 2;
    w.bits.n = 0, w.wrong = m[1] > 1 || m[10] > 1 || (m[1] == 0 && m[2] != 0) || m[11] > 5;
    put(&w.bits, m[1], 1), put(&w.bits, m[10], 1);
    put_whole(&w, m[0], 0, 63);
    if (m[1])
        put_whole(&w, m[2], 0, 63);
    put_whole(&w, kept(m + 3), 1996, 2095), put_whole(&w, m[5], 1, 12), put_whole(&w, m[6], 1, 31);
    put_whole(&w, m[7], 0, 23), put_whole(&w, m[8], 0, 59), put_whole(&w, m[9], 0, 59);
    if (m[10])
        put(&w.bits, 0, 1);
    put(&w.bits, 0, 1);
    put_whole(&w, m[11], 1, 5);
    for (i = 0; i < 5 && !w.wrong; i++) {
        const uint8_t *place = m + 12 + 24 * i;
        if (i >= m[11]) {
            w.wrong |= !zeros(place, 24);
        } else if (kept(place + 1) > a->msgs.len - used || kept(place + 1) > 256) {
            w.wrong = 1;
        } else {
            put_element(&w, a->n[0], place, a->msgs.at + used);
            used += kept(place + 1);
        }
    }
    if (w.wrong || used != a->msgs.len || w.bits.n > MESSAGE_MOST)
        return 2;
    whole(&w.bits, a->first.at);
    return (uint64_t)w.bits.n << 24; /* not where reading has its characters */
}

/* ---- messages of chance */

static unsigned some(uint64_t (*any)(void), unsigned least, unsigned most)
{
    uint64_t x = any();
    return x % 4 == 0 ? least : x % 4 == 1 ? most : least + (unsigned)((x >> 8) % (most - least + 1));
}

static void make_level(uint64_t (*any)(void), uint8_t *at)
{
    unsigned i, types = some(any, 1, 2);
    at[0] = (uint8_t)(types - 1);
    for (i = 0; i < types; i++) {
        unsigned unit = some(any, 0, 3);
        at[1 + 3 * i] = (uint8_t)unit;
        keep(at + 2 + 3 * i, some(any, least_level[unit], most_level[unit]));
    }
}

size_t make_message(uint64_t (*any)(void), unsigned direction, uint8_t *m, uint8_t *text)
{
    size_t used = 0;
    unsigned i, j;
    memset(m, 0, 132);
    m[0] = (uint8_t)some(any, 0, 63);
    if (any() % 2)
        m[1] = 1, m[2] = (uint8_t)some(any, 0, 63);
    keep(m + 3, some(any, 1996, 2095));
    m[5] = (uint8_t)some(any, 1, 12), m[6] = (uint8_t)some(any, 1, 31), m[7] = (uint8_t)some(any, 0, 23);
    m[8] = (uint8_t)some(any, 0, 59), m[9] = (uint8_t)some(any, 0, 59), m[10] = any() % 2, m[11] = (uint8_t)some(any, 1, 5);
    for (i = 0; i < m[11]; i++) {
        uint8_t *place = m + 12 + 24 * i;
        unsigned kind;
        do { /* not often one that is not carried, and the rarer kinds more often */
            place[0] = (uint8_t)(any() % (last_element(direction) + 1));
            kind = kind_of(direction, place[0]);
        } while ((kind == NOT_THERE && any() % 60) || (kind == NOTHING && any() % 4));
        if (kind == LEVEL || kind == TWO_LEVELS)
            make_level(any, place + 3);
        if (kind == TWO_LEVELS)
            make_level(any, place + 10);
        if (kind == TIME)
            place[17] = (uint8_t)some(any, 0, 23), place[18] = (uint8_t)some(any, 0, 59);
        for (j = 0; kind == CODE && j < 4; j++)
            place[19 + j] = (uint8_t)some(any, 0, 7);
        if (kind >= FREE_TEXT && !(kind == FACILITY && any() % 3 == 0)) {
            unsigned n = kind == FREE_TEXT && any() % 8 ? some(any, 1, 50) : some(any, least_text(kind), most_text(kind));
            keep(place + 1, n);
            while (n-- > 0)
                text[used++] = (uint8_t)(any() % 128);
        }
    }
    return used;
}
