#include "plain.h"

#include <string.h>

#include "kinds.h"
#include "peatribbon.h"

/* the bits of a message, the bytes of an output buffer: the limits of the card */
enum { MESSAGE_MOST = 16383, BUFFER_LEAST = 2112 };

/* ---- bits: up to 7 wait in `hold`, its lowest bits, until there is a byte of them */

struct writer {
    uint8_t *to;
    size_t room, bytes;
    uint64_t hold;
    unsigned held;
    int bad;
};

static void put(struct writer *w, uint64_t value, unsigned width) /* width: at most 32 */
{
    w->hold = w->hold << width | value;
    w->held += width;
    while (w->held >= 8) {
        w->held -= 8;
        if (w->bytes == w->room) {
            w->bad = 1;
            return;
        }
        w->to[w->bytes++] = (uint8_t)(w->hold >> w->held);
    }
}

static void put_run(struct writer *w, const uint8_t *bytes, size_t bits)
{
    size_t i;
    for (i = 0; i < bits / 8; i++)
        put(w, bytes[i], 8);
    if (bits % 8)
        put(w, bytes[i] >> (8 - bits % 8), bits % 8);
}

static void put_whole(struct writer *w, long lo, long hi, unsigned width, long value)
{
    if (value < lo || value > hi)
        w->bad = 1;
    else
        put(w, (uint64_t)(value - lo), width);
}

/* pads with zeros; the bits before */
static size_t written(struct writer *w)
{
    size_t bits = 8 * w->bytes + w->held;
    if (w->held)
        put(w, 0, 8 - w->held);
    return w->bad ? 0 : bits;
}

struct reader {
    const uint8_t *from;
    size_t bits, at; /* at: the first bit that is not read */
    int bad;
};

static uint64_t get(struct reader *r, unsigned width) /* width: at most 32 */
{
    uint64_t hold = 0;
    size_t i;
    if (width > r->bits - r->at) {
        r->bad = 1;
        return 0;
    }
    for (i = r->at / 8; i < (r->at + width + 7) / 8; i++)
        hold = hold << 8 | r->from[i];
    r->at += width;
    return hold >> ((8 - r->at % 8) % 8) & (((uint64_t)1 << width) - 1);
}

static void get_run(struct reader *r, uint8_t *bytes, size_t bits)
{
    size_t i;
    if (bits > r->bits - r->at) {
        r->bad = 1;
        return;
    }
    for (i = 0; i < bits / 8; i++)
        bytes[i] = (uint8_t)get(r, 8);
    if (bits % 8)
        bytes[i] = (uint8_t)(get(r, bits % 8) << (8 - bits % 8));
}

static long get_whole(struct reader *r, long lo, long hi, unsigned width)
{
    long v = lo + (long)get(r, width);
    if (v > hi)
        r->bad = 1;
    return v;
}

/* ---- lengths (X.691, 11.9) */

static void put_length(struct writer *w, size_t n)
{
    if (n < 128)
        put(w, n, 8);
    else
        put(w, 0x8000 | n, 16);
}

static size_t get_length(struct reader *r, size_t least, size_t most)
{
    size_t n = get(r, 8);
    if (n >= 0xC0) {
        r->bad = 1;
        return 0;
    }
    if (n >= 0x80) {
        n = (n & 0x3F) << 8 | get(r, 8);
        if (n < 128)
            r->bad = 1;
    }
    if (n < least || n > most)
        r->bad = 1;
    return r->bad ? 0 : n;
}

/* ---- GroundPDUs: extension bit, index in three bits; send is the fourth of six */

static void put_data(struct writer *w, const struct plain_data *d)
{
    if (d->octets > sizeof d->identifier || d->message_bits > MESSAGE_MOST || d->check_bits > 8 * sizeof d->check) {
        w->bad = 1;
        return;
    }
    put(w, (uint64_t)(d->octets > 0) << 1 | (d->messaged != 0), 3);
    if (d->octets > 0) {
        put_length(w, d->octets);
        put_run(w, d->identifier, 8 * d->octets);
    }
    if (d->messaged) {
        put_length(w, d->message_bits);
        put_run(w, d->message, d->message_bits);
    }
    put_length(w, d->check_bits);
    put_run(w, d->check, d->check_bits);
}

size_t plain_write_data(uint8_t *out, size_t room, const struct plain_data *d)
{
    struct writer w = {out, room, 0, 0, 0, 0};
    put_data(&w, d);
    return written(&w);
}

size_t plain_write_send(uint8_t *out, size_t room, const struct plain_data *d)
{
    struct writer w = {out, room, 0, 0, 0, 0};
    put(&w, 3, 4);
    put_data(&w, d);
    return written(&w);
}

int plain_read_send(const uint8_t *in, size_t bytes, struct plain_data *d)
{
    struct reader r = {in, 8 * bytes, 0, 0};
    unsigned present;
    if (get(&r, 4) != 3)
        return 0;
    present = (unsigned)get(&r, 3);
    if (r.bad || present & 4)
        return 0;
    d->octets = 0, d->message_bits = 0, d->messaged = present & 1;
    if (present & 2) {
        d->octets = get_length(&r, 1, sizeof d->identifier);
        get_run(&r, d->identifier, 8 * d->octets);
    }
    if (d->messaged) {
        d->message_bits = get_length(&r, 0, MESSAGE_MOST);
        get_run(&r, d->message, d->message_bits);
    }
    d->check_bits = get_length(&r, 0, 8 * sizeof d->check);
    get_run(&r, d->check, d->check_bits);
    if (r.bad || r.bits - r.at >= 8)
        return 0;
    return get(&r, (unsigned)(r.bits - r.at)) == 0;
}

/* ---- ATCUplinkMessage (Doc 9705, 2.3.4) */

static const struct {
    long lo, hi;
    unsigned width;
} units[4] = {{-60, 7000, 13}, {-30, 25000, 15}, {30, 700, 10}, {100, 2500, 12}};

static void put_level(struct writer *w, const struct plain_level *l)
{
    int i;
    put(w, l->block != 0, 1);
    for (i = 0; i < 1 + (l->block != 0); i++) {
        unsigned u = l->unit[i];
        if (u > 3) {
            w->bad = 1;
            return;
        }
        put(w, u, 2);
        put_whole(w, units[u].lo, units[u].hi, units[u].width, l->number[i]);
    }
}

static void get_level(struct reader *r, struct plain_level *l)
{
    int i;
    l->block = (int)get(r, 1);
    for (i = 0; i < 1 + l->block; i++) {
        unsigned u = l->unit[i] = (unsigned)get(r, 2);
        l->number[i] = (int)get_whole(r, units[u].lo, units[u].hi, units[u].width);
    }
}

static void put_text(struct writer *w, const struct plain_element *e)
{
    size_t i;
    for (i = 0; i < e->characters; i++)
        put_whole(w, 0, 127, 7, e->text[i]);
}

static void put_sized(struct writer *w, const struct plain_element *e, long least, long most, unsigned width)
{
    put_whole(w, least, most, width, (long)e->characters);
    if (!w->bad)
        put_text(w, e);
}

static void get_text(struct reader *r, struct plain_element *e)
{
    size_t i;
    for (i = 0; i < e->characters; i++)
        e->text[i] = (char)get(r, 7);
}

static void get_sized(struct reader *r, struct plain_element *e, long least, long most, unsigned width)
{
    e->characters = (size_t)get_whole(r, least, most, width);
    if (!r->bad)
        get_text(r, e);
}

static void put_element(struct writer *w, const struct plain_element *e)
{
    int i;
    if (e->number > 236) {
        w->bad = 1;
        return;
    }
    put(w, e->number, 9);
    switch (kinds[e->number]) {
    case K_NONE: break;
    case K_LEVEL: put_level(w, &e->level[0]); break;
    case K_TWO_LEVELS: put_level(w, &e->level[0]), put_level(w, &e->level[1]); break;
    case K_TIME: put_whole(w, 0, 23, 5, (long)e->hours), put_whole(w, 0, 59, 6, (long)e->minutes); break;
    case K_CODE:
        for (i = 0; i < 4; i++)
            put_whole(w, 0, 7, 3, e->code[i]);
        break;
    case K_TEXT: put_sized(w, e, 1, 256, 8); break;
    case K_FACILITY:
        put(w, e->characters > 0, 1);
        if (e->characters == 0)
            break; /* fall through */
    case K_DESIGNATION: put_sized(w, e, 4, 8, 3); break;
    case K_ATIS: put_whole(w, 0, 127, 7, e->text[0]); break;
    default: w->bad = 1;
    }
}

static void get_element(struct reader *r, struct plain_element *e)
{
    int i;
    e->number = (unsigned)get_whole(r, 0, 236, 9); /* an extension bit of 1 makes it 256 or more */
    if (r->bad)
        return;
    switch (kinds[e->number]) {
    case K_NONE: break;
    case K_LEVEL: get_level(r, &e->level[0]); break;
    case K_TWO_LEVELS: get_level(r, &e->level[0]), get_level(r, &e->level[1]); break;
    case K_TIME: e->hours = (unsigned)get_whole(r, 0, 23, 5), e->minutes = (unsigned)get_whole(r, 0, 59, 6); break;
    case K_CODE:
        for (i = 0; i < 4; i++)
            e->code[i] = (uint8_t)get(r, 3);
        break;
    case K_TEXT: get_sized(r, e, 1, 256, 8); break;
    case K_FACILITY:
        if (get(r, 1) == 0)
            break; /* fall through */
    case K_DESIGNATION: get_sized(r, e, 4, 8, 3); break;
    case K_ATIS: e->characters = 1, get_text(r, e); break;
    default: r->bad = 1;
    }
}

size_t plain_write_message(uint8_t *out, size_t room, const struct plain_message *m)
{
    struct writer w = {out, room, 0, 0, 0, 0};
    size_t i, bits;
    put(&w, (m->referenced != 0) << 1 | (m->acknowledged != 0), 2);
    put_whole(&w, 0, 63, 6, (long)m->identification);
    if (m->referenced)
        put_whole(&w, 0, 63, 6, (long)m->reference);
    put_whole(&w, 1996, 2095, 7, (long)m->year);
    put_whole(&w, 1, 12, 4, (long)m->month);
    put_whole(&w, 1, 31, 5, (long)m->day);
    put_whole(&w, 0, 23, 5, (long)m->hours);
    put_whole(&w, 0, 59, 6, (long)m->minutes);
    put_whole(&w, 0, 59, 6, (long)m->seconds);
    if (m->acknowledged)
        put(&w, 0, 1); /* required, the value that is not the default */
    put(&w, 0, 1);     /* no constrained data */
    put_whole(&w, 1, 5, 3, (long)m->count);
    for (i = 0; i < m->count && !w.bad; i++)
        put_element(&w, &m->element[i]);
    bits = written(&w);
    return bits > MESSAGE_MOST ? 0 : bits;
}

int plain_read_message(const uint8_t *in, size_t bits, struct plain_message *m)
{
    struct reader r = {in, bits, 0, 0};
    unsigned present = (unsigned)get(&r, 2);
    size_t i;
    memset(m, 0, sizeof *m);
    m->identification = (unsigned)get(&r, 6);
    m->referenced = present >> 1;
    if (m->referenced)
        m->reference = (unsigned)get(&r, 6);
    m->year = (unsigned)get_whole(&r, 1996, 2095, 7);
    m->month = (unsigned)get_whole(&r, 1, 12, 4);
    m->day = (unsigned)get_whole(&r, 1, 31, 5);
    m->hours = (unsigned)get_whole(&r, 0, 23, 5);
    m->minutes = (unsigned)get_whole(&r, 0, 59, 6);
    m->seconds = (unsigned)get_whole(&r, 0, 59, 6);
    if (present & 1) {
        m->acknowledged = 1;
        if (get(&r, 1) != 0)
            return 0;
    }
    if (get(&r, 1) != 0)
        return 0;
    m->count = (size_t)get_whole(&r, 1, 5, 3);
    for (i = 0; i < m->count && !r.bad; i++)
        get_element(&r, &m->element[i]);
    return !r.bad && r.at == r.bits;
}

/* ---- the same in a message range and a text */

static void load_level(const uint8_t *at, struct plain_level *l)
{
    l->block = at[PEAT_LEVEL_BLOCK];
    l->unit[0] = at[PEAT_LEVEL_UNIT], l->unit[1] = at[PEAT_LEVEL_SECOND_UNIT];
    l->number[0] = (int16_t)(at[PEAT_LEVEL_NUMBER] << 8 | at[PEAT_LEVEL_NUMBER + 1]);
    l->number[1] = (int16_t)(at[PEAT_LEVEL_SECOND_NUMBER] << 8 | at[PEAT_LEVEL_SECOND_NUMBER + 1]);
}

static void lay_level(const struct plain_level *l, uint8_t *at)
{
    at[PEAT_LEVEL_BLOCK] = (uint8_t)l->block;
    at[PEAT_LEVEL_UNIT] = (uint8_t)l->unit[0], at[PEAT_LEVEL_SECOND_UNIT] = (uint8_t)l->unit[1];
    at[PEAT_LEVEL_NUMBER] = (uint8_t)((unsigned)l->number[0] >> 8), at[PEAT_LEVEL_NUMBER + 1] = (uint8_t)l->number[0];
    at[PEAT_LEVEL_SECOND_NUMBER] = (uint8_t)((unsigned)l->number[1] >> 8), at[PEAT_LEVEL_SECOND_NUMBER + 1] = (uint8_t)l->number[1];
}

int plain_load_message(const uint8_t *laid, const uint8_t *text, size_t characters, struct plain_message *m)
{
    size_t i;
    m->identification = laid[PEAT_INNER_IDENTIFICATION], m->referenced = laid[PEAT_INNER_REFERENCED], m->reference = laid[PEAT_INNER_REFERENCE];
    m->year = (unsigned)laid[PEAT_INNER_YEAR] << 8 | laid[PEAT_INNER_YEAR + 1], m->month = laid[PEAT_INNER_MONTH], m->day = laid[PEAT_INNER_DAY];
    m->hours = laid[PEAT_INNER_HOURS], m->minutes = laid[PEAT_INNER_MINUTES], m->seconds = laid[PEAT_INNER_SECONDS];
    m->acknowledged = laid[PEAT_INNER_ACKNOWLEDGED], m->count = laid[PEAT_INNER_COUNT];
    if (m->count > PEAT_INNER_PLACES)
        return 0;
    for (i = 0; i < m->count; i++) {
        const uint8_t *place = laid + peat_place_at((unsigned)i);
        struct plain_element *e = &m->element[i];
        e->number = place[PEAT_PLACE_NUMBER];
        e->characters = (size_t)place[PEAT_PLACE_CHARACTERS] << 8 | place[PEAT_PLACE_CHARACTERS + 1];
        load_level(place + PEAT_PLACE_LEVEL, &e->level[0]), load_level(place + PEAT_PLACE_OTHER, &e->level[1]);
        e->hours = place[PEAT_PLACE_HOURS], e->minutes = place[PEAT_PLACE_MINUTES];
        memcpy(e->code, place + PEAT_PLACE_CODE, sizeof e->code);
        if (e->characters > sizeof e->text || e->characters > characters)
            return 0;
        memcpy(e->text, text, e->characters);
        text += e->characters, characters -= e->characters;
    }
    return characters == 0;
}

size_t plain_lay_message(const struct plain_message *m, uint8_t *laid, uint8_t *text)
{
    size_t i, characters = 0;
    memset(laid, 0, PEAT_INNER_BYTES);
    laid[PEAT_INNER_IDENTIFICATION] = (uint8_t)m->identification;
    laid[PEAT_INNER_REFERENCED] = (uint8_t)m->referenced, laid[PEAT_INNER_REFERENCE] = (uint8_t)m->reference;
    laid[PEAT_INNER_YEAR] = (uint8_t)(m->year >> 8), laid[PEAT_INNER_YEAR + 1] = (uint8_t)m->year;
    laid[PEAT_INNER_MONTH] = (uint8_t)m->month, laid[PEAT_INNER_DAY] = (uint8_t)m->day;
    laid[PEAT_INNER_HOURS] = (uint8_t)m->hours, laid[PEAT_INNER_MINUTES] = (uint8_t)m->minutes, laid[PEAT_INNER_SECONDS] = (uint8_t)m->seconds;
    laid[PEAT_INNER_ACKNOWLEDGED] = (uint8_t)m->acknowledged, laid[PEAT_INNER_COUNT] = (uint8_t)m->count;
    for (i = 0; i < m->count; i++) {
        uint8_t *place = laid + peat_place_at((unsigned)i);
        const struct plain_element *e = &m->element[i];
        place[PEAT_PLACE_NUMBER] = (uint8_t)e->number;
        place[PEAT_PLACE_CHARACTERS] = (uint8_t)(e->characters >> 8), place[PEAT_PLACE_CHARACTERS + 1] = (uint8_t)e->characters;
        lay_level(&e->level[0], place + PEAT_PLACE_LEVEL), lay_level(&e->level[1], place + PEAT_PLACE_OTHER);
        place[PEAT_PLACE_HOURS] = (uint8_t)e->hours, place[PEAT_PLACE_MINUTES] = (uint8_t)e->minutes;
        memcpy(place + PEAT_PLACE_CODE, e->code, sizeof e->code);
        memcpy(text + characters, e->text, e->characters);
        characters += e->characters;
    }
    return characters;
}

/* ---- the broker's envelope: groups of seven bits, the lowest first */

static size_t put_groups(uint8_t *out, uint64_t n)
{
    size_t i = 0;
    for (; n > 127; n >>= 7)
        out[i++] = (uint8_t)(n | 0x80);
    out[i++] = (uint8_t)n;
    return i;
}

/* the bytes that it takes, or 0 */
static size_t get_groups(const uint8_t *in, size_t bytes, uint64_t *n)
{
    size_t i;
    *n = 0;
    for (i = 0; i < bytes && i < 10; i++) {
        if (i == 9 && in[i] > 1)
            return 0;
        *n |= (uint64_t)(in[i] & 0x7F) << 7 * i;
        if (in[i] < 128)
            return i > 0 && in[i] == 0 ? 0 : i + 1;
    }
    return 0;
}

static int envelope_fits(const struct plain_envelope *e)
{
    return e->kind >= 1 && e->kind <= 3 && e->job != 0 && e->bits <= MESSAGE_MOST && (e->kind != 3 || e->bits == 8);
}

size_t plain_write_envelope(uint8_t *out, size_t room, const struct plain_envelope *e)
{
    size_t at, bytes = (e->bits + 7) / 8;
    if (room < BUFFER_LEAST || !envelope_fits(e))
        return 0;
    at = put_groups(out, e->kind);
    at += put_groups(out + at, e->job);
    at += put_groups(out + at, e->bits);
    memcpy(out + at, e->body, bytes);
    if (e->bits % 8)
        out[at + bytes - 1] &= (uint8_t)(0xFF00 >> e->bits % 8);
    return at + bytes;
}

size_t plain_read_envelope(const uint8_t *in, size_t bytes, struct plain_envelope *e)
{
    uint64_t *part[3] = {&e->kind, &e->job, &e->bits};
    size_t i, at = 0, body;
    for (i = 0; i < 3; i++) {
        size_t n = get_groups(in + at, bytes - at, part[i]);
        if (n == 0)
            return 0;
        at += n;
    }
    if (!envelope_fits(e))
        return 0;
    body = (e->bits + 7) / 8;
    if (body > bytes - at || (e->bits % 8 && (uint8_t)(in[at + body - 1] << e->bits % 8) != 0))
        return 0;
    e->body = in + at;
    return at + body;
}
