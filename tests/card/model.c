#include "model.h"

#include <string.h>

/* ---- bits (X.691) */

void put(struct bits *b, uint64_t value, unsigned width)
{
    while (width-- > 0)
        b->bit[b->n++] = (uint8_t)(value >> width & 1);
}

void put_range(struct bits *b, const uint8_t *bytes, size_t count)
{
    size_t i;
    for (i = 0; i < count; i++)
        b->bit[b->n++] = (uint8_t)(bytes[i / 8] >> (7 - i % 8) & 1);
}

void put_length(struct bits *b, size_t count) /* 11.9.3.6, 11.9.3.7 */
{
    if (count < 128)
        put(b, count, 8);
    else
        put(b, 0x8000 | count, 16);
}

void put_data(struct bits *b, const struct args *a)
{
    put(b, 0, 1);
    put(b, a->ids.len > 0, 1);
    put(b, a->message != NONE, 1);
    if (a->ids.len > 0) {
        put_length(b, a->ids.len);
        put_range(b, a->ids.at, 8 * a->ids.len);
    }
    if (a->message != NONE) {
        put_length(b, a->message);
        put_range(b, a->msgs.at, a->message);
    }
    put_length(b, a->check);
    put_range(b, a->checks.at, a->check);
}

size_t whole(const struct bits *b, uint8_t *bytes)
{
    size_t i;
    for (i = 0; i < (b->n + 7) / 8; i++)
        bytes[i] = 0;
    for (i = 0; i < b->n; i++)
        bytes[i / 8] |= (uint8_t)(b->bit[i] << (7 - i % 8));
    return (b->n + 7) / 8;
}

/* ---- APDUs (Doc 9705, 2.3.4) */

enum kind { MISSING, INVALID, ABORT_USER, ABORT_PROVIDER, START, SEND, FORWARD, RESPONSE };

struct pdu {
    enum kind kind;
    unsigned value;       /* reason, mode or result */
    size_t data, data_to; /* where the message data begin, with their extension bit, and their root ends; of a forward, its message's */
};

struct reader reader_of(struct range in, size_t end)
{
    struct reader r = {in, end, 0, 0, 0, 0};
    return r;
}

void fault(struct reader *r, unsigned refusal)
{
    if (!r->bad) {
        r->bad = refusal;
        r->where = r->field;
    }
}

uint64_t refused(const struct reader *r) { return r->bad | (uint64_t)r->where << 8; }

void begin(struct reader *r) { r->field = r->at; }

uint64_t get(struct reader *r, size_t width)
{
    begin(r);
    return get_more(r, width);
}

uint64_t get_more(struct reader *r, size_t width)
{
    uint64_t v = 0;
    if (r->bad || width > r->end - r->at) {
        fault(r, SHORT);
        return 0;
    }
    for (; width > 0; width--, r->at++)
        v = v << 1 | (r->in.at[r->at / 8] >> (7 - r->at % 8) & 1);
    return v;
}

void skip(struct reader *r, size_t width)
{
    begin(r);
    if (r->bad || width > r->end - r->at)
        fault(r, SHORT);
    else
        r->at += width;
}

static size_t get_length(struct reader *r) /* 11.9.3.6 to 11.9.3.8 */
{
    uint64_t n = get(r, 8);
    if (n < 128)
        return n;
    if (n >= 192)
        fault(r, LENGTH_FORM); /* in fragments */
    n = (n - 128) << 8 | get_more(r, 8);
    if (n < 128)
        fault(r, LENGTH_FORM); /* not the shortest form */
    return n;
}

static void get_string(struct reader *r, unsigned unit, size_t least, size_t most)
{
    size_t n = get_length(r);
    if (n < least || n > most)
        fault(r, LIMIT);
    skip(r, unit * n);
}

/* what a later edition added: how many there may be, which of them are there, and each with its length in octets (19.7 to 19.9) */
static void get_additions(struct reader *r)
{
    unsigned n;
    uint64_t there;
    if (get(r, 1) == 1)
        fault(r, EXTENSION); /* the long form of the count */
    n = 1 + (unsigned)get_more(r, 6);
    there = get(r, n);
    if (there == 0)
        fault(r, EXTENSION);
    for (; there != 0 && !r->bad; there &= there - 1)
        skip(r, 8 * get_length(r));
}

static void get_data(struct reader *r, struct pdu *p)
{
    unsigned extended, identifier, message;
    p->data = r->at;
    extended = (unsigned)get(r, 1);
    identifier = (unsigned)get(r, 1);
    message = (unsigned)get_more(r, 1);
    if (identifier)
        get_string(r, 8, 1, 16);
    if (message)
        get_string(r, 1, 0, MESSAGE_MOST);
    get_string(r, 1, 0, 64);
    p->data_to = r->at;
    if (extended)
        get_additions(r);
}

/* ATCForwardMessage: each of its numbers by the order of enum peat_forward_part, and where its bits stand. Of the flight
   identification the count is a field, and the characters behind it are one. */
struct forwarded {
    uint64_t part[10];
    size_t bits, count;
};

static uint64_t get_between(struct reader *r, uint64_t low, uint64_t high)
{
    unsigned width = 0;
    uint64_t v;
    while ((high - low) >> width)
        width++;
    v = get(r, width);
    if (v > high - low)
        fault(r, RANGE);
    return low + v;
}

enum { DOWN = 1, UP = 2 };

static void get_forward(struct reader *r, int plain, struct forwarded *f)
{
    static const uint64_t low[] = {1996, 1, 1, 0, 0, 0, 2}, high[] = {2095, 12, 31, 23, 59, 59, 8};
    unsigned i;
    for (i = 0; i < 7; i++)
        f->part[i] = get_between(r, low[i], high[i]);
    f->part[7] = get(r, r->bad ? 0 : 7 * (size_t)f->part[6]);
    f->part[8] = get(r, 24);
    f->part[9] = get(r, 1);
    if (plain) { /* ATCUplinkMessageData or ATCDownlinkMessageData in place (004, M-9.1.2, M-10.1.2) */
        f->bits = r->at;
        if (!r->bad)
            get_elements(r, f->part[9] == 0 ? UP : DOWN);
        f->count = r->at - f->bits;
        return;
    }
    f->count = get_length(r); /* what two bytes say is within MESSAGE_MOST */
    f->bits = r->at;
    skip(r, f->count);
}

/* zeros up to the end of a byte, and nothing behind them */
static void get_end(struct reader *r)
{
    while (!r->bad && r->at % 8 != 0)
        if (get(r, 1) == 1)
            fault(r, TAIL);
    begin(r);
    if (r->at != r->end)
        fault(r, TAIL);
}

/* the message of a start or a send of application type 2, or none in a start (004, M-1.1.3, M-2.1.3) */
static void get_plain(struct reader *r, int aircraft, int start, struct pdu *p)
{
    unsigned given = start ? (unsigned)get(r, 1) : 1;
    p->data = r->at;
    if (given && !r->bad)
        get_message(r, aircraft ? DOWN : UP);
    p->data_to = r->at;
}

static struct pdu decode(int aircraft, int plain, struct reader *r)
{
    struct pdu p = {INVALID, 0, 0, 0};
    unsigned index;
    enum kind kind = INVALID;
    if (get(r, 1) == 1)
        fault(r, EXTENSION);
    index = (unsigned)get(r, aircraft ? 2 : 3);
    if (index > 5)
        fault(r, RANGE);
    if (r->bad)
        return p;
    if (index == 4) {
        struct forwarded f;
        kind = FORWARD;
        p.data = r->at;
        get_forward(r, plain, &f);
        p.data_to = r->at;
    } else if (index == 5) {
        kind = RESPONSE;
        if (get(r, 1) == 1)
            fault(r, EXTENSION);
        p.value = (unsigned)get(r, 2);
        if (p.value > 2)
            fault(r, RANGE);
    } else if (index == 0 || index == 1) {
        kind = index == 0 ? ABORT_USER : ABORT_PROVIDER;
        if (get(r, 1) == 1)
            fault(r, EXTENSION);
        p.value = (unsigned)get(r, index == 0 && !plain ? 4 : 3);
        if (p.value > (index == 0 && plain ? 6 : 12)) /* 004, M-1.1.1, M-2.1.1 */
            fault(r, RANGE);
    } else {
        kind = index == 2 ? START : SEND;
        if (index == 2 && aircraft && get(r, 1) == 1) { /* mode, DEFAULT cpdlc */
            p.value = 1;
            if (get(r, 1) == 0)
                fault(r, DEFAULT);
        }
        if (plain)
            get_plain(r, aircraft, index == 2, &p);
        else
            get_data(r, &p);
    }
    get_end(r);
    p.kind = r->bad ? INVALID : kind;
    return p;
}

static struct pdu decoded(int aircraft, int plain, struct range in)
{
    struct reader r = reader_of(in, 8 * in.len);
    return decode(aircraft, plain, &r);
}

/* an APDU by itself: its alternative, the reason, mode or result, and whether it has message data */
static uint64_t read_apdu(const struct args *a)
{
    static const unsigned tag[] = {0, 0, 0, 1, 2, 3, 4, 5};
    struct reader r = reader_of(a->bytes, 8 * a->bytes.len);
    struct pdu p;
    int plain = a->n[0] > 2;
    if (a->n[0] < 1 || a->n[0] > 4)
        return 2;
    p = decode(a->n[0] % 2 == 1, plain, &r);
    if (r.bad)
        return refused(&r);
    return tag[p.kind] << 8 | p.value << 16 | (unsigned)((p.kind == START && !(plain && p.data == p.data_to)) || p.kind == SEND) << 24;
}

/* ---- records and outcomes */

enum { AIR = 1, GROUND = 2 };
enum { IDLE, REQ, IND, DLG, END, FWD };
enum { TIMER, UNDEFINED, BAD_PDU, PROTOCOL, SERVICE_ERROR, SERVICE_FAILURE, QOS, EXPECTED_MISSING, NOT_PERMITTED };
enum { D_START_REQ = 1, D_START_RSP, D_DATA_REQ, D_END_REQ, D_END_RSP, D_ABORT_REQ };
enum { START_IND = 1, START_CNF, MESSAGE_IND, END_IND, END_CNF, USER_ABORT_IND, PROVIDER_ABORT_IND, FORWARD_IND, FORWARD_CNF };
#define NOBODY 99u
#define NOTHING 99u

struct rec {
    unsigned side, state, dsc, timer, active, request, policy, forwards, version;
    uint64_t highest, number;
    int plain; /* application type 2 */
};

struct out {
    unsigned refusal;
    struct rec rec;
    unsigned ds, ds_parameter, ds_security; /* dialogue-service primitive */
    enum kind apdu;
    unsigned apdu_value;
    unsigned user, user_parameter, user_dsc; /* user primitive */
    int data;                                /* message data, or a forward message, delivered */
    unsigned version;                        /* of a forward's D-START, or told with its confirmation */
};

static int load(struct range b, struct rec *r)
{
    size_t i;
    const uint8_t *x = b.at;
    if (b.len != RECORD_BYTES)
        return 0;
    if (x[0] < 1 || x[0] > 4 || x[1] > 5 || x[2] > 1 || x[3] > 1 || x[4] > 1 || x[5] > 1 || x[6] > 1 || x[7] > 1 || x[8] < 1)
        return 0;
    r->side = x[0] % 2 ? AIR : GROUND, r->plain = x[0] > 2, r->state = x[1], r->dsc = x[2], r->timer = x[3], r->active = x[4], r->request = x[5], r->policy = x[6];
    r->forwards = x[7], r->version = x[8];
    for (r->highest = 0, i = 9; i < 17; i++)
        r->highest = r->highest << 8 | x[i];
    for (r->number = 0, i = 17; i < 25; i++)
        r->number = r->number << 8 | x[i];
    return 1;
}

static void save(const struct rec *r, struct range b)
{
    size_t i;
    uint8_t *x = b.at;
    x[0] = (uint8_t)(r->side + (r->plain ? 2 : 0)), x[1] = (uint8_t)r->state, x[2] = (uint8_t)r->dsc, x[3] = (uint8_t)r->timer;
    x[4] = (uint8_t)r->active, x[5] = (uint8_t)r->request, x[6] = (uint8_t)r->policy, x[7] = (uint8_t)r->forwards;
    x[8] = (uint8_t)r->version;
    for (i = 0; i < 8; i++) {
        x[9 + i] = (uint8_t)(r->highest >> (56 - 8 * i));
        x[17 + i] = (uint8_t)(r->number >> (56 - 8 * i));
    }
}

static struct out stays(const struct rec *r)
{
    struct out o;
    memset(&o, 0, sizeof o);
    o.rec = *r;
    o.apdu = MISSING;
    return o;
}

static struct out refuse(const struct rec *r, unsigned n)
{
    struct out o = stays(r);
    o.refusal = n;
    return o;
}

/* Document 01: entering IDLE sets DSC false, stops the timer and makes the user not active. */
static void close_record(struct rec *r) { r->state = IDLE, r->dsc = r->timer = r->active = 0; }

static struct out closes(const struct rec *r)
{
    struct out o = stays(r);
    close_record(&o.rec);
    return o;
}

/* D-ABORT "provider" with a reason, or NOTHING; an active user is told a reason, or NOBODY */
static struct out breaks(const struct rec *r, unsigned send, unsigned tells)
{
    struct out o = closes(r);
    if (send != NOTHING)
        o.ds = D_ABORT_REQ, o.ds_parameter = 1, o.apdu = ABORT_PROVIDER, o.apdu_value = send;
    if (tells != NOBODY && r->active)
        o.user = PROVIDER_ABORT_IND, o.user_parameter = tells;
    return o;
}

/* 3.5.4.4.3, 2.3.5.6.4.4; document 01: in IDLE no output */
static struct out no_instruction(const struct rec *r, int exists)
{
    return r->state == IDLE ? closes(r) : breaks(r, exists ? PROTOCOL : NOTHING, PROTOCOL);
}

static struct out sends(struct out o, unsigned ds, unsigned parameter, unsigned security, enum kind apdu, unsigned value)
{
    o.ds = ds, o.ds_parameter = parameter, o.ds_security = security, o.apdu = apdu, o.apdu_value = value;
    return o;
}

static struct out tells(struct out o, unsigned user, unsigned parameter, unsigned dsc)
{
    o.user = user, o.user_parameter = parameter, o.user_dsc = dsc, o.data = 1;
    return o;
}

static struct out goes(const struct rec *r, unsigned state)
{
    struct out o = stays(r);
    o.rec.state = state;
    if (state == IDLE)
        close_record(&o.rec);
    return o;
}

/* ---- codes (document 01: SHAPE) */

static int shapely(enum which w, const struct rec *r, const struct args *a)
{
    const uint64_t *n = a->n;
    unsigned side = r->side;
    switch (w) {
    case START_REQUEST: return (n[0] == 0 || (n[0] == 1 && side == AIR)) && n[1] <= 8 && n[2] <= 1; /* document 02, E7 */
    case START_RESPONSE: case DSC_START_RESPONSE: /* 004, S-4.4, S-5.4: a message gives the reason for a rejection */
        return n[0] <= 1 && !(r->plain && n[0] == 0 && a->message != NONE);
    case END_RESPONSE: case DSC_END_RESPONSE: return n[0] <= 1;
    case MESSAGE_REQUEST: return n[0] >= 1;
    case USER_ABORT: return n[0] == NONE || n[0] <= (r->plain ? 6 : 12);
    case FORWARD_REQUEST: return n[0] <= 8 && n[1] <= 1;
    case D_START_INDICATION: return n[0] <= 1 && n[1] <= 1 && n[5] <= 255;
    case D_START_CONFIRMATION: return n[0] <= 2 && n[1] <= 1 && n[2] <= 1 && n[3] <= 255;
    case D_END_CONFIRMATION: case D_ABORT_INDICATION: return n[0] <= 1;
    default: return 1;
    }
}

static int qos_right(const uint64_t *n) { return n[2] == 1 && n[3] == 1 && n[4] <= 8; }

/* application type 2 has no security: "no security" is sent, and nothing is compared (004, S-4 to S-11) */
static unsigned carried(const struct rec *r, uint64_t security) { return r->plain ? 0 : (unsigned)security; }
static int differs(const struct rec *r, uint64_t security, unsigned other) { return !r->plain && security != other; }

/* User data that a start's confirmation or an end may lack: in application type 2 alone. What is accepted has none there. */
static int permitted(const struct rec *r, const struct pdu *p, int accepted_start)
{
    return (p->kind == MISSING && r->plain) || (p->kind == SEND && !(r->plain && accepted_start));
}

/* mode, class, security */
static struct out starts(const struct rec *r, const uint64_t *n)
{
    struct out o = goes(r, REQ);
    if (n[0] == 1)
        o.rec.dsc = 1;
    o.rec.timer = o.rec.active = 1;
    o.rec.request = carried(r, n[2]);
    return sends(o, D_START_REQ, (unsigned)n[1], carried(r, n[2]), START, (unsigned)n[0]);
}

static struct out message(const struct rec *r, const struct args *a)
{
    struct out o = stays(r);
    if (a->message == NONE)
        return refuse(r, 4);
    if (a->n[0] <= r->highest)
        return refuse(r, 5);
    o.rec.highest = a->n[0];
    return sends(o, D_DATA_REQ, 0, 0, SEND, 0);
}

/* ---- air (Doc 9880 3.5.3, 3.5.4; Doc 9705 2.3.5.3) */

static struct out air_bad(const struct rec *r, enum kind k, int open_invalid, int open_wrong)
{
    if (k == MISSING)
        return breaks(r, EXPECTED_MISSING, NOT_PERMITTED); /* 3.5.4.7 */
    if (k == INVALID)
        return breaks(r, open_invalid ? BAD_PDU : NOTHING, BAD_PDU); /* 3.5.4.3 */
    return breaks(r, open_wrong ? PROTOCOL : NOTHING, PROTOCOL); /* 3.5.4.4 */
}

static struct out forward_confirmed(const struct rec *r, const uint64_t *n, const struct pdu *p);

static struct out air_step(enum which w, const struct rec *r, const struct args *a, const struct pdu *p)
{
    const uint64_t *n = a->n;
    unsigned s = r->state, x = (unsigned)n[0];
    struct out o;
    switch (w) {
    case START_REQUEST: return s == IDLE ? starts(r, n) : refuse(r, 3); /* 2.3.5.3.7; 3.5.3.9 */
    case START_RESPONSE:                                               /* 2.3.5.3.8 */
        return s == IND && !r->dsc ? sends(goes(r, x == 0 ? DLG : IDLE), D_START_RSP, x, carried(r, r->policy), SEND, 0) : refuse(r, 3);
    case MESSAGE_REQUEST: /* 3.5.3.10 */
        return s == DLG || (s == END && !r->dsc) ? message(r, a) : refuse(r, 3);
    case END_RESPONSE: /* 3.5.3.11 */
        return s == END && !r->dsc ? sends(goes(r, x == 0 ? IDLE : DLG), D_END_RSP, x, 0, SEND, 0) : refuse(r, 3);
    case DSC_END_REQUEST: /* 3.5.3.12 */
        return s == DLG && r->dsc ? sends(goes(r, END), D_END_REQ, 0, 0, SEND, 0) : refuse(r, 3);
    case USER_ABORT: /* 3.5.3.13 */
        return s != IDLE ? sends(closes(r), D_ABORT_REQ, 0, 0, ABORT_USER, n[0] == NONE ? 0 : x) : refuse(r, 3);
    case TIMER_EXPIRY: return r->timer ? breaks(r, TIMER, TIMER) : refuse(r, 3);              /* 3.5.4.1 */
    case SYSTEM_ERROR: return s == IDLE ? closes(r) : breaks(r, UNDEFINED, UNDEFINED);        /* 3.5.4.2 */
    case D_START_INDICATION:                                                                 /* 2.3.5.3.2 */
        if (s != IDLE)
            return no_instruction(r, 1);
        if (!qos_right(n))
            return breaks(r, QOS, NOBODY); /* 3.5.4.6 */
        if (differs(r, n[1], r->policy))
            return breaks(r, SERVICE_FAILURE, SERVICE_FAILURE); /* 3.5.4.8 */
        if (p->kind != START)
            return air_bad(r, p->kind, 1, 1);
        if (n[0] != 0)
            return no_instruction(r, 1);
        o = goes(r, IND);
        o.rec.active = 1;
        return tells(o, START_IND, (unsigned)n[4], 0);
    case D_START_CONFIRMATION: /* 2.3.5.3.3 */
        if (s == FWD) /* which no run reaches: as at the ground (docs/DECISIONS.md, "Forwarding") */
            return forward_confirmed(r, n, p);
        if (s != REQ)
            return no_instruction(r, 1);
        if (x == 2 || n[1] == 1)
            return breaks(r, NOTHING, SERVICE_ERROR); /* 3.5.4.5 */
        if (differs(r, n[2], r->request))
            return breaks(r, x == 0 ? SERVICE_FAILURE : NOTHING, SERVICE_FAILURE); /* 3.5.4.8 */
        if (!permitted(r, p, x == 0))
            return air_bad(r, p->kind, x == 0, 1);
        o = goes(r, x == 0 ? DLG : IDLE);
        o.rec.timer = 0;
        return tells(o, START_CNF, x, r->dsc);
    case D_DATA_INDICATION: /* 2.3.5.3.4 */
        if (!(s == DLG || (s == END && r->dsc)))
            return no_instruction(r, 1);
        return p->kind != SEND ? air_bad(r, p->kind, 1, 1) : tells(stays(r), MESSAGE_IND, 0, 0);
    case D_END_INDICATION: /* 2.3.5.3.5 */
        if (s != DLG || r->dsc)
            return no_instruction(r, 1);
        return !permitted(r, p, 0) ? air_bad(r, p->kind, 1, 1) : tells(goes(r, END), END_IND, 0, 0);
    case D_END_CONFIRMATION: /* 2.3.5.3.6, 3.5.4.3.2, 3.5.4.4.2 */
        if (s != END || !r->dsc)
            return no_instruction(r, 1);
        return !permitted(r, p, 0) ? air_bad(r, p->kind, x == 1, x == 1) : tells(goes(r, x == 0 ? IDLE : DLG), END_CNF, x, 1);
    case D_ABORT_INDICATION: /* 3.5.3.14 */
        if (s == IDLE || p->kind != (x == 0 ? ABORT_USER : ABORT_PROVIDER))
            return no_instruction(r, 0);
        o = closes(r);
        if (r->active)
            o.user = x == 0 ? USER_ABORT_IND : PROVIDER_ABORT_IND, o.user_parameter = p->value;
        return o;
    case D_P_ABORT_INDICATION: return s == IDLE ? closes(r) : breaks(r, NOTHING, SERVICE_FAILURE); /* 3.5.3.15 */
    default: return refuse(r, 3); /* primitives of the ground user */
    }
}

/* ---- ground (Doc 9705 2.3.5.5, 2.3.5.6; Doc 9880 3.5.5.1.6) */

static struct out ground_bad(const struct rec *r, enum kind k, int open_invalid, int open_wrong)
{
    if (k == MISSING)
        return breaks(r, EXPECTED_MISSING, NOT_PERMITTED); /* 2.3.5.6.7 */
    if (k == INVALID)
        return breaks(r, open_invalid ? BAD_PDU : NOTHING, BAD_PDU); /* 2.3.5.6.3 */
    return breaks(r, open_wrong ? PROTOCOL : NOTHING, PROTOCOL); /* 2.3.5.6.4.1, 2.3.5.6.4.3 */
}

/* 2.3.5.5.13.1: FORWARD, t-start runs, the user is active; 3.5.5.1.6 d */
static struct out forwards(const struct rec *r, const uint64_t *n)
{
    struct out o = goes(r, FWD);
    o.rec.timer = o.rec.active = 1;
    o.rec.request = carried(r, n[1]);
    o.version = r->version;
    return sends(o, D_START_REQ, (unsigned)n[0], carried(r, n[1]), FORWARD, 0);
}

/* 2.3.5.5.2.4 where the service is not supported; else 2.3.5.5.2.3, by the version. The answer goes out in a D-START response
   "rejected (permanent)", and the user does not become active. */
static struct out answers_forward(const struct rec *r, const uint64_t *n)
{
    struct out o = closes(r);
    if (!r->forwards)
        return sends(o, D_START_RSP, 1, carried(r, n[1]), RESPONSE, 1);
    if (n[5] != r->version) {
        o.version = r->version;
        return sends(o, D_START_RSP, 1, carried(r, n[1]), RESPONSE, 2);
    }
    return tells(sends(o, D_START_RSP, 1, carried(r, n[1]), RESPONSE, 0), FORWARD_IND, 0, 0);
}

/* 2.3.5.5.3.3: only "rejected (permanent)" by the DS user brings the response */
static struct out forward_confirmed(const struct rec *r, const uint64_t *n, const struct pdu *p)
{
    struct out o;
    if (n[0] == 2 || n[1] == 1)
        return breaks(r, NOTHING, SERVICE_ERROR); /* 2.3.5.6.5 */
    if (differs(r, n[2], r->request))
        return breaks(r, n[0] == 0 ? SERVICE_FAILURE : NOTHING, SERVICE_FAILURE);
    if (p->kind != RESPONSE || n[0] == 0)
        return ground_bad(r, p->kind, n[0] == 0, 1);
    o = closes(r);
    o.user = FORWARD_CNF, o.user_parameter = p->value, o.version = (unsigned)n[3];
    return o;
}

static struct out ground_step(enum which w, const struct rec *r, const struct args *a, const struct pdu *p)
{
    const uint64_t *n = a->n;
    unsigned st = r->state, accepted = n[0] == 0, fits;
    struct out o;
    switch (w) {
    case START_REQUEST: if (st == IDLE) return starts(r, n); break;     /* 2.3.5.5.7 */
    case FORWARD_REQUEST: if (st == IDLE) return forwards(r, n); break; /* 2.3.5.5.13 */
    case START_RESPONSE: case DSC_START_RESPONSE:                       /* 2.3.5.5.8, 2.3.5.5.9 */
        if (st == IND && r->dsc == (w == DSC_START_RESPONSE))
            return sends(goes(r, accepted ? DLG : IDLE), D_START_RSP, (unsigned)n[0], carried(r, r->policy), SEND, 0);
        break;
    case MESSAGE_REQUEST: if (st == DLG || (st == END && r->dsc)) return message(r, a); break;                               /* 2.3.5.5.10 */
    case END_REQUEST: if (st == DLG && !r->dsc) return sends(goes(r, END), D_END_REQ, 0, 0, SEND, 0); break;                 /* 2.3.5.5.11 */
    case DSC_END_RESPONSE: /* 2.3.5.5.12 */
        if (st == END && r->dsc)
            return sends(goes(r, accepted ? IDLE : DLG), D_END_RSP, (unsigned)n[0], 0, SEND, 0);
        break;
    case USER_ABORT: /* 2.3.5.5.14 */
        if (st != IDLE)
            return sends(closes(r), D_ABORT_REQ, 0, 0, ABORT_USER, n[0] == NONE ? 0 : (unsigned)n[0]);
        break;
    case TIMER_EXPIRY: if (r->timer) return breaks(r, TIMER, TIMER); break;            /* 2.3.5.6.1 */
    case SYSTEM_ERROR: return st == IDLE ? closes(r) : breaks(r, UNDEFINED, UNDEFINED); /* 2.3.5.6.2 */
    case D_START_INDICATION:                                                           /* 2.3.5.5.2 */
        if (st != IDLE)
            return no_instruction(r, 1);
        if (!qos_right(n))
            return breaks(r, QOS, NOBODY); /* 2.3.5.6.6 */
        if (differs(r, n[1], r->policy))
            return breaks(r, SERVICE_FAILURE, SERVICE_FAILURE); /* 2.3.5.6.8 */
        if (p->kind != (n[0] == 1 ? START : FORWARD)) /* an aircraft starts, a facility forwards */
            return ground_bad(r, p->kind, 1, 1);
        if (n[0] == 0)
            return answers_forward(r, n);
        o = goes(r, IND);
        o.rec.active = 1;
        if (p->value == 1)
            o.rec.dsc = 1;
        return tells(o, START_IND, (unsigned)n[4], p->value);
    case D_START_CONFIRMATION: /* 2.3.5.5.3 */
        if (st == FWD)
            return forward_confirmed(r, n, p);
        if (st != REQ || r->dsc)
            return no_instruction(r, 1);
        if (n[0] == 2 || n[1] == 1)
            return breaks(r, NOTHING, SERVICE_ERROR); /* 2.3.5.6.5 */
        if (differs(r, n[2], r->request))
            return breaks(r, accepted ? SERVICE_FAILURE : NOTHING, SERVICE_FAILURE);
        if (!permitted(r, p, (int)accepted))
            return ground_bad(r, p->kind, (int)accepted, 1);
        o = goes(r, accepted ? DLG : IDLE);
        o.rec.timer = 0;
        return tells(o, START_CNF, (unsigned)n[0], 0);
    case D_DATA_INDICATION: /* 2.3.5.5.4 */
        if (!(st == DLG || (st == END && !r->dsc)))
            return no_instruction(r, 1);
        return p->kind != SEND ? ground_bad(r, p->kind, 1, 1) : tells(stays(r), MESSAGE_IND, 0, 0);
    case D_END_INDICATION: /* 2.3.5.5.5 */
        if (st != DLG || !r->dsc)
            return no_instruction(r, 1);
        return !permitted(r, p, 0) ? ground_bad(r, p->kind, 1, 1) : tells(goes(r, END), END_IND, 0, 1);
    case D_END_CONFIRMATION: /* 2.3.5.5.6 */
        if (st != END || r->dsc)
            return no_instruction(r, 1);
        return !permitted(r, p, 0) ? ground_bad(r, p->kind, !accepted, !accepted) : tells(goes(r, accepted ? IDLE : DLG), END_CNF, (unsigned)n[0], 0);
    case D_ABORT_INDICATION: /* 2.3.5.5.15 */
        fits = n[0] == 0 ? ABORT_USER : ABORT_PROVIDER;
        if (st == IDLE || (unsigned)p->kind != fits)
            return no_instruction(r, 0);
        o = closes(r);
        if (r->active)
            o.user = fits == ABORT_USER ? USER_ABORT_IND : PROVIDER_ABORT_IND, o.user_parameter = p->value;
        return o;
    case D_P_ABORT_INDICATION: return st == IDLE ? closes(r) : breaks(r, NOTHING, SERVICE_FAILURE); /* 2.3.5.5.16 */
    default: break;
    }
    return refuse(r, 3);
}

/* ---- the call */

/* Whose PDUs the user data are: the air end reads GroundPDUs, the ground end AircraftPDUs, but those of a facility that
   starts and the confirmation in FORWARD are GroundPDUs (2.3.5.5.2.3, 2.3.5.5.3.3), and a provider's abort may be
   (2.3.5.5.15.2). */
static struct pdu received(enum which w, const struct rec *r, const struct args *a)
{
    struct pdu p = {MISSING, 0, 0, 0};
    if (w == D_P_ABORT_INDICATION || a->given == 0)
        return p;
    if (r->side == AIR || (w == D_START_INDICATION && a->n[0] == 0) || (w == D_START_CONFIRMATION && r->state == FWD))
        return decoded(0, r->plain, a->bytes);
    p = decoded(1, r->plain, a->bytes);
    if (p.kind == INVALID && w == D_ABORT_INDICATION && a->n[0] == 1) {
        struct pdu again = decoded(0, r->plain, a->bytes);
        if (again.kind == ABORT_PROVIDER)
            return again;
    }
    return p;
}

/* the first so many bits of a range are a message, or elements, from the first to the last */
static int takes_all(void (*get_one)(struct reader *r, unsigned direction), unsigned direction, struct range in, uint64_t count)
{
    struct reader r;
    if (count > 8 * (uint64_t)in.len)
        return 0;
    r = reader_of(in, (size_t)count);
    get_one(&r, direction);
    return !r.bad && r.at == r.end;
}

/* In application type 2 there is no identifier and no check, and the message is one of the side's direction. */
static int data_fits(const struct rec *r, const struct args *a)
{
    if (r->plain)
        return a->ids.len == 0 && a->check == 0 && (a->message == NONE || takes_all(get_message, r->side == AIR ? DOWN : UP, a->msgs, a->message));
    return a->ids.len <= 16 && (a->message == NONE || (a->message <= MESSAGE_MOST && a->message <= 8 * a->msgs.len)) && a->check <= 64 &&
           a->check <= 8 * a->checks.len;
}

/* the types of a forward request's numbers, and its bits */
static int forward_fits(const struct rec *r, const struct args *a)
{
    static const uint64_t low[] = {1996, 1, 1, 0, 0, 0, 2, 0, 0, 0}, high[] = {2095, 12, 31, 23, 59, 59, 8, 0, (1u << 24) - 1, 1};
    unsigned i;
    for (i = 0; i < 10; i++)
        if (i != 7 && (a->n[2 + i] < low[i] || a->n[2 + i] > high[i]))
            return 0;
    if (a->n[9] >> 7 * a->n[8] != 0)
        return 0;
    if (r->plain)
        return takes_all(get_elements, a->n[11] == 0 ? UP : DOWN, a->msgs, a->message);
    return a->message <= MESSAGE_MOST && a->message <= 8 * a->msgs.len;
}

static void put_forward(struct bits *b, int plain, const struct args *a)
{
    static const uint64_t low[] = {1996, 1, 1, 0, 0, 0, 2};
    static const unsigned width[] = {7, 4, 5, 5, 6, 6, 3};
    unsigned i;
    for (i = 0; i < 7; i++)
        put(b, a->n[2 + i] - low[i], width[i]);
    put(b, a->n[9], (unsigned)(7 * a->n[8]));
    put(b, a->n[10], 24);
    put(b, a->n[11], 1);
    if (!plain)
        put_length(b, a->message);
    put_range(b, a->msgs.at, a->message);
}

/* message data of application type 2: in a start, whether there is a message */
static void put_plain(struct bits *b, int start, const struct args *a)
{
    if (start)
        put(b, a->message != NONE, 1);
    if (a->message != NONE)
        put_range(b, a->msgs.at, a->message);
}

static void put_apdu(struct bits *b, const struct out *o, unsigned side, int plain, const struct args *a)
{
    static const unsigned index[] = {[ABORT_USER] = 0, [ABORT_PROVIDER] = 1, [START] = 2, [SEND] = 3, [FORWARD] = 4, [RESPONSE] = 5};
    put(b, index[o->apdu], side == AIR ? 3 : 4); /* the extension bit, and the alternative in 2 or 3 bits */
    if (o->apdu == ABORT_USER)
        put(b, o->apdu_value, plain ? 4 : 5);
    else if (o->apdu == ABORT_PROVIDER)
        put(b, o->apdu_value, 4);
    else if (o->apdu == RESPONSE)
        put(b, o->apdu_value, 3);
    else if (o->apdu == FORWARD)
        put_forward(b, plain, a);
    else {
        if (o->apdu == START && side == AIR)
            put(b, o->apdu_value ? 3 : 0, o->apdu_value ? 2 : 1);
        if (plain)
            put_plain(b, o->apdu == START, a);
        else
            put_data(b, a);
    }
}

static int has_data(enum which w) { return w <= DSC_END_RESPONSE; }
static int is_service(enum which w) { return w >= D_START_INDICATION && w <= D_P_ABORT_INDICATION; }

/* document 02, E9: a start has a number above the record's, "a forward request is a start here too"; another primitive of the dialogue
   service has the record's */
static int is_start(enum which w) { return w == START_REQUEST || w == FORWARD_REQUEST || w == D_START_INDICATION; }
static int stale(enum which w, const struct rec *r, uint64_t number) { return is_start(w) ? number <= r->number : is_service(w) && number != r->number; }

static uint64_t fresh(struct args *a)
{
    struct rec r = {(unsigned)a->n[0], IDLE, 0, 0, 0, 0, (unsigned)a->n[1], (unsigned)a->n[2], (unsigned)a->n[3], 0, 0, a->n[4] == 2};
    if (a->rec.len != RECORD_BYTES || a->n[0] < 1 || a->n[0] > 2 || a->n[1] > 1 || a->n[2] > 1 || a->n[3] < 1 || a->n[3] > 255 || (a->n[4] != 2 && a->n[4] != 22))
        return 2;
    save(&r, a->rec);
    return 0;
}

/* ---- the broker's envelope (document 01) */

enum { CUT = 20, GROUPS, KIND, SIZE };

/* An envelope: its three numbers, and how many of the bytes were looked at so far. */
struct envelope {
    uint64_t number[3]; /* kind, job, bit count */
    size_t at, body;
};

/* Groups of seven bits, the lowest first; the last is the first byte without the top bit. */
static unsigned get_number(struct range in, size_t *at, uint64_t *value)
{
    size_t first = *at, i;
    do {
        if (*at == in.len)
            return CUT;
        if (*at - first == 9 && in.at[*at] > 1)
            return GROUPS;
    } while (in.at[(*at)++] >> 7);
    if (*at - first > 1 && in.at[*at - 1] == 0)
        return GROUPS; /* a shorter form says the same */
    for (*value = 0, i = *at; i > first; i--)
        *value = *value << 7 | (in.at[i - 1] & 127u);
    return 0;
}

/* "kind number (20, 21, 22), job (20, 21), bit count (20, 21, 23), body (20, 23)" */
static unsigned get_envelope(struct range in, struct envelope *e)
{
    size_t i;
    e->at = 0;
    for (i = 0; i < 3; i++) {
        unsigned refusal = get_number(in, &e->at, &e->number[i]);
        if (refusal)
            return refusal;
        if (i == 0 && (e->number[0] < 1 || e->number[0] > 3))
            return KIND;
        if (i == 1 && e->number[1] == 0)
            return GROUPS;
    }
    if (e->number[2] > MESSAGE_MOST || (e->number[0] == 3 && e->number[2] != 8))
        return SIZE;
    e->body = e->at;
    e->at += (size_t)(e->number[2] + 7) / 8;
    if (e->at > in.len)
        return CUT;
    for (i = (size_t)e->number[2]; i < 8 * (e->at - e->body); i++)
        if (in.at[e->body + i / 8] >> (7 - i % 8) & 1)
            return SIZE;
    return 0;
}

/* the job goes into a range of its own size, the most significant byte first */
static uint64_t read_envelope(struct args *a)
{
    struct envelope e;
    unsigned refusal = a->first.len != JOB_BYTES ? 2 : get_envelope(a->bytes, &e);
    size_t i;
    if (refusal)
        return refusal;
    for (i = JOB_BYTES; i-- > 0; e.number[1] /= 256)
        a->first.at[i] = (uint8_t)(e.number[1] % 256);
    return e.number[0] << 8 | e.number[2] << 16 | (uint64_t)e.body << 32 | (uint64_t)e.at << 48;
}

/* "A writer answers SHAPE to a kind, job or bit count that reading refuses": what was put together is read. */
static uint64_t write_envelope(struct args *a)
{
    uint8_t made[10 * 3 + (MESSAGE_MOST + 7) / 8];
    struct envelope e;
    size_t n = 0, i;
    if (a->first.len < BUFFER_LEAST)
        return 1;
    if (a->n[2] > 8 * (uint64_t)a->msgs.len || a->n[2] > MESSAGE_MOST)
        return 2;
    for (i = 0; i < 3; i++) {
        uint64_t left = a->n[i];
        for (; left > 127; left >>= 7)
            made[n++] = (uint8_t)(left | 128);
        made[n++] = (uint8_t)left;
    }
    for (i = 0; i < (a->n[2] + 7) / 8; i++)
        made[n++] = a->msgs.at[i];
    if (get_envelope((struct range){made, n}, &e))
        return 2;
    for (i = 0; i < n; i++)
        a->first.at[i] = made[i];
    return (uint64_t)n << 8;
}

/* ---- a part of message data: 0 the identifier, 1 the message, 2 the check */

static uint64_t data_part(struct args *a)
{
    static struct bits out;
    struct pdu p;
    struct reader r = reader_of(a->bytes, 8 * a->bytes.len);
    unsigned i, there;
    if (a->first.len < BUFFER_LEAST)
        return 1;
    if (a->n[0] > 2)
        return 2;
    get_data(&r, &p);
    get_end(&r);
    if (r.bad)
        return refused(&r);
    r.at = 1;
    there = (unsigned)get(&r, 2) << 1 | 1; /* the identifier's bit, the message's, and the check is always there */
    for (i = 0; i < a->n[0]; i++)
        if (there >> (2 - i) & 1)
            skip(&r, (i == 0 ? 8 : 1) * get_length(&r));
    if ((there >> (2 - a->n[0]) & 1) == 0)
        return 0;
    i = (unsigned)get_length(&r) * (a->n[0] == 0 ? 8 : 1);
    for (out.n = 0; i > 0; i--)
        put(&out, get(&r, 1), 1);
    whole(&out, a->first.at);
    return 1 << 8 | (uint64_t)out.n << 16;
}

/* ---- a part of a forward message, and all of them */

static uint64_t forward_bits(struct args *a, struct reader *r, const struct forwarded *f)
{
    static struct bits out;
    for (out.n = 0, r->at = f->bits; out.n < f->count;)
        put(&out, get(r, 1), 1);
    whole(&out, a->first.at);
    return (uint64_t)f->count << 8;
}

static uint64_t forward_part(struct args *a)
{
    struct forwarded f;
    struct reader r = reader_of(a->bytes, 8 * a->bytes.len);
    if (a->first.len < BUFFER_LEAST)
        return 1;
    if (a->n[0] > 10 && (a->n[0] < 16 || a->n[0] > 26))
        return 2;
    get_forward(&r, a->n[0] >= 16, &f);
    get_end(&r);
    if (r.bad)
        return refused(&r);
    return a->n[0] % 16 < 10 ? f.part[a->n[0] % 16] << 8 : forward_bits(a, &r, &f);
}

static uint64_t read_forward(struct args *a)
{
    struct forwarded f;
    struct reader r = reader_of(a->bytes, 8 * a->bytes.len);
    unsigned i;
    if (a->first.len < BUFFER_LEAST)
        return 1;
    if (a->ids.len != HEADING_BYTES || (a->n[0] != 2 && a->n[0] != 22))
        return 2;
    get_forward(&r, a->n[0] == 2, &f);
    get_end(&r);
    if (r.bad)
        return refused(&r);
    for (i = 0; i < HEADING_BYTES; i++)
        a->ids.at[i] = (uint8_t)(f.part[i / 8] >> (56 - 8 * (i % 8)));
    return forward_bits(a, &r, &f);
}

uint64_t model_call(enum which w, struct args *a)
{
    static struct bits one, two;
    struct rec r;
    struct pdu p = {MISSING, 0, 0, 0};
    struct out o;
    switch (w) {
    case FRESH: return fresh(a);
    case READ_ENVELOPE: return read_envelope(a);
    case WRITE_ENVELOPE: return write_envelope(a);
    case DATA_PART: return data_part(a);
    case READ_APDU: return read_apdu(a);
    case READ_MESSAGE: return read_message(a);
    case WRITE_MESSAGE: return write_message(a);
    case FORWARD_PART: return forward_part(a);
    case READ_FORWARD: return read_forward(a);
    default: break;
    }
    if (a->first.len < BUFFER_LEAST || a->second.len < BUFFER_LEAST)
        return 1;
    if (!load(a->rec, &r) || (has_data(w) && !data_fits(&r, a)) || (w == FORWARD_REQUEST && !forward_fits(&r, a)) ||
        (is_service(w) && w != D_P_ABORT_INDICATION && a->given > 1) || !shapely(w, &r, a))
        return 2;
    if (stale(w, &r, a->number))
        return 6;
    if (is_service(w))
        p = received(w, &r, a);
    o = r.side == AIR ? air_step(w, &r, a, &p) : ground_step(w, &r, a, &p);
    if (o.refusal)
        return o.refusal;
    if (is_start(w)) /* also where its state or a fault turns it away */
        o.rec.number = a->number;
    one.n = two.n = 0;
    if (r.plain && o.apdu == SEND && a->message == NONE)
        o.apdu = MISSING; /* 004, S-4.4, S-5.4, S-7.1, S-9.1, S-9.2 */
    if (o.apdu != MISSING)
        put_apdu(&one, &o, r.side, r.plain, a);
    if (o.data) {
        struct reader from = reader_of(a->bytes, 8 * a->bytes.len);
        from.at = p.data;
        if (p.kind != FORWARD && !r.plain)
            from.at++, put(&two, 0, 1); /* without additions */
        while (from.at < p.data_to)
            put(&two, get(&from, 1), 1);
    }
    whole(&one, a->first.at);
    whole(&two, a->second.at);
    save(&o.rec, a->rec);
    return (uint64_t)o.ds << 8 | (uint64_t)o.ds_parameter << 12 | (uint64_t)o.ds_security << 16 | (uint64_t)o.user << 17 |
           (uint64_t)o.user_parameter << 21 | (uint64_t)o.user_dsc << 25 | (uint64_t)one.n << 26 | (uint64_t)two.n << 41 | (uint64_t)o.version << 56;
}
