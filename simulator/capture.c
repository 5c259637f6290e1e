/*
 * A frame is PPP (link type 9) with CLNP (ISO 8473), COTP class 4 (ISO 8073) and the ATN upper layers (Doc 9705 sub-volume
 * IV): a D-START as session connect with an ACSE AARQ or AARE, D-DATA as user data of presentation context 3, D-END and
 * D-ABORT as an ACSE RLRQ, RLRE or ABRT in context 1. All of it in unaligned PER, the APDU inside with exactly its bits.
 * The wrapping is as Wireshark's dissector takes it.
 */
#include "capture.h"

#include <stdio.h>
#include <string.h>

#include "carrier.h"

static struct {
    FILE *file;
    int pad;
    unsigned long frames;
} capture;

/* ---- bits */

#define BITS_BYTES (2 * PEAT_BUFFER_LEAST + 64)

struct bits {
    unsigned count;
    uint8_t byte[8 * BITS_BYTES]; /* padded, a bit may take a byte */
};

static void put(struct bits *b, unsigned value, unsigned bits)
{
    while (bits-- > 0) {
        if (value >> bits & 1)
            b->byte[b->count / 8] |= (uint8_t)(0x80u >> b->count % 8);
        b->count++;
    }
}

static void put_length(struct bits *b, unsigned n)
{
    if (n < 128)
        put(b, n, 8);
    else
        put(b, 0x8000 | n, 16);
}

static void put_octets(struct bits *b, const uint8_t *octet, unsigned n)
{
    unsigned i;
    put_length(b, n);
    for (i = 0; i < n; i++)
        put(b, octet[i], 8);
}

static void put_bits(struct bits *b, const uint8_t *byte, unsigned n)
{
    unsigned i;
    put_length(b, n);
    for (i = 0; i < n; i++)
        put(b, byte[i / 8] >> (7 - i % 8) & 1, 1);
}

/* ---- ACSE */

/* the choices of ACSE-apdu */
enum { AARQ = 0, AARE = 1, RLRQ = 2, RLRE = 3, ABRT = 4 };

static const uint8_t application_context[] = {0x2B, 27, 3, 1}; /* {iso(1) identified-organisation(3) icao(27) 3 1} */

/* the choice and no extension, then which optional fields are there */
static void put_head(struct bits *b, unsigned choice, unsigned present, unsigned fields)
{
    put(b, choice, 4);
    put(b, 0, 1);
    put(b, present, fields);
}

/* user information: one EXTERNAL without references, "arbitrary"; nothing where there is no user data, and then its presence bit is 0 */
static unsigned has_user(const struct entry *e) { return e->bits > 0; }

static void put_user(struct bits *b, const struct entry *e)
{
    if (!has_user(e))
        return;
    put(b, 0, 1 + 3);
    put(b, 2, 2);
    put_bits(b, e->apdu, e->bits);
}

/* the name of an aircraft or of a facility by its address */
static void put_title(struct bits *b, int air, unsigned address)
{
    uint8_t title[] = {0x2B, 27, (uint8_t)(air ? 1 : 2), (uint8_t)(0x80 | address >> 21), (uint8_t)(0x80 | address >> 14),
        (uint8_t)(0x80 | address >> 7), (uint8_t)(address & 0x7F), 0};
    put(b, 0, 2);
    put_octets(b, title, sizeof title);
}

/* the calling AE qualifier is the application type */
static void put_start(struct bits *b, int air, unsigned address, unsigned type, const struct entry *e)
{
    put_head(b, AARQ, 0x300 | has_user(e), 15); /* calling title, calling qualifier, user information */
    put_octets(b, application_context, sizeof application_context);
    put_title(b, air, address);
    put(b, 0, 2);
    put(b, 1, 8);
    put(b, type, 8);
    put_user(b, e);
}

static void put_answer(struct bits *b, const struct entry *e)
{
    put_head(b, AARE, has_user(e), 11); /* user information */
    put_octets(b, application_context, sizeof application_context);
    put(b, 0, 1);
    put(b, e->primitive.parameter, 2); /* the result */
    put(b, 0, 1 + 1 + 4);
    put_user(b, e);
}

static void put_release(struct bits *b, unsigned choice, unsigned reason, const struct entry *e)
{
    put_head(b, choice, 2 | has_user(e), 2); /* reason, user information */
    put(b, 0, 1);
    put(b, reason, 5);
    put_user(b, e);
}

static void put_abort(struct bits *b, const struct entry *e)
{
    put_head(b, ABRT, has_user(e), 2); /* user information */
    put(b, 0, 1);
    put(b, e->primitive.parameter, 1); /* the originator */
    put_user(b, e);
}

/* ---- session and presentation */

enum { CONNECT = 0xE802, ACCEPT = 0xF002, REFUSE = 0xE002 }; /* with the presentation's first byte */

static void put_context(struct bits *b, unsigned head, const uint8_t *byte, unsigned bits)
{
    put(b, head, 12);
    put_bits(b, byte, bits);
}

/* the user data of a transport connection that carry an entry; the answer: the bytes that they take */
static unsigned put_entry(struct bits *b, int air, unsigned address, unsigned type, const struct entry *e)
{
    struct bits acse = {0, {0}};
    switch (e->primitive.kind) {
    case PEAT_D_START_REQUEST:
        put(b, CONNECT, 16);
        put_start(b, air, address, type, e);
        break;
    case PEAT_D_START_RESPONSE:
        put(b, e->primitive.parameter == PEAT_ACCEPTED ? ACCEPT : REFUSE, 16);
        put_answer(b, e);
        break;
    case PEAT_D_DATA_REQUEST: put_context(b, 0x00A, e->apdu, e->bits); break;
    case PEAT_D_END_REQUEST: put_release(&acse, RLRQ, 0, e); break;
    case PEAT_D_END_RESPONSE: put_release(&acse, RLRE, e->primitive.parameter == PEAT_ACCEPTED ? 0 : 1, e); break;
    default: put_abort(&acse, e); break;
    }
    if (acse.count == 0)
        return (b->count + 7) / 8;
    put_context(b, 0x002, acse.byte, acse.count);
    return capture.pad ? b->count : (b->count + 7) / 8; /* tshark 4.0 takes a bit offset for one in bytes there */
}

/* ---- frames */

static void put_little(unsigned long n, int bytes)
{
    for (; bytes-- > 0; n >>= 8)
        putc((int)(n & 0xFF), capture.file);
}

int capture_begin(const char *path, int pad)
{
    capture.file = fopen(path, "wb");
    if (capture.file == NULL)
        return -1;
    capture.pad = pad;
    put_little(0xA1B2C3D4ul, 4); /* pcap 2.4, microseconds */
    put_little(2, 2);
    put_little(4, 2);
    put_little(0, 8);
    put_little(65535, 4);
    put_little(9, 4); /* PPP */
    return 0;
}

int capture_end(void)
{
    int wrong = capture.file != NULL && (ferror(capture.file) != 0);
    return (capture.file != NULL && fclose(capture.file) != 0) || wrong ? -1 : 0;
}

/* the network address of an end: the dissector knows an aircraft by C1, and its address by bytes 8 to 10 */
static void put_nsap(int air, unsigned address)
{
    uint8_t nsap[20] = {0x47, 0, 0x27, 0x81, 'X', 'X', 'X', 0, 0, 0, 0, 0, 1, 0, 0, 0, 0, 0, 1, 0x21};
    if (air) {
        nsap[3] = 0xC1;
        nsap[8] = (uint8_t)(address >> 16);
        nsap[9] = (uint8_t)(address >> 8);
        nsap[10] = (uint8_t)address;
    }
    putc(sizeof nsap, capture.file);
    fwrite(nsap, 1, sizeof nsap, capture.file);
}

#define CLNP_BYTES 51

static void put_frame(int air, unsigned address, const uint8_t *tpdu, unsigned heads, const uint8_t *body, unsigned bytes)
{
    unsigned length = CLNP_BYTES + heads + bytes;
    uint8_t front[] = {0xFF, 0x03, 0x00, 0x23, 0x81, CLNP_BYTES, 1, 64, 0x1C, (uint8_t)(length >> 8), (uint8_t)length, 0, 0};
    put_little(capture.frames / 1000, 4); /* a millisecond a frame */
    put_little(capture.frames % 1000 * 1000, 4);
    put_little(4 + length, 4);
    put_little(4 + length, 4);
    fwrite(front, 1, sizeof front, capture.file);
    put_nsap(!air, address);
    put_nsap(air, address);
    fwrite(tpdu, 1, heads, capture.file);
    if (bytes > 0)
        fwrite(body, 1, bytes, capture.file);
    capture.frames++;
}

/* ---- connections */

/* A dialogue of an end has a connection of its own, by its number: what is left of an old one arrives on the old one's. */
#define ENDS 64
#define CONNECTIONS 16 /* of an end, the newest */

struct connection {
    uint64_t dialogue;  /* its number */
    unsigned reference; /* 0: there was none yet */
    uint8_t number[2];  /* the next TPDU each way */
};

static struct {
    struct connection connection[CONNECTIONS];
    unsigned newest, reference;
} ends[ENDS];

static unsigned reference(const struct connection *c, int air) { return air ? c->reference : c->reference | 0x8000u; }

static struct connection *connection_of(unsigned end, uint64_t dialogue)
{
    unsigned i;
    for (i = 0; i < CONNECTIONS; i++)
        if (ends[end].connection[i].reference != 0 && ends[end].connection[i].dialogue == dialogue)
            return &ends[end].connection[i];
    return NULL;
}

/* the transport connection of a dialogue: asked for by one end, confirmed by the other */
static void connect(unsigned end, uint64_t dialogue, int air, unsigned address)
{
    struct connection *c = &ends[end].connection[ends[end].newest = (ends[end].newest + 1) % CONNECTIONS];
    unsigned mine, other;
    ends[end].reference = 1 + ((ends[end].reference != 0 ? ends[end].reference : end) + ENDS) % 0x7FFE;
    *c = (struct connection){dialogue, ends[end].reference, {0, 0}};
    mine = reference(c, air), other = reference(c, !air);
    {
        uint8_t request[] = {6, 0xE0, 0, 0, (uint8_t)(mine >> 8), (uint8_t)mine, 0x40};
        uint8_t confirm[] = {6, 0xD0, (uint8_t)(mine >> 8), (uint8_t)mine, (uint8_t)(other >> 8), (uint8_t)other, 0x40};
        put_frame(air, address, request, sizeof request, NULL, 0);
        put_frame(!air, address, confirm, sizeof confirm, NULL, 0);
    }
}

void capture_entry(int dialogue, int from_air, unsigned type, const struct entry *e)
{
    static struct bits b;
    struct connection *c;
    unsigned address = 0x400000u + (unsigned)dialogue, end = (unsigned)dialogue % ENDS, other, bytes;
    uint8_t data[5];
    if (capture.file == NULL)
        return;
    if (e->primitive.kind == PEAT_D_START_REQUEST)
        connect(end, e->primitive.number, from_air, address);
    c = connection_of(end, e->primitive.number);
    if (c == NULL)
        return; /* a D-ABORT whose start was lost: there is no connection to show it on */
    other = reference(c, !from_air);
    memset(&b, 0, sizeof b);
    bytes = put_entry(&b, from_air, address, type, e);
    data[0] = 4;
    data[1] = 0xF0;
    data[2] = (uint8_t)(other >> 8);
    data[3] = (uint8_t)other;
    data[4] = (uint8_t)(0x80 | (c->number[from_air]++ & 0x7F));
    put_frame(from_air, address, data, sizeof data, b.byte, bytes);
}
