#include "recording.h"

#include <stdio.h>
#include <stdlib.h>
#include <string.h>

#include "clearance.h"
#include "end.h"
#include "envelopes.h"

enum { UPLINK, DOWNLINK };

struct part {
    uint8_t *bytes;
    size_t size, room;
};

static FILE *file[2];                                /* the air's, the ground's */
static struct part kept[DIALOGUES][2][2];            /* of each dialogue, by end and direction */
static uint8_t asked[PEAT_BUFFER_LEAST];
static unsigned asked_bits;

int recording_begin(const char *folder)
{
    static const char *const names[] = {"air", "ground"};
    char path[300];
    int i;
    for (i = 0; i < 2; i++) {
        int n = snprintf(path, sizeof path, "%s/%s", folder, names[i]);
        if (n < 0 || (size_t)n >= sizeof path || (file[i] = fopen(path, "wb")) == NULL)
            return -1;
    }
    return 0;
}

static int watched(const struct end *e) { return file[0] != NULL && e->dialogue < DIALOGUES; }

static struct part *part_of(const struct end *e, int direction) { return &kept[e->dialogue][is_air(e) ? 0 : 1][direction]; }

static void append(struct part *p, unsigned kind, uint64_t job, unsigned bits, const uint8_t *body)
{
    struct peat_written_envelope answer;
    if (p->room - p->size < PEAT_BUFFER_LEAST) {
        p->room = 2 * p->room + PEAT_BUFFER_LEAST;
        p->bytes = realloc(p->bytes, p->room);
        if (p->bytes == NULL) {
            fputs("peat-host: there is no memory for a recording\n", stderr);
            exit(2);
        }
    }
    answer = peat_write_envelope(kind, job, bits, body, (bits + 7) / 8, p->bytes + p->size, p->room - p->size);
    must(peat_refusal(answer));
    p->size += peat_written_bytes(answer);
}

/* Each message has a job of its own: the two users of a dialogue count their clearances alike. */
static uint64_t job_of(uint64_t clearance, int direction) { return 2 * clearance + (uint64_t)direction; }

void recording_asked(const uint8_t *message, unsigned bits)
{
    asked_bits = bits;
    memcpy(asked, message, (bits + 7) / 8);
}

void recording_took(const struct end *e, uint64_t clearance)
{
    int direction = is_air(e) ? DOWNLINK : UPLINK;
    if (watched(e))
        append(part_of(e, direction), PEAT_ENVELOPE_DELIVERED, job_of(clearance, direction), asked_bits, asked);
}

void recording_got(const struct end *e, const struct envelope *l)
{
    static struct clearance c;
    unsigned by = e->peer->user.side;
    int direction = is_air(e) ? UPLINK : DOWNLINK;
    uint64_t clearance;
    if (!watched(e))
        return;
    clearance = clearance_read(&c, by, l->body, l->bits) ? clearance_of(&c, by) : 0;
    append(part_of(e, direction), l->kind, clearance != 0 ? job_of(clearance, direction) : UINT64_MAX, l->bits, l->body);
}

void recording_starts(const struct end *e)
{
    if (watched(e))
        part_of(e, UPLINK)->size = part_of(e, DOWNLINK)->size = 0;
}

static void write_out(FILE *to, struct part *p, int write)
{
    if (write && p->size > 0)
        fwrite(p->bytes, 1, p->size, to);
    p->size = 0;
}

void recording_ends(const struct end *air, const struct end *ground, int broke)
{
    int i;
    if (!watched(air))
        return;
    for (i = 0; i < 2; i++) {
        write_out(file[i], part_of(i == 0 ? air : ground, UPLINK), !broke);
        write_out(file[i], part_of(i == 0 ? air : ground, DOWNLINK), !broke);
    }
}

int recording_end(void)
{
    int i, bad = 0;
    for (i = 0; i < 2 && file[i] != NULL; i++)
        bad |= ferror(file[i]) | fclose(file[i]);
    return bad ? -1 : 0;
}
