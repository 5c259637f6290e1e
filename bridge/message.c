#include "message.h"

#include <stdarg.h>
#include <stdio.h>
#include <string.h>

#include "log.h"

#define STANDBY 2                  /* dM2 */
#define LOGICAL_ACKNOWLEDGMENT 100 /* dM100 */

struct peat_message_answer message_read(struct message *m, unsigned direction, const uint8_t *bits, unsigned count)
{
    struct peat_message_answer answer = peat_read_message(direction, bits, (count + 7u) / 8u, count, m->inner, sizeof m->inner, m->text, sizeof m->text);
    m->direction = direction;
    m->characters = peat_refusal(answer) == PEAT_TAKEN ? peat_message_characters(answer) : 0;
    return answer;
}

/* What was read can be written again: a card that refuses it is none that can be gone on with. */
unsigned message_write(struct message *m, unsigned number, uint8_t *out)
{
    struct peat_written_message answer;
    m->inner[PEAT_INNER_IDENTIFICATION] = (uint8_t)number;
    answer = peat_write_message(m->direction, m->inner, sizeof m->inner, m->text, m->characters, out, PEAT_BUFFER_LEAST);
    if (peat_refusal(answer) != PEAT_TAKEN)
        log_and_exit(EXIT_JOURNAL, "card", "peat_write_message", "a message that was read is refused");
    return peat_message_bits(answer);
}

static const uint8_t *place_of(const struct message *m, unsigned i) { return m->inner + peat_place_at(i); }

int message_closes(const struct message *m)
{
    unsigned i, n = m->inner[PEAT_INNER_COUNT];
    for (i = 0; i < n; i++) {
        unsigned element = place_of(m, i)[PEAT_PLACE_NUMBER];
        if (element == STANDBY || element == LOGICAL_ACKNOWLEDGMENT)
            return 0;
    }
    return message_replies(m);
}

/* ---- JSON */

struct line {
    char *at;
    size_t room, used;
};

static void put(struct line *l, const char *form, ...)
{
    va_list a;
    int n;
    va_start(a, form);
    n = vsnprintf(l->at + l->used, l->room - l->used, form, a);
    va_end(a);
    if (n < 0 || (size_t)n >= l->room - l->used)
        log_and_exit(EXIT_MEMORY, "memory", "message", "a message does not fit its JSON");
    l->used += (size_t)n;
}

/* Characters are 0 to 127. */
static void put_text(struct line *l, const uint8_t *text, unsigned characters)
{
    unsigned i;
    put(l, "\"");
    for (i = 0; i < characters; i++)
        put(l, text[i] < 32 || text[i] == 127 ? "\\u%04x" : text[i] == '"' || text[i] == '\\' ? "\\%c" : "%c", text[i]);
    put(l, "\"");
}

static void put_one_level(struct line *l, unsigned unit, unsigned number)
{
    static const char *const units[] = {"feet", "metres", "flight level", "metric flight level"};
    put(l, "{\"unit\":\"%s\",\"level\":%ld}", unit < 4 ? units[unit] : "?", peat_level_said(unit, number));
}

/* One level, or a block of two. */
static void put_level(struct line *l, const char *name, const uint8_t *at)
{
    put(l, ",\"%s\":[", name);
    put_one_level(l, at[PEAT_LEVEL_UNIT], peat_two_bytes(at + PEAT_LEVEL_NUMBER));
    if (at[PEAT_LEVEL_BLOCK]) {
        put(l, ",");
        put_one_level(l, at[PEAT_LEVEL_SECOND_UNIT], peat_two_bytes(at + PEAT_LEVEL_SECOND_NUMBER));
    }
    put(l, "]");
}

/* An element by its number, its name in the ASN.1 module (docs/ELEMENTS.md) and its argument. Its characters are the first of `text`. */
static void put_element(struct line *l, unsigned direction, const uint8_t *place, const uint8_t *text)
{
    static const char *const names[] = {"?", "NULL", "Level", "LevelLevel", "Time", "Code", "FreeText", "Facility", "FacilityDesignation", "AtisCode"};
    unsigned number = place[PEAT_PLACE_NUMBER], kind = peat_element_kind(direction, number), characters = peat_two_bytes(place + PEAT_PLACE_CHARACTERS);
    const uint8_t *code = place + PEAT_PLACE_CODE;
    put(l, "{\"element\":%u,\"name\":\"%cM%u%s\"", number, direction == PEAT_UPLINK ? 'u' : 'd', number, names[kind]);
    if (kind == PEAT_KIND_LEVEL || kind == PEAT_KIND_TWO_LEVELS)
        put_level(l, "level", place + PEAT_PLACE_LEVEL);
    if (kind == PEAT_KIND_TWO_LEVELS)
        put_level(l, "other", place + PEAT_PLACE_OTHER);
    if (kind == PEAT_KIND_TIME)
        put(l, ",\"time\":\"%02u:%02u\"", place[PEAT_PLACE_HOURS], place[PEAT_PLACE_MINUTES]);
    if (kind == PEAT_KIND_CODE)
        put(l, ",\"code\":\"%u%u%u%u\"", code[0], code[1], code[2], code[3]);
    if (kind >= PEAT_KIND_FREE_TEXT) {
        put(l, ",\"text\":");
        put_text(l, text, characters);
    }
    put(l, "}");
}

void message_json(const struct message *m, char *text, size_t room)
{
    struct line l = {text, room, 0};
    const uint8_t *in = m->inner, *characters = m->text;
    unsigned i, n = in[PEAT_INNER_COUNT];
    put(&l, "{\"number\":%u", message_number(m));
    if (message_replies(m))
        put(&l, ",\"reference\":%u", message_reference(m));
    put(&l, ",\"composed\":\"%04u-%02u-%02uT%02u:%02u:%02uZ\",\"acknowledge\":%s,\"elements\":[", peat_two_bytes(in + PEAT_INNER_YEAR), in[PEAT_INNER_MONTH],
        in[PEAT_INNER_DAY], in[PEAT_INNER_HOURS], in[PEAT_INNER_MINUTES], in[PEAT_INNER_SECONDS], in[PEAT_INNER_ACKNOWLEDGED] ? "true" : "false");
    for (i = 0; i < n; i++) {
        put(&l, i > 0 ? "," : "");
        put_element(&l, m->direction, place_of(m, i), characters);
        characters += peat_two_bytes(place_of(m, i) + PEAT_PLACE_CHARACTERS);
    }
    put(&l, "]}");
}
