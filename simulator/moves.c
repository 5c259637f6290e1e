#include "moves.h"

#include <stdarg.h>
#include <stdio.h>
#include <string.h>

#include "forward.h"

#define PAIRS (DIALOGUES + LINKS)
#define SERIALS 64 /* more than a line has entries */
#define LOSS "cut-off"
#define FAILURE "carrier-fails"

static FILE *file[PAIRS];
static int is_quiet[PAIRS];                /* its last line says so */
static uint64_t job_of[PAIRS][2][SERIALS]; /* the job whose message an entry has, by the side that sent it */
static uint64_t job_taken;                 /* the last */
static uint64_t asked;                     /* the digest of the message that was asked for last */

/* The move that is under way: it is written when it is kept. One that invokes D-ABORT is kept first, and written when it is known what the carrier loses. */
static struct {
    const char *word; /* NULL: none */
    int has_number, has_version, can_abort, is_kept;
    unsigned version;     /* of a forward that is handed over */
    uint64_t number, job; /* of the dialogue, or of a job that is decided; of a message that is handed over, its job */
    struct said {         /* what the lines behind it say */
        int has_bits, has_reason, opens, replies, closes; /* a number of the book: from 1 on */
        int is_opened, is_closed;                         /* what the position shows */
        unsigned reason;
        uint64_t bits;
    } said;
} move;

static FILE *file_of(const struct end *e) { return file[e->dialogue]; }

/* the air end of a dialogue; of a link the one that forwards */
static int is_first(const struct end *e) { return e < e->peer; }

static char side_of(const struct end *e) { return is_first(e) ? 'a' : 'g'; }

/* A message by its count of bits and the CRC-32 of its bytes (docs/HOST.md); behind its last bit there are zeros. */
static uint64_t digest(const uint8_t *message, unsigned bits)
{
    uint32_t sum = UINT32_MAX;
    unsigned i, bytes = (bits + 7) / 8;
    int turn;
    for (i = 0; i < bytes; i++) {
        unsigned unused = i + 1 < bytes ? 0 : 8 * bytes - bits;
        sum ^= (uint32_t)(message[i] >> unused << unused);
        for (turn = 0; turn < 8; turn++)
            sum = sum >> 1 ^ (sum & 1 ? UINT32_C(0xEDB88320) : 0);
    }
    return (uint64_t)bits << 32 | (uint32_t)~sum;
}

static void line(const struct end *e, const char *format, ...)
{
    FILE *f = file_of(e);
    va_list more;
    if (f == NULL)
        return;
    is_quiet[e->dialogue] = 0;
    fprintf(f, "%c ", side_of(e));
    va_start(more, format);
    vfprintf(f, format, more);
    va_end(more);
    fputc('\n', f);
}

static void record(const struct end *e)
{
    line(e, "record %u %u %llu %llu", state(e), (unsigned)peat_record_dsc(e->memory.rec), (unsigned long long)number(e),
        (unsigned long long)peat_record_highest(e->memory.rec));
}

/* the words of a call, by its name in the story */
static const char *word_of(const char *what)
{
    static const char *const words[][2] = {{"start request, dsc", "starts-dsc"}, {"start request, cpdlc", "starts-cpdlc"}, {"DSC-start response, accepted", "accepts-start"},
        {"DSC-start response, rejected", "rejects-start"}, {"CPDLC-start response, accepted", "accepts-start"}, {"CPDLC-start response, rejected", "rejects-start"},
        {"DSC-end request", "asks-end"}, {"CPDLC-end request", "asks-end"}, {"DSC-end response, accepted", "accepts-end"}, {"DSC-end response, rejected", "rejects-end"},
        {"CPDLC-end response, accepted", "accepts-end"}, {"CPDLC-end response, rejected", "rejects-end"}, {"CPDLC-user-abort request", "aborts"},
        {"t-start expires", "expires"}, {"a system error", "error"}, {"D-START confirmation: start turned back", "turned-back"}};
    unsigned i;
    for (i = 0; i < sizeof words / sizeof *words; i++)
        if (strcmp(what, words[i][0]) == 0)
            return words[i][1];
    return NULL; /* a primitive, which moves_hears has named, or D-P-ABORT */
}

static const char *word_of_entry(const struct entry *e)
{
    int accepted = e->primitive.parameter == PEAT_ACCEPTED;
    switch (e->primitive.kind) {
    case PEAT_D_START_REQUEST: return "hears-start";
    case PEAT_D_START_RESPONSE: return accepted ? "hears-start-accepted" : "hears-start-rejected";
    case PEAT_D_DATA_REQUEST: return "hears-data";
    case PEAT_D_END_REQUEST: return "hears-end";
    case PEAT_D_END_RESPONSE: return accepted ? "hears-end-accepted" : "hears-end-rejected";
    default: return "hears-abort";
    }
}

/* ---- the move that is under way */

static void begin(const char *word)
{
    memset(&move, 0, sizeof move);
    move.word = word;
}

static void begin_with(const char *word, uint64_t number)
{
    begin(word);
    move.has_number = 1;
    move.number = number;
}

/* the lines behind a move */
static void write_said(const struct end *e, const struct said *s)
{
    if (s->has_bits)
        line(e, "bits %llu", (unsigned long long)s->bits);
    if (s->has_reason)
        line(e, "reason %u", s->reason);
    if (s->opens > 0)
        line(e, "opens %d", s->opens - 1);
    if (s->replies > 0)
        line(e, "replies %d", s->replies - 1);
    if (s->closes > 0)
        line(e, "closes %d", s->closes - 1);
    if (s->is_opened || s->is_closed)
        line(e, s->is_opened ? "opened" : "closed");
}

/* left: of a D-ABORT, how many of its entries of this dialogue are left on the line */
static void write_move(const struct end *e, unsigned left)
{
    const struct said said = move.said;
    char words[128];
    size_t n = (size_t)snprintf(words, sizeof words, "%s", move.word);
    int failure = strcmp(move.word, FAILURE) == 0, shows_record = failure || (strcmp(move.word, LOSS) != 0 && !e->apart);
    if (move.has_number)
        n += (size_t)snprintf(words + n, sizeof words - n, " %llu", (unsigned long long)move.number);
    if (move.has_version)
        n += (size_t)snprintf(words + n, sizeof words - n, " %u", move.version);
    if (move.can_abort)
        n += (size_t)snprintf(words + n, sizeof words - n, " %u", left);
    if (move.job != 0)
        snprintf(words + n, sizeof words - n, " %llu", (unsigned long long)move.job);
    begin(NULL);
    line(e, "%s", words);
    write_said(e, &said);
    if (shows_record)
        record(e);
    if (failure)
        record(e->peer);
}

/* A forward comes with its version; its answer says no more than its number until it is taken. */
static void hears_of_link(const struct peat_primitive *came)
{
    const char *word = came->kind == PEAT_D_START_REQUEST ? "hears-forward" : came->kind == PEAT_D_START_RESPONSE ? "hears-answer" : "hears-abort";
    begin_with(word, came->number);
    move.has_version = came->kind == PEAT_D_START_REQUEST;
    move.version = came->version;
    move.can_abort = came->kind == PEAT_D_ABORT_REQUEST;
}

void moves_hears(const struct end *to, const struct entry *e, const struct peat_primitive *came)
{
    if (file_of(to) == NULL)
        return;
    if (of_link(to)) {
        hears_of_link(came);
        return;
    }
    begin_with(word_of_entry(e), came->number);
    move.can_abort = 1;
    if (came->kind == PEAT_D_DATA_REQUEST)
        move.job = job_of[to->dialogue][!is_first(to)][e->serial % SERIALS];
}

void moves_call(const struct end *e, const char *what)
{
    const char *word = word_of(what);
    if (file_of(e) == NULL || word == NULL)
        return;
    if (strncmp(word, "starts", 6) == 0)
        begin_with(word, number(e));
    else
        begin(word);
    move.can_abort = strcmp(word, "aborts") == 0 || strcmp(word, "expires") == 0 || strcmp(word, "error") == 0;
}

/* the second of the two that hear it makes it the carrier's failure */
void moves_lost(const struct end *e)
{
    if (file_of(e) != NULL)
        begin(!e->apart && !is_first(e) && !e->peer->down ? FAILURE : LOSS);
}

void moves_asked(const struct end *e, const uint8_t *message, unsigned bits)
{
    if (file_of(e) != NULL)
        asked = digest(message, bits);
}

void moves_told(const struct end *e, const uint8_t *message, unsigned bits, unsigned replies)
{
    if (file_of(e) == NULL)
        return;
    move.said.has_bits = 1;
    move.said.bits = digest(message, bits);
    if (replies != NO_NUMBER)
        move.said.replies = 1 + (int)replies;
}

void moves_position(const struct end *e, int opens, int closes)
{
    if (file_of(e) == NULL)
        return;
    move.said.is_opened = opens;
    move.said.is_closed = closes;
}

void moves_took(const struct end *e, uint64_t job)
{
    if (file_of(e) == NULL)
        return;
    job_taken = job;
    begin_with("takes", job);
    move.said.has_bits = 1;
    move.said.bits = asked;
}

/* with the number of its start */
void moves_forwards(const struct end *e, uint64_t job)
{
    if (file_of(e) == NULL)
        return;
    begin_with("forwards", job);
    move.job = number(e);
}

/* What is kept of a job and of the book. A controller's message has opened its number. */
static void say_change(const struct end *e, const struct change *c)
{
    struct said *s = &move.said;
    s->has_reason = c->job != 0 && c->outcome != PEAT_TAKEN;
    s->reason = c->outcome;
    if (c->job != 0 && c->outcome == PEAT_TAKEN && !of_link(e) && !is_first(e) && c->number != NO_NUMBER)
        s->opens = 1 + (int)c->number;
    if (c->book == NUMBER_CLOSED)
        s->closes = 1 + (int)c->number;
}

void moves_kept(const struct end *e, const struct change *c, struct peat_answer answer)
{
    if (file_of(e) == NULL || c->confirmed > 0)
        return;
    if (move.word == NULL && c->job != 0)
        begin_with("refuses", c->job);
    else if (move.word == NULL)
        begin(c->over == ENDED ? "released" : "gives-up");
    if (strcmp(move.word, "hears-end-accepted") == 0 && c->over == ENDED)
        move.word = "hears-end-confirmed";
    say_change(e, c);
    if (peat_invoked(answer) == PEAT_D_ABORT_REQUEST)
        move.is_kept = 1;
    else
        write_move(e, 0);
}

void moves_nothing_kept(const struct end *e)
{
    if (file_of(e) != NULL && move.word != NULL)
        write_move(e, 0);
}

void moves_sends(const struct end *e, const struct entry *n, unsigned left)
{
    if (file_of(e) == NULL)
        return;
    if (move.is_kept)
        write_move(e, left);
    if (n->primitive.kind == PEAT_D_DATA_REQUEST)
        job_of[e->dialogue][is_first(e)][n->serial % SERIALS] = job_taken;
    line(e, "sends");
}

/* ---- the others */

void moves_shows(const struct end *e) { line(e, "shows"); }

void moves_acknowledges(const struct end *e, uint64_t job) { line(e, "acknowledges %llu", (unsigned long long)job); }

void moves_tells(const struct end *e, const struct notice *n, unsigned reason)
{
    unsigned long long id = n->id, job = n->job;
    if (n->fate >= ANSWERED)
        line(e, "tells-answered %llu %llu %u", id, job, (unsigned)(n->fate - ANSWERED));
    else
        line(e, "tells-%s %llu %llu", n->fate == REFUSED ? "refused" : n->fate == ENDED ? "ended" : "broken", id, job);
    if (n->fate == REFUSED)
        line(e, "reason %u", reason);
}

void moves_posts(const struct end *e, unsigned kind) { line(e, "posts %u", kind); }

void moves_shows_closed(const struct end *e) { line(e, "closed"); }

void moves_power(const struct end *e)
{
    if (file_of(e) != NULL && move.is_kept)
        write_move(e, line_of_number(&e->out, number(e)));
    begin(NULL);
    line(e, "power-fails");
}

void moves_quiet(const struct end *e)
{
    if (file_of(e) == NULL || is_quiet[e->dialogue])
        return;
    line(e, "quiet");
    is_quiet[e->dialogue] = 1;
}

/* ---- the files */

int moves_begin(const char *dir)
{
    char path[256];
    int i;
    for (i = 0; i < PAIRS; i++) {
        int n = snprintf(path, sizeof path, "%s/%02d", dir, i);
        file[i] = n < 0 || (size_t)n >= sizeof path ? NULL : fopen(path, "w");
        if (file[i] == NULL)
            return -1;
        if (i < DIALOGUES)
            fprintf(file[i], "%c from 0 0 0 0\n", i % 2 == 0 ? 'a' : 'g'); /* the side that starts (dialogue.h); fresh records */
    }
    return 0;
}

static void centre(const struct end *e)
{
    line(e, "centre %llu %u %u", (unsigned long long)number(e), e->setting.version, e->setting.forwarding == PEAT_FORWARDS);
}

void moves_centres(const struct end *sender)
{
    centre(sender);
    centre(sender->peer);
}

int moves_end(void)
{
    int i, bad = 0;
    for (i = 0; i < PAIRS; i++)
        bad |= file[i] != NULL && (ferror(file[i]) | fclose(file[i])) != 0;
    return bad ? -1 : 0;
}
