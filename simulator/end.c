#include "end.h"

#include <stdlib.h>
#include <string.h>

#include "account.h"
#include "chance.h"
#include "faults.h"
#include "forward.h"
#include "envelopes.h"
#include "moves.h"
#include "power.h"
#include "recording.h"
#include "story.h"

uint8_t call_apdu[PEAT_BUFFER_LEAST], call_data[PEAT_BUFFER_LEAST];

unsigned end_fresh(struct end *e)
{
    return peat_refusal(peat_fresh(REC(e), e->setting.side, PEAT_NO_SECURITY, e->setting.forwarding, e->setting.version, e->setting.type));
}

int end_begin(struct end *e, int dialogue, const struct setting *as, struct end *peer, const char *folder)
{
    char name[32];
    e->dialogue = dialogue;
    e->setting = *as;
    e->peer = peer;
    e->user.side = as->side;
    e->user.next = (uint64_t)dialogue + 1;
    e->user.apart = DIALOGUES;
    if (end_fresh(e) != PEAT_TAKEN || peat_refusal(peat_book_empty(PEAT_ARRAY(e->memory.book))) != PEAT_TAKEN)
        return -1;
    e->memory.wanted = 1;
    e->watch.kept = e->memory;
    snprintf(name, sizeof name, "%s-%02d", as->name, dialogue);
    return journal_begin(&e->journal, folder, name, &e->memory);
}

/* ---- keep */

static void fails_here(void *e) { power_point(e); }

/* With another number a dialogue begins, in which nothing was taken, shown or broken. */
static void watch_dialogue(struct end *e)
{
    struct watch *w = &e->watch;
    if (number(e) == w->number)
        return;
    end_hears(e);
    w->number = number(e);
    w->sent = w->seen = 0;
    recording_starts(e);
    w->broke = 0;
    e->user.replies.owed = 0;
    book_watch_begins(&w->numbers);
}

static void watch_taken(struct end *e, uint64_t job)
{
    struct watch *w = &e->watch;
    struct job *j;
    account.taken++;
    account.nobodys += !broker_knows(&e->broker, job);
    if (!broker_knows(&e->broker, job))
        return;
    j = broker_job(&e->broker, job);
    account.taken_twice += (unsigned long)j->taken;
    j->taken = 1;
    recording_took(e, j->clearance);
    if (w->sent < OPEN_MOST)
        w->clearance[w->sent++] = j->clearance;
}

/* A controller's message has opened its number, a flight deck's is the reply that was owed. */
static void watch_number(struct end *e, const struct change *c)
{
    if (!is_air(e))
        book_watch_gives(&e->watch.numbers, c->number, c->job, peat_open_count(peat_book_count(PEAT_ARRAY(e->memory.book))));
    else if (c->number != NO_NUMBER)
        reply_sent(&e->user.replies);
}

/* a call that was taken: what its user invoked by it, and its answer */
struct call {
    enum invocation by;
    struct peat_answer answer;
};

static void watch_position(struct end *e, const struct call *call)
{
    position_shows(&e->watch.position, call->by, call->answer);
    position_examine(&e->watch.position, (int)peat_record_active(e->memory.rec));
}

/* A change is on the disk when this returns, and with it the call that made it, if one did. A host whose disk fails stops: nothing
   of the change has left it. */
static void keep(struct end *e, const struct change *c, const struct call *call)
{
    power_point(e);
    if (journal_append(&e->journal, c, fails_here, e) != 0) {
        fprintf(stderr, "peat-host: the journal %s can not be written\n", e->journal.path);
        exit(2);
    }
    memory_apply(&e->memory, c);
    if (call != NULL)
        moves_position(e, position_opens(call->by, call->answer), position_closes(call->by, call->answer));
    moves_kept(e, c, call != NULL ? call->answer : (struct peat_answer){0});
    watch_dialogue(e);
    if (call != NULL)
        watch_position(e, call);
    if (c->job != 0 && c->outcome == PEAT_TAKEN && of_link(e)) {
        forward_taken(e, c->job);
    } else if (c->job != 0 && c->outcome == PEAT_TAKEN) {
        watch_taken(e, c->job);
        watch_number(e, c);
    }
    e->watch.kept = e->memory;
    power_point(e);
}

/* ---- release */

void lose_youngest(struct end *e, unsigned n)
{
    while (n-- > 0)
        story_lost(e, line_lose(&e->out));
}

/* The primitive goes on the line with the number that the record holds now. When an end invokes D-ABORT, the carrier may lose the
   youngest entries that this end sent before it in that dialogue. */
static void invoke(struct end *e, struct peat_answer answer)
{
    struct entry *n;
    if (peat_invoked(answer) == PEAT_SILENT)
        return;
    if (peat_invoked(answer) == PEAT_D_ABORT_REQUEST) {
        account.aborted++;
        e->watch.broke = 1;
        if (fault(LOSES_OLDEST) && e->out.entries > 1)
            story_lost(e, line_take(&e->out));
        else if (!fault(LOSES_OLDEST))
            lose_youngest(e, chance(line_of_number(&e->out, number(e)) + 1));
    }
    n = line_put(&e->out);
    n->serial = ++e->watch.entries;
    n->primitive = peat_primitive_of(answer, e->memory.rec);
    n->bits = peat_apdu_bits(answer);
    memcpy(n->apdu, call_apdu, n->primitive.user_data_len);
    moves_sends(e, n, line_of_number(&e->out, number(e)) - 1);
}

/* The number of a message that a flight deck is shown is open for the message's job, and a reply to it is owed. A reply that
   a controller is shown closes its number. */
static void show_number(struct end *e, uint64_t clearance, unsigned number)
{
    struct end *from = e->peer;
    if (is_air(e)) {
        uint64_t job = book_watch_job(&from->watch.numbers, from->watch.kept.book, number);
        account.number_astray += !broker_knows(&from->broker, job) || broker_job(&from->broker, job)->clearance != clearance;
        reply_owed(&e->user.replies, number);
    } else if (number != NO_NUMBER) {
        book_watch_replied(&e->watch.numbers, number);
    }
}

#define LONG_BITS 2048 /* what a message had at most before it was given more */

/* A user is shown a message. In a dialogue the messages shown are in order the first so many that the other end took. */
static void show(struct end *e, const uint8_t *body, unsigned bits)
{
    static struct clearance c;
    const struct watch *from = &e->peer->watch;
    unsigned by = e->peer->user.side;
    uint64_t clearance = clearance_read(&c, by, body, bits) ? clearance_of(&c, by) : 0;
    int in_place = clearance != 0 && from->number == e->watch.number && e->watch.seen < from->sent && from->clearance[e->watch.seen] == clearance;
    unsigned times = clearance == 0 ? 0 : user_shown(&e->user, clearance);
    e->watch.seen += (unsigned)in_place;
    story_shown(e, clearance);
    if (clearance != 0)
        show_number(e, clearance, clearance_numbered(&c, by));
    if (times > 1)
        ++*(is_air(e) ? &account.deck_duplicates : &account.ground_duplicates);
    else if (in_place)
        account.shown++, account.long_shown += bits > LONG_BITS;
    else
        account.misplaced++;
}

/* The message among what a call told, and its bits. In type 2 what is told is the message. */
static unsigned message_told(const struct end *e, struct peat_answer answer, uint8_t *message, size_t room)
{
    struct peat_part_answer part;
    if (is_plain(e)) {
        memcpy(message, call_data, peat_data_bytes(answer));
        return peat_data_bits(answer);
    }
    part = peat_data_part(PEAT_PART_MESSAGE, call_data, peat_data_bytes(answer), message, room);
    must(peat_refusal(part));
    return peat_part_bits(part);
}

/* A delivered message goes to the broker of this end in an envelope, and from there to its user. */
static void deliver(struct end *e, const uint8_t *message, unsigned bits)
{
    struct outbox_bytes m = {0};
    struct envelope l;
    struct arrival a = {0};
    outbox_post(&m, fault(MIXES_KINDS) ? PEAT_ENVELOPE_TO_SEND : PEAT_ENVELOPE_DELIVERED, ++e->watch.delivered, bits, message);
    while (outbox_next(&m, &a, &l)) {
        recording_got(e, &l);
        moves_posts(e, l.kind);
        if (l.kind == PEAT_ENVELOPE_DELIVERED)
            show(e, l.body, l.bits);
        else
            must(PEAT_KIND);
    }
}

void end_hears(struct end *e)
{
    unsigned i;
    if (e->unheard.count > 0)
        moves_shows(e);
    for (i = 0; i < e->unheard.count; i++)
        deliver(e, e->unheard.message[i], e->unheard.bits[i]);
    e->unheard.count = 0;
}

/* A message is for the user: shown at once. The host of a wrong flight deck puts it off. */
static void hear(struct end *e, struct peat_answer answer)
{
    struct unheard *u = &e->unheard;
    if (u->count == UNHEARD_MOST)
        end_hears(e);
    u->bits[u->count] = message_told(e, answer, PEAT_ARRAY(u->message[u->count]));
    u->count++;
    if (!fault(ANSWERS_UNHEARD) || !is_air(e))
        end_hears(e);
}

/* In type 2 a start, a rejection and an end may bring a message: whole, and of the other end. */
static void hear_beside(const struct end *e, struct peat_answer answer)
{
    static struct clearance c;
    unsigned by = e->peer->user.side;
    if (!is_plain(e) || peat_data_bits(answer) == 0)
        return;
    account.beside++;
    account.beside_astray += !clearance_read(&c, by, call_data, peat_data_bits(answer)) || clearance_of(&c, by) == 0;
}

static void tell(struct end *e, struct peat_answer answer)
{
    unsigned accepted = peat_told_parameter(answer) == PEAT_ACCEPTED;
    if (peat_told(answer) != PEAT_MESSAGE_INDICATION && peat_told(answer) != PEAT_FORWARD_INDICATION)
        hear_beside(e, answer);
    switch (peat_told(answer)) {
    case PEAT_MESSAGE_INDICATION: hear(e, answer); break;
    case PEAT_FORWARD_INDICATION:
        moves_shows(e);
        forward_shown(e, answer);
        break;
    case PEAT_START_CONFIRMATION:
        account.opened += accepted;
        e->user.talking = (int)accepted;
        break;
    case PEAT_END_CONFIRMATION:
        account.closed += accepted;
        e->user.talking = !accepted;
        break;
    case PEAT_USER_ABORT_INDICATION:
    case PEAT_PROVIDER_ABORT_INDICATION: e->user.talking = 0; break;
    }
}

/* The answer to a forward says that its user has it: it goes when the user was shown the message, and not before. */
static void release(struct end *e, struct peat_answer answer)
{
    int shown_first = peat_told(answer) == PEAT_FORWARD_INDICATION && !fault(ANSWERS_BEFORE_SHOWING);
    if (shown_first)
        tell(e, answer);
    else
        invoke(e, answer);
    power_point(e);
    if (shown_first)
        invoke(e, answer);
    else
        tell(e, answer);
}

/* ---- what a call changed is kept, and then what it wrote leaves */

static void conclude(struct end *e, const struct change *c, enum invocation by, struct peat_answer answer)
{
    const struct call call = {by, answer};
    e->watch.state = state(e);
    if (fault(KEEPS_LATE))
        release(e, answer);
    keep(e, c, &call);
    if (!fault(KEEPS_LATE))
        release(e, answer);
}

/* whether the dialogue broke with this call: what was sent in it may never arrive */
static int breaks(struct peat_answer answer)
{
    return peat_invoked(answer) == PEAT_D_ABORT_REQUEST || peat_told(answer) == PEAT_USER_ABORT_INDICATION ||
           peat_told(answer) == PEAT_PROVIDER_ABORT_INDICATION;
}

/* whether a dialogue begins with this call */
static int begins(struct peat_answer answer) { return peat_invoked(answer) == PEAT_D_START_REQUEST || peat_told(answer) == PEAT_START_INDICATION; }

/* The number that a message names: a flight deck's, the one that it replies to. What was told is recorded. */
static unsigned number_named(const struct end *e, struct peat_answer answer)
{
    static struct clearance c;
    uint8_t message[PEAT_BUFFER_LEAST];
    unsigned bits = message_told(e, answer, PEAT_ARRAY(message));
    unsigned number = !is_air(e) && clearance_read(&c, PEAT_AIR, message, bits) ? clearance_numbered(&c, PEAT_AIR) : NO_NUMBER;
    moves_told(e, message, bits, number);
    return number;
}

/* the number that it replies to, where it is open */
static unsigned number_replied(const struct end *e, unsigned number)
{
    if (fault(CLOSES_ANOTHER_NUMBER) && number != NO_NUMBER)
        number ^= 1;
    return peat_book_job(PEAT_ARRAY(e->memory.book), number) != 0 ? number : NO_NUMBER;
}

/* The book of a ground end: a new dialogue empties it, a reply closes its number. That is kept with the record, before the
   reply is shown. */
static void keep_book(const struct end *e, struct change *c, struct peat_answer answer)
{
    unsigned named = peat_told(answer) == PEAT_MESSAGE_INDICATION ? number_named(e, answer) : NO_NUMBER;
    if (is_air(e))
        return;
    if (begins(answer))
        c->book = BOOK_EMPTIED;
    if (peat_told(answer) != PEAT_MESSAGE_INDICATION || fault(CLOSES_NONE))
        return;
    c->number = number_replied(e, named);
    if (c->number != NO_NUMBER)
        c->book = NUMBER_CLOSED;
}

/* what a forward was answered */
static enum fate answered(struct peat_answer answer) { return (enum fate)(ANSWERED + peat_told_parameter(answer)); }

/* the fate of the jobs of a dialogue that broke */
static enum fate broken(const struct end *e, enum fate fate)
{
    return e->memory.open == 0 || (fate == BROKEN && fault(SILENT_ON_BREAK)) ? NOTHING_TOLD : fate;
}

unsigned end_invokes(struct end *e, const char *what, enum invocation by, struct peat_answer answer)
{
    struct change c = no_change(&e->memory);
    if (peat_refusal(answer) != PEAT_TAKEN)
        return peat_refusal(answer);
    story_call(e, what, answer);
    moves_call(e, what);
    if (breaks(answer) || begins(answer)) /* what an older dialogue left open is not known to have arrived */
        c.over = broken(e, BROKEN);
    if (peat_told(answer) == PEAT_FORWARD_CONFIRMATION)
        c.over = broken(e, answered(answer));
    if (fault(ANSWERS_UNHEARD) && peat_told(answer) == PEAT_END_CONFIRMATION && peat_told_parameter(answer) == PEAT_ACCEPTED)
        c.over = broken(e, ENDED); /* the other host is right: the end is confirmed, so it need not wait for the release */
    keep_book(e, &c, answer);
    conclude(e, &c, by, answer);
    return PEAT_TAKEN;
}

unsigned end_act(struct end *e, const char *what, struct peat_answer answer) { return end_invokes(e, what, NO_INVOCATION, answer); }

void end_takes(struct end *e, uint64_t job, unsigned number, struct peat_answer answer)
{
    struct change c = no_change(&e->memory);
    story_took(e, job, answer);
    moves_took(e, job);
    c.job = job;
    c.number = number;
    if (!is_air(e) && number != NO_NUMBER && !fault(NUMBERS_ITSELF) && !fault(CLOSES_TOO_EARLY))
        c.book = NUMBER_OPENED;
    conclude(e, &c, NO_INVOCATION, answer);
}

void end_forwards(struct end *e, uint64_t job, struct peat_answer answer)
{
    struct change c = no_change(&e->memory);
    story_took(e, job, answer);
    moves_forwards(e, job);
    c.job = job;
    conclude(e, &c, STARTS, answer);
}

void end_refuses(struct end *e, uint64_t job, unsigned refusal)
{
    struct change c = no_change(&e->memory);
    c.job = job;
    c.outcome = refusal;
    keep(e, &c, NULL);
}

void end_settles(struct end *e, enum fate fate)
{
    struct change c = no_change(&e->memory);
    c.over = broken(e, fate);
    if (e->memory.open > 0 && c.over != NOTHING_TOLD)
        keep(e, &c, NULL);
}

void end_confirmed(struct end *e, unsigned notices)
{
    struct change c = no_change(&e->memory);
    c.confirmed = notices;
    keep(e, &c, NULL);
}

void end_shows_abort(struct end *e)
{
    const struct call call = {NO_INVOCATION, {(uint64_t)PEAT_PROVIDER_ABORT_INDICATION << PEAT_TOLD_AT}};
    watch_position(e, &call);
    moves_shows_closed(e);
}

/* ---- the power is back */

static int as_kept(const struct memory *m, const struct memory *k)
{
    return memcmp(m->rec, k->rec, sizeof m->rec) == 0 && m->wanted == k->wanted && m->open == k->open && m->notices == k->notices &&
           m->posts == k->posts && memcmp(m->book, k->book, sizeof m->book) == 0 && memcmp(m->opened, k->opened, m->open * sizeof *m->opened) == 0;
}

void end_loads(struct end *e)
{
    enum loaded loaded;
    memset(&e->memory, 0xA5, sizeof e->memory); /* nothing of what it had in memory is left */
    memset(e->held, 0, sizeof e->held);
    e->unheard.count = 0;
    loaded = journal_load(&e->journal, &e->memory);
    if (loaded == NOT_LOADED) {
        fprintf(stderr, "peat-host: the journal %s is damaged; its end stays down\n", e->journal.path);
        exit(2);
    }
    account.loaded++;
    account.torn += loaded == LOADED_TORN;
    account.loaded_wrong += !as_kept(&e->memory, &e->watch.kept);
    if (fault(FRESH_AT_RESTART))
        must(end_fresh(e));
    e->watch.state = state(e);
    story_loaded(e);
}
