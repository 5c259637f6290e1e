#include "dialogue.h"

#include "account.h"
#include "capture.h"
#include "chance.h"
#include "faults.h"
#include "moves.h"
#include "peatribbon_names.h"
#include "power.h"
#include "recording.h"
#include "story.h"

/* ---- the users */

/* What goes with a start, a rejection or an end: in type 22 message data without a message; in type 2 every other time a clearance that the
   number of the dialogue names, else nothing. */
static struct peat_data beside(const struct end *e, uint64_t of)
{
    static struct clearance c; /* one call at a time */
    struct peat_data data = {0};
    if (is_plain(e) && scattered(of) % 2) {
        clearance_compose(&c, e->user.side, 1 + of % 1000000);
        data.message = c.bit, data.message_len = (c.bits + 7) / 8, data.message_bits = c.bits;
    }
    return data;
}

/* An acceptance has none. */
static struct peat_data beside_result(const struct end *e, unsigned result)
{
    struct peat_data none = {0};
    return result == PEAT_ACCEPTED ? none : beside(e, number(e));
}

void dialogue_start(struct dialogue *d)
{
    struct end *e = starter(d);
    unsigned class_ = chance(PEAT_CLASS_H + 1), mode = is_air(e) && chance(2) ? PEAT_DSC : PEAT_CPDLC;
    uint64_t next = number(e) + 1 + (chance(8) == 0 ? chance(1000) : 0);
    struct peat_data data = beside(e, next);
    if (!idle(air(d)) || !idle(ground(d)) || parted(d) || !line_has_room(&e->out, 1))
        return;
    account.late_starts += !quiet(d);
    end_hears(e->peer); /* what was put off is not shown as of a new dialogue */
    if (fault(FORGETS_HIGHEST))
        must(end_fresh(e));
    must(end_invokes(e, mode == PEAT_DSC ? "start request, dsc" : "start request, cpdlc", STARTS,
        peat_start(REC(e), next, mode, class_, PEAT_NO_SECURITY, PEAT_DATA(data), BUFFERS)));
}

static void start_response(struct end *e, unsigned dsc, unsigned result)
{
    struct peat_data data = beside_result(e, result);
    enum invocation by = result == PEAT_ACCEPTED ? NO_INVOCATION : CLOSES;
    e->user.talking = result == PEAT_ACCEPTED;
    if (dsc)
        must(end_invokes(e, result == PEAT_ACCEPTED ? "DSC-start response, accepted" : "DSC-start response, rejected", by,
            peat_dsc_start_response(REC(e), result, PEAT_DATA(data), BUFFERS)));
    else
        must(end_invokes(e, result == PEAT_ACCEPTED ? "CPDLC-start response, accepted" : "CPDLC-start response, rejected", by,
            peat_start_response(REC(e), result, PEAT_DATA(data), BUFFERS)));
}

static void end_request(struct end *e, unsigned dsc)
{
    struct peat_data data = beside(e, number(e));
    if (dsc)
        must(end_act(e, "DSC-end request", peat_dsc_end_request(REC(e), PEAT_DATA(data), BUFFERS)));
    else
        must(end_act(e, "CPDLC-end request", peat_end_request(REC(e), PEAT_DATA(data), BUFFERS)));
}

static void end_response(struct end *e, unsigned dsc, unsigned result)
{
    struct peat_data data = beside(e, number(e) + result);
    enum invocation by = result == PEAT_ACCEPTED ? CLOSES : NO_INVOCATION;
    e->user.talking = result != PEAT_ACCEPTED;
    if (dsc)
        must(end_invokes(e, result == PEAT_ACCEPTED ? "DSC-end response, accepted" : "DSC-end response, rejected", by,
            peat_dsc_end_response(REC(e), result, PEAT_DATA(data), BUFFERS)));
    else
        must(end_invokes(e, result == PEAT_ACCEPTED ? "CPDLC-end response, accepted" : "CPDLC-end response, rejected", by,
            peat_end_response(REC(e), result, PEAT_DATA(data), BUFFERS)));
}

static void user_abort(struct end *e)
{
    e->user.talking = 0;
    must(end_invokes(e, "CPDLC-user-abort request", CLOSES, peat_user_abort(REC(e), chance(2) ? PEAT_NONE : PEAT_COMMANDED_TERMINATION, BUFFERS)));
}

/* In a DSC dialogue the air user ends it, else the ground user does. */
void dialogue_respond(struct end *e)
{
    unsigned dsc = peat_record_dsc(e->memory.rec), result = chance(4) ? PEAT_ACCEPTED : PEAT_REJECTED;
    int ends = is_air(e) == (int)dsc;
    if (state(e) == PEAT_START_IND)
        start_response(e, dsc, result);
    else if (state(e) == PEAT_END && !ends)
        end_response(e, dsc, result);
    else if (state(e) == PEAT_DIALOGUE && ends && chance(8) == 0)
        end_request(e, dsc);
    else if (!idle(e) && chance(64) == 0)
        user_abort(e);
}

/* ---- the host and the carrier */

static const char *arrival_name(unsigned primitive)
{
    static const char *const names[] = {"?", "D-START indication", "D-START confirmation", "D-DATA indication", "D-END indication",
        "D-END confirmation", "D-ABORT indication"};
    return PEAT_NAMED(names, primitive);
}

/* the number that a primitive is handed over with: its own, or what one of the faults has there */
static uint64_t number_given(const struct end *to, const struct entry *e)
{
    return fault(FORGETS_NUMBERS) ? number(to) + (e->primitive.kind == PEAT_D_START_REQUEST) : e->primitive.number;
}

/* what is handed over of it */
static struct peat_primitive handed(const struct end *to, const struct entry *e)
{
    struct peat_primitive came = e->primitive;
    came.number = number_given(to, e);
    if (fault(DROPS_VERSIONS))
        came.version = PEAT_NO_VERSION;
    return came;
}

/* A primitive that one end invoked reaches the other, with user data where it has any. */
static struct peat_answer arrives(struct end *to, const struct entry *e, struct peat_primitive came)
{
    return peat_hand_over(REC(to), came, to->peer->setting.side == PEAT_AIR ? PEAT_AIRCRAFT : PEAT_FACILITY, e->apdu, BUFFERS);
}

/* What reaches an IDLE end is discarded, but for a start. Its host sees all the same that the connection is lost: what this
   end sent before it closed may not have arrived. (An abort of an older dialogue says nothing of that.) */
static void discard(struct end *to, const struct entry *e)
{
    story_arrives(to->peer, e, 1);
    moves_hears(to, e, &e->primitive);
    if (e->primitive.kind == PEAT_D_ABORT_REQUEST && e->primitive.number == number(to))
        end_settles(to, BROKEN);
    moves_nothing_kept(to);
    if (fault(SHOWS_LATE_ABORT) && e->primitive.kind == PEAT_D_ABORT_REQUEST && to->watch.position.called)
        end_shows_abort(to);
}

/* What is left of an old dialogue changes nothing. It must be of one: a number below the record's. */
static void stale(struct end *to, const struct entry *e)
{
    account.stale++;
    story_stale(to->peer, e);
    moves_nothing_kept(to);
    if (e->primitive.number >= number(to))
        must(PEAT_STALE);
}

static void receive(struct end *to, const struct entry *e)
{
    const struct peat_primitive came = handed(to, e);
    struct peat_answer answer = arrives(to, e, came);
    char what[64];
    moves_hears(to, e, &came);
    if (peat_refusal(answer) == PEAT_STALE) {
        stale(to, e);
        return;
    }
    snprintf(what, sizeof what, "%s %c%lu", arrival_name(e->primitive.kind), to->peer->setting.name[0], e->serial);
    account.missing += e->primitive.kind == PEAT_D_DATA_REQUEST && peat_told(answer) != PEAT_MESSAGE_INDICATION;
    must(end_act(to, what, answer));
}

#define WRONG_STARTS 61 /* entries that an end gets which starts, before it gets a start itself */

/* whether an end is the one of its dialogue that starts: no start can be for it */
static int starts(const struct end *e) { return !of_link(e) && is_air(e) == (e->dialogue % 2 == 0); }

/* Whoever is at the other side starts a dialogue, with the highest number there is. Handed over it would be the record's number, and no start of this end
   could follow: so it is not. */
static void wrong_start(struct end *to)
{
    static const struct entry start = {.primitive = {.number = UINT64_MAX, .kind = PEAT_D_START_REQUEST, .parameter = PEAT_CLASS_ANY}};
    static unsigned long entries;
    if (!starts(to) || ++entries % WRONG_STARTS != 0 || !line_has_room(&to->out, 1))
        return;
    account.wrong_starts++;
    if (fault(TAKES_ANY_START))
        receive(to, &start);
}

/* what a carrier must not do, and one of the faults has it do */
static int loses(const struct entry *e)
{
    return (fault(LOSES_ABORTS) && e->primitive.kind == PEAT_D_ABORT_REQUEST) ||
           (fault(LOSES_MESSAGES) && e->primitive.kind == PEAT_D_DATA_REQUEST && chance(500) == 0) ||
           (fault(LOSES_ANSWERS) && e->primitive.kind == PEAT_D_START_RESPONSE && e->primitive.parameter == PEAT_REJECTED && chance(20) == 0);
}

void dialogue_hand_over(struct end *from)
{
    struct end *to = from->peer;
    struct entry *e;
    if (from->out.entries == 0 || to->apart || !line_has_room(&to->out, 1))
        return;
    e = fault(TURNS_LINES) ? line_lose(&from->out) : line_take(&from->out);
    if (loses(e))
        return;
    if (!of_link(from))
        capture_entry(from->dialogue, is_air(from), from->setting.type, e);
    if (idle(to) && e->primitive.kind != PEAT_D_START_REQUEST) {
        discard(to, e);
        return;
    }
    receive(to, e);
    if (fault(HANDS_OVER_TWICE) && e->primitive.kind == PEAT_D_DATA_REQUEST && chance(100) == 0 && !idle(to))
        receive(to, e);
    wrong_start(to);
}

void dialogue_expire(struct end *e)
{
    if (peat_record_timer(e->memory.rec)) {
        account.expired++;
        must(end_act(e, "t-start expires", peat_timer_expiry(REC(e), BUFFERS)));
    }
}

void dialogue_turn_back(struct end *e)
{
    if ((state(e) != PEAT_START_REQ && state(e) != PEAT_FORWARD) || line_of_number(&e->out, number(e)) == 0)
        return;
    account.turned_back++;
    lose_youngest(e, line_of_number(&e->out, number(e))); /* it has sent nothing else in this dialogue */
    if (!fault(SILENT_TURN_BACK))
        must(end_act(e, "D-START confirmation: start turned back",
            peat_d_start_confirmation(REC(e), number(e), PEAT_REJECTED_TRANSIENT, PEAT_DS_PROVIDER, PEAT_NO_SECURITY, PEAT_NO_VERSION,
                PEAT_NO_USER_DATA, NULL, 0, BUFFERS)));
}

void dialogue_break_down(struct end *e)
{
    account.errors += !idle(e);
    must(end_act(e, "a system error", peat_system_error(REC(e), BUFFERS)));
}

/* One end hears that the carrier failed; an IDLE one has nothing to hear, but jobs whose fate is open now have one. An end
   without power hears of it when it comes up. */
static void hears_of_failure(struct end *e)
{
    if (e->down)
        return;
    moves_lost(e);
    if (idle(e) && fault(SHOWS_CLOSED_TWICE))
        end_shows_abort(e);
    if (idle(e))
        end_settles(e, BROKEN);
    else
        must(end_act(e, "D-P-ABORT indication", peat_d_p_abort_indication(REC(e), number(e), BUFFERS)));
    moves_nothing_kept(e);
}

void dialogue_fail(struct dialogue *d)
{
    int i;
    account.failed++;
    for (i = 0; i < 2; i++) {
        d->end[i].watch.broke = 1;
        d->end[i].apart = 0;
        lose_youngest(&d->end[i], d->end[i].out.entries);
    }
    hears_of_failure(air(d));
    if (!fault(TELLS_ONE_END))
        hears_of_failure(ground(d));
}

void dialogue_part(struct end *e)
{
    account.parted++;
    e->watch.broke = 1;
    e->apart = 1;
    hears_of_failure(e);
}

void dialogue_rejoin(struct dialogue *d)
{
    if (parted(d) && chance(8) == 0)
        dialogue_fail(d);
}

/* ---- what must hold */

/* both IDLE, one START-REQ and the other START-IND, or both DIALOGUE or END with the same DSC */
static int matching(struct dialogue *d)
{
    unsigned a = state(air(d)), g = state(ground(d));
    if (number(air(d)) != number(ground(d)))
        return a == PEAT_IDLE && g == PEAT_IDLE; /* a start that never arrived */
    if (a == PEAT_START_REQ || g == PEAT_START_REQ)
        return a + g == PEAT_START_REQ + PEAT_START_IND;
    return a == g && a != PEAT_START_IND && peat_record_dsc(air(d)->memory.rec) == peat_record_dsc(ground(d)->memory.rec);
}

/* something broke the dialogue, or one end never was in it */
static int broke(struct dialogue *d)
{
    return air(d)->watch.broke || ground(d)->watch.broke || air(d)->watch.number != ground(d)->watch.number;
}

/* All that each end took in a dialogue was shown at the other, unless something broke it, or the other never was in it. */
static int complete(struct dialogue *d)
{
    return broke(d) || (air(d)->watch.seen == ground(d)->watch.sent && ground(d)->watch.seen == air(d)->watch.sent);
}

/* Nothing is on its way. What a wrong host put off is shown now or later. */
static int heard(struct end *e)
{
    if (e->unheard.count > 0 && chance(64) == 0)
        end_hears(e);
    return e->unheard.count == 0;
}

void dialogue_examine(struct dialogue *d)
{
    if (!quiet(d) || parted(d))
        return;
    moves_quiet(air(d));
    account.half_closed += !matching(d);
    account.incomplete += heard(air(d)) && heard(ground(d)) && !complete(d);
    if (idle(air(d)) && idle(ground(d))) {
        recording_ends(air(d), ground(d), broke(d));
        end_settles(air(d), ENDED);
        end_settles(ground(d), ENDED);
    }
}

void dialogue_drain(struct dialogue *d)
{
    if (parted(d))
        dialogue_fail(d);
    while (!quiet(d)) {
        dialogue_hand_over(air(d));
        dialogue_hand_over(ground(d));
    }
    end_hears(air(d));
    end_hears(ground(d));
    dialogue_examine(d);
}

/* ---- the audit */

/* the job is among those of a dialogue that is not over */
static int under_way(const struct end *e, uint64_t job)
{
    unsigned i;
    for (i = 0; i < e->memory.open; i++)
        if (e->memory.opened[i] == job)
            return 1;
    return 0;
}

void dialogue_audit(const struct end *e)
{
    uint64_t job;
    for (job = 1; job <= e->broker.jobs; job++) {
        unsigned shown = user_saw(&e->peer->user, broker_job(&e->broker, job)->clearance);
        switch (user_knows(&e->user, job)) {
        case REFUSED: break;
        case ENDED: account.told_wrong += shown == 0; break; /* it was told that the message arrived */
        case BROKEN: account.lost += shown == 0; break;
        case NOTHING_TOLD: account.silent += shown == 0 && broker_job(&e->broker, job)->acknowledged && !under_way(e, job); break;
        default: account.told_wrong++; break; /* an answer, which only a forward gets */
        }
    }
}
