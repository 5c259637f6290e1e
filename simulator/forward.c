#include "forward.h"

#include <string.h>

#include "account.h"
#include "chance.h"
#include "faults.h"
#include "moves.h"
#include "notices.h"
#include "power.h"
#include "story.h"

/* ---- what the two centres are */

/* Every fourth link leads to an end without forwarding, and every fourth to one of another version. A sender needs no forwarding. */
enum { VERSION = 2, OTHER_VERSION = 3 };

static unsigned supports(int link) { return link % 4 == 2 ? PEAT_FORWARDS_NOT : PEAT_FORWARDS; }
static unsigned version_at(int link) { return link % 4 == 3 ? OTHER_VERSION : VERSION; }

/* what a forward on this link is answered, if it is */
static unsigned due(int link)
{
    return !supports(link) ? PEAT_SERVICE_NOT_SUPPORTED : version_at(link) != VERSION ? PEAT_VERSION_NOT_EQUAL : PEAT_FORWARD_SUCCESS;
}

static struct end *sender(struct dialogue *link) { return &link->end[0]; }
static struct end *receiver(struct dialogue *link) { return &link->end[1]; }

int forward_begin(struct dialogue *link, int number, unsigned type, const char *folder)
{
    const struct setting sends = {"sender", PEAT_GROUND, PEAT_FORWARDS_NOT, VERSION, type};
    const struct setting gets = {"target", PEAT_GROUND, supports(number), version_at(number), type};
    if (end_begin(sender(link), number, &sends, receiver(link), folder) != 0 || end_begin(receiver(link), number, &gets, sender(link), folder) != 0)
        return -1;
    sender(link)->user.apart = LINKS;
    moves_centres(sender(link));
    return 0;
}

/* ---- a forward: clearance n of an aircraft or of a controller, composed at its second, of a flight that n names */

static unsigned composer(uint64_t n) { return scattered(n) % 3 ? PEAT_AIR : PEAT_GROUND; }
static unsigned direction_of(uint64_t n) { return composer(n) == PEAT_AIR ? PEAT_FORWARD_DOWNLINK : PEAT_FORWARD_UPLINK; }
static unsigned address_of(uint64_t n) { return (unsigned)(scattered(n + 1) % (1u << 24)); }

/* PEAT and the number, two to eight characters */
static size_t flight_of(uint64_t n, uint64_t *flight)
{
    char name[32];
    size_t characters = 2 + (size_t)(scattered(n + 2) % 7);
    snprintf(name, sizeof name, "PT%06llu", (unsigned long long)(n % 1000000));
    *flight = peat_flight(name, characters);
    return characters;
}

/* the parts in front of the message, by enum peat_forward_part */
static void parts_of(const struct clearance *c, uint64_t n, uint64_t *part)
{
    const uint8_t *m = c->message;
    part[PEAT_FORWARD_YEAR] = peat_two_bytes(m + PEAT_INNER_YEAR);
    part[PEAT_FORWARD_MONTH] = m[PEAT_INNER_MONTH];
    part[PEAT_FORWARD_DAY] = m[PEAT_INNER_DAY];
    part[PEAT_FORWARD_HOURS] = m[PEAT_INNER_HOURS];
    part[PEAT_FORWARD_MINUTES] = m[PEAT_INNER_MINUTES];
    part[PEAT_FORWARD_SECONDS] = m[PEAT_INNER_SECONDS];
    part[PEAT_FORWARD_CHARACTERS] = flight_of(n, &part[PEAT_FORWARD_FLIGHT]);
    part[PEAT_FORWARD_ADDRESS] = address_of(n);
    part[PEAT_FORWARD_DIRECTION] = direction_of(n);
}

/* ---- sending */

/* The whole message in type 22, its elements alone in type 2. */
static unsigned message_of(const struct end *e, const struct clearance *c, uint8_t *bit)
{
    if (is_plain(e))
        return clearance_elements(c, bit);
    memcpy(bit, c->bit, sizeof c->bit);
    return c->bits;
}

static struct peat_answer request(struct end *e, uint64_t n)
{
    static struct clearance c; /* one call at a time */
    uint8_t bit[PEAT_BUFFER_LEAST];
    unsigned bits;
    uint64_t p[PEAT_FORWARD_MESSAGE], number_next = number(e) + 1 + (chance(8) == 0 ? chance(1000) : 0);
    clearance_compose(&c, composer(n), n);
    parts_of(&c, n, p);
    bits = message_of(e, &c, bit);
    return peat_forward_request(REC(e), number_next, chance(PEAT_CLASS_H + 1), PEAT_NO_SECURITY, p[PEAT_FORWARD_YEAR], p[PEAT_FORWARD_MONTH],
        p[PEAT_FORWARD_DAY], p[PEAT_FORWARD_HOURS], p[PEAT_FORWARD_MINUTES], p[PEAT_FORWARD_SECONDS], p[PEAT_FORWARD_CHARACTERS],
        p[PEAT_FORWARD_FLIGHT], p[PEAT_FORWARD_ADDRESS], p[PEAT_FORWARD_DIRECTION], PEAT_ARRAY(bit), bits, BUFFERS);
}

/* A job that was decided is acknowledged, and not sent again: nothing in the card would notice. */
static void decide(struct end *e, uint64_t job)
{
    int again = job < e->memory.wanted;
    account.forward_again += (unsigned long)again;
    if (!again || fault(FORWARDS_AGAIN)) {
        struct peat_answer answer = request(e, broker_job(&e->broker, job)->clearance);
        must(peat_refusal(answer));
        if (peat_refusal(answer) == PEAT_TAKEN)
            end_forwards(e, job, answer);
    }
    power_point(e);
    broker_acknowledge(&e->broker, job);
    moves_acknowledges(e, job);
}

/* The controller gives its broker a forward, and the broker hands one out. It waits for its turn, and for a record that is IDLE. */
static void offer(struct end *e)
{
    uint64_t job;
    notices_post(e);
    e->user.talking = 1; /* it needs no dialogue */
    user_gives(&e->user, &e->broker);
    job = broker_hands_out(&e->broker);
    if (job == 0 || job > e->memory.wanted)
        return;
    if (job == e->memory.wanted && (!idle(e) || e->memory.posts > 0 || !line_has_room(&e->out, 8)))
        return;
    if (fault(FORWARDS_AGAIN) && (!idle(e) || !line_has_room(&e->out, 8)))
        return;
    decide(e, job);
}

void forward_step(struct dialogue *link)
{
    struct end *e = &link->end[chance(2)];
    unsigned what = chance(100);
    if (what < 45)
        dialogue_hand_over(e);
    else if (what < 90)
        offer(sender(link));
    else if (what < 94)
        dialogue_respond(sender(link)); /* now and then its user aborts */
    else if (what < 96)
        dialogue_expire(sender(link));
    else if (what < 98)
        dialogue_turn_back(sender(link));
    else if (what < 99)
        dialogue_break_down(e);
    else
        dialogue_fail(link);
    dialogue_examine(link);
}

/* ---- what is watched */

void forward_taken(struct end *e, uint64_t job)
{
    struct job *j = broker_job(&e->broker, job);
    account.forwards++;
    account.taken_twice += (unsigned long)j->taken;
    j->taken = 1;
}

/* takes a forward message apart; 0 where the card does not */
static int read_parts(const struct end *e, struct peat_answer answer, uint64_t *part, uint8_t *message, size_t room)
{
    uint8_t heading[PEAT_HEADING_BYTES];
    struct peat_forward_answer said = peat_read_forward(call_data, peat_data_bytes(answer), PEAT_ARRAY(heading), message, room, e->setting.type);
    unsigned i;
    if (peat_refusal(said) != PEAT_TAKEN)
        return 0;
    for (i = 0; i < PEAT_FORWARD_MESSAGE; i++)
        part[i] = peat_heading_value(heading, (enum peat_forward_part)i);
    part[PEAT_FORWARD_MESSAGE] = peat_forward_value(said);
    return 1;
}

/* the clearance that the parts in front of a message name: the one that was composed at their second */
static uint64_t named_by(const uint64_t *part)
{
    uint8_t m[PEAT_INNER_BYTES] = {0};
    peat_put_two_bytes(m + PEAT_INNER_YEAR, (unsigned)part[PEAT_FORWARD_YEAR]);
    m[PEAT_INNER_MONTH] = (uint8_t)part[PEAT_FORWARD_MONTH];
    m[PEAT_INNER_DAY] = (uint8_t)part[PEAT_FORWARD_DAY];
    m[PEAT_INNER_HOURS] = (uint8_t)part[PEAT_FORWARD_HOURS];
    m[PEAT_INNER_MINUTES] = (uint8_t)part[PEAT_FORWARD_MINUTES];
    m[PEAT_INNER_SECONDS] = (uint8_t)part[PEAT_FORWARD_SECONDS];
    return clearance_stamped(m);
}

/* which forward this is; 0 where it is none, or not as it was sent */
static uint64_t forward_read(const struct end *e, struct peat_answer answer)
{
    static struct clearance c, read;
    uint64_t part[PEAT_FORWARD_MESSAGE + 1], want[PEAT_FORWARD_MESSAGE + 1], n;
    uint8_t message[PEAT_BUFFER_LEAST], bit[PEAT_BUFFER_LEAST];
    unsigned by;
    if (!read_parts(e, answer, part, PEAT_ARRAY(message)))
        return 0;
    by = part[PEAT_FORWARD_DIRECTION] == PEAT_FORWARD_DOWNLINK ? PEAT_AIR : PEAT_GROUND;
    if (!is_plain(e) && !clearance_read(&read, by, message, (unsigned)part[PEAT_FORWARD_MESSAGE]))
        return 0; /* a whole message; the elements alone were read by the card */
    n = named_by(part);
    clearance_compose(&c, by, n);
    parts_of(&c, n, want);
    want[PEAT_FORWARD_MESSAGE] = message_of(e, &c, bit);
    return memcmp(part, want, sizeof want) == 0 && memcmp(message, bit, (part[PEAT_FORWARD_MESSAGE] + 7) / 8) == 0 ? n : 0;
}

/* Forwards are shown in the order in which they were taken: their numbers rise. */
void forward_shown(struct end *e, struct peat_answer answer)
{
    uint64_t n = forward_read(e, answer);
    unsigned times = n == 0 ? 0 : user_shown(&e->user, n);
    story_forward(e, n);
    account.forward_shown++;
    account.forward_twice += times > 1;
    account.forward_astray += n == 0 || (times == 1 && n <= e->watch.forward);
    if (n > e->watch.forward)
        e->watch.forward = n;
}

void forward_told(const struct end *e, const struct notice *n)
{
    switch (n->fate) {
    case ANSWERED: account.forward_success++; break;
    case ANSWERED_NOT_SUPPORTED: account.forward_not_supported++; break;
    case ANSWERED_NOT_EQUAL: account.forward_not_equal++; break;
    case BROKEN: account.forward_broken++; break;
    default: account.forward_wrong++; break;
    }
    account.forward_wrong += n->fate >= ANSWERED && n->fate != ANSWERED + due(e->dialogue);
}

/* ---- the audit */

static int under_way(const struct end *e, uint64_t job) { return e->memory.open > 0 && e->memory.opened[0] == job; }

void forward_audit(const struct end *e)
{
    uint64_t job;
    for (job = 1; job <= e->broker.jobs; job++) {
        unsigned shown = user_saw(&e->peer->user, broker_job(&e->broker, job)->clearance);
        switch (user_knows(&e->user, job)) {
        case ANSWERED: account.forward_wrong += shown == 0; break; /* it was told that the other centre has it */
        case BROKEN: account.forward_lost += shown == 0; break;
        case NOTHING_TOLD: account.forward_silent += (broker_job(&e->broker, job)->acknowledged || shown > 0) && !under_way(e, job); break;
        default: account.forward_wrong += shown > 0; break;
        }
    }
}
