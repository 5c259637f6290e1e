#include "account.h"

#include <stddef.h>

#include "faults.h"
#include "peatribbon.h"

struct account account;

void must(unsigned refusal)
{
    if (refusal != PEAT_TAKEN)
        account.refused++;
}

/* ---- the rows */

static const struct row {
    const char *words, *key;
    size_t at;
} rows[] = {
#define ROW(words, field) {words, #field, offsetof(struct account, field)}
    ROW("jobs handed out by a broker", offered),
    ROW("  taken", taken),
    ROW("  before their turn, held back", held),
    ROW("  again, refused as REPEAT", repeat),
    ROW("  again, outside a dialogue", known),
    ROW("  again, after a refusal", refused_again),
    ROW("  refused, and told so", refused_told),
    ROW("  taken a second time", taken_twice),
    ROW("envelopes with a job far ahead, left", far_ahead),
    ROW("  taken, though nobody gave the job", nobodys),
    ROW("first hand-outs out of order", out_of_order),
    ROW("envelopes read", read),
    ROW("  in so many fragments", fragments),
    ROW("envelopes written", written),
    ROW("messages shown in order", shown),
    ROW("  of more than 2,048 bits", long_shown),
    ROW("  beside them, with starts and ends", beside),
    ROW("  beside them, not as sent", beside_astray),
    ROW("  lost with a broken dialogue", lost),
    ROW("  handed over, but not shown", missing),
    ROW("  shown, but not in their place", misplaced),
    ROW("  missing where nothing broke", incomplete),
    ROW("fates of jobs told to users", notices),
    ROW("  of a dialogue that broke", broken_told),
    ROW("  wrong", told_wrong),
    ROW("  never told, nor shown", silent),
    ROW("duplicates seen by a flight deck", deck_duplicates),
    ROW("duplicates seen by a controller", ground_duplicates),
    ROW("message numbers given", numbers),
    ROW("  closed by a reply", numbers_closed),
    ROW("  most open at once in a dialogue", numbers_most),
    ROW("  all open, the job waits", all_open),
    ROW("  given while it was open", number_twice),
    ROW("  given, but not the lowest free", number_not_lowest),
    ROW("  with another job than its own", number_astray),
    ROW("dialogues opened", opened),
    ROW("  ended by both", closed),
    ROW("  D-ABORTs", aborted),
    ROW("  failures of the carrier", failed),
    ROW("  heard of at one end first", parted),
    ROW("  starts turned back", turned_back),
    ROW("  timers expired", expired),
    ROW("  ends broken down", errors),
    ROW("dialogues left half closed", half_closed),
    ROW("starts over leftovers of an old one", late_starts),
    ROW("  primitives refused as STALE", stale),
    ROW("starts from the wrong side, left", wrong_starts),
    ROW("forwards to the other centre taken", forwards),
    ROW("  handed out again, and left", forward_again),
    ROW("  answered with success", forward_success),
    ROW("  answered as not supported", forward_not_supported),
    ROW("  answered as of another version", forward_not_equal),
    ROW("  broken, and told so", forward_broken),
    ROW("  broken, and never arrived", forward_lost),
    ROW("forwards shown to a controller", forward_shown),
    ROW("  a second time", forward_twice),
    ROW("  but not in order, or not as sent", forward_astray),
    ROW("forwards with a wrong answer", forward_wrong),
    ROW("  with none, and not broken", forward_silent),
    ROW("times that a user became active", activations),
    ROW("  and was closed", closings),
    ROW("  and was closed by its own call", closing_calls),
    ROW("  but was closed twice, or never", closed_wrong),
    ROW("  but told of an abort after a call", abort_after_call),
    ROW("power failures of an end", restarts),
    ROW("  of the whole rack", rack_restarts),
    ROW("  in the middle of a write", torn),
    ROW("records loaded", loaded),
    ROW("  that are not those kept", loaded_wrong),
    ROW("calls refused that may not be", refused),
};
#define ROWS (sizeof rows / sizeof *rows)

static unsigned long number(const struct row *r) { return *(const unsigned long *)((const char *)&account + r->at); }

/* ---- the verdict */

struct kind {
    const char *words, *key;
    const char *by; /* what tried to make it happen */
    unsigned long tried, did;
};

static struct kind shown_twice(void)
{
    struct kind k = {"one clearance shown more than once", "shown_twice", "jobs handed out again", 0, 0};
    k.tried = account.repeat + account.known + account.refused_again + account.forward_again;
    k.did = account.deck_duplicates + account.ground_duplicates + account.taken_twice + account.forward_twice;
    return k;
}

static struct kind half_closed(void)
{
    struct kind k = {"one end closed and the other not", "half_closed", "aborts, failures, starts turned back, power failures", 0, 0};
    k.tried = account.aborted + account.failed + account.turned_back + account.restarts;
    k.did = account.half_closed;
    return k;
}

static struct kind closed_twice(void)
{
    struct kind k = {"a closed dialogue shown twice", "closed_twice", "closings by calls, confirmations and aborts", 0, 0};
    k.tried = account.closings;
    k.did = account.closed_wrong + account.abort_after_call;
    return k;
}

static struct kind wrong_records(void)
{
    struct kind k = {"wrong message records", "wrong_records", "messages lost, jobs out of order or far ahead, numbers given, forwards broken, writes torn, records loaded", 0, 0};
    k.tried = account.lost + account.out_of_order + account.far_ahead + account.numbers + account.forward_broken + account.torn + account.loaded;
    k.did = account.misplaced + account.beside_astray + account.missing + account.incomplete + account.silent + account.told_wrong + account.loaded_wrong + account.nobodys + account.refused +
            account.number_twice + account.number_not_lowest + account.number_astray + account.forward_astray + account.forward_wrong + account.forward_silent;
    return k;
}

#define KINDS 4
static struct kind kind_at(int i) { return i == 0 ? shown_twice() : i == 1 ? half_closed() : i == 2 ? closed_twice() : wrong_records(); }

int account_good(void) { return kind_at(0).did == 0 && kind_at(1).did == 0 && kind_at(2).did == 0 && kind_at(3).did == 0; }

static const char *verdict(int good) { return good ? "PASS" : "FAIL"; }

/* ---- printing */

void account_print(FILE *to, unsigned long seed, int dialogues, unsigned long steps)
{
    size_t r;
    int i;
    fprintf(to, "seed %lu, %d dialogues, %lu steps%s%s\n", seed, dialogues, steps, fault(NO_FAULT) ? "" : ", wrong on purpose: ",
        fault(NO_FAULT) ? "" : fault_name(fault_on));
    for (r = 0; r < ROWS; r++)
        fprintf(to, "%-36s %lu\n", rows[r].words, number(&rows[r]));
    for (i = 0; i < KINDS; i++) {
        struct kind k = kind_at(i);
        fprintf(to, "%s: %s, tried %lu times (%s), happened %lu times\n", verdict(k.did == 0), k.words, k.tried, k.by, k.did);
    }
    fprintf(to, "%s\n", verdict(account_good()));
}

void account_print_json(FILE *to, unsigned long seed, int dialogues, unsigned long steps)
{
    size_t r;
    int i;
    fprintf(to, "{\"seed\": %lu, \"dialogues\": %d, \"steps\": %lu, \"fault\": \"%s\", \"account\": {", seed, dialogues, steps, fault_name(fault_on));
    for (r = 0; r < ROWS; r++)
        fprintf(to, "%s\"%s\": %lu", r ? ", " : "", rows[r].key, number(&rows[r]));
    fprintf(to, "}, \"verdict\": {");
    for (i = 0; i < KINDS; i++) {
        struct kind k = kind_at(i);
        fprintf(to, "\"%s\": {\"tried\": %lu, \"happened\": %lu}, ", k.key, k.tried, k.did);
    }
    fprintf(to, "\"pass\": %s}}\n", account_good() ? "true" : "false");
}
