/*
 * What is counted, and the verdict: how often each kind of fault that the inventory found was tried to happen in this run,
 * and how often it did.
 */
#ifndef ACCOUNT_H
#define ACCOUNT_H

#include <stdio.h>

extern struct account {
    /* the broker and the card */
    unsigned long offered, out_of_order, taken, held, repeat, known, refused_again, refused_told, taken_twice, far_ahead, nobodys, notices, broken_told;
    unsigned long read, written, fragments;
    /* messages */
    unsigned long shown, long_shown, beside, beside_astray, lost, misplaced, missing, incomplete, silent, told_wrong, deck_duplicates, ground_duplicates;
    /* message numbers, see book.h */
    unsigned long numbers, numbers_closed, numbers_most, all_open, number_twice, number_not_lowest, number_astray;
    /* dialogues */
    unsigned long opened, closed, aborted, failed, parted, turned_back, expired, errors, half_closed;
    unsigned long late_starts, stale, wrong_starts;
    /* forwards between centres, see forward.h */
    unsigned long forwards, forward_again, forward_success, forward_not_supported, forward_not_equal, forward_broken, forward_lost, forward_shown;
    unsigned long forward_twice, forward_astray, forward_wrong, forward_silent;
    /* what positions show of dialogues, see position.h */
    unsigned long activations, closings, closing_calls, closed_wrong, abort_after_call;
    /* the power */
    unsigned long restarts, rack_restarts, torn, loaded, loaded_wrong;
    /* calls that may not be refused, and were */
    unsigned long refused;
} account;

/* What may not be refused, and was: `refusal` is counted where it is not PEAT_TAKEN. */
void must(unsigned refusal);

/* whether nothing happened that may not happen */
int account_good(void);

/* the run is named in both by seed, dialogues and steps */
void account_print(FILE *to, unsigned long seed, int dialogues, unsigned long steps);
void account_print_json(FILE *to, unsigned long seed, int dialogues, unsigned long steps);

#endif
