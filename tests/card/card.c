/*
 * Calls every entry point of the card: scripted dialogues, edges, then random calls, each compared with the model (model.h) in the
 * number and in every byte of every lent range.
 *
 *     card CALLS      the last line is `N passed, M failed`
 *
 * Each lent range ends where an unreadable page begins, and bytes before it are compared too, so that a read past a range
 * stops the program and a write beside one is seen.
 */
#include <stdio.h>
#include <stdlib.h>

#include "card.h"

int main(int argc, char **argv)
{
    unsigned long calls = argc > 1 ? strtoul(argv[1], NULL, 10) : 1000000;
    make_places();
    open_message_end_again();
    downstream();
    aborts();
    timer();
    jobs();
    stale();
    largest();
    later_edition();
    forward_answered();
    forward_refused();
    forward_misused();
    largest_forward();
    plain_bare(PEAT_CPDLC);
    plain_bare(PEAT_DSC);
    plain_with_messages();
    plain_refused();
    plain_misused();
    plain_forward();
    edges();
    forward_everywhere();
    start_everywhere();
    known_envelopes();
    job_ranges();
    damaged_envelopes();
    written_envelopes();
    message_edges();
    apdu_edges();
    random_calls(calls);
    printf("%lu passed, %lu failed\n", passed, failed);
    return failed != 0;
}
