#include "options.h"

#include <ctype.h>
#include <errno.h>
#include <stdio.h>
#include <stdlib.h>
#include <string.h>

#include "faults.h"
#include "peatribbon.h"
#include "restart.h"
#include "story.h"

static void usage(FILE *to)
{
    int f;
    fputs("usage: peat-host [SEED [STEPS]] [OPTION ..]\n"
          "\n"
          "A simulator: 48 dialogues, an air end and a ground end each, over a carrier in memory, with a broker and a user at\n"
          "each end and power that fails; and 8 links to another centre, two ground ends each, over which messages are forwarded.\n"
          "It prints an account, and last its verdict; status 0 is PASS, 1 is FAIL.\n"
          "\n"
          "  SEED, STEPS    which run, and how long (1, 200000)\n"
          "  --trace N      tells the story of dialogue N, 0 to 47, or of a link, 48 to 55, and then the account\n"
          "  --json         the account as one JSON object\n"
          "  --apart        after a power failure the other end hears some steps later that the connection is lost\n"
          "  --pcap FILE    writes what the carrier hands over in dialogues to FILE, for Wireshark\n"
          "  --pcap-pad     with it, the bytes that tshark 4.0 needs to show a D-END and a D-ABORT\n"
          "  --type 2|22    every dialogue and link of one application type (without it both, side by side)\n"
          "  --record DIR   writes recordings of both ends to DIR/air and DIR/ground, for peat-compare\n"
          "  --moves DIR    writes the moves of each dialogue's two hosts to DIR/00 .. DIR/47, and of each link's to DIR/48 .. DIR/55, for replay\n"
          "  --state DIR    keeps the journals in DIR, which must be empty; without it in a folder that is removed\n"
          "  --version      the version\n"
          "  --fault NAME   runs a host that is wrong on purpose:",
        to);
    for (f = NO_FAULT + 1; f < FAULTS; f++)
        fprintf(to, "%s%s", f % 5 == 1 ? "\n                   " : " ", fault_name((enum fault)f));
    fputs("\n", to);
}

static void refuse(const char *why, const char *word)
{
    fprintf(stderr, "peat-host: %s: %s\n", why, word);
    usage(stderr);
    exit(2);
}

static unsigned long whole(const char *word)
{
    char *end;
    unsigned long n;
    errno = 0;
    n = strtoul(word, &end, 10);
    if (!isdigit((unsigned char)word[0]) || *end != 0 || errno != 0)
        refuse("not a number", word);
    return n;
}

static enum fault chosen_fault(const char *name)
{
    enum fault f = fault_named(name);
    if (f == NO_FAULT)
        refuse("no such fault", name);
    return f;
}

static int chosen_dialogue(const char *word, int dialogues)
{
    unsigned long n = whole(word);
    if (n >= (unsigned long)dialogues)
        refuse("no such dialogue", word);
    return (int)n;
}

static unsigned chosen_type(const char *word)
{
    unsigned long n = whole(word);
    if (n != PEAT_PLAIN && n != PEAT_PROTECTED)
        refuse("no such application type", word);
    return (unsigned)n;
}

struct options options_read(int argc, char **argv, int dialogues)
{
    struct options o = {1, 200000, 0, NULL, 0, NULL, 0, NULL, NULL};
    int i, numbers = 0;
    for (i = 1; i < argc; i++) {
        const char *word = argv[i], *value = i + 1 < argc ? argv[i + 1] : NULL;
        int takes = 1;
        if (strcmp(word, "--help") == 0) {
            usage(stdout);
            exit(0);
        }
        if (strcmp(word, "--version") == 0)
            exit(printf("peat-host %s\n", PEAT_VERSION) < 0 || fflush(stdout) != 0 ? 2 : 0);
        if (strcmp(word, "--json") == 0)
            o.json = 1, takes = 0;
        else if (strcmp(word, "--apart") == 0)
            restart_parts = 1, takes = 0;
        else if (strcmp(word, "--pcap-pad") == 0)
            o.pcap_pad = 1, takes = 0;
        else if (word[0] != '-' && numbers < 2)
            *(numbers++ == 0 ? &o.seed : &o.steps) = whole(word), takes = 0;
        else if (word[0] != '-')
            refuse("one number too many", word);
        else if (value == NULL)
            refuse("not known, or its value is missing", word);
        else if (strcmp(word, "--trace") == 0)
            story_of = chosen_dialogue(value, dialogues);
        else if (strcmp(word, "--pcap") == 0)
            o.pcap = value;
        else if (strcmp(word, "--record") == 0)
            o.record = value;
        else if (strcmp(word, "--moves") == 0)
            o.moves = value;
        else if (strcmp(word, "--type") == 0)
            o.type = chosen_type(value);
        else if (strcmp(word, "--state") == 0)
            o.state = value;
        else if (strcmp(word, "--fault") == 0)
            fault_on = chosen_fault(value);
        else
            refuse("not known", word);
        i += takes;
    }
    return o;
}
