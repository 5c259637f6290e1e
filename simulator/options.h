/* The words of the command line. */
#ifndef OPTIONS_H
#define OPTIONS_H

struct options {
    unsigned long seed, steps;
    int json;
    const char *pcap;  /* a file for the traffic, or NULL */
    int pcap_pad;      /* with the bytes that tshark 4.0 needs and the protocol does not have */
    const char *record; /* a folder for the recordings of both ends, or NULL */
    unsigned type;     /* enum peat_type of every record; 0: both, side by side */
    const char *moves; /* a folder for the moves of each dialogue, or NULL */
    const char *state; /* a folder for the journals, or NULL: one that is made and removed */
};

/* Reads them. What is not known is refused with the usage, and the program ends with status 2. */
struct options options_read(int argc, char **argv, int dialogues);

#endif
