/*
 * The configuration file: `name = value` on each line. `#` begins a comment at the beginning of a line and behind a blank; inside
 * a word it is a character like any other. A value between double quotes is taken as it stands, blanks and `#` among it. Every
 * name is known, given once at most, and its value is checked; a fault is told with its line.
 */
#ifndef CONFIG_H
#define CONFIG_H

#include <stddef.h>
#include <stdint.h>

#define DIALOGUES_MOST 48
#define CENTRES_MOST 8
#define PLACES_MOST (DIALOGUES_MOST + 2 * CENTRES_MOST) /* records: one for each dialogue, and for each other centre one that forwards and one that gets forwards */
#define QUEUES_MOST (PLACES_MOST + DIALOGUES_MOST)      /* a place's queue has its number; behind them each dialogue's queue of words */
#define CONFIG_TEXT 200
#define CONFIG_LONG 1000 /* of the words for a database: several hosts, certificates, a password */

/* who starts a dialogue; what is of the aircraft is accepted, or each is rejected */
enum starts { STARTS_GROUND, STARTS_AIR, STARTS_REJECTED };

struct config {
    /* what is kept: in a file, or in a database that several hosts share */
    char journal[CONFIG_TEXT], database[CONFIG_LONG], witness[CONFIG_TEXT], host[CONFIG_TEXT];
    uint64_t dialogues, lease, share, standby_wait, replicas;
    int standby; /* this process waits for others to fail (not in the file: a word of the command line) */
    /* the aircraft: {} in the path becomes the number of the dialogue */
    char link[CONFIG_TEXT];
    uint64_t t_start, retry, retry_most; /* milliseconds */
    char air_starts[CONFIG_TEXT], air_rejects[CONFIG_TEXT]; /* dialogues, as "0-3,7" */
    uint8_t starts[PLACES_MOST]; /* of each dialogue, by the two: enum starts */
    char plain[CONFIG_TEXT];     /* dialogues whose aircraft are of application type 2, likewise */
    uint8_t type[PLACES_MOST];   /* of each place, by that: enum peat_type */
    /* other centres: {} in the paths and in the queue becomes the number of the centre */
    uint64_t centres, forwards, forward_version;
    char facility[CONFIG_TEXT], centre_names[CONFIG_TEXT]; /* designations: this centre's, and those of the others, "LFFF,EDYY" */
    char centre_out[CONFIG_TEXT], centre_in[CONFIG_TEXT], queue_forward[CONFIG_TEXT];
    /* the broker */
    char broker[CONFIG_TEXT], host_name[CONFIG_TEXT], user[CONFIG_TEXT], password_file[CONFIG_TEXT];
    char tls_ca[CONFIG_TEXT], tls_certificate[CONFIG_TEXT], tls_key[CONFIG_TEXT];
    char queue_up[CONFIG_TEXT], queue_down[CONFIG_TEXT], queue_dead[CONFIG_TEXT], queue_owner[CONFIG_TEXT];
    uint64_t port, heartbeat, prefetch, claim, reconnect, reconnect_most;
    char queue_words[CONFIG_TEXT];
    /* the CPDLC message */
    uint64_t opaque;         /* 1: jobs are carried as they are; 0: they are read, and numbered by the book */
    uint64_t delivered_json; /* 1: a delivered letter has the message as JSON, too */
    /* limits */
    uint64_t job_jump, payload_most, outbox_most;
    /* operation */
    uint64_t metrics_port, stop, log;
    char moves[CONFIG_TEXT]; /* a folder for the moves of each dialogue (day.h); empty: none */
    char page_address[CONFIG_TEXT], page_token_file[CONFIG_TEXT], page_certificate[CONFIG_TEXT], page_key[CONFIG_TEXT], page_ca[CONFIG_TEXT];
};

/* A number: digits and nothing else, below 2^64. 0: the text is none. */
int config_number(const char *text, uint64_t *number);

/* Reads a file. Answers 1, or 0 with what is wrong in `fault`. */
int config_read(struct config *c, const char *path, char *fault, size_t room);

/* An address is one that only this machine reaches: 127. or ::1. */
int config_is_here(const char *address);

/* ---- places: a dialogue has the place of its number; behind them each other centre has two, one that forwards to it and one that hears it */

static inline int place_is_link(unsigned place) { return place >= DIALOGUES_MOST; }
static inline unsigned place_centre(unsigned place) { return (place - DIALOGUES_MOST) / 2; }
static inline int place_hears(unsigned place) { return place_is_link(place) && (place - DIALOGUES_MOST) % 2 == 1; }

int config_has_place(const struct config *, unsigned place);
unsigned config_places(const struct config *); /* how many */

#define FACILITY_LEAST 4
#define FACILITY_MOST 8

/* The designation of another centre, FACILITY_MOST characters and a zero. */
void config_centre(const struct config *, unsigned centre, char *name);

/* Whether a queue of this number is consumed at all. */
int config_has_queue(const struct config *, unsigned queue);

/* The name of a queue, by its number (below QUEUES_MOST). */
void config_queue(const struct config *, unsigned queue, char *name, size_t room);

/* `{}` of a pattern becomes a number of two digits. */
void config_name(const char *pattern, unsigned number, char *name, size_t room);

#endif
