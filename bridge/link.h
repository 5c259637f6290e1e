/*
 * The dialogue service: one connection for each dialogue, made when the dialogue is started and closed when it is over. So
 * nothing of an old dialogue can arrive in a new one: it would come on a connection that is gone. Every primitive carries its
 * dialogue's number all the same, and the card refuses one of another: a link that keeps its connection for longer may stand here.
 *
 * A connection hands over primitives in order, each whole and once, until it breaks. That it breaks is the carrier's
 * failure of docs/PAIR.md, seen by both ends.
 *
 * The bridge sees this face only. link_packet.c is one implementation, over local packet sockets.
 */
#ifndef LINK_H
#define LINK_H

#include <stddef.h>
#include <stdint.h>

#include "peatribbon.h"

/* A primitive of the dialogue service, as one end invokes it, and its user data. */
struct primitive {
    struct peat_primitive is;
    char facility[9]; /* who sent it, between centres: its designation; else empty */
    uint8_t data[PEAT_BUFFER_LEAST];
};

enum link_answer {
    LINK_DONE,
    LINK_LATER, /* nothing there, or no room: try again */
    LINK_BROKEN /* the connection is of no use any more */
};

struct link {
    void *wires;
    /* Connects a place (config.h): to the aircraft of a dialogue, or to another centre; LINK_BROKEN: there is none now. Where another centre connects,
       its connection is taken; LINK_LATER: none is there, and the descriptor tells when one is. */
    enum link_answer (*open)(struct link *, unsigned dialogue);
    enum link_answer (*send)(struct link *, unsigned dialogue, const struct primitive *);
    enum link_answer (*receive)(struct link *, unsigned dialogue, struct primitive *);
    void (*close)(struct link *, unsigned dialogue);
    /* closes it, and takes no connection any more */
    void (*leave)(struct link *, unsigned place);
    /* 1: it is connected */
    int (*connected)(struct link *, unsigned place);
    /* for poll; -1: not connected */
    int (*descriptor)(struct link *, unsigned dialogue);
    /* closes every connection and gives the memory back */
    void (*end)(struct link *);
};

/* ---- local packet sockets: a path has {} where the number of the dialogue, or of the centre, goes */

struct config;
void link_open_packet(struct link *, const struct config *);

/* A socket of this kind, not connected, and the address of a dialogue's aircraft; -1: there is none. */
struct sockaddr_un;
int packet_socket(const char *path, unsigned dialogue, struct sockaddr_un *address);

/* A primitive as a packet: kind, parameter, security and whether it has user data in a byte each, the dialogue number in eight, the most significant
   first, then the user data. Both ends use these. */
enum link_answer packet_send(int socket, const struct primitive *);
enum link_answer packet_receive(int socket, struct primitive *);

/* Between centres: behind the number the version in a byte, and the sender's designation in eight, filled up with zeros. */
enum link_answer packet_send_centre(int socket, const struct primitive *);
enum link_answer packet_receive_centre(int socket, struct primitive *);

#endif
