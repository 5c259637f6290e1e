#include <errno.h>
#include <fcntl.h>
#include <stdio.h>
#include <stdlib.h>
#include <string.h>
#include <sys/socket.h>
#include <sys/un.h>
#include <unistd.h>

#include "config.h"
#include "link.h"
#include "log.h"

#define PACKET_CODES 4
#define PACKET_HEAD (PACKET_CODES + 8)
#define PACKET_FACILITY 8
#define PACKET_MORE (1 + PACKET_FACILITY) /* between centres */

/* ---- packets */

static enum link_answer failed(void)
{
    return errno == EAGAIN || errno == EWOULDBLOCK || errno == EINTR || errno == ENOBUFS ? LINK_LATER : LINK_BROKEN;
}

/* `more`: PACKET_MORE between centres, else 0 */
static enum link_answer send_packet(int socket, const struct primitive *p, size_t more)
{
    uint8_t packet[PACKET_HEAD + PACKET_MORE + PEAT_BUFFER_LEAST] = {(uint8_t)p->is.kind, (uint8_t)p->is.parameter, (uint8_t)p->is.security, (uint8_t)p->is.has_user_data};
    unsigned i;
    for (i = 0; i < 8; i++)
        packet[PACKET_CODES + i] = (uint8_t)(p->is.number >> (56 - 8 * i));
    if (more > 0) {
        packet[PACKET_HEAD] = (uint8_t)p->is.version;
        memcpy(packet + PACKET_HEAD + 1, p->facility, PACKET_FACILITY);
    }
    memcpy(packet + PACKET_HEAD + more, p->data, p->is.user_data_len);
    return send(socket, packet, PACKET_HEAD + more + p->is.user_data_len, MSG_DONTWAIT | MSG_NOSIGNAL) < 0 ? failed() : LINK_DONE;
}

/* A packet that is too short or too long is none of ours: the connection is broken. */
static enum link_answer receive_packet(int socket, struct primitive *p, size_t more)
{
    uint8_t packet[PACKET_HEAD + PACKET_MORE + PEAT_BUFFER_LEAST + 1];
    size_t head = PACKET_HEAD + more;
    ssize_t n = recv(socket, packet, head + PEAT_BUFFER_LEAST + 1, MSG_DONTWAIT);
    if (n < 0)
        return failed();
    if ((size_t)n < head || (size_t)n == head + PEAT_BUFFER_LEAST + 1)
        return LINK_BROKEN;
    memset(p->facility, 0, sizeof p->facility);
    p->is.kind = packet[0];
    p->is.parameter = packet[1];
    p->is.security = packet[2];
    p->is.has_user_data = packet[3];
    p->is.number = peat_eight_bytes(packet + PACKET_CODES);
    p->is.version = more > 0 ? packet[PACKET_HEAD] : PEAT_NO_VERSION;
    memcpy(p->facility, packet + PACKET_HEAD + 1, more > 0 ? PACKET_FACILITY : 0);
    p->is.user_data_len = (size_t)n - head;
    memcpy(p->data, packet + head, p->is.user_data_len);
    return LINK_DONE;
}

enum link_answer packet_send(int socket, const struct primitive *p) { return send_packet(socket, p, 0); }
enum link_answer packet_receive(int socket, struct primitive *p) { return receive_packet(socket, p, 0); }
enum link_answer packet_send_centre(int socket, const struct primitive *p) { return send_packet(socket, p, PACKET_MORE); }
enum link_answer packet_receive_centre(int socket, struct primitive *p) { return receive_packet(socket, p, PACKET_MORE); }

/* ---- connections */

struct wires {
    const struct config *config;
    int socket[PLACES_MOST];   /* -1: not connected */
    int listener[PLACES_MOST]; /* where another centre connects; -1: there is none */
};

static struct wires *wires_of(struct link *l) { return l->wires; }
static int *socket_of(struct link *l, unsigned place) { return &wires_of(l)->socket[place]; }
static int *listener_of(struct link *l, unsigned place) { return &wires_of(l)->listener[place]; }

static void close_one(int *s)
{
    if (*s >= 0)
        close(*s);
    *s = -1;
}

static void wire_close(struct link *l, unsigned place) { close_one(socket_of(l, place)); }

static void prepare(int s)
{
    fcntl(s, F_SETFD, FD_CLOEXEC);
    fcntl(s, F_SETFL, O_NONBLOCK);
}

int packet_socket(const char *pattern, unsigned dialogue, struct sockaddr_un *address)
{
    int s = socket(AF_UNIX, SOCK_SEQPACKET, 0);
    memset(address, 0, sizeof *address);
    address->sun_family = AF_UNIX;
    config_name(pattern, dialogue, address->sun_path, sizeof address->sun_path);
    if (s >= 0)
        prepare(s);
    return s;
}

static enum link_answer connect_to(struct link *l, unsigned place, const char *pattern, unsigned number)
{
    struct sockaddr_un to;
    int *s = socket_of(l, place);
    wire_close(l, place);
    *s = packet_socket(pattern, number, &to);
    if (*s >= 0 && connect(*s, (const struct sockaddr *)&to, sizeof to) != 0)
        wire_close(l, place);
    return *s < 0 ? LINK_BROKEN : LINK_DONE;
}

/* What a process that was killed left of its socket makes room: whoever has the place has its path. */
static int listen_at(const char *pattern, unsigned number)
{
    struct sockaddr_un at;
    int s = packet_socket(pattern, number, &at);
    if (s < 0)
        return -1;
    unlink(at.sun_path);
    if (bind(s, (const struct sockaddr *)&at, sizeof at) != 0 || listen(s, 4) != 0)
        close_one(&s);
    return s;
}

static enum link_answer meet(struct link *l, unsigned place)
{
    int *listener = listener_of(l, place), *s = socket_of(l, place);
    wire_close(l, place);
    if (*listener < 0)
        *listener = listen_at(wires_of(l)->config->centre_in, place_centre(place));
    if (*listener < 0)
        return LINK_BROKEN;
    *s = accept(*listener, NULL, NULL);
    if (*s >= 0)
        prepare(*s);
    return *s >= 0 ? LINK_DONE : LINK_LATER;
}

static enum link_answer wire_open(struct link *l, unsigned place)
{
    const struct config *c = wires_of(l)->config;
    if (place_hears(place))
        return meet(l, place);
    return place_is_link(place) ? connect_to(l, place, c->centre_out, place_centre(place)) : connect_to(l, place, c->link, place);
}

/* Between centres a primitive says who sends it. */
static enum link_answer send_centre(struct link *l, unsigned place, const struct primitive *p)
{
    struct primitive from = *p;
    memset(from.facility, 0, sizeof from.facility);
    memcpy(from.facility, wires_of(l)->config->facility, strlen(wires_of(l)->config->facility) <= PACKET_FACILITY ? strlen(wires_of(l)->config->facility) : 0);
    return packet_send_centre(*socket_of(l, place), &from);
}

static enum link_answer wire_send(struct link *l, unsigned place, const struct primitive *p)
{
    if (*socket_of(l, place) < 0)
        return LINK_BROKEN;
    return place_is_link(place) ? send_centre(l, place, p) : packet_send(*socket_of(l, place), p);
}

static enum link_answer wire_receive(struct link *l, unsigned place, struct primitive *p)
{
    if (*socket_of(l, place) < 0)
        return LINK_LATER;
    return place_is_link(place) ? packet_receive_centre(*socket_of(l, place), p) : packet_receive(*socket_of(l, place), p);
}

static int wire_connected(struct link *l, unsigned place) { return *socket_of(l, place) >= 0; }

static int wire_descriptor(struct link *l, unsigned place) { return wire_connected(l, place) ? *socket_of(l, place) : *listener_of(l, place); }

static void wire_leave(struct link *l, unsigned place)
{
    wire_close(l, place);
    close_one(listener_of(l, place));
}

static void wires_end(struct link *l)
{
    unsigned p;
    for (p = 0; p < PLACES_MOST; p++)
        wire_leave(l, p);
    free(l->wires);
    l->wires = NULL;
}

void link_open_packet(struct link *l, const struct config *c)
{
    struct wires *w = calloc(1, sizeof *w);
    unsigned p;
    if (w == NULL)
        log_and_exit(EXIT_MEMORY, "memory", c->link, "out of memory");
    w->config = c;
    for (p = 0; p < PLACES_MOST; p++)
        w->socket[p] = w->listener[p] = -1;
    l->wires = w;
    l->open = wire_open;
    l->send = wire_send;
    l->receive = wire_receive;
    l->close = wire_close;
    l->leave = wire_leave;
    l->connected = wire_connected;
    l->descriptor = wire_descriptor;
    l->end = wires_end;
}
