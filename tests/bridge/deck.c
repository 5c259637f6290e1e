#include "deck.h"

#include <poll.h>
#include <string.h>
#include <sys/socket.h>
#include <sys/un.h>
#include <unistd.h>

#define WAIT_MS 8000

static uint8_t apdu[PEAT_BUFFER_LEAST], data_for_user[PEAT_BUFFER_LEAST];

#define RECORD(k) (k)->record, sizeof (k)->record
#define BUFFERS PEAT_BUFFERS(apdu, data_for_user)

int deck_begin_of(struct deck *k, const char *path, unsigned dialogue, unsigned type)
{
    struct sockaddr_un a;
    memset(k, 0, sizeof *k);
    k->socket = -1;
    k->listener = packet_socket(path, dialogue, &a);
    unlink(a.sun_path);
    return k->listener >= 0 && bind(k->listener, (struct sockaddr *)&a, sizeof a) == 0 && listen(k->listener, 4) == 0 &&
           peat_refusal(peat_fresh(RECORD(k), PEAT_AIR, PEAT_NO_SECURITY, PEAT_FORWARDS_NOT, 1, type)) == PEAT_TAKEN;
}

int deck_begin(struct deck *k, const char *path, unsigned dialogue) { return deck_begin_of(k, path, dialogue, PEAT_PROTECTED); }

int deck_meet(struct deck *k)
{
    struct pollfd p = {k->listener, POLLIN, 0};
    if (poll(&p, 1, WAIT_MS) == 1)
        k->socket = accept(k->listener, NULL, NULL);
    return k->socket >= 0;
}

/* What a call invokes goes out. 1: it was taken */
static int act(struct deck *k, struct peat_answer answer)
{
    struct primitive p;
    if (peat_refusal(answer) != PEAT_TAKEN)
        return 0;
    k->bytes = peat_data_bytes(answer);
    k->bits = peat_data_bits(answer);
    memcpy(k->data, data_for_user, k->bytes);
    k->parameter = peat_told_parameter(answer);
    memset(&p, 0, sizeof p);
    p.is = peat_primitive_of(answer, k->record);
    memcpy(p.data, apdu, p.is.user_data_len);
    return p.is.kind == PEAT_SILENT || packet_send(k->socket, &p) == LINK_DONE;
}

unsigned deck_hear(struct deck *k)
{
    struct pollfd wait = {k->socket, POLLIN, 0};
    struct primitive p;
    struct peat_answer answer;
    unsigned told;
    if (poll(&wait, 1, WAIT_MS) != 1 || packet_receive(k->socket, &p) != LINK_DONE)
        return PEAT_UNTOLD;
    answer = peat_hand_over(RECORD(k), p.is, PEAT_FACILITY, p.data, BUFFERS);
    told = peat_refusal(answer) == PEAT_TAKEN ? peat_told(answer) : PEAT_UNTOLD;
    if (!act(k, answer))
        return PEAT_UNTOLD;
    if (told == PEAT_START_INDICATION)
        act(k, peat_start_response(RECORD(k), PEAT_ACCEPTED, PEAT_NO_DATA, BUFFERS));
    if (told == PEAT_END_INDICATION)
        act(k, peat_end_response(RECORD(k), PEAT_ACCEPTED, PEAT_NO_DATA, BUFFERS));
    return told;
}

int deck_send(struct deck *k, uint64_t job, const struct peat_data *data)
{
    return act(k, peat_message_request(RECORD(k), job, PEAT_DATA(*data), BUFFERS));
}

int deck_start(struct deck *k, uint64_t number, unsigned mode, const struct peat_data *data)
{
    return act(k, peat_start(RECORD(k), number, mode, PEAT_CLASS_ANY, PEAT_NO_SECURITY, PEAT_DATA(*data), BUFFERS));
}

int deck_end_dsc(struct deck *k) { return act(k, peat_dsc_end_request(RECORD(k), PEAT_NO_DATA, BUFFERS)); }

int deck_part(const struct deck *k, unsigned part, uint8_t *out)
{
    struct peat_part_answer answer = peat_data_part(part, k->data, k->bytes, out, PEAT_BUFFER_LEAST);
    return peat_refusal(answer) == PEAT_TAKEN && peat_part_given(answer) ? (int)peat_part_bits(answer) : -1;
}

void deck_close(struct deck *k)
{
    if (k->socket >= 0)
        close(k->socket);
    if (k->listener >= 0)
        close(k->listener);
    k->socket = k->listener = -1;
}
