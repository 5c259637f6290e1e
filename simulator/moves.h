/*
 * A recorded day (docs/HOST.md): each move of a dialogue's two hosts, one line each, in the order in which it took effect. A call is written when it is
 * kept. The program replay makes the same moves on the model of the duties. Without --moves nothing is written.
 */
#ifndef MOVES_H
#define MOVES_H

#include "peatribbon.h"

struct change;
struct end;
struct entry;
struct notice;

/* a file for each dialogue, DIR/00 and so on, each begun with the side that starts, and behind them one for each link; -1 where it can not be written */
int moves_begin(const char *dir);

/* the two centres of a link, by the one that forwards: its file begins with them */
void moves_centres(const struct end *sender);

/* ends the files; -1 where one was not written whole */
int moves_end(void);

/* an entry of the line is handed over to this end, with this number; a call of this name was taken; the end hears that the connection is lost */
void moves_hears(const struct end *to, const struct entry *e, const struct peat_primitive *came);
void moves_call(const struct end *e, const char *what);
void moves_lost(const struct end *e);

/* What the call is given and what it tells, for the lines behind the move: the message that the envelope of a job asks for; the message that is handed out, and the
   number that it replies to (NO_NUMBER: none); what the position shows with it. */
void moves_asked(const struct end *e, const uint8_t *message, unsigned bits);
void moves_told(const struct end *e, const uint8_t *message, unsigned bits, unsigned replies);
void moves_position(const struct end *e, int opens, int closes);

/* That is kept now; or there was nothing to keep. The answer is that of the call, or 0. */
void moves_kept(const struct end *e, const struct change *c, struct peat_answer answer);
void moves_nothing_kept(const struct end *e);

/* its primitive leaves the host; so many of its entries of this dialogue are left on the line, if it is a D-ABORT */
void moves_sends(const struct end *e, const struct entry *n, unsigned left);

void moves_took(const struct end *e, uint64_t job);
void moves_forwards(const struct end *e, uint64_t job);
void moves_shows(const struct end *e);
void moves_acknowledges(const struct end *e, uint64_t job);
void moves_power(const struct end *e);

/* a notice is published; reason: what it says of a refusal */
void moves_tells(const struct end *e, const struct notice *n, unsigned reason);

/* an envelope of this kind takes a message to its user; a position is shown that its dialogue is closed, by no call */
void moves_posts(const struct end *e, unsigned kind);
void moves_shows_closed(const struct end *e);

/* both lines are empty */
void moves_quiet(const struct end *e);

#endif
