/*
 * Two hosts that log for themselves: their two logs become one day for the proved program `replay` (docs/HOST.md, "A recorded day").
 *
 *     merge-moves AIR GROUND >DAY
 *
 * What an end sent stands before what the other end hears of it, and the loss of a connection is heard at both ends before the next one is used.
 * Otherwise each log keeps its order, and what is left open is nobody's concern: the moves of two ends meet on the lines alone. A connection is told by
 * the number of the dialogue that was started on it; one without a dialogue is left out.
 *
 * Nothing is judged here: what can't be put in order is written as it stands, and `replay` names it. Status: 0, or 2 for files that are no logs.
 */
#include <stdint.h>
#include <stdio.h>
#include <stdlib.h>
#include <string.h>

#define NUMBERS 4

struct move {
    char *word;
    uint64_t number[NUMBERS];
    unsigned numbers;
    int aborts;         /* of a primitive: it is answered by a D-ABORT */
    size_t connection;  /* on which it is; 0: on none */
};

/* a connection, as one end saw it */
struct connection {
    uint64_t number;  /* of the dialogue; 0: none was started */
    size_t meets;     /* its first move */
    int is_lost;      /* this end has heard that it is over, as far as the merged day goes */
};

struct entry {
    uint64_t number, job;
};

struct end {
    char letter;
    const char *path;
    char *text;
    struct move *move;
    size_t moves, at;
    struct connection *connection; /* from 1 on */
    size_t connections;
    uint64_t held;                 /* the dialogue number */
    struct entry *line;            /* what it sent and the other end has not heard; oldest first */
    size_t first, count, room, unsent;
    int is_down;
    struct end *other;
};

static void give_up(const char *path, size_t line, const char *why)
{
    if (line > 0)
        fprintf(stderr, "merge-moves: %s, line %zu: %s\n", path, line, why);
    else
        fprintf(stderr, "merge-moves: %s: %s\n", path, why);
    exit(2);
}

static void *more(void *old, size_t *room, size_t need, size_t each)
{
    void *new;
    if (need <= *room)
        return old;
    *room = need < 64 ? 64 : 2 * need;
    new = realloc(old, *room * each);
    if (new == NULL)
        give_up("memory", 0, "there is no more");
    return new;
}

/* ---- a log */

static char *read_whole(const char *path)
{
    FILE *f = fopen(path, "rb");
    char *text = NULL;
    size_t room = 0, count = 0, n;
    if (f == NULL)
        give_up(path, 0, "it can not be opened");
    do {
        text = more(text, &room, count + 4097, 1);
        n = fread(text + count, 1, 4096, f);
        count += n;
    } while (n > 0);
    if (ferror(f))
        give_up(path, 0, "it can not be read");
    fclose(f);
    text[count] = '\0';
    if (strlen(text) != count)
        give_up(path, 0, "it is no log");
    return text;
}

static int starts_with(const char *word, const char *front) { return strncmp(word, front, strlen(front)) == 0; }

static int is(const struct move *m, const char *word) { return strcmp(m->word, word) == 0; }

/* A word, its numbers, and perhaps `aborts`. */
static int read_move(struct move *m, char *line)
{
    char *word = strtok(line, " "), *end;
    memset(m, 0, sizeof *m);
    m->word = word;
    if (word == NULL)
        return 0;
    while ((word = strtok(NULL, " ")) != NULL) {
        if (strcmp(word, "aborts") == 0) {
            m->aborts = 1;
            continue;
        }
        if (is(m, "from") && m->numbers == 0 && (strcmp(word, "a") == 0 || strcmp(word, "g") == 0)) {
            m->number[m->numbers++] = (uint64_t)word[0];
            continue;
        }
        if (m->numbers == NUMBERS || *word < '0' || *word > '9')
            return 0;
        m->number[m->numbers++] = strtoull(word, &end, 10);
        if (*end != '\0')
            return 0;
    }
    return m->numbers > 0 || !starts_with(m->word, "hears-");
}

static void read_log(struct end *e, char letter, const char *path)
{
    char *at, *next;
    size_t room = 0, line = 0;
    e->letter = letter;
    e->path = path;
    e->text = read_whole(path);
    for (at = e->text; *at != '\0'; at = next) {
        struct move m;
        next = strchr(at, '\n');
        if (next == NULL)
            give_up(path, line + 1, "the line has no end");
        *next++ = '\0';
        line++;
        if (starts_with(at, "commit ") || starts_with(at, "journal "))
            continue; /* the host's own */
        if (!read_move(&m, at))
            give_up(path, line, "it can not be read");
        e->move = more(e->move, &room, e->moves + 1, sizeof *e->move);
        e->move[e->moves++] = m;
    }
    if (e->moves == 0 || !is(&e->move[0], "from") || e->move[0].numbers != 3)
        give_up(path, 1, "a log begins with `from`, the side that starts, the record's number and its highest job");
    e->held = e->move[0].number[1];
    e->at = 1;
}

/* Which connection a move is on, and the dialogue that was started on it. A power that fails does not end it: that is heard when the host comes up. */
static void find_connections(struct end *e)
{
    size_t i, now = 0, room = 0;
    e->connection = more(NULL, &room, 1, sizeof *e->connection);
    for (i = 1; i < e->moves; i++) {
        struct move *m = &e->move[i];
        if (is(m, "meets")) {
            now = ++e->connections;
            e->connection = more(e->connection, &room, now + 1, sizeof *e->connection);
            e->connection[now] = (struct connection){0, i, 0};
        }
        m->connection = now;
        if (now != 0 && e->connection[now].number == 0 && (starts_with(m->word, "starts-") || is(m, "hears-start")))
            e->connection[now].number = m->number[0];
        if (is(m, "lost"))
            now = 0;
    }
}

/* ---- the merged day */

static struct connection *connection_of(struct end *e, uint64_t number)
{
    size_t i;
    for (i = e->connections; number != 0 && i > 0; i--)
        if (e->connection[i].number == number)
            return &e->connection[i];
    return NULL;
}

/* The other end saw this connection too, and has not heard yet that it is over. */
static int other_believes(const struct end *e, size_t connection)
{
    const struct connection *c = connection == 0 ? NULL : connection_of(e->other, e->connection[connection].number);
    return c != NULL && !c->is_lost;
}

/* the last connection with a dialogue that this end has lost; 0: there is none */
static size_t lost_last(const struct end *e)
{
    size_t i;
    for (i = e->connections; i > 0 && !(e->connection[i].is_lost && e->connection[i].number != 0); i--) {}
    return i;
}

static void say(const struct end *e, const char *word) { printf("%c %s\n", e->letter, word); }

static void put_entry(struct end *e, uint64_t job)
{
    if (e->first > 0 && e->first + e->count == e->room) {
        memmove(e->line, e->line + e->first, e->count * sizeof *e->line);
        e->first = 0;
    }
    e->line = more(e->line, &e->room, e->first + e->count + 1, sizeof *e->line);
    e->line[e->first + e->count++] = (struct entry){e->held, job};
    e->unsent++;
}

/* Its entries of this dialogue: of a D-ABORT all of them stay on the line. A connection that breaks loses them with the others. */
static size_t of_dialogue(const struct end *e)
{
    size_t i, n = 0;
    for (i = 0; i < e->count; i++)
        n += e->line[e->first + i].number == e->held;
    return n;
}

static void empty(struct end *e) { e->first = e->count = e->unsent = 0; }

/* The second of the two that hear it makes it the carrier's failure. */
static void lose(struct end *e, size_t connection)
{
    int has_dialogue = connection != 0 && e->connection[connection].number != 0;
    if (connection != 0)
        e->connection[connection].is_lost = 1;
    if (!has_dialogue && !e->is_down)
        return; /* nothing was on it */
    e->is_down = 0;
    e->unsent = 0;
    if (other_believes(e, has_dialogue ? connection : lost_last(e))) {
        say(e, "cut-off");
        return;
    }
    say(e, "carrier-fails");
    empty(e);
    empty(e->other);
}

static void send_one(struct end *e)
{
    say(e, "sends");
    e->unsent -= e->unsent > 0;
}

static void hear(struct end *e, const struct move *m)
{
    struct end *o = e->other;
    struct entry n = {m->number[0], 0};
    if (o->count > 0) {
        n = o->line[o->first++];
        o->count--;
    }
    if (is(m, "hears-start") && m->number[0] > e->held)
        e->held = m->number[0];
    printf("%c %s %llu %zu", e->letter, m->word, (unsigned long long)m->number[0], m->aborts ? of_dialogue(e) : (size_t)0);
    if (is(m, "hears-data"))
        printf(" %llu", (unsigned long long)n.job);
    putchar('\n');
    if (m->aborts)
        put_entry(e, 0);
}

static int is_call(const struct move *m)
{
    return starts_with(m->word, "starts-") || starts_with(m->word, "accepts-") || starts_with(m->word, "rejects-") || is(m, "asks-end") || is(m, "takes");
}

static int can_abort(const struct move *m) { return is(m, "aborts") || is(m, "expires") || is(m, "error"); }

static void make_move(struct end *e)
{
    const struct move *m = &e->move[e->at++];
    unsigned i;
    if (is(m, "meets"))
        return;
    if (is(m, "lost")) {
        lose(e, m->connection);
        return;
    }
    if (is(m, "sends")) {
        send_one(e);
        return;
    }
    if (starts_with(m->word, "hears-")) {
        hear(e, m);
        return;
    }
    e->is_down |= is(m, "power-fails");
    if (starts_with(m->word, "starts-"))
        e->held = m->number[0];
    printf("%c %s", e->letter, m->word);
    for (i = 0; i < m->numbers; i++)
        printf(" %llu", (unsigned long long)m->number[i]);
    if (can_abort(m))
        printf(" %zu", of_dialogue(e));
    putchar('\n');
    if (is_call(m) || can_abort(m))
        put_entry(e, is(m, "takes") ? m->number[0] : 0);
}

/* What was heard has left. A host that died between the two has not written that. */
static int has_left(struct end *e, uint64_t number)
{
    if (e->count == 0 || e->line[e->first].number != number)
        return 0;
    if (e->count > e->unsent)
        return 1;
    if (e->at == e->moves || !is(&e->move[e->at], "power-fails"))
        return 0;
    send_one(e);
    return 1;
}

/* A connection that both saw: what the other end did before it is over. */
static int other_is_there(const struct end *e, size_t connection)
{
    const struct connection *c = connection_of(e->other, e->connection[connection].number);
    return c == NULL || e->other->at >= c->meets;
}

static int may_move(struct end *e)
{
    const struct move *m = &e->move[e->at];
    if (e->at == e->moves)
        return 0;
    if (starts_with(m->word, "hears-"))
        return has_left(e->other, m->number[0]);
    if (is(m, "meets"))
        return !other_believes(e, lost_last(e)) && other_is_there(e, m->connection);
    return 1;
}

static void merge(struct end *air, struct end *ground)
{
    const struct move *a = &air->move[0], *g = &ground->move[0];
    if (a->number[0] != g->number[0])
        give_up(ground->path, 1, "the two logs do not agree on the side that starts");
    printf("%c from %llu %llu %llu %llu\n", (char)a->number[0], (unsigned long long)a->number[1], (unsigned long long)a->number[2], (unsigned long long)g->number[1],
        (unsigned long long)g->number[2]);
    while (air->at < air->moves || ground->at < ground->moves)
        if (may_move(air)) /* it hears what is there, so that the lines stay short */
            make_move(air);
        else if (may_move(ground) || air->at == air->moves)
            make_move(ground);
        else
            make_move(ground->at < ground->moves ? ground : air); /* there is no order: replay says what is wrong with it */
}

int main(int argc, char **argv)
{
    static struct end air, ground;
    if (argc != 3) {
        fputs("usage: merge-moves AIR GROUND >DAY\n", stderr);
        return 2;
    }
    air.other = &ground;
    ground.other = &air;
    read_log(&air, 'a', argv[1]);
    read_log(&ground, 'g', argv[2]);
    find_connections(&air);
    find_connections(&ground);
    merge(&air, &ground);
    return ferror(stdout) || fflush(stdout) != 0 ? 2 : 0;
}
