#include "config.h"

#include <arpa/inet.h>
#include <errno.h>
#include <stdio.h>
#include <stdlib.h>
#include <string.h>

#include "jobs.h"
#include "log.h"
#include "peatribbon.h"

/* What a name may be given. */
struct key {
    const char *name;
    const char *standard; /* NULL: it must be given */
    size_t at;
    int is_text;
    uint64_t least, most; /* of a number; of a text: its characters */
    int has_number;       /* a text that must have {} in it once */
    const char *words;    /* of a number that is given by words: they, each behind a blank; the first is 0 */
};

#define PLACE(field) offsetof(struct config, field)
#define PATH(name, field, standard) {name, standard, PLACE(field), 1, 1, CONFIG_TEXT - 1, 0, NULL}
#define MAYBE(name, field) {name, "", PLACE(field), 1, 0, CONFIG_TEXT - 1, 0, NULL}
#define LONG(name, field) {name, "", PLACE(field), 1, 0, CONFIG_LONG - 1, 0, NULL}
#define EACH(name, field, standard, most) {name, standard, PLACE(field), 1, 3, most, 1, NULL}
#define COUNT(name, field, standard, least, most) {name, standard, PLACE(field), 0, least, most, 0, NULL}
#define WORDS(name, field, standard, words) {name, standard, PLACE(field), 0, 0, 0, 0, words}

#define SOCKET_PATH 100 /* a local socket's path has 108 bytes at most, the number among them */

static const struct key keys[] = {
    MAYBE("journal", journal),
    LONG("database", database),
    PATH("witness", witness, NULL),
    MAYBE("host", host),
    COUNT("dialogues", dialogues, "48", 1, DIALOGUES_MOST),
    COUNT("lease_ms", lease, "6000", 500, 600000),
    COUNT("share", share, "48", 0, DIALOGUES_MOST),
    COUNT("standby_ms", standby_wait, "2000", 0, 600000),
    COUNT("replicas", replicas, "0", 0, 8),
    EACH("aircraft", link, NULL, SOCKET_PATH),
    COUNT("t_start_ms", t_start, "360000", 1, 3600000),
    COUNT("retry_ms", retry, "1000", 1, 600000),
    COUNT("retry_most_ms", retry_most, "30000", 1, 600000),
    MAYBE("air_starts", air_starts),
    MAYBE("air_rejects", air_rejects),
    MAYBE("plain", plain),
    COUNT("centres", centres, "0", 0, CENTRES_MOST),
    MAYBE("facility", facility),
    MAYBE("centre_names", centre_names),
    MAYBE("centre_out", centre_out),
    MAYBE("centre_in", centre_in),
    EACH("queue_forward", queue_forward, "peat.forward.{}", CONFIG_TEXT - 1),
    WORDS("forwards", forwards, "yes", " no yes"),
    COUNT("forward_version", forward_version, "1", 1, 255),
    PATH("broker", broker, NULL),
    COUNT("port", port, "5672", 1, 65535),
    PATH("virtual_host", host_name, "/"),
    PATH("user", user, "peat"),
    MAYBE("password_file", password_file),
    MAYBE("tls_ca", tls_ca),
    MAYBE("tls_certificate", tls_certificate),
    MAYBE("tls_key", tls_key),
    EACH("queue_up", queue_up, "peat.up.{}", CONFIG_TEXT - 1),
    PATH("queue_down", queue_down, "peat.down"),
    PATH("queue_dead", queue_dead, "peat.dead"),
    PATH("queue_owner", queue_owner, "peat.owner"),
    EACH("queue_words", queue_words, "peat.words.{}", CONFIG_TEXT - 1),
    WORDS("messages", opaque, "checked", " checked opaque"),
    WORDS("delivered_json", delivered_json, "no", " no yes"),
    COUNT("heartbeat_s", heartbeat, "10", 1, 3600),
    COUNT("prefetch", prefetch, "8", 1, 1000),
    COUNT("claim_ms", claim, "60000", 1, 600000),
    COUNT("reconnect_ms", reconnect, "200", 1, 600000),
    COUNT("reconnect_most_ms", reconnect_most, "10000", 1, 600000),
    COUNT("job_jump", job_jump, "1000000", 1, UINT64_MAX),
    COUNT("payload_most", payload_most, "65536", 1, 16777216),
    COUNT("outbox_most", outbox_most, "100000", 1, 100000000),
    COUNT("metrics_port", metrics_port, "0", 0, 65535),
    PATH("page_address", page_address, "127.0.0.1"),
    MAYBE("page_token_file", page_token_file),
    MAYBE("page_certificate", page_certificate),
    MAYBE("page_key", page_key),
    MAYBE("page_ca", page_ca),
    COUNT("stop_ms", stop, "20000", 1, 3600000),
    COUNT("log_level", log, "1", 0, 3),
    MAYBE("moves", moves),
};

#define KEYS (sizeof keys / sizeof *keys)

#define DIGITS "0123456789"

int config_number(const char *text, uint64_t *number)
{
    if (*text == '\0' || text[strspn(text, DIGITS)] != '\0')
        return 0;
    errno = 0;
    *number = strtoull(text, NULL, 10);
    return errno == 0;
}

/* the number of a word among those of a key; -1: it is none of them */
static long word_number(const char *words, const char *value)
{
    size_t n = strlen(value);
    long i;
    for (i = 0; words != NULL && (words = strchr(words, ' ')) != NULL; i++, words++)
        if (n > 0 && strncmp(words + 1, value, n) == 0 && (words[1 + n] == ' ' || words[1 + n] == '\0'))
            return i;
    return -1;
}

/* A value is put into its place, or what is wrong with it is said. */
static const char *set(struct config *c, const struct key *k, const char *value)
{
    char *place = (char *)c + k->at;
    uint64_t n;
    const char *braces = strstr(value, "{}");
    if (k->is_text) {
        if (strlen(value) < k->least)
            return "is too short";
        if (strlen(value) > k->most)
            return "is too long";
        if (k->has_number && (braces == NULL || strstr(braces + 2, "{}") != NULL))
            return "needs {} once, where the number of the dialogue goes";
        strcpy(place, value);
        return NULL;
    }
    if (k->words != NULL) {
        long word = word_number(k->words, value);
        n = (uint64_t)word;
        memcpy(place, &n, sizeof n);
        return word < 0 ? "is none of its words" : NULL;
    }
    if (!config_number(value, &n))
        return "is not a number, or one of more than 64 bits";
    if (n < k->least || n > k->most)
        return "is outside its limits";
    memcpy(place, &n, sizeof n);
    return NULL;
}

static char *trimmed(char *s)
{
    size_t n;
    s += strspn(s, " \t\r\n");
    for (n = strlen(s); n > 0 && strchr(" \t\r\n", s[n - 1]) != NULL; n--)
        s[n - 1] = '\0';
    return s;
}

static size_t key_named(const char *name)
{
    size_t i;
    for (i = 0; i < KEYS && strcmp(keys[i].name, name) != 0; i++) {}
    return i;
}

/* Where a comment begins: at the front, or behind a blank. */
static void cut_comment(char *text)
{
    char *sign = text;
    while ((sign = strchr(sign, '#')) != NULL && sign > text && strchr(" \t", sign[-1]) == NULL)
        sign++;
    if (sign != NULL)
        *sign = '\0';
}

/* What stands behind the sign. Between double quotes everything belongs to it, and nothing but a comment comes behind them. */
static char *value_of(char *text, const char **why)
{
    char *end;
    text += strspn(text, " \t");
    if (*text != '"') {
        cut_comment(text);
        return trimmed(text);
    }
    end = strchr(text + 1, '"');
    if (end == NULL) {
        *why = "begins with a double quote, and has no second one";
        return text;
    }
    *end = '\0';
    cut_comment(end + 1);
    if (*trimmed(end + 1) != '\0')
        *why = "has something behind its double quotes";
    return text + 1;
}

#define LINE_TEXT (CONFIG_LONG + 200)

/* One line: nothing, a comment, or a name and its value. */
static const char *take_line(struct config *c, char *line, unsigned char *given)
{
    const char *why = NULL;
    char *sign, *name, *value;
    size_t i;
    if (strchr(line, '\n') == NULL && strlen(line) == LINE_TEXT - 1)
        return "the line is too long";
    name = trimmed(line);
    if (*name == '#')
        return NULL;
    if (*name == '\0')
        return NULL;
    sign = strchr(name, '=');
    if (sign == NULL)
        return "the line has no `=`";
    *sign = '\0';
    name = trimmed(name);
    i = key_named(name);
    if (i == KEYS)
        return "there is no such name";
    if (given[i]++)
        return "the name is given twice";
    value = value_of(sign + 1, &why);
    return why != NULL ? why : set(c, &keys[i], value);
}

int config_is_here(const char *address) { return strncmp(address, "127.", 4) == 0 || strcmp(address, "::1") == 0; }

/* Who else than this machine may see the page shows a token or a certificate. */
static const char *page_together(const struct config *c)
{
    unsigned char bytes[16];
    if (inet_pton(AF_INET, c->page_address, bytes) != 1 && inet_pton(AF_INET6, c->page_address, bytes) != 1)
        return "page_address is not an address in numbers";
    if ((c->page_certificate[0] != '\0') != (c->page_key[0] != '\0'))
        return "page_certificate and page_key come together";
    if (c->page_ca[0] != '\0' && c->page_certificate[0] == '\0')
        return "page_ca needs page_certificate and page_key: clients show certificates by TLS alone";
    if (!config_is_here(c->page_address) && c->page_token_file[0] == '\0' && c->page_ca[0] == '\0')
        return "page_address is reached from outside this machine: it needs page_token_file, or page_ca for clients with a certificate";
    return NULL;
}

/* ---- who starts which dialogue */

struct marking {
    struct config *config;
    enum starts as;
    int good;
};

static void mark(void *with, uint64_t first, uint64_t last)
{
    struct marking *m = with;
    uint64_t d;
    m->good &= last < m->config->dialogues;
    for (d = first; m->good && d <= last; d++) {
        m->good &= m->config->starts[d] == STARTS_GROUND;
        m->config->starts[d] = (uint8_t)m->as;
    }
}

/* 0: a list is none, names a dialogue that there is not, or both name one */
static int mark_starts(struct config *c)
{
    struct marking accepts = {c, STARTS_AIR, 1}, rejects = {c, STARTS_REJECTED, 1};
    return jobs_read(c->air_starts, mark, &accepts) && jobs_read(c->air_rejects, mark, &rejects) && accepts.good && rejects.good;
}

/* ---- the application type of each aircraft */

struct typing {
    struct config *config;
    int good;
};

static void mark_plain(void *with, uint64_t first, uint64_t last)
{
    struct typing *m = with;
    uint64_t d;
    m->good &= last < m->config->dialogues;
    for (d = first; m->good && d <= last; d++) {
        m->good &= m->config->type[d] == PEAT_PROTECTED;
        m->config->type[d] = PEAT_PLAIN;
    }
}

/* 0: the list is none, names a dialogue that there is not, or one twice. Every other place is of type 22. */
static int mark_types(struct config *c)
{
    struct typing plain = {c, 1};
    memset(c->type, PEAT_PROTECTED, sizeof c->type);
    return jobs_read(c->plain, mark_plain, &plain) && plain.good;
}

/* ---- other centres */

#define DESIGNATION "ABCDEFGHIJKLMNOPQRSTUVWXYZ0123456789"

static int is_designation(const char *text, size_t length)
{
    return length >= FACILITY_LEAST && length <= FACILITY_MOST && strspn(text, DESIGNATION) >= length;
}

/* the place of a centre's designation in the list; NULL: there are not so many */
static const char *designation_of(const struct config *c, unsigned centre)
{
    const char *at = c->centre_names;
    while (centre-- > 0 && at != NULL) {
        at = strchr(at, ',');
        at = at != NULL ? at + 1 : NULL;
    }
    return at;
}

void config_centre(const struct config *c, unsigned centre, char *name)
{
    const char *at = designation_of(c, centre);
    size_t n = at != NULL ? strcspn(at, ",") : 0;
    memset(name, 0, FACILITY_MOST + 1);
    memcpy(name, at != NULL ? at : "", n <= FACILITY_MOST ? n : 0);
}

static int is_pattern(const char *path)
{
    const char *braces = strstr(path, "{}");
    return braces != NULL && strstr(braces + 2, "{}") == NULL && strlen(path) <= SOCKET_PATH;
}

static const char *centres_together(const struct config *c)
{
    unsigned i;
    if (c->centres == 0)
        return NULL;
    if (!is_designation(c->facility, strlen(c->facility)))
        return "facility is not this centre's designation, 4 to 8 capital letters and digits";
    for (i = 0; i < c->centres; i++) {
        const char *at = designation_of(c, i);
        if (at == NULL || !is_designation(at, strcspn(at, ",")))
            return "centre_names is not a list of the other centres' designations, one for each of `centres`";
    }
    if (designation_of(c, (unsigned)c->centres) != NULL)
        return "centre_names has more designations than there are centres";
    if (!is_pattern(c->centre_out) || !is_pattern(c->centre_in) || strcmp(c->centre_out, c->centre_in) == 0)
        return "centre_out and centre_in are two paths of sockets, each with {} once, where the number of the centre goes";
    return NULL;
}

/* What single values do not show. */
static const char *together(const struct config *c)
{
    int certificate = c->tls_certificate[0] != '\0', key = c->tls_key[0] != '\0', ca = c->tls_ca[0] != '\0';
    if ((c->journal[0] != '\0') == (c->database[0] != '\0'))
        return "either journal is given, a file for one host, or database, for several";
    if (strspn(c->host, "abcdefghijklmnopqrstuvwxyzABCDEFGHIJKLMNOPQRSTUVWXYZ0123456789.-_") != strlen(c->host))
        return "host has characters other than letters, digits, points and dashes";
    if (strcmp(c->journal, c->witness) == 0)
        return "journal and witness are one file";
    if (c->moves[0] != '\0' && c->journal[0] == '\0')
        return "moves needs journal: of a dialogue that several hosts have no host sees the whole day";
    if (certificate != key)
        return "tls_certificate and tls_key come together";
    if (certificate && !ca)
        return "tls_certificate needs tls_ca: without it the broker is not known";
    if (c->claim < 3000 * c->heartbeat)
        return "claim_ms is under three heartbeats: after a network cut the bridge would give up before the broker has noticed";
    if (c->retry > c->retry_most || c->reconnect > c->reconnect_most)
        return "a first wait is longer than the longest";
    return page_together(c);
}

static int fail(FILE *f, char *fault, size_t room, const char *path, unsigned line, const char *name, const char *why)
{
    if (f != NULL)
        fclose(f);
    if (line > 0)
        snprintf(fault, room, "%s:%u: %s %s", path, line, name, why);
    else
        snprintf(fault, room, "%s: %s%s%s", path, name, *name ? " " : "", why);
    return 0;
}

int config_read(struct config *c, const char *path, char *fault, size_t room)
{
    FILE *f = fopen(path, "r");
    char line[LINE_TEXT], name[64];
    unsigned char given[KEYS] = {0};
    unsigned number = 0;
    const char *why;
    size_t i;
    memset(c, 0, sizeof *c);
    if (f == NULL && errno == ENOMEM)
        log_and_exit(EXIT_MEMORY, "memory", path, "out of memory");
    if (f == NULL)
        return fail(f, fault, room, path, 0, "can not be read:", strerror(errno));
    for (i = 0; i < KEYS; i++)
        if (keys[i].standard != NULL)
            set(c, &keys[i], keys[i].standard);
    while (fgets(line, sizeof line, f) != NULL) {
        number++;
        snprintf(name, sizeof name, "%.*s", (int)strcspn(line + strspn(line, " \t"), " \t=#\r\n"), line + strspn(line, " \t"));
        why = take_line(c, line, given);
        if (why != NULL)
            return fail(f, fault, room, path, number, name, why);
    }
    if (ferror(f))
        return fail(f, fault, room, path, 0, "can not be read:", strerror(errno));
    fclose(f);
    for (i = 0; i < KEYS; i++)
        if (keys[i].standard == NULL && !given[i])
            return fail(NULL, fault, room, path, 0, keys[i].name, "is not given");
    why = together(c);
    if (why == NULL)
        why = centres_together(c);
    if (why == NULL && !mark_starts(c))
        why = "air_starts and air_rejects are lists of dialogues as 0-3,7, each of them in one list once";
    if (why == NULL && !mark_types(c))
        why = "plain is a list of dialogues as 0-3,7, each of them once";
    return why == NULL || fail(NULL, fault, room, path, 0, "", why);
}

int config_has_place(const struct config *c, unsigned place)
{
    return place_is_link(place) ? place < PLACES_MOST && place_centre(place) < c->centres : place < c->dialogues;
}

unsigned config_places(const struct config *c) { return (unsigned)(c->dialogues + 2 * c->centres); }

/* Words are of use where the bridge keeps a book. */
int config_has_queue(const struct config *c, unsigned queue)
{
    if (queue >= PLACES_MOST)
        return queue - PLACES_MOST < c->dialogues && !c->opaque;
    return config_has_place(c, queue) && !place_hears(queue);
}

void config_queue(const struct config *c, unsigned queue, char *name, size_t room)
{
    if (queue >= PLACES_MOST)
        config_name(c->queue_words, queue - PLACES_MOST, name, room);
    else if (place_is_link(queue))
        config_name(c->queue_forward, place_centre(queue), name, room);
    else
        config_name(c->queue_up, queue, name, room);
}

void config_name(const char *pattern, unsigned number, char *name, size_t room)
{
    const char *braces = strstr(pattern, "{}");
    int before = braces == NULL ? (int)strlen(pattern) : (int)(braces - pattern);
    if (braces == NULL)
        snprintf(name, room, "%s", pattern);
    else
        snprintf(name, room, "%.*s%02u%s", before, pattern, number, braces + 2);
}
