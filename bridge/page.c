#include "page.h"

#include <arpa/inet.h>
#include <errno.h>
#include <gnutls/gnutls.h>
#include <gnutls/x509.h>
#include <microhttpd.h>
#include <netinet/in.h>
#include <pthread.h>
#include <signal.h>
#include <stdio.h>
#include <stdlib.h>
#include <string.h>
#include <sys/socket.h>
#include <time.h>

#include "clock.h"
#include "page_files.h"

#define CLIENTS 32          /* that are let in at a time, */
#define CLIENTS_OF_ONE 16   /* and of one address */
#define SILENT_S 5          /* a client that says and takes nothing for so long is put out, */
#define STAY_MS 20000       /* and so is everyone after this time, whatever he does */
#define CLIENT_BYTES 32768  /* of memory for a client: a longer question is refused */
#define TURN_MS 200         /* how long the thread waits for news */
#define REST_NS 2000000     /* how long it rests after each turn: a crowd of clients takes a part of a processor, and not all of it */
#define PAGE_BYTES 196608
#define FILE_MOST 65536

struct client {
    int socket; /* -1: the place is free */
    uint64_t until;
};

struct page {
    struct MHD_Daemon *daemon;
    pthread_t thread;
    pthread_mutex_t lock; /* of what both threads use: */
    struct status status;
    int ends;
    /* the page's thread alone: */
    struct status seen;
    char text[PAGE_BYTES];
    struct client client[CLIENTS];
    /* what stands from the start on */
    int here_only;           /* the address is this machine's own */
    char token[CONFIG_TEXT]; /* empty: none is asked for */
    int wants_certificate;
    char *certificate, *key, *ca;
};

/* ---- who may ask */

/* Takes as long for a wrong token as for the right one. */
static int same_token(const char *a, const char *b)
{
    size_t n = strlen(b), i;
    unsigned char differs = strlen(a) != n;
    for (i = 0; i < n; i++)
        differs |= (unsigned char)(b[i] ^ (*a != '\0' ? *a++ : '\0'));
    return differs == 0;
}

/* Authorization: Bearer TOKEN, or Basic with the token as the password, as a browser asks for it. */
static int shows_token(const struct page *p, struct MHD_Connection *c)
{
    const char *said = MHD_lookup_connection_value(c, MHD_HEADER_KIND, "Authorization");
    char *password = NULL, *user;
    int good = 0;
    if (said == NULL)
        return 0;
    if (strncmp(said, "Bearer ", 7) == 0)
        return same_token(said + 7, p->token);
    user = MHD_basic_auth_get_username_password(c, &password);
    good = user != NULL && password != NULL && same_token(password, p->token);
    MHD_free(user);
    MHD_free(password);
    return good;
}

static int shows_certificate(struct MHD_Connection *c)
{
    const union MHD_ConnectionInfo *info = MHD_get_connection_info(c, MHD_CONNECTION_INFO_GNUTLS_SESSION);
    unsigned wrong = 1, count = 0;
    gnutls_session_t session;
    if (info == NULL || info->tls_session == NULL)
        return 0;
    session = (gnutls_session_t)info->tls_session;
    return gnutls_certificate_get_peers(session, &count) != NULL && count > 0 && gnutls_certificate_verify_peers2(session, &wrong) == 0 && wrong == 0;
}

/* Where the page is this machine's own, a name of this machine was asked for: else a page of somebody else asks, by way of a browser here. */
static int names_this_machine(struct MHD_Connection *c)
{
    static const char *const names[] = {"127.", "localhost", "[::1]"};
    const char *host = MHD_lookup_connection_value(c, MHD_HEADER_KIND, "Host");
    size_t i;
    if (host == NULL)
        return 1;
    for (i = 0; i < sizeof names / sizeof *names; i++)
        if (strncmp(host, names[i], strlen(names[i])) == 0 && strspn(host + strlen(names[i]), i == 0 ? ".:0123456789" : ":0123456789") == strlen(host + strlen(names[i])))
            return 1;
    return 0;
}

static unsigned may_ask(const struct page *p, struct MHD_Connection *c)
{
    if (p->here_only && p->token[0] == '\0' && !p->wants_certificate && !names_this_machine(c))
        return MHD_HTTP_FORBIDDEN;
    if (p->wants_certificate && shows_certificate(c))
        return MHD_HTTP_OK;
    if (p->token[0] != '\0' && shows_token(p, c))
        return MHD_HTTP_OK;
    return p->token[0] != '\0' ? MHD_HTTP_UNAUTHORIZED : p->wants_certificate ? MHD_HTTP_FORBIDDEN : MHD_HTTP_OK;
}

/* ---- answers */

#define JSON "application/json; charset=utf-8"
#define PLAIN "text/plain; charset=utf-8"

static enum MHD_Result answer(struct MHD_Connection *c, unsigned status, const char *type, const void *bytes, size_t count, enum MHD_ResponseMemoryMode mode)
{
    static const char *const more[][2] = {{"Cache-Control", "no-store"}, {"X-Content-Type-Options", "nosniff"}, {"Referrer-Policy", "no-referrer"},
        {"Content-Security-Policy", "default-src 'none'; script-src 'self'; style-src 'self'; connect-src 'self'; img-src 'self'; base-uri 'none'; form-action 'none'; frame-ancestors 'none'"}};
    struct MHD_Response *r = MHD_create_response_from_buffer(count, (void *)(uintptr_t)bytes, mode);
    enum MHD_Result queued;
    size_t i;
    if (r == NULL)
        return MHD_NO;
    MHD_add_response_header(r, "Content-Type", type);
    for (i = 0; i < sizeof more / sizeof *more; i++)
        MHD_add_response_header(r, more[i][0], more[i][1]);
    if (status == MHD_HTTP_UNAUTHORIZED)
        MHD_add_response_header(r, "WWW-Authenticate", "Basic realm=\"peat-bridge\", charset=\"UTF-8\"");
    if (status == MHD_HTTP_METHOD_NOT_ALLOWED)
        MHD_add_response_header(r, "Allow", "GET, HEAD");
    queued = MHD_queue_response(c, status, r);
    MHD_destroy_response(r);
    return queued;
}

static enum MHD_Result answer_words(struct MHD_Connection *c, unsigned status, const char *words)
{
    return answer(c, status, PLAIN, words, strlen(words), MHD_RESPMEM_PERSISTENT);
}

/* What was shown last, for this thread alone. The lock is held for a copy. */
static const struct status *look(struct page *p)
{
    pthread_mutex_lock(&p->lock);
    p->seen = p->status;
    pthread_mutex_unlock(&p->lock);
    return &p->seen;
}

static enum MHD_Result answer_health(struct page *p, struct MHD_Connection *c)
{
    int good;
    size_t n = status_health(look(p), now_ms(), p->text, sizeof p->text, &good);
    return answer(c, good ? MHD_HTTP_OK : MHD_HTTP_SERVICE_UNAVAILABLE, PLAIN, p->text, n, MHD_RESPMEM_MUST_COPY);
}

static enum MHD_Result answer_path(struct page *p, struct MHD_Connection *c, const char *path)
{
    const struct page_file *f;
    for (f = page_files; f->path != NULL; f++)
        if (strcmp(path, f->path) == 0)
            return answer(c, MHD_HTTP_OK, f->type, f->bytes, f->count, MHD_RESPMEM_PERSISTENT);
    if (strcmp(path, "/status.json") == 0)
        return answer(c, MHD_HTTP_OK, JSON, p->text, status_json(look(p), now_ms(), p->text, sizeof p->text), MHD_RESPMEM_MUST_COPY);
    if (strcmp(path, "/metrics") == 0)
        return answer(c, MHD_HTTP_OK, "text/plain; version=0.0.4; charset=utf-8", p->text, metrics_text(&look(p)->metrics, p->text, sizeof p->text), MHD_RESPMEM_MUST_COPY);
    if (strcmp(path, "/health") == 0)
        return answer_health(p, c);
    return answer_words(c, MHD_HTTP_NOT_FOUND, "There are /, /status.json, /metrics and /health.\n");
}

static enum MHD_Result on_question(void *with, struct MHD_Connection *c, const char *path, const char *method, const char *version, const char *upload, size_t *upload_bytes,
    void **begun)
{
    struct page *p = with;
    unsigned may;
    (void)version;
    (void)upload;
    (void)upload_bytes;
    (void)begun;
    if (strcmp(method, "GET") != 0 && strcmp(method, "HEAD") != 0)
        return answer_words(c, MHD_HTTP_METHOD_NOT_ALLOWED, "The page is for reading.\n");
    may = may_ask(p, c);
    if (may == MHD_HTTP_UNAUTHORIZED)
        return answer_words(c, may, "The page asks for its token.\n");
    if (may == MHD_HTTP_FORBIDDEN)
        return answer_words(c, may, "The page is not for this client.\n");
    return answer_path(p, c, path);
}

/* ---- clients come and go; all of it in the page's thread */

static void on_client(void *with, struct MHD_Connection *c, void **place, enum MHD_ConnectionNotificationCode what)
{
    struct page *p = with;
    const union MHD_ConnectionInfo *info;
    int i;
    if (what == MHD_CONNECTION_NOTIFY_CLOSED) {
        if (*place != NULL)
            ((struct client *)*place)->socket = -1;
        *place = NULL;
        return;
    }
    info = MHD_get_connection_info(c, MHD_CONNECTION_INFO_CONNECTION_FD);
    for (i = 0; i < CLIENTS && p->client[i].socket >= 0; i++) {}
    if (info == NULL || i == CLIENTS)
        return;
    p->client[i] = (struct client){info->connect_fd, now_ms() + STAY_MS};
    *place = &p->client[i];
}

/* The library closes the socket when it has seen that nothing comes any more. */
static void put_out(struct page *p)
{
    uint64_t now = now_ms();
    int i;
    for (i = 0; i < CLIENTS; i++)
        if (p->client[i].socket >= 0 && now > p->client[i].until)
            shutdown(p->client[i].socket, SHUT_RDWR);
}

static int has_ended(struct page *p)
{
    int ends;
    pthread_mutex_lock(&p->lock);
    ends = p->ends;
    pthread_mutex_unlock(&p->lock);
    return ends;
}

static void *serve(void *with)
{
    struct page *p = with;
    const struct timespec rest = {0, REST_NS};
    while (!has_ended(p)) {
        MHD_run_wait(p->daemon, TURN_MS);
        put_out(p);
        nanosleep(&rest, NULL);
    }
    return NULL;
}

/* ---- opening */

/* A file as a text, which is kept; NULL: it can not be read. */
static char *file_text(const char *path)
{
    FILE *f = fopen(path, "r");
    char *text = f != NULL ? malloc(FILE_MOST) : NULL;
    size_t n = text != NULL ? fread(text, 1, FILE_MOST - 1, f) : 0;
    if (f != NULL)
        fclose(f);
    if (text != NULL)
        text[n] = '\0';
    return text;
}

static int take_token(struct page *p, const char *path)
{
    char *text;
    if (path[0] == '\0')
        return 1;
    text = file_text(path);
    if (text != NULL) {
        text[strcspn(text, "\r\n")] = '\0';
        snprintf(p->token, sizeof p->token, "%s", text);
        free(text);
    }
    return p->token[0] != '\0';
}

static int take_file(char **text, const char *path)
{
    *text = path[0] != '\0' ? file_text(path) : NULL;
    return path[0] == '\0' || *text != NULL;
}

/* The options for TLS that are wanted, ended as the library wants it. */
static void tls_options(const struct page *p, struct MHD_OptionItem *option)
{
    size_t n = 0;
    if (p->certificate != NULL) {
        option[n++] = (struct MHD_OptionItem){MHD_OPTION_HTTPS_MEM_CERT, 0, p->certificate};
        option[n++] = (struct MHD_OptionItem){MHD_OPTION_HTTPS_MEM_KEY, 0, p->key};
    }
    if (p->ca != NULL)
        option[n++] = (struct MHD_OptionItem){MHD_OPTION_HTTPS_MEM_TRUST, 0, p->ca};
    option[n] = (struct MHD_OptionItem){MHD_OPTION_END, 0, NULL};
}

static struct MHD_Daemon *listen_at(struct page *p, const struct config *c)
{
    struct sockaddr_in four = {.sin_family = AF_INET, .sin_port = htons((uint16_t)c->metrics_port)};
    struct sockaddr_in6 six = {.sin6_family = AF_INET6, .sin6_port = htons((uint16_t)c->metrics_port)};
    struct MHD_OptionItem tls[4];
    int is_six = inet_pton(AF_INET6, c->page_address, &six.sin6_addr) == 1;
    if (!is_six && inet_pton(AF_INET, c->page_address, &four.sin_addr) != 1)
        return NULL;
    tls_options(p, tls);
    return MHD_start_daemon(MHD_USE_EPOLL | (is_six ? MHD_USE_IPv6 : 0) | (p->certificate != NULL ? MHD_USE_TLS : 0), 0, NULL, NULL, on_question, p, MHD_OPTION_SOCK_ADDR,
        is_six ? (struct sockaddr *)&six : (struct sockaddr *)&four, MHD_OPTION_NOTIFY_CONNECTION, on_client, p, MHD_OPTION_CONNECTION_LIMIT, (unsigned)CLIENTS,
        MHD_OPTION_PER_IP_CONNECTION_LIMIT, (unsigned)CLIENTS_OF_ONE, MHD_OPTION_CONNECTION_TIMEOUT, (unsigned)SILENT_S, MHD_OPTION_CONNECTION_MEMORY_LIMIT, (size_t)CLIENT_BYTES,
        MHD_OPTION_LISTENING_ADDRESS_REUSE, 1u, MHD_OPTION_ARRAY, tls, MHD_OPTION_END);
}

/* Signals are the round's. */
static int start_thread(struct page *p)
{
    sigset_t all, before;
    int got;
    sigfillset(&all);
    pthread_sigmask(SIG_SETMASK, &all, &before);
    got = pthread_create(&p->thread, NULL, serve, p);
    pthread_sigmask(SIG_SETMASK, &before, NULL);
    return got == 0;
}

static void give_back(struct page *p)
{
    if (p->daemon != NULL)
        MHD_stop_daemon(p->daemon);
    pthread_mutex_destroy(&p->lock);
    free(p->certificate);
    free(p->key);
    free(p->ca);
    free(p);
}

static const char *set_up(struct page *p, const struct config *c)
{
    int i;
    for (i = 0; i < CLIENTS; i++)
        p->client[i].socket = -1;
    p->here_only = config_is_here(c->page_address);
    p->wants_certificate = c->page_ca[0] != '\0';
    if (!take_token(p, c->page_token_file))
        return "page_token_file can not be read, or its first line is empty";
    if (!take_file(&p->certificate, c->page_certificate) || !take_file(&p->key, c->page_key) || !take_file(&p->ca, c->page_ca))
        return "page_certificate, page_key or page_ca can not be read";
    p->daemon = listen_at(p, c);
    if (p->daemon == NULL)
        return "the address and the port can not be had, or the certificate or its key is none";
    return start_thread(p) ? NULL : "there is no thread for it";
}

struct page *page_open(const struct config *c, const char **why)
{
    struct page *p;
    *why = NULL;
    if (c->metrics_port == 0)
        return NULL;
    p = calloc(1, sizeof *p);
    *why = p == NULL ? "out of memory" : NULL;
    if (p == NULL)
        return NULL;
    pthread_mutex_init(&p->lock, NULL);
    p->status.metrics.host = "";
    *why = set_up(p, c);
    if (*why == NULL)
        return p;
    give_back(p);
    return NULL;
}

int page_show(struct page *p, const struct status *s)
{
    if (pthread_mutex_trylock(&p->lock) != 0)
        return 0;
    if (p->status.events == s->events) /* the lines of the log are the most of it */
        memcpy(&p->status, s, offsetof(struct status, event));
    else
        p->status = *s;
    pthread_mutex_unlock(&p->lock);
    return 1;
}

void page_close(struct page *p)
{
    if (p == NULL)
        return;
    pthread_mutex_lock(&p->lock);
    p->ends = 1;
    pthread_mutex_unlock(&p->lock);
    pthread_join(p->thread, NULL);
    give_back(p);
}
