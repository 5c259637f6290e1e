#include "files.h"

#include <errno.h>
#include <fcntl.h>
#include <libgen.h>
#include <stdio.h>
#include <string.h>
#include <sys/stat.h>
#include <unistd.h>

#include "certificates.h"

/* Who is told, and how many were bad so far. */
struct look {
    files_say *say;
    void *with;
    unsigned bad;
    int starts; /* a bridge starts */
};

static void tell(struct look *l, enum finding f, const char *name, const char *value, const char *what)
{
    l->bad += f == FILES_BAD;
    l->say(l->with, f, name, value, what);
}

/* ---- files that are read */

#define FRONT 65536 /* bytes of a file that are looked at */

/* The front of a file as a text; 0: it can not be read, which is told. */
static int front_of(struct look *l, const char *name, const char *path, char *text)
{
    FILE *f = fopen(path, "r");
    size_t n = f != NULL ? fread(text, 1, FRONT - 1, f) : 0;
    int good = f != NULL && !ferror(f);
    text[n] = '\0';
    if (!good)
        tell(l, FILES_BAD, name, path, strerror(errno));
    if (f != NULL)
        fclose(f);
    return good;
}

/* The texts of a certificate and its key, which are looked at together. */
static char certificate_text[FRONT], key_text[FRONT];

/* One that is not valid now is bad; a bridge that starts says it, and tries: its clock may be the one that is wrong. */
static enum finding finding_of(const struct look *l, enum certificate found)
{
    return found == CERTIFICATE_GOOD ? FILES_GOOD : found == CERTIFICATE_TIME && l->starts ? FILES_WARNS : FILES_BAD;
}

static void look_certificate(struct look *l, const char *name, const char *path)
{
    char what[CERTIFICATE_TEXT];
    certificate_text[0] = '\0';
    if (path[0] == '\0' || !front_of(l, name, path, certificate_text))
        return;
    tell(l, finding_of(l, certificate_look(certificate_text, what, sizeof what)), name, path, what);
}

/* Behind its certificate. */
static void look_key(struct look *l, const char *name, const char *path)
{
    char what[CERTIFICATE_TEXT];
    if (path[0] == '\0' || !front_of(l, name, path, key_text))
        return;
    tell(l, finding_of(l, certificate_look_key(certificate_text, key_text, what, sizeof what)), name, path, what);
    memset(key_text, 0, sizeof key_text);
}

static int is_here(const char *broker) { return strcmp(broker, "localhost") == 0 || strncmp(broker, "127.", 4) == 0 || strcmp(broker, "::1") == 0; }

static void look_password(struct look *l, const struct config *c)
{
    static char text[FRONT];
    if (c->password_file[0] == '\0') {
        if (c->tls_certificate[0] == '\0')
            tell(l, FILES_WARNS, "password_file", "", "there is none, and no certificate: the broker is told an empty password");
        return;
    }
    if (!front_of(l, "password_file", c->password_file, text))
        return;
    text[strcspn(text, "\r\n")] = '\0';
    if (text[0] == '\0')
        tell(l, FILES_BAD, "password_file", c->password_file, "its first line is empty");
    else if (strlen(text) >= CONFIG_TEXT)
        tell(l, FILES_BAD, "password_file", c->password_file, "its first line has more than 199 characters");
    else if (c->tls_ca[0] == '\0' && !is_here(c->broker))
        tell(l, FILES_WARNS, "password_file", c->password_file, "there is no tls_ca: the password goes to the broker in plain text, for everybody in between to read");
    else
        tell(l, FILES_GOOD, "password_file", c->password_file, "it has a password");
}

static void look_broker(struct look *l, const struct config *c)
{
    look_certificate(l, "tls_ca", c->tls_ca);
    look_certificate(l, "tls_certificate", c->tls_certificate);
    look_key(l, "tls_key", c->tls_key);
    look_password(l, c);
}

static void look_page(struct look *l, const struct config *c)
{
    static char text[FRONT];
    look_certificate(l, "page_ca", c->page_ca);
    look_certificate(l, "page_certificate", c->page_certificate);
    look_key(l, "page_key", c->page_key);
    if (c->page_token_file[0] == '\0' || !front_of(l, "page_token_file", c->page_token_file, text))
        return;
    text[strcspn(text, "\r\n")] = '\0';
    if (text[0] == '\0' || strlen(text) >= CONFIG_TEXT)
        tell(l, FILES_BAD, "page_token_file", c->page_token_file, "its first line is empty, or has more than 199 characters");
    else if (c->page_certificate[0] == '\0' && !config_is_here(c->page_address))
        tell(l, FILES_WARNS, "page_token_file", c->page_token_file, "there is no page_certificate: the token comes to the page in plain text, for everybody in between to read");
    else
        tell(l, FILES_GOOD, "page_token_file", c->page_token_file, "it has a token");
}

/* The files that the words for a database name. Its own library reads them; here each is opened. */
static void look_database(struct look *l, const struct config *c)
{
    static const char *const names[] = {"sslrootcert=", "sslcert=", "sslkey=", "passfile=", "sslcrl="};
    static char text[FRONT];
    char path[CONFIG_LONG];
    const char *at = c->database;
    size_t i, n;
    for (at += strspn(at, " "); *at != '\0'; at += n + strspn(at + n, " ")) {
        n = strcspn(at, " ");
        for (i = 0; i < sizeof names / sizeof *names; i++)
            if (strncmp(at, names[i], strlen(names[i])) == 0 && strncmp(at, "sslrootcert=system", n) != 0) {
                snprintf(path, sizeof path, "%.*s", (int)(n - strlen(names[i])), at + strlen(names[i]));
                if (front_of(l, "database", path, text))
                    tell(l, FILES_GOOD, "database", path, "it can be read");
            }
    }
}

/* ---- folders */

/* The folder of a path is there, and new files can be made in it where that is needed. */
static int look_folder(struct look *l, const char *name, const char *path, int writes)
{
    char copy[CONFIG_TEXT + 8];
    const char *folder;
    struct stat s;
    snprintf(copy, sizeof copy, "%s", path);
    folder = dirname(copy);
    errno = ENOTDIR;
    if (stat(folder, &s) == 0 && S_ISDIR(s.st_mode) && access(folder, writes ? R_OK | W_OK | X_OK : X_OK) == 0)
        return 1;
    tell(l, FILES_BAD, name, folder, errno == ENOENT ? "the folder is not there" : writes ? "no file can be made in this folder" : "this folder can not be entered");
    return 0;
}

/* A file of the bridge's own: there or not yet, in a folder where it can be written. */
static void look_own(struct look *l, const char *name, const char *path)
{
    struct stat s;
    int file;
    if (path[0] == '\0' || !look_folder(l, name, path, 1))
        return;
    if (access(path, F_OK) != 0) {
        tell(l, FILES_GOOD, name, path, "it is not there yet; its folder is, and can be written");
        return;
    }
    file = open(path, O_RDWR);
    if (file < 0 || fstat(file, &s) != 0)
        tell(l, FILES_BAD, name, path, strerror(errno));
    else if (!S_ISREG(s.st_mode))
        tell(l, FILES_BAD, name, path, "it is not a file");
    else
        tell(l, FILES_GOOD, name, path, "it is there, and was opened for reading and writing");
    if (file >= 0)
        close(file);
}

static void look_moves(struct look *l, const struct config *c)
{
    char path[CONFIG_TEXT + 8];
    if (c->moves[0] == '\0')
        return;
    snprintf(path, sizeof path, "%s/00", c->moves);
    if (look_folder(l, "moves", path, 1))
        tell(l, FILES_GOOD, "moves", c->moves, "the folder is there, and can be written");
}

static void look_aircraft(struct look *l, const struct config *c)
{
    char path[CONFIG_TEXT + 8];
    config_name(c->link, 0, path, sizeof path);
    if (look_folder(l, "aircraft", path, 0))
        tell(l, FILES_GOOD, "aircraft", c->link, access(path, F_OK) == 0 ? "the folder is there, and dialogue 00 has a socket in it" : "the folder is there; dialogue 00 has no socket in it now");
}

/* Where other centres are reached, and where this bridge makes its own sockets. */
static void look_centres(struct look *l, const struct config *c)
{
    char path[CONFIG_TEXT + 8];
    if (c->centres == 0)
        return;
    config_name(c->centre_out, 0, path, sizeof path);
    if (look_folder(l, "centre_out", path, 0))
        tell(l, FILES_GOOD, "centre_out", c->centre_out, access(path, F_OK) == 0 ? "the folder is there, and centre 00 has a socket in it" : "the folder is there; centre 00 has no socket in it now");
    config_name(c->centre_in, 0, path, sizeof path);
    if (look_folder(l, "centre_in", path, 1))
        tell(l, FILES_GOOD, "centre_in", c->centre_in, "the folder is there, and can be written");
}

/* ---- both */

unsigned files_look_broker(const struct config *c, files_say *say, void *with)
{
    struct look l = {say, with, 0, 1};
    look_broker(&l, c);
    return l.bad;
}

unsigned files_look(const struct config *c, files_say *say, void *with)
{
    struct look l = {say, with, 0, 0};
    look_own(&l, "journal", c->journal);
    look_database(&l, c);
    look_own(&l, "witness", c->witness);
    look_moves(&l, c);
    look_aircraft(&l, c);
    look_centres(&l, c);
    look_broker(&l, c);
    look_page(&l, c);
    return l.bad;
}
