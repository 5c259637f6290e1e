#include "certificates.h"

#include <gnutls/gnutls.h>
#include <gnutls/x509.h>
#include <stdio.h>
#include <string.h>
#include <time.h>

static gnutls_datum_t datum_of(const char *text) { return (gnutls_datum_t){(unsigned char *)(size_t)text, (unsigned)strlen(text)}; }

static void write_day(time_t when, char *day, size_t room)
{
    struct tm t;
    if (gmtime_r(&when, &t) == NULL || strftime(day, room, "%Y-%m-%d", &t) == 0)
        snprintf(day, room, "?");
}

/* The certificate that ends first counts. */
static enum certificate look_times(gnutls_x509_crt_t *list, unsigned count, char *what, size_t room)
{
    time_t now = time(NULL), ends = gnutls_x509_crt_get_expiration_time(list[0]), begins = gnutls_x509_crt_get_activation_time(list[0]);
    char name[160] = "?", day[24];
    size_t size = sizeof name;
    unsigned i;
    if (gnutls_x509_crt_get_dn(list[0], name, &size) != 0)
        snprintf(name, sizeof name, "?");
    for (i = 1; i < count; i++) {
        if (gnutls_x509_crt_get_expiration_time(list[i]) < ends)
            ends = gnutls_x509_crt_get_expiration_time(list[i]);
        if (gnutls_x509_crt_get_activation_time(list[i]) > begins)
            begins = gnutls_x509_crt_get_activation_time(list[i]);
    }
    write_day(now < begins ? begins : ends, day, sizeof day);
    snprintf(what, room, "it has %u certificate%s, %s; %s %s", count, count == 1 ? "" : "s", name, now < begins ? "not valid before" : now > ends ? "not valid any more, since" : "valid until", day);
    return now < begins || now > ends ? CERTIFICATE_TIME : CERTIFICATE_GOOD;
}

enum certificate certificate_look(const char *text, char *what, size_t room)
{
    gnutls_datum_t pem = datum_of(text);
    gnutls_x509_crt_t *list = NULL;
    unsigned count = 0, i;
    int got = gnutls_x509_crt_list_import2(&list, &count, &pem, GNUTLS_X509_FMT_PEM, 0);
    enum certificate found = CERTIFICATE_NONE;
    if (got < 0 || count == 0)
        snprintf(what, room, "it has no certificate: %s", gnutls_strerror(got));
    else
        found = look_times(list, count, what, room);
    for (i = 0; got >= 0 && i < count; i++)
        gnutls_x509_crt_deinit(list[i]);
    gnutls_free(list);
    return found;
}

enum certificate certificate_look_key(const char *certificate, const char *key, char *what, size_t room)
{
    gnutls_datum_t one = datum_of(certificate), other = datum_of(key);
    gnutls_certificate_credentials_t both;
    gnutls_x509_privkey_t alone;
    int got;
    snprintf(what, room, "out of memory");
    if (gnutls_x509_privkey_init(&alone) != 0)
        return CERTIFICATE_NONE;
    got = gnutls_x509_privkey_import2(alone, &other, GNUTLS_X509_FMT_PEM, NULL, 0);
    gnutls_x509_privkey_deinit(alone);
    if (got != 0) {
        snprintf(what, room, "it has no key: %s", gnutls_strerror(got));
        return CERTIFICATE_NONE;
    }
    if (certificate[0] == '\0') {
        snprintf(what, room, "it has a key");
        return CERTIFICATE_GOOD;
    }
    if (gnutls_certificate_allocate_credentials(&both) != 0)
        return CERTIFICATE_NONE;
    got = gnutls_certificate_set_x509_key_mem(both, &one, &other, GNUTLS_X509_FMT_PEM);
    gnutls_certificate_free_credentials(both);
    snprintf(what, room, got < 0 ? "it is not the certificate's key" : "it has the certificate's key");
    return got < 0 ? CERTIFICATE_NONE : CERTIFICATE_GOOD;
}
