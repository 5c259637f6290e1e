#include "certificates.h"

#include <stdio.h>
#include <string.h>

/* Without GnuTLS, which comes with libmicrohttpd, the marks alone are looked at. */

enum certificate certificate_look(const char *text, char *what, size_t room)
{
    int has = strstr(text, "-----BEGIN CERTIFICATE-----") != NULL;
    snprintf(what, room, has ? "it has a certificate, which was not looked into" : "it has no certificate");
    return has ? CERTIFICATE_GOOD : CERTIFICATE_NONE;
}

enum certificate certificate_look_key(const char *certificate, const char *key, char *what, size_t room)
{
    int has = strstr(key, "PRIVATE KEY-----") != NULL;
    (void)certificate;
    snprintf(what, room, has ? "it has a key, which was not looked into" : "it has no key");
    return has ? CERTIFICATE_GOOD : CERTIFICATE_NONE;
}
