/*
 * Certificates and keys in PEM: whether they are what they should be, and until when. For `bridge check`, and for a bridge that starts.
 */
#ifndef CERTIFICATES_H
#define CERTIFICATES_H

#include <stddef.h>

enum certificate { CERTIFICATE_GOOD, CERTIFICATE_TIME, CERTIFICATE_NONE };

#define CERTIFICATE_TEXT 300

/* A text that has certificates. CERTIFICATE_TIME: one is not valid yet, or not any more. `what` says which they are, or what is wrong. */
enum certificate certificate_look(const char *text, char *what, size_t room);

/* A key, and that it is the certificate's; where the text of that is empty, the key alone. */
enum certificate certificate_look_key(const char *certificate, const char *key, char *what, size_t room);

#endif
