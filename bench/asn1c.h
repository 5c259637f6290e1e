/* The code that asn1c generates from tests/fields/PeatribbonPDUs.asn, behind the few calls that the bench makes of it. */
#ifndef ASN1C_H
#define ASN1C_H

#include <stddef.h>
#include <stdint.h>

enum asn1c_type { ASN1C_GROUND, ASN1C_DATA, ASN1C_UPLINK };

/* a value on the heap, as asn1c makes it, or NULL */
void *asn1c_read(enum asn1c_type type, const uint8_t *in, size_t bytes);
void asn1c_free(enum asn1c_type type, void *value);
/* the bits, or 0 */
size_t asn1c_write(enum asn1c_type type, const void *value, uint8_t *out, size_t room);
/* the message data of a GroundPDUs send */
const void *asn1c_data(const void *ground);

#endif
