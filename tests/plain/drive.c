/* Lines SIDE HEX: each APDU of type 2 read by asn1c's decoder and written again by its encoder; prints BITS HEX, or `refused`. */
#include <stdio.h>
#include <string.h>
#include "PlainAircraftPDUs.h"
#include "PlainGroundPDUs.h"

int main(void)
{
    static char side[16], hex[40000];
    static unsigned char bytes[20000], again[20000];
    while (scanf("%15s %39999s", side, hex) == 2) {
        size_t n = strlen(hex) / 2;
        for (size_t i = 0; i < n; i++) {
            unsigned v;
            if (sscanf(hex + 2 * i, "%2x", &v) != 1)
                return 2;
            bytes[i] = (unsigned char)v;
        }
        asn_TYPE_descriptor_t *type = side[0] == 'a' ? &asn_DEF_PlainAircraftPDUs : &asn_DEF_PlainGroundPDUs;
        void *value = NULL;
        if (uper_decode_complete(NULL, type, &value, bytes, n).code != RC_OK) {
            puts("refused");
            continue;
        }
        asn_enc_rval_t written = uper_encode_to_buffer(type, value, again, sizeof again);
        if (written.encoded < 0)
            return 2;
        printf("%ld ", (long)written.encoded);
        for (long i = 0; i < (written.encoded + 7) / 8; i++)
            printf("%02x", again[i]);
        puts("");
        ASN_STRUCT_FREE(*type, value);
    }
    return 0;
}
