#include "asn1c.h"

#include <ATCUplinkMessage.h>
#include <GroundPDUs.h>

static asn_TYPE_descriptor_t *const types[] = {&asn_DEF_GroundPDUs, &asn_DEF_ProtectedUplinkMessage, &asn_DEF_ATCUplinkMessage};

void *asn1c_read(enum asn1c_type type, const uint8_t *in, size_t bytes)
{
    void *value = NULL;
    asn_dec_rval_t got = uper_decode_complete(NULL, types[type], &value, in, bytes);
    if (got.code == RC_OK)
        return value;
    asn1c_free(type, value);
    return NULL;
}

void asn1c_free(enum asn1c_type type, void *value) { types[type]->free_struct(types[type], value, 0); }

size_t asn1c_write(enum asn1c_type type, const void *value, uint8_t *out, size_t room)
{
    asn_enc_rval_t put = uper_encode_to_buffer(types[type], (void *)value, out, room);
    return put.encoded < 0 ? 0 : (size_t)put.encoded;
}

const void *asn1c_data(const void *ground) { return &((const GroundPDUs_t *)ground)->choice.send; }
