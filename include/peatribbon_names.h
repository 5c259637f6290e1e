/*
 * Names for a log: the codes of peatribbon.h in words.
 *
 * Each function takes a code as peatribbon.h has it and gives its name in the documents, or "?" for a number that is no code. A host that
 * logs nothing does not need this header.
 *
 * SPDX-License-Identifier: Apache-2.0
 */
#ifndef PEATRIBBON_NAMES_H
#define PEATRIBBON_NAMES_H

#include "peatribbon.h"

#ifdef __cplusplus
extern "C" {
#endif

/* ---- names, for a log; "?" for a number that has none */

static inline const char *peat_name_in(const char *const *names, size_t count, unsigned n) { return n < count ? names[n] : "?"; }
#define PEAT_NAMED(names, n) peat_name_in(names, sizeof(names) / sizeof *(names), n)

/* of enum peat_refusal, as document 01 has it */
static inline const char *peat_refusal_name(unsigned refusal)
{
    static const char *const names[] = {"taken", "ROOM", "SHAPE", "PROHIBITED", "NO-MESSAGE", "REPEAT", "STALE", "ALL-OPEN", "NOT-OPEN", "?", "SHORT", "RANGE",
        "EXTENSION", "LENGTH-FORM", "LIMIT", "TAIL", "NOT-CARRIED", "DEFAULT", "?", "?", "CUT", "GROUPS", "KIND", "SIZE"};
    return PEAT_NAMED(names, refusal);
}

static inline const char *peat_side_name(unsigned side)
{
    static const char *const names[] = {"?", "air", "ground"};
    return PEAT_NAMED(names, side);
}

static inline const char *peat_state_name(unsigned state)
{
    static const char *const names[] = {"IDLE", "START-REQ", "START-IND", "DIALOGUE", "END", "FORWARD"};
    return PEAT_NAMED(names, state);
}

/* of enum peat_invoked */
static inline const char *peat_invoked_name(unsigned invoked)
{
    static const char *const names[] = {
        "nothing", "D-START request", "D-START response", "D-DATA request", "D-END request", "D-END response", "D-ABORT request"};
    return PEAT_NAMED(names, invoked);
}

/* of enum peat_told; dsc: peat_told_dsc of the answer */
static inline const char *peat_told_name(unsigned told, unsigned dsc)
{
    static const char *const names[] = {"nothing", "CPDLC-start indication", "CPDLC-start confirmation", "CPDLC-message indication",
        "CPDLC-end indication", "CPDLC-end confirmation", "CPDLC-user-abort indication", "CPDLC-provider-abort indication",
        "CPDLC-forward indication", "CPDLC-forward confirmation"};
    static const char *const dsc_names[] = {"nothing", "DSC-start indication", "DSC-start confirmation", "CPDLC-message indication",
        "DSC-end indication", "DSC-end confirmation", "CPDLC-user-abort indication", "CPDLC-provider-abort indication",
        "CPDLC-forward indication", "CPDLC-forward confirmation"};
    return dsc ? PEAT_NAMED(dsc_names, told) : PEAT_NAMED(names, told);
}

/* of enum peat_result, enum peat_user_reason, enum peat_provider_reason and enum peat_kind */
static inline const char *peat_result_name(unsigned result)
{
    static const char *const names[] = {"accepted", "rejected", "rejected (transient)"};
    return PEAT_NAMED(names, result);
}

/* of enum peat_forward_result */
static inline const char *peat_forward_result_name(unsigned result)
{
    static const char *const names[] = {"success", "service-not-supported", "version-not-equal"};
    return PEAT_NAMED(names, result);
}

/* of enum peat_field */
static inline const char *peat_field_name(unsigned field)
{
    static const char *const names[] = {"none", "kind", "job", "bit count", "body"};
    return PEAT_NAMED(names, field);
}

static inline const char *peat_user_reason_name(unsigned reason)
{
    static const char *const names[] = {"undefined", "no-message-identification-numbers-available", "duplicate-message-identification-numbers",
        "no-longer-next-data-authority", "current-data-authority-abort", "commanded-termination", "invalid-response",
        "time-out-of-synchronisation", "unknown-integrity-check", "validation-failure", "unable-to-decode-message", "invalid-pdu",
        "invalid-CPDLC-message"};
    return PEAT_NAMED(names, reason);
}

static inline const char *peat_provider_reason_name(unsigned reason)
{
    static const char *const names[] = {"timer-expired", "undefined-error", "invalid-PDU", "protocol-error", "communication-service-error",
        "communication-service-failure", "invalid-QOS-parameter", "expected-PDU-missing", "not-permitted-PDU"};
    return PEAT_NAMED(names, reason);
}

static inline const char *peat_kind_name(unsigned kind)
{
    static const char *const names[] = {"not carried", "none", "level", "two levels", "time", "code", "free text", "facility",
        "facility designation", "ATIS code"};
    return PEAT_NAMED(names, kind);
}

#ifdef __cplusplus
}
#endif

#endif
