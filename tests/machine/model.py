#!/usr/bin/env python3
"""The CPDLC air and ground machines as the documents give them, clause by clause, and their tables.

Air: Doc 9880 3.5.3 and 3.5.4, and Doc 9705 2.3.5.3 where the extract is silent. Ground: Doc 9705 2.3.5.5 and 2.3.5.6, and
Doc 9880 3.5.5.1.6 for who is an active user. Document 01 decides where they differ. The two machines are written apart, each
from its own pages, and share nothing but the words for records and outcomes, and what application type 2 does otherwise (document 02, E14; source document 004).

    model.py            the table: every event at both machines and at many records, and the outcome
    model.py plain      the same for records of application type 2, with and without a message in responses and ends
    model.py control    the numbers of the computed test of the finite control
"""
import sys
from copy import copy

IDLE, REQ, IND, DLG, END, FWD = "IDLE", "START-REQ", "START-IND", "DIALOGUE", "END", "FORWARD"
STATES = [IDLE, REQ, IND, DLG, END, FWD]
SUCCESS, NOT_SUPPORTED, NOT_EQUAL = range(3)
TIMER, UNDEF, INVALID, PROTO, SVC_ERR, SVC_FAIL, QOS, MISSING = range(8)
NOT_PERMITTED = 8
MISSING_PDU, BAD_PDU = "missing", "invalid"


class Rec:
    def __init__(self, state=IDLE, dsc=False, timer=False, active=False, highest=0, request=0, policy=0, forwards=False, version=1, plain=False):
        self.state, self.dsc, self.timer, self.active = state, dsc, timer, active
        self.highest, self.request, self.policy = highest, request, policy
        self.forwards, self.version = forwards, version     # of the forward service; given once
        self.plain = plain                                  # application type 2; given once

    def key(self):
        return (self.state, self.dsc, self.timer, self.active, self.highest, self.request, self.policy, self.forwards, self.version, self.plain)


class Out:
    def __init__(self, rec, refusal=0):
        self.rec, self.refusal = rec, refusal
        self.ds = None      # dialogue-service primitive: a tuple
        self.apdu = None    # what it carries
        self.user = None    # user primitive: a tuple
        self.data = False   # message data delivered


def refuse(r, n):
    return Out(copy(r), n)


def idle(r):
    """Document 01: entering IDLE sets DSC false, stops the timer and makes the user not active."""
    n = copy(r)
    n.state, n.dsc, n.timer, n.active = IDLE, False, False, False
    return n


def to(r, state):
    n = copy(r)
    n.state = state
    return n


def tell(r, o, primitive):
    if r.active:
        o.user = primitive


def provider_abort(r, send, tells):
    """D-ABORT "provider" with reason send (None: none); an active user is told reason tells (None: nobody is)."""
    o = Out(idle(r))
    if send is not None:
        o.ds, o.apdu = ("D-ABORT request", 1), ("abort provider", send)
    if tells is not None:
        tell(r, o, ("CPDLC-provider-abort indication", tells))
    return o


def no_output(r):
    return Out(idle(r))


def no_instruction(r, exists=True):
    """3.5.4.4.3, 2.3.5.6.4.4; document 01: in IDLE no output."""
    if r.state == IDLE:
        return no_output(r)
    return provider_abort(r, PROTO if exists else None, PROTO)


# ---- application type 2 (source document 004)

def sends(r, p):
    """The user data of a response or an end: type 2 has none where there is no message (S-4.4, S-5.4, S-7.1, S-9.1)."""
    return None if r.plain and not p.get("message", True) else ("send",)


def carried(r, security):
    """Type 2 has no security (S-4 to S-11)."""
    return 0 if r.plain else security


def differs(r, security, other):
    return not r.plain and security != other


def last_reason(r):
    return 6 if r.plain else 12                                         # M-1.1.1; 2.3.4


def shape(ev, modes, r):
    """Codes outside their types; received quality of service is any number. modes: those of the machine's start request (document 02, E7)."""
    name, p = ev
    two, three = (0, 1), (0, 1, 2)

    def apdu_ok(a):
        if isinstance(a, tuple) and a[0] == "abort user":
            return 0 <= a[1] <= last_reason(r)
        if isinstance(a, tuple) and a[0] == "abort provider":
            return 0 <= a[1] <= 7
        if isinstance(a, tuple) and a[0] == "forward response":
            return 0 <= a[1] <= 2
        return True

    if name == "start request":
        return p["mode"] in modes and 0 <= p["class"] <= 8 and p["security"] in two
    if name == "CPDLC-forward request":
        return 0 <= p["class"] <= 8 and p["security"] in two
    if name in ("CPDLC-start response", "DSC-start response") and r.plain and p["result"] == 0 and p.get("message", True):
        return False                                                    # S-4.4, S-5.4: a message gives the reason for a rejection
    if name in ("CPDLC-start response", "DSC-start response", "CPDLC-end response", "DSC-end response"):
        return p["result"] in two
    if name == "CPDLC-message request":
        return p["job"] >= 1
    if name == "CPDLC-user-abort request":
        return 0 <= p["reason"] <= last_reason(r)
    if name == "D-START indication":
        return p["peer"] in two and p["security"] in two and 0 <= p["version"] <= 255 and apdu_ok(p["apdu"])
    if name == "D-START confirmation":
        return p["result"] in three and p["source"] in two and p["security"] in two and 0 <= p["version"] <= 255 and apdu_ok(p["apdu"])
    if name in ("D-DATA indication", "D-END indication"):
        return apdu_ok(p["apdu"])
    if name == "D-END confirmation":
        return p["result"] in two and apdu_ok(p["apdu"])
    if name == "D-ABORT indication":
        return p["originator"] in two and apdu_ok(p["apdu"])
    return True


def qos_right(p):
    return p["priority"] == 1 and p["rate"] == 1 and p["class"] in range(0, 9)


def is_start(a):
    return isinstance(a, tuple) and a[0] == "start"


def forward_confirmed(r, p):
    """2.3.5.5.3.3: "rejected (permanent)" by the DS user brings the response; for "accepted" there is no action."""
    a, accepted = p["apdu"], p["result"] == 0
    if p["result"] == 2 or p["source"] == 1:
        return provider_abort(r, None, SVC_ERR)                         # 2.3.5.6.5
    if differs(r, p["security"], r.request):                            # 2.3.5.6.8
        return provider_abort(r, SVC_FAIL if accepted else None, SVC_FAIL)
    if a == MISSING_PDU:                                                # 2.3.5.6.7
        return provider_abort(r, MISSING, NOT_PERMITTED)
    if a == BAD_PDU:                                                    # 2.3.5.6.3
        return provider_abort(r, INVALID if accepted else None, INVALID)
    if accepted or not (isinstance(a, tuple) and a[0] == "forward response"):
        return provider_abort(r, PROTO, PROTO)                          # 2.3.5.6.4.1
    o = Out(idle(r))
    o.user = ("CPDLC-forward confirmation", a[1], p["version"])
    return o


# ---------------------------------------------------------------- air

def air(r, ev):
    name, p = ev
    if not shape(ev, ("cpdlc", "dsc"), r):
        return refuse(r, 2)
    s, dsc = r.state, r.dsc

    # ---- the user: what has no action is prohibited (2.3.5.3.1.1)
    if name == "start request":                                         # 2.3.5.3.7; 3.5.3.9
        if s != IDLE:
            return refuse(r, 3)
        n = to(r, REQ)
        if p["mode"] == "dsc":
            n.dsc = True
        n.timer, n.active, n.request = True, True, carried(r, p["security"])
        o = Out(n)
        o.ds, o.apdu = ("D-START request", 1, 1, p["class"], carried(r, p["security"])), ("start", p["mode"])
        return o
    if name == "CPDLC-start response":                                  # 2.3.5.3.8
        if s != IND or dsc:
            return refuse(r, 3)
        o = Out(to(r, DLG) if p["result"] == 0 else idle(r))
        o.ds, o.apdu = ("D-START response", p["result"], carried(r, r.policy)), sends(r, p)
        return o
    if name == "CPDLC-message request":                                 # 3.5.3.10
        if not (s == DLG or (s == END and not dsc)):
            return refuse(r, 3)
        if not p["message"]:
            return refuse(r, 4)
        if p["job"] <= r.highest:
            return refuse(r, 5)
        n = copy(r)
        n.highest = p["job"]
        o = Out(n)
        o.ds, o.apdu = ("D-DATA request",), ("send",)
        return o
    if name == "CPDLC-end response":                                    # 3.5.3.11
        if s != END or dsc:
            return refuse(r, 3)
        o = Out(idle(r) if p["result"] == 0 else to(r, DLG))
        o.ds, o.apdu = ("D-END response", p["result"]), sends(r, p)
        return o
    if name == "DSC-end request":                                       # 3.5.3.12
        if s != DLG or not dsc:
            return refuse(r, 3)
        o = Out(to(r, END))
        o.ds, o.apdu = ("D-END request",), sends(r, p)
        return o
    if name == "CPDLC-user-abort request":                              # 3.5.3.13
        if s == IDLE:
            return refuse(r, 3)
        o = Out(idle(r))
        o.ds, o.apdu = ("D-ABORT request", 0), ("abort user", p["reason"] if p["given"] else 0)
        return o
    if name in ("DSC-start response", "CPDLC-end request", "DSC-end response", "CPDLC-forward request"):
        return refuse(r, 3)                                             # primitives of the ground user
    if name == "timer expires":                                         # 3.5.4.1
        return provider_abort(r, TIMER, TIMER) if r.timer else refuse(r, 3)
    if name == "system error":                                          # 3.5.4.2
        return no_output(r) if s == IDLE else provider_abort(r, UNDEF, UNDEF)

    # ---- the dialogue service
    a = p.get("apdu")
    if name == "D-START indication":                                    # 2.3.5.3.2
        if s != IDLE:
            return no_instruction(r)
        if not qos_right(p):
            return provider_abort(r, QOS, None)                         # 3.5.4.6
        if differs(r, p["security"], r.policy):
            return provider_abort(r, SVC_FAIL, SVC_FAIL)                # 3.5.4.8
        if a == MISSING_PDU:
            return provider_abort(r, MISSING, NOT_PERMITTED)            # 3.5.4.7
        if a == BAD_PDU:
            return provider_abort(r, INVALID, INVALID)                  # 3.5.4.3.1
        if a != ("start", "cpdlc"):
            return provider_abort(r, PROTO, PROTO)                      # 3.5.4.4.1
        if p["peer"] != 0:
            return no_instruction(r)                                    # no facility designation
        n = to(r, IND)
        n.active = True
        o = Out(n)
        o.user, o.data = ("CPDLC-start indication", p["class"]), True
        return o
    if name == "D-START confirmation" and s == FWD:                     # which no run reaches: as at the ground (docs/DECISIONS.md, "Forwarding")
        return forward_confirmed(r, p)
    if name == "D-START confirmation":                                  # 2.3.5.3.3
        if s != REQ:
            return no_instruction(r)
        if p["result"] == 2 or p["source"] == 1:
            return provider_abort(r, None, SVC_ERR)                     # 3.5.4.5
        if differs(r, p["security"], r.request):                        # 3.5.4.8; open after "accepted" only
            return provider_abort(r, SVC_FAIL if p["result"] == 0 else None, SVC_FAIL)
        if a == MISSING_PDU and not r.plain:
            return provider_abort(r, MISSING, NOT_PERMITTED)            # 3.5.4.7
        if a == BAD_PDU:                                                # 3.5.4.3.1, 3.5.4.3.2
            return provider_abort(r, INVALID if p["result"] == 0 else None, INVALID)
        if a != MISSING_PDU and (a != ("send",) or r.plain and p["result"] == 0):
            return provider_abort(r, PROTO, PROTO)                      # 3.5.4.4.1; 004, S-4.4, S-5.4: "accepted" has no user data
        kind = "DSC" if dsc else "CPDLC"
        n = to(r, DLG) if p["result"] == 0 else idle(r)
        n.timer = False
        o = Out(n)
        o.user, o.data = (kind + "-start confirmation", p["result"]), True
        return o
    if name == "D-DATA indication":                                     # 2.3.5.3.4
        if not (s == DLG or (s == END and dsc)):
            return no_instruction(r)
        if a == MISSING_PDU:
            return provider_abort(r, MISSING, NOT_PERMITTED)
        if a == BAD_PDU:
            return provider_abort(r, INVALID, INVALID)
        if a != ("send",):
            return provider_abort(r, PROTO, PROTO)
        o = Out(copy(r))
        o.user, o.data = ("CPDLC-message indication",), True
        return o
    if name == "D-END indication":                                      # 2.3.5.3.5
        if s != DLG or dsc:
            return no_instruction(r)
        if a == MISSING_PDU and not r.plain:
            return provider_abort(r, MISSING, NOT_PERMITTED)
        if a == BAD_PDU:
            return provider_abort(r, INVALID, INVALID)
        if a not in (("send",), MISSING_PDU):
            return provider_abort(r, PROTO, PROTO)
        o = Out(to(r, END))
        o.user, o.data = ("CPDLC-end indication",), True
        return o
    if name == "D-END confirmation":                                    # 2.3.5.3.6
        if s != END or not dsc:
            return no_instruction(r)
        refused = p["result"] == 1
        if a == MISSING_PDU and not r.plain:
            return provider_abort(r, MISSING, NOT_PERMITTED)            # 3.5.4.7
        if a == BAD_PDU:                                                # 3.5.4.3.1, 3.5.4.3.2
            return provider_abort(r, INVALID if refused else None, INVALID)
        if a not in (("send",), MISSING_PDU):                           # 3.5.4.4.2
            return provider_abort(r, PROTO if refused else None, PROTO)
        o = Out(to(r, DLG) if refused else idle(r))
        o.user, o.data = ("DSC-end confirmation", p["result"]), True
        return o
    if name == "D-ABORT indication":                                    # 3.5.3.14
        if s == IDLE:
            return no_output(r)
        if p["originator"] == 0 and isinstance(a, tuple) and a[0] == "abort user":
            o = Out(idle(r))
            tell(r, o, ("CPDLC-user-abort indication", a[1]))
            return o
        if p["originator"] == 1 and isinstance(a, tuple) and a[0] == "abort provider":
            o = Out(idle(r))
            tell(r, o, ("CPDLC-provider-abort indication", a[1]))
            return o
        return no_instruction(r, exists=False)
    if name == "D-P-ABORT indication":                                  # 3.5.3.15
        if s == IDLE:
            return no_output(r)
        return provider_abort(r, None, SVC_FAIL)
    raise ValueError(name)


# ---------------------------------------------------------------- ground

def ground(r, ev):
    name, p = ev
    if not shape(ev, ("cpdlc",), r):
        return refuse(r, 2)
    st = r.state

    def bad_pdu(a, wanted, open_invalid=True, open_wrong=True, spared=False):
        if a == MISSING_PDU and spared and r.plain:                     # 004, S-4 to S-9
            return None
        if a == MISSING_PDU:                                            # 2.3.5.6.7
            return provider_abort(r, MISSING, NOT_PERMITTED)
        if a == BAD_PDU:                                                # 2.3.5.6.3
            return provider_abort(r, INVALID if open_invalid else None, INVALID)
        if not wanted:                                                  # 2.3.5.6.4.1, 2.3.5.6.4.3
            return provider_abort(r, PROTO if open_wrong else None, PROTO)
        return None

    def user_taken(n, ds, apdu):
        o = Out(n)
        o.ds, o.apdu = ds, apdu
        return o

    def user_told(n, primitive):
        o = Out(n)
        o.user, o.data = primitive, True
        return o

    # ---- the user: what has no action is prohibited (2.3.5.5.1.1)
    if name == "start request" and st == IDLE:                          # 2.3.5.5.7
        n = to(r, REQ)
        n.timer = n.active = True
        n.request = carried(r, p["security"])
        return user_taken(n, ("D-START request", 1, 1, p["class"], carried(r, p["security"])), ("start", "cpdlc"))
    if name == "CPDLC-forward request" and st == IDLE:                  # 2.3.5.5.13.1; active: 3.5.5.1.6 d
        n = to(r, FWD)
        n.timer = n.active = True
        n.request = carried(r, p["security"])
        return user_taken(n, ("D-START request", 1, 1, p["class"], carried(r, p["security"]), r.version), ("forward",))
    if name == "CPDLC-start response" and st == IND and not r.dsc:      # 2.3.5.5.8
        return user_taken(to(r, DLG) if p["result"] == 0 else idle(r), ("D-START response", p["result"], carried(r, r.policy)), sends(r, p))
    if name == "DSC-start response" and st == IND and r.dsc:            # 2.3.5.5.9
        return user_taken(to(r, DLG) if p["result"] == 0 else idle(r), ("D-START response", p["result"], carried(r, r.policy)), sends(r, p))
    if name == "CPDLC-message request" and (st == DLG or st == END and r.dsc):  # 2.3.5.5.10
        if not p["message"]:
            return refuse(r, 4)
        if p["job"] <= r.highest:
            return refuse(r, 5)
        n = copy(r)
        n.highest = p["job"]
        return user_taken(n, ("D-DATA request",), ("send",))
    if name == "CPDLC-end request" and st == DLG and not r.dsc:         # 2.3.5.5.11
        return user_taken(to(r, END), ("D-END request",), sends(r, p))
    if name == "DSC-end response" and st == END and r.dsc:              # 2.3.5.5.12
        return user_taken(idle(r) if p["result"] == 0 else to(r, DLG), ("D-END response", p["result"]), sends(r, p))
    if name == "CPDLC-user-abort request" and st != IDLE:               # 2.3.5.5.14
        return user_taken(idle(r), ("D-ABORT request", 0), ("abort user", p["reason"] if p["given"] else 0))
    if name == "timer expires" and r.timer:                             # 2.3.5.6.1
        return provider_abort(r, TIMER, TIMER)
    if name == "system error":                                          # 2.3.5.6.2
        return no_output(r) if st == IDLE else provider_abort(r, UNDEF, UNDEF)
    if not name.startswith("D-"):
        return refuse(r, 3)

    # ---- the dialogue service
    a = p.get("apdu")
    if name == "D-START indication" and st == IDLE:                     # 2.3.5.5.2
        if not qos_right(p):
            return provider_abort(r, QOS, None)                         # 2.3.5.6.6
        if differs(r, p["security"], r.policy):
            return provider_abort(r, SVC_FAIL, SVC_FAIL)                # 2.3.5.6.8
        # what a facility sends is GroundPDUs, of which only a forward has an action
        fault = bad_pdu(a, is_start(a) if p["peer"] == 1 else a == ("forward",))
        if fault:
            return fault
        if p["peer"] == 0 and not r.forwards:                           # 2.3.5.5.2.4
            return user_taken(idle(r), ("D-START response", 1, carried(r, p["security"]), 0), ("forward response", NOT_SUPPORTED))
        if p["peer"] == 0 and p["version"] != r.version:                # 2.3.5.5.2.3 b
            return user_taken(idle(r), ("D-START response", 1, carried(r, p["security"]), r.version), ("forward response", NOT_EQUAL))
        if p["peer"] == 0:                                              # 2.3.5.5.2.3 a; the user does not become active
            o = user_taken(idle(r), ("D-START response", 1, carried(r, p["security"]), 0), ("forward response", SUCCESS))
            o.user = ("CPDLC-forward indication",)
            return o
        n = to(r, IND)
        n.active = True
        if a[1] == "dsc":
            n.dsc = True
        return user_told(n, (("DSC" if a[1] == "dsc" else "CPDLC") + "-start indication", p["class"]))
    if name == "D-START confirmation" and st == FWD:                    # 2.3.5.5.3.3
        return forward_confirmed(r, p)
    if name == "D-START confirmation" and st == REQ and not r.dsc:      # 2.3.5.5.3
        if p["result"] == 2 or p["source"] == 1:
            return provider_abort(r, None, SVC_ERR)                     # 2.3.5.6.5
        accepted = p["result"] == 0
        if differs(r, p["security"], r.request):
            return provider_abort(r, SVC_FAIL if accepted else None, SVC_FAIL)
        fault = bad_pdu(a, a == ("send",) and not (r.plain and accepted), open_invalid=accepted, spared=True)   # 004, S-4.4: "accepted" has no user data
        if fault:
            return fault
        n = to(r, DLG) if accepted else idle(r)
        n.timer = False
        return user_told(n, ("CPDLC-start confirmation", p["result"]))
    if name == "D-DATA indication" and (st == DLG or st == END and not r.dsc):  # 2.3.5.5.4
        return bad_pdu(a, a == ("send",)) or user_told(copy(r), ("CPDLC-message indication",))
    if name == "D-END indication" and st == DLG and r.dsc:              # 2.3.5.5.5
        return bad_pdu(a, a == ("send",), spared=True) or user_told(to(r, END), ("DSC-end indication",))
    if name == "D-END confirmation" and st == END and not r.dsc:        # 2.3.5.5.6
        rejected = p["result"] == 1
        return bad_pdu(a, a == ("send",), rejected, rejected, spared=True) or user_told(
            to(r, DLG) if rejected else idle(r), ("CPDLC-end confirmation", p["result"]))
    if name == "D-ABORT indication":                                    # 2.3.5.5.15
        fits = {0: "abort user", 1: "abort provider"}[p["originator"]]
        if st != IDLE and isinstance(a, tuple) and a[0] == fits:
            o = Out(idle(r))
            tell(r, o, ("CPDLC-user-abort indication" if p["originator"] == 0 else "CPDLC-provider-abort indication", a[1]))
            return o
        return no_instruction(r, exists=False)
    if name == "D-P-ABORT indication":                                  # 2.3.5.5.16
        return no_output(r) if st == IDLE else provider_abort(r, None, SVC_FAIL)
    return no_instruction(r)                                            # 2.3.5.6.4.4


STEP = {"air": air, "ground": ground}


def step(side, r, ev):
    return STEP[side](r, ev)


# ---------------------------------------------------------------- the table

SEND, START, START_DSC, FORWARD, RESPONSE = ("send",), ("start", "cpdlc"), ("start", "dsc"), ("forward",), ("forward response", 2)


OWN = 3     # the version of the records of the table


def rows(policy, plain=False):
    """(title, event) in the order of the table, at records that accept the security value `policy`. plain: responses and ends without a message besides."""
    results = {0: "accepted", 1: "rejected", 2: "rejected (transient)"}
    pdus = {SEND: "send", START: "start cpdlc", START_DSC: "start dsc", FORWARD: "forward", RESPONSE: "forward response 2", ("abort user", 5): "abort user 5",
            ("abort provider", 1): "abort provider 1", BAD_PDU: "invalid", MISSING_PDU: "missing"}
    wrong = 1 - policy

    def title(*parts):
        return ", ".join(x for x in parts if x)

    def asked(mode):
        return title("start request", mode), ("start request", {"mode": mode, "class": 2, "security": policy})

    for kind in ("CPDLC", "DSC"):
        yield asked(kind.lower())
        for message in (True, False) if plain else (True,):
            held, none = {} if message else {"message": False}, "" if message else "no message"
            for n in (0, 1):
                yield title(kind + "-start response", results[n], none), (kind + "-start response", {"result": n, **held})
            yield title(kind + "-end request", none), (kind + "-end request", held)
            for n in (0, 1):
                yield title(kind + "-end response", results[n], none), (kind + "-end response", {"result": n, **held})
    yield asked("no mode")
    for message, job in ((True, 8), (False, 8), (True, 7), (False, 7), (True, 0)):
        yield title("CPDLC-message request", "job %d" % job, "" if message else "no message"), (
            "CPDLC-message request", {"message": message, "job": job})
    for given in (True, False):
        yield title("CPDLC-user-abort request", "reason 5" if given else ""), ("CPDLC-user-abort request", {"given": given, "reason": 5})
    for reason in (6, 7) if plain else ():
        yield title("CPDLC-user-abort request", "reason %d" % reason), ("CPDLC-user-abort request", {"given": True, "reason": reason})
    yield "timer expires", ("timer expires", {})
    yield "system error", ("system error", {})
    yield "CPDLC-forward request", ("CPDLC-forward request", {"class": 2, "security": policy})

    def start(peer, security, priority, rate, klass, apdu, version=0):
        return title("D-START indication", pdus[apdu], "from an aircraft" if peer else "from a facility", "security" if security != policy else "",
                     "priority" if priority != 1 else "", "residual error rate" if rate != 1 else "", "routing class" if klass > 8 else "", "version %d" % version if version else ""), (
            "D-START indication", {"peer": peer, "security": security, "priority": priority, "rate": rate, "class": klass, "version": version, "apdu": apdu})

    def started(n, source, security, apdu, version=0):
        return title("D-START confirmation", results[n], pdus[apdu], "DS provider" if source else "", "security" if security != policy else "",
                     "version %d" % version if version else ""), (
            "D-START confirmation", {"result": n, "source": source, "security": security, "version": version, "apdu": apdu})

    for peer in (0, 1):
        for apdu in pdus:
            yield start(peer, policy, 1, 1, 2, apdu)
    for peer in (0, 1):
        yield start(peer, wrong, 1, 1, 2, MISSING_PDU)
        yield start(peer, wrong, 7, 1, 2, MISSING_PDU)
        yield start(peer, policy, 1, 7, 2, START)
        yield start(peer, policy, 1, 1, 9, START)
    for peer in (0, 1):
        for version in (OWN, OWN + 1):
            yield start(peer, policy, 1, 1, 2, FORWARD, version)
    for n in (0, 1, 2):
        for apdu in pdus:
            yield started(n, 0, policy, apdu)
    for n in (0, 1, 2):
        for source in (0, 1):
            yield started(n, source, wrong, MISSING_PDU)
    yield started(1, 0, policy, RESPONSE, OWN + 1)
    for name in ("D-DATA indication", "D-END indication"):
        for apdu in pdus:
            yield title(name, pdus[apdu]), (name, {"apdu": apdu})
    for n in (0, 1):
        for apdu in pdus:
            yield title("D-END confirmation", results[n], pdus[apdu]), ("D-END confirmation", {"result": n, "apdu": apdu})
    for n, word in ((0, "user"), (1, "provider")):
        for apdu in pdus:
            yield title("D-ABORT indication", word, pdus[apdu]), ("D-ABORT indication", {"originator": n, "apdu": apdu})
    yield "D-P-ABORT indication", ("D-P-ABORT indication", {})


def words(t):
    return " ".join(str(x) for x in t)


def where(r):
    return r.state + (" +" if r.dsc else " -")


def cell(o):
    if o.refusal:
        return "refused %d" % o.refusal
    text = where(o.rec) + (" timer" if o.rec.timer else "") + (" active" if o.rec.active else "") + " " + str(o.rec.highest)
    if o.ds:
        text += "; " + words(o.ds)
    if o.apdu:
        text += " [" + words(o.apdu) + "]"
    if o.user:
        text += "; " + words(o.user)
    if o.data:
        text += " with data"
    return text


def made(state, dsc, active, reverse=False, policy=0, forwards=False, plain=False):
    """The records of the table: timer and user as a run has them, or the user not active; or both the wrong way round, as no run
    has them. Highest job 7; the last request had the security value that local policy accepts."""
    timer, user = state in (REQ, FWD), active and state != IDLE
    return Rec(state, dsc, timer != reverse, user != reverse, 7, policy, policy, forwards, OWN, plain)


def points(plain=False):
    """side, (view, title), record and event, in the order of the table"""
    for side in ("air", "ground"):
        for active, reverse, policy, forwards in ((True, False, 0, False), (False, False, 0, False), (True, True, 0, False), (True, False, 1, True), (True, False, 0, True)):
            view = side + ("" if active else ", user not active") + (", timer and user reversed" if reverse else "") + (", secured" if policy else "")
            view += ", forwarding" if forwards else ""
            for title, ev in rows(policy, plain):
                for state in STATES:
                    for dsc in (False, True):
                        yield side, (view, title), made(state, dsc, active, reverse, policy, forwards, plain), ev


def table(step=step, plain=False):
    above = None
    for side, heading, r, ev in points(plain):
        if heading != above:
            print("%s: %s" % heading)
            above = heading
        print("  %s: %s" % (where(r), cell(step(side, r, ev))))


def jobs(step=step):
    """Document 01: job 7, then 7; job 7 refused with 3, then 7 again in DIALOGUE; and in the next dialogue."""
    r = Rec()
    print("jobs at the air machine")

    def go(title, ev):
        nonlocal r
        o = step("air", r, ev)
        print("  %s: %s" % (title, cell(o)))
        r = o.rec

    def seven():
        go("CPDLC-message request, job 7", ("CPDLC-message request", {"message": True, "job": 7}))

    seven()
    go("start request, cpdlc", ("start request", {"mode": "cpdlc", "class": 0, "security": 0}))
    go("D-START confirmation, accepted, send", ("D-START confirmation", {"result": 0, "source": 0, "security": 0, "version": 0, "apdu": SEND}))
    seven()
    seven()
    go("D-END indication, send", ("D-END indication", {"apdu": SEND}))
    go("CPDLC-end response, accepted", ("CPDLC-end response", {"result": 0}))
    go("start request, cpdlc", ("start request", {"mode": "cpdlc", "class": 0, "security": 0}))
    go("D-START confirmation, accepted, send", ("D-START confirmation", {"result": 0, "source": 0, "security": 0, "version": 0, "apdu": SEND}))
    seven()


# ---------------------------------------------------------------- the finite control

def control_no(r):
    return 2 * STATES.index(r.state) + (1 if r.dsc else 0)


def sent_no(o):
    name = o.ds[0]
    return {"D-START request": 1 if o.apdu == START_DSC else 0, "D-START response": 2 + (o.ds[1] if len(o.ds) > 1 else 0), "D-DATA request": 4,
            "D-END request": 5, "D-END response": 6 + (o.ds[1] if len(o.ds) > 1 else 0), "D-ABORT request": 8}[name]


def control():
    """For each record and call 0 if not taken, else 100 for the entry sent plus the next control; for each record and primitive
    10 if quiet, 100 if it aborts, 1000 more if handed out, plus the next control."""
    calls = [("start request", {"mode": k, "class": 0, "security": 0}) for k in ("cpdlc", "dsc")]
    calls += [(k + "-start response", {"result": x}) for k in ("CPDLC", "DSC") for x in (0, 1)]
    calls += [("CPDLC-message request", {"message": True, "job": 8})]
    calls += [(k + "-end request", {}) for k in ("CPDLC", "DSC")]
    calls += [(k + "-end response", {"result": x}) for k in ("CPDLC", "DSC") for x in (0, 1)]
    calls += [("CPDLC-user-abort request", {"given": True, "reason": 0}), ("timer expires", {}), ("system error", {})]
    for side in ("air", "ground"):
        own = 0 if side == "air" else 1
        good = {"peer": own, "security": 0, "priority": 1, "rate": 1, "class": 0, "version": 0}
        entries = [("D-START indication", dict(good, apdu=a)) for a in (START, START_DSC)]
        entries += [("D-START confirmation", {"result": x, "source": 0, "security": 0, "version": 0, "apdu": SEND}) for x in (0, 1, 2)]
        entries += [("D-DATA indication", {"apdu": SEND}), ("D-END indication", {"apdu": SEND})]
        entries += [("D-END confirmation", {"result": x, "apdu": SEND}) for x in (0, 1)]
        entries += [("D-ABORT indication", {"originator": 0, "apdu": ("abort user", 0)}), ("D-P-ABORT indication", {})]
        got = {"calls": [], "entries": []}
        for state in STATES[:5]:                    # FORWARD is in no dialogue
            for dsc in (False, True):
                for ev in calls:
                    o = STEP[side](made(state, dsc, True), ev)
                    taken = not o.refusal and o.ds is not None
                    got["calls"].append(100 * (1 + sent_no(o)) + control_no(o.rec) if taken else 0)
                for ev in entries:
                    o = STEP[side](made(state, dsc, True), ev)
                    n = (100 if o.ds else 10) + control_no(o.rec)
                    got["entries"].append(n + (1000 if o.user == ("CPDLC-message indication",) else 0))
        for k in ("calls", "entries"):
            print(side, k, " ".join(map(str, got[k])))


if __name__ == "__main__":
    if sys.argv[1:] == ["control"]:
        control()
    elif sys.argv[1:] == ["plain"]:
        table(plain=True)
    else:
        table()
        jobs()
