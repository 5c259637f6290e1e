#!/usr/bin/env python3
"""The rows of crates/rows_engine/src/table.rt, read and walked.

A row's number is the sum of its words; the columns are taken out of it at the places that the file gives. What an event is called in the rows, which
condition it has and what the columns say is done stands here once more, for the events and records of model.py. Refusal 2 (a code outside its type) is
not the rows': model.py has it.

    rows.py         prints the table of model.py, from the rows
    rows.py plain   the same for records of application type 2
"""
import functools
import re
import sys
from copy import copy
from pathlib import Path

import model

sys.dont_write_bytecode = True
SOURCE = Path(__file__).resolve().parents[2] / "crates/rows_engine/src"
CONSTANT = re.compile(r"^(?:pub )?const (\w+): (?:u64|usize) =\s+([^;]+);", re.M)
COLUMNS = ["mark", "side", "dsc", "event", "state", "condition", "next", "next_dsc", "timer", "user", "keeps", "refusal", "sends", "reason", "tells", "why"]


class Names(dict):
    """the codes of a file, by name and as attributes"""

    def __getattr__(self, name):
        return self[name]


def constants(name, known=None):
    found = Names()
    more = CONSTANT.findall((SOURCE / name).read_text(encoding="utf-8"))
    while more:
        later = []
        for word, text in more:
            try:
                found[word] = eval(" ".join(text.replace("::", ".").split()), dict(known or {}), found)
            except NameError:
                later.append((word, text))
        if len(later) == len(more):
            raise ValueError("%s: %s is not known" % (name, later[0][0]))
        more = later
    return found


C = constants("codes.rt")
WORDS = constants("table.rt", {"codes": C, "reason": constants("reason.rt")})
PLACES = sorted(((WORDS[c.upper()], c) for c in COLUMNS), reverse=True)


class Row:
    """heading: what stands above it; number: its place, from 1 on; words and paragraphs as in the file; and a field for each column"""

    def __init__(self, heading, number, words, paragraphs):
        self.heading, self.number, self.words, self.paragraphs = heading, number, words, paragraphs
        rest = sum(WORDS[w] for w in words)
        for place, column in PLACES:
            setattr(self, column, rest // place)
            rest %= place

    def fits(self, side, state, dsc, title, condition):
        groups = {
            C.ANY_USER: range(C.D_START), C.ANY_SERVICE: range(C.D_START, C.EXPIRY),
            C.D_START_CONFIRMATION: (C.D_START_ACCEPTED, C.D_START_REJECTED), C.D_END_CONFIRMATION: (C.D_END_ACCEPTED, C.D_END_REJECTED)}
        return (title in groups.get(self.event, (self.event,))
                and (self.state == C.ANY_STATE or (state != C.IDLE if self.state == C.BUSY else state == self.state))
                and self.side in (C.BOTH, C.AIR if side == "air" else C.GROUND)
                and self.dsc in (C.AS_IS, C.YES if dsc else C.NO)
                and self.condition in (C.ANYHOW, condition))


def read():
    text = (SOURCE / "table.rt").read_text(encoding="utf-8")
    body = re.search(r"const ROWS: \[u64; (\d+)\] = \[\n(.*?)^\];", text, re.M | re.S)
    found, heading = [], None
    for line in body.group(2).splitlines():
        above, row = re.fullmatch(r"    // (.*)", line), re.fullmatch(r"    ([A-Z_]+(?: \+ [A-Z_]+)*), // (.+)", line)
        if above:
            heading = above.group(1)
        elif row:
            found.append(Row(heading, len(found) + 1, row.group(1).split(" + "), row.group(2).split(", ")))
        else:
            raise ValueError("no row: " + line)
    if len(found) != int(body.group(1)):
        raise ValueError("%d rows, and the constant has %s" % (len(found), body.group(1)))
    return found


ROWS = read()


# ---- what an event is to the rows

def answered(dsc, plain, result):
    return C[("DSC_" if dsc else "") + plain + ("_ACCEPTED" if result == 0 else "_REJECTED")]


def title(ev):
    name, p = ev
    kind, _, rest = name.partition("-")
    if name == "start request":
        return C.DSC_START_REQUEST if p["mode"] == "dsc" else C.START_REQUEST
    if rest in ("start response", "end response"):
        return answered(kind == "DSC", rest.upper().replace(" ", "_"), p["result"])
    if rest == "end request":
        return C.DSC_END_REQUEST if kind == "DSC" else C.END_REQUEST
    if name in ("D-START confirmation", "D-END confirmation"):
        return answered(False, name.split()[0].replace("-", "_"), p["result"])
    return {
        "CPDLC-message request": C.MESSAGE_REQUEST, "CPDLC-user-abort request": C.USER_ABORT, "CPDLC-forward request": C.FORWARD_REQUEST,
        "D-START indication": C.D_START, "D-DATA indication": C.D_DATA, "D-END indication": C.D_END, "D-ABORT indication": C.D_ABORT,
        "D-P-ABORT indication": C.D_P_ABORT, "timer expires": C.EXPIRY, "system error": C.SYSTEM_ERROR}[name]


def kind_of(a):
    return a if isinstance(a, str) else a[0]


def pdu_first(a, condition, may=False):
    """may: a PDU that is absent counts as the send that it stands for"""
    return (C.SEND if may else C.NO_PDU) if a == model.MISSING_PDU else C.INVALID_PDU if a == model.BAD_PDU else condition


def start_condition(side, r, p):
    a = kind_of(p["apdu"])
    if side == "ground" and p["peer"] == 0:
        if a != "forward":
            return C.OTHER_PDU
        return C.UNSUPPORTED_FORWARD if not r.forwards else C.EQUAL_FORWARD if p["version"] == r.version else C.OTHER_FORWARD
    if a != "start":
        return C.OTHER_PDU
    if p["apdu"][1] == "dsc":
        return C.DSC_START
    return C.START if side == "ground" or p["peer"] == 0 else C.START_OF_AIRCRAFT


def condition(side, r, ev):
    name, p = ev
    a = p.get("apdu")
    if name == "CPDLC-message request":
        return C.NO_MESSAGE if not p["message"] else C.REPEAT if p["job"] <= r.highest else C.PLAIN
    if name == "timer expires":
        return C.PLAIN if r.timer else C.TIMER_STOPPED
    if name == "D-START indication":
        if not (p["priority"] == 1 and p["rate"] == 1 and p["class"] <= 8):
            return C.WRONG_QUALITY
        return C.WRONG_SECURITY if p["security"] != r.policy and not r.plain else pdu_first(a, start_condition(side, r, p))
    if name == "D-START confirmation":
        if p["result"] == 2 or p["source"] == 1:
            return C.TURNED_AWAY
        if p["security"] != r.request and not r.plain:
            return C.WRONG_SECURITY
        may = r.plain and r.state != model.FWD
        sent = C.OTHER_PDU if may and p["result"] == 0 else C.SEND
        return pdu_first(a, {"send": sent, "forward response": C.RESPONSE}.get(kind_of(a), C.OTHER_PDU), may)
    if name in ("D-DATA indication", "D-END indication", "D-END confirmation"):
        return pdu_first(a, C.SEND if kind_of(a) == "send" else C.OTHER_PDU, r.plain and name != "D-DATA indication")
    if name == "D-ABORT indication":
        return {(0, "abort user"): C.ABORT_OF_USER, (1, "abort provider"): C.ABORT_OF_PROVIDER}.get((p["originator"], kind_of(a)), C.OTHER_PDU)
    return C.PLAIN


# ---- what the columns say is done

def after(code, old):
    return old if code == C.AS_IS else code == C.YES


def invokes(r, p, row):
    """the dialogue-service primitive and its APDU"""
    class_, security, result = p.get("class"), 0 if r.plain else p.get("security"), p.get("result")
    policy, held = 0 if r.plain else r.policy, None if r.plain and not p.get("message", True) else ("send",)
    aborted = p.get("reason", 0) if p.get("given") else 0
    return {
        C.SILENT: (None, None),
        C.START_OUT: (("D-START request", 1, 1, class_, security), ("start", "cpdlc")),
        C.DSC_START_OUT: (("D-START request", 1, 1, class_, security), ("start", "dsc")),
        C.START_ANSWER: (("D-START response", result, policy), held),
        C.DATA_OUT: (("D-DATA request",), ("send",)),
        C.END_OUT: (("D-END request",), held),
        C.END_ANSWER: (("D-END response", result), held),
        C.ABORT_BY_USER: (("D-ABORT request", 0), ("abort user", aborted)),
        C.ABORT_BY_PROVIDER: (("D-ABORT request", 1), ("abort provider", row.reason)),
        C.FORWARD_OUT: (("D-START request", 1, 1, class_, security, r.version), ("forward",)),
        C.FORWARD_ANSWER: (("D-START response", 1, security, 0), ("forward response", row.reason)),
        C.FORWARD_ANSWER_WITH_VERSION: (("D-START response", 1, security, r.version), ("forward response", row.reason)),
    }[row.sends]


def indication(r, p, row):
    kind, a = "DSC" if r.dsc else "CPDLC", p.get("apdu")
    number = a[1] if isinstance(a, tuple) and len(a) == 2 else None
    by = "user" if kind_of(a or "") == "abort user" else "provider"
    primitive = {
        C.UNTOLD: None,
        C.START_INDICATION: ("CPDLC-start indication", p.get("class")),
        C.DSC_START_INDICATION: ("DSC-start indication", p.get("class")),
        C.START_CONFIRMATION: (kind + "-start confirmation", p.get("result")),
        C.MESSAGE_INDICATION: ("CPDLC-message indication",),
        C.END_INDICATION: (kind + "-end indication",),
        C.END_CONFIRMATION: (kind + "-end confirmation", p.get("result")),
        C.ABORT_OF_PDU: ("CPDLC-%s-abort indication" % by, number),
        C.ABORT_FOR: ("CPDLC-provider-abort indication", row.why),
        C.FORWARD_INDICATION: ("CPDLC-forward indication",),
        C.FORWARD_CONFIRMATION: ("CPDLC-forward confirmation", number, p.get("version")),
    }[row.tells]
    return primitive if r.active or not if_active(row) else None


def if_active(row):
    """an abort is told to an active user only"""
    return row.tells in (C.ABORT_OF_PDU, C.ABORT_FOR)


def hands(row):
    """message data is delivered"""
    return C.START_INDICATION <= row.tells <= C.END_CONFIRMATION


def outcome(r, ev, row):
    p, n = ev[1], copy(r)
    if row.next != C.STAYS:
        n.state = model.STATES[row.next]
    n.dsc, n.timer, n.active = after(row.next_dsc, r.dsc), after(row.timer, r.timer), after(row.user, r.active)
    if row.keeps == C.JOB:
        n.highest = p["job"]
    if row.keeps == C.SECURITY:
        n.request = 0 if r.plain else p["security"]
    o = model.Out(n, row.refusal)
    o.ds, o.apdu = invokes(r, p, row)
    o.user, o.data = indication(r, p, row), hands(row)
    return o


@functools.lru_cache(None)
def walk(side, state, dsc, t, k):
    """the first row that fits"""
    return next(row for row in ROWS if row.fits(side, state, dsc, t, k))


def first(side, r, ev):
    return walk(side, model.STATES.index(r.state), r.dsc, title(ev), condition(side, r, ev))


def step(side, r, ev):
    if not model.shape(ev, ("cpdlc", "dsc") if side == "air" else ("cpdlc",), r):
        return model.refuse(r, 2)
    return outcome(r, ev, first(side, r, ev))


if __name__ == "__main__":
    if sys.argv[1:] == ["plain"]:
        model.table(step, plain=True)
    else:
        model.table(step)
        model.jobs(step)
