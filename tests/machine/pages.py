#!/usr/bin/env python3
"""Holds the rows and the model's machines to the state tables of Doc 9705 as they are printed (2.3.5-2 air, 2.3.5-3 ground), cell by cell.

A row of a page is written as it stands there: event, the DSC that it names (None: none), and a cell for each state, five at the air machine and six at the
ground machine. A cell is "cannot occur", "not permitted", or what the page has: next state, dialogue-service primitive, user primitive; the timer started
or stopped ("if set" is the same), DSC set; and whether "if active user" stands before the user primitive. Where a cell names DSC itself, it is a pair for
DSC false and true. A cell that another row of the same event has, with another PDU, is None.

1. Each cell is compared with what the model does, and with the row of crates/rows_engine/src/table.rt that fits. Timer and DSC are compared where a run
   has that DSC in that state.
2. The other way: a row that says nothing of the page is what a cell says; one marked CANNOT_OCCUR decides cells that say "cannot occur" or "not
   permitted", and no other; one marked ADDED decides no cell.
3. Where a page's row names a DSC and the page has none for the other one, an action of it has no counterpart there: refusal 3, or no instruction.
differing() lists the cells that differ; tools/rows writes them into docs/TABLE-CELLS.md. Ends with status 1 if a cell differs in another way than those
in EXPECTED, a mark is wrong, or a cell of the other DSC has another answer but those in ASKS_NO_DSC.
"""
import sys

import rows
from model import DLG, END, FORWARD, FWD, IDLE, IND, OWN, REQ, RESPONSE, SEND, START, START_DSC, STATES, STEP, made

X, NP = "cannot occur", "not permitted"


class Act:
    """what a cell has"""

    def __init__(self, state, ds=None, user=None, timer=None, dsc=None, active=False):
        self.state, self.ds, self.user, self.timer, self.dsc, self.active = state, ds, user, timer, dsc, active


def row(title, event, dsc, *cells, forwards=False):
    """forwards: at records that support forwarding"""
    return (title, event, dsc, cells, forwards)


def start_ind(peer, apdu, version=0):
    return ("D-START indication", {"peer": peer, "security": 0, "priority": 1, "rate": 1, "class": 0, "version": version, "apdu": apdu})


def start_cnf(result, apdu=SEND):
    return ("D-START confirmation", {"result": result, "source": 0, "security": 0, "version": 0, "apdu": apdu})


def end_cnf(result):
    return ("D-END confirmation", {"result": result, "apdu": SEND})


def rsp(name, result):
    return (name, {"result": result})


DATA, D_END = ("D-DATA indication", {"apdu": SEND}), ("D-END indication", {"apdu": SEND})
START_REQ, DSC_REQ = (("start request", {"mode": mode, "class": 0, "security": 0}) for mode in ("cpdlc", "dsc"))
MESSAGE = ("CPDLC-message request", {"message": True, "job": 8})
ABORT = ("CPDLC-user-abort request", {"given": True, "reason": 0})
D_USER = ("D-ABORT indication", {"originator": 0, "apdu": ("abort user", 0)})
D_PROV = ("D-ABORT indication", {"originator": 1, "apdu": ("abort provider", 0)})
P_ABORT, EXPIRES = ("D-P-ABORT indication", {}), ("timer expires", {})
UA, PA = "CPDLC-user-abort indication", "CPDLC-provider-abort indication"


def aborts(forward):
    """the abort events, which both tables have; forward: with the column FORWARD, whose cells do not speak of DSC"""

    def cells(**said):
        return [Act(IDLE, timer="stop" if s in (REQ, IND, FWD) else None, dsc=None if s == FWD else False, **said) for s in STATES[1:6 if forward else 5]]

    def expired(dsc):
        return Act(IDLE, "D-ABORT request", PA, dsc=dsc)

    return [
        row("CPDLC-user-abort request", ABORT, None, NP, *cells(ds="D-ABORT request")),
        row("D-ABORT user", D_USER, None, X, *cells(user=UA, active=True)),
        row("D-ABORT provider", D_PROV, None, X, *cells(user=PA, active=True)),
        row("D-P-ABORT", P_ABORT, None, X, *cells(user=PA, active=True)),
        row("T expires", EXPIRES, None, X, expired(False), X, X, X, *[expired(None)] * forward),
    ]


PAGES = {
    "air": [
        row("D-START indication, startup", start_ind(0, START), None, Act(IND, user="CPDLC-start indication"), X, X, X, X),
        row("D-START confirmation accepted", start_cnf(0), False, X, Act(DLG, user="CPDLC-start confirmation", timer="stop"), X, X, X),
        row("D-START confirmation rejected", start_cnf(1), False, X, Act(IDLE, user="CPDLC-start confirmation", timer="stop"), X, X, X),
        row("D-START confirmation accepted", start_cnf(0), True, X, Act(DLG, user="DSC-start confirmation", timer="stop"), X, X, X),
        row("D-START confirmation rejected", start_cnf(1), True, X, Act(IDLE, user="DSC-start confirmation", timer="stop", dsc=False), X, X, X),
        row("D-DATA indication", DATA, None, X, X, X, Act(DLG, user="CPDLC-message indication"), (X, Act(END, user="CPDLC-message indication"))),
        row("D-END indication", D_END, False, X, X, X, Act(END, user="CPDLC-end indication"), X),
        row("D-END confirmation accepted", end_cnf(0), True, X, X, X, X, Act(IDLE, user="DSC-end confirmation", dsc=False)),
        row("D-END confirmation rejected", end_cnf(1), True, X, X, X, X, Act(DLG, user="DSC-end confirmation")),
        row("CPDLC-start request", START_REQ, None, Act(REQ, "D-START request", timer="start"), NP, NP, NP, NP),
        row("CPDLC-start response accepted", rsp("CPDLC-start response", 0), False, NP, NP, Act(DLG, "D-START response"), NP, NP),
        row("CPDLC-start response rejected", rsp("CPDLC-start response", 1), False, NP, NP, Act(IDLE, "D-START response"), NP, NP),
        row("DSC-start request", DSC_REQ, None, Act(REQ, "D-START request", timer="start", dsc=True), NP, NP, NP, NP),
        row("CPDLC-message request", MESSAGE, None, NP, NP, NP, Act(DLG, "D-DATA request"), (Act(END, "D-DATA request"), NP)),
        row("CPDLC-end response accepted", rsp("CPDLC-end response", 0), False, X, X, X, NP, Act(IDLE, "D-END response")),
        row("CPDLC-end response rejected", rsp("CPDLC-end response", 1), False, X, X, X, NP, Act(DLG, "D-END response")),
        row("DSC-end request", ("DSC-end request", {}), True, NP, NP, NP, Act(END, "D-END request"), NP),
    ] + aborts(False),
    "ground": [
        row("D-START indication, mode cpdlc", start_ind(1, START), None, Act(IND, user="CPDLC-start indication"), X, X, X, X, X),
        row("D-START indication, mode dsc", start_ind(1, START_DSC), None, Act(IND, user="DSC-start indication", dsc=True), X, X, X, X, X),
        row("D-START indication, forward, version equal and supported", start_ind(0, FORWARD, OWN), None,
            Act(IDLE, "D-START response", "CPDLC-forward indication"), X, X, X, X, X, forwards=True),
        row("D-START indication, forward, version not equal", start_ind(0, FORWARD, OWN + 1), None, Act(IDLE, "D-START response"), X, X, X, X, X, forwards=True),
        row("D-START indication, forward, not supported", start_ind(0, FORWARD, OWN), None, Act(IDLE, "D-START response"), X, X, X, X, X),
        row("D-START confirmation accepted", start_cnf(0), False, X, Act(DLG, user="CPDLC-start confirmation", timer="stop"), X, X, X, X),
        row("D-START confirmation rejected", start_cnf(1), False, X, Act(IDLE, user="CPDLC-start confirmation", timer="stop"), X, X, X, None),
        row("D-START confirmation rejected", start_cnf(1, RESPONSE), False, None, None, None, None, None,
            Act(IDLE, user="CPDLC-forward confirmation", timer="stop")),
        row("D-DATA indication", DATA, None, X, X, X, Act(DLG, user="CPDLC-message indication"), (Act(END, user="CPDLC-message indication"), NP), X),
        row("D-END indication", D_END, True, X, X, X, Act(END, user="DSC-end indication"), X, X),
        row("D-END confirmation accepted", end_cnf(0), False, X, X, X, X, Act(IDLE, user="CPDLC-end confirmation"), X),
        row("D-END confirmation rejected", end_cnf(1), False, X, X, X, X, Act(DLG, user="CPDLC-end confirmation"), X),
        row("CPDLC-start request", START_REQ, None, Act(REQ, "D-START request", timer="start"), NP, NP, NP, NP, NP),
        row("CPDLC-start response accepted", rsp("CPDLC-start response", 0), False, NP, NP, Act(DLG, "D-START response"), NP, NP, NP),
        row("CPDLC-start response rejected", rsp("CPDLC-start response", 1), False, NP, NP, Act(IDLE, "D-START response"), NP, NP, NP),
        row("DSC-start response accepted", rsp("DSC-start response", 0), True, NP, NP, Act(DLG, "D-START response"), NP, NP, NP),
        row("DSC-start response rejected", rsp("DSC-start response", 1), True, NP, NP, Act(IDLE, "D-START response", dsc=False), NP, NP, NP),
        row("CPDLC-message request", MESSAGE, None, NP, NP, NP, Act(DLG, "D-DATA request"), (NP, Act(END, "D-DATA request")), NP),
        row("CPDLC-end request", ("CPDLC-end request", {}), False, NP, NP, NP, Act(END, "D-END request"), NP, NP),
        row("DSC-end response accepted", rsp("DSC-end response", 0), True, X, X, X, NP, Act(IDLE, "D-END response", dsc=False), NP),
        row("DSC-end response rejected", rsp("DSC-end response", 1), True, X, X, X, NP, Act(DLG, "D-END response"), NP),
        row("CPDLC-forward request", ("CPDLC-forward request", {"class": 0, "security": 0}), None, Act(FWD, "D-START request", timer="start"), NP, NP, NP, NP, NP),
    ] + aborts(True),
}
# the (state, DSC) that no run comes to
UNREACHED = {"air": {(IDLE, True), (IND, True)}, "ground": {(IDLE, True), (REQ, True), (FWD, True)}}
# how cells differ that have something else than "cannot occur": not permitted where the text aborts; no "if active user"
EXPECTED = {("ground", "D-DATA indication", END, True): "answered"} | {
    (side, "T expires", state, dsc): "if active" for side, state in (("air", REQ), ("ground", REQ), ("ground", FWD)) for dsc in (False, True)}
# cells of a row that names a DSC where the text asks for none (2.3.5.5.3.3)
ASKS_NO_DSC = {("ground", "D-START confirmation rejected", FWD)}


class Cell:
    """side, title, event, the DSC that its row names, state, DSC, what the page has, and the record that it is tried with"""

    def __init__(self, side, line, state, dsc, page):
        self.side, self.title, self.event, self.named, self.state, self.dsc, self.page = side, line[0], line[1], line[2], state, dsc, page
        self.record = made(state, dsc, True, forwards=line[4])
        self.row = rows.first(side, self.record, self.event)

    def place(self):
        return (self.side, self.title, self.state, self.dsc)


def cells():
    for side, page in PAGES.items():
        for line in page:
            for state, cell in zip(STATES, line[3]):
                for dsc in (False, True) if line[2] is None else (line[2],):
                    here = cell[dsc] if isinstance(cell, tuple) else cell
                    if here is not None:
                        yield Cell(side, line, state, dsc, here)


def what(o):
    return "refused %d" % o.refusal if o.refusal else (o.rec.state, o.ds and o.ds[0], o.user and o.user[0])


def differs(c, step):
    """How an engine's outcome differs from the cell: None where it does not."""
    o = step(c.side, c.record, c.event)
    if c.page == X:
        return "answered"
    if c.page == NP:
        return None if o.refusal == 3 else "answered"
    p = c.page
    if what(o) != (p.state, p.ds, p.user):
        return "otherwise"
    timer = {"start": True, "stop": False, None: c.record.timer}[p.timer] and c.event != EXPIRES    # a timer that has expired does not run
    dsc = c.dsc if p.dsc is None else p.dsc
    if (c.state, c.dsc) not in UNREACHED[c.side] and (o.rec.timer, o.rec.dsc) != (timer, dsc):
        return "timer or DSC"
    return None


def row_differs(c):
    """The same of the row that fits: also whether it tells an active user only."""
    found = differs(c, rows.step)
    if found is None and isinstance(c.page, Act) and rows.if_active(c.row) != c.page.active:
        return "if active"
    return found


def differing():
    """the cells that differ, each with how"""
    return [(c, how) for c, how in ((c, row_differs(c)) for c in cells()) if how]


def wrong_marks():
    """rows whose mark is not what the pages have"""
    C, decided = rows.C, {r.number: set() for r in rows.ROWS}
    for c in cells():
        decided[c.row.number].add("never" if c.page in (X, NP) else "action")
    found = []
    for r in rows.ROWS:
        right = C.PAGE if "action" in decided[r.number] else C.CANNOT_OCCUR if decided[r.number] else C.ADDED
        if r.mark != right:
            found.append((r.number, " + ".join(r.words), sorted(decided[r.number])))
    return found


def other_dsc():
    """cells of the DSC that a page's row does not name, where the page has no row for it: (how, place)"""
    for side, page in PAGES.items():
        for title, event, named, line, _ in page:
            if named is None or any(e == event and n == (not named) for _, e, n, *_ in page):
                continue
            for state, cell in zip(STATES, line):
                if isinstance(cell, Act):
                    said = what(STEP[side](made(state, not named, True), event))
                    alike = said == (cell.state, cell.ds, cell.user)
                    yield "refused" if said == "refused 3" else "aborted" if said == (IDLE, "D-ABORT request", PA) else "alike" if alike else "otherwise", (side, title, state)


def main():
    every, off = list(cells()), differing()
    by_model = {c.place() for c in every if differs(c, lambda side, r, ev: STEP[side](r, ev))}
    by_rows = {c.place() for c, how in off if how != "if active"}
    known = {c.place(): how for c, how in off if c.page != X}
    good = by_model == by_rows and known == EXPECTED
    for place in sorted(by_model ^ by_rows, key=str):
        print("model and rows differ in a cell:", place)
    for place, how in sorted(known.items(), key=str):
        print("differs:", *place, how)
    for number, words, decided in wrong_marks():
        good = False
        print("mark: row %d, %s: decides %s" % (number, words, ", ".join(decided) or "no cell"))
    beside = {"refused": 0, "aborted": 0, "alike": 0, "otherwise": 0}
    for how, place in other_dsc():
        beside[how] += 1
        good &= how != "otherwise" and (how == "alike") == (place in ASKS_NO_DSC)
    never = sum(c.page == X for c in every)
    print("%d cells agree, %d cannot occur, %d differ otherwise; of the other DSC %d are refused, %d aborted, %d alike; %d rows are on the pages" % (
        len(every) - len(off), never, len(known), beside["refused"], beside["aborted"], beside["alike"], sum(r.mark == rows.C.PAGE for r in rows.ROWS)))
    return 0 if good else 1


if __name__ == "__main__":
    sys.exit(main())
