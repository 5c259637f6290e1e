"""Document 01's carrier between two ends of one application type, each as tests/machine/model.py has it: every schedule is walked, with lines of at most three
entries and two messages from each end in a dialogue, up to the end of one dialogue.

    pair.py [22 | mixed]    application type 2, or 22, or one end of each, of which nothing is promised: prints how many states there are; the status is 0 exactly if every
                            claim holds in each

The claims, in every state: an end that gets an entry does not answer it with an abort by the provider; what an end was handed is the beginning of what the other
end's user sent; where both lines are empty the two ends match: IDLE with IDLE, START-REQ with START-IND, DIALOGUE with DIALOGUE, END with END, the last two with
equal DSC.
"""
import importlib.util
import sys
from collections import deque
from pathlib import Path

sys.dont_write_bytecode = True
HERE = Path(__file__).resolve().parent
spec = importlib.util.spec_from_file_location("machines", HERE.parent / "machine" / "model.py")
machines = importlib.util.module_from_spec(spec)
spec.loader.exec_module(machines)
from_rec, IDLE, REQ, IND, DLG, END = machines.Rec, machines.IDLE, machines.REQ, machines.IND, machines.DLG, machines.END
SIDES = ("air", "ground")
OTHER = {"air": "ground", "ground": "air"}
MESSAGES, ENTRIES = 2, 3
MATCHES = {(IDLE, IDLE), (REQ, IND), (IND, REQ), (DLG, DLG), (END, END)}


class Wrong(Exception):
    pass


# A state: for each side its record's fields, the line that leaves it, what its user sent, what it was handed.
def fresh():
    end = (IDLE, False, False, False, 0)
    return (end, end, (), (), (), (), (), ())


def record(end, plain):
    state, dsc, timer, active, highest = end
    return from_rec(state, dsc, timer, active, highest, 0, 0, False, 1, plain)


def kept(r):
    return (r.state, r.dsc, r.timer, r.active, r.highest)


def arriving(sender, ds, apdu):
    """The primitive that the other end gets of one that was invoked."""
    name, *numbers = ds
    data = machines.MISSING_PDU if apdu is None else apdu
    if name == "D-START request":
        return "D-START indication", {"peer": 1 if sender == "air" else 0, "security": numbers[3], "priority": 1, "rate": 1, "class": numbers[2], "version": 0, "apdu": data}
    if name == "D-START response":
        return "D-START confirmation", {"result": numbers[0], "source": 0, "security": numbers[1], "version": 0, "apdu": data}
    if name == "D-DATA request":
        return "D-DATA indication", {"apdu": data}
    if name == "D-END request":
        return "D-END indication", {"apdu": data}
    if name == "D-END response":
        return "D-END confirmation", {"result": numbers[0], "apdu": data}
    return "D-ABORT indication", {"originator": numbers[0], "apdu": data}


def calls():
    for mode in ("cpdlc", "dsc"):
        yield "start request", {"mode": mode, "class": 0, "security": 0}
    for message in (True, False):
        for kind in ("CPDLC", "DSC"):
            for result in (0, 1):
                yield kind + "-start response", {"result": result, "message": message}
                yield kind + "-end response", {"result": result, "message": message}
            yield kind + "-end request", {"message": message}
    yield "CPDLC-user-abort request", {"given": True, "reason": 3}


def steps(state, plain):
    ends = dict(zip(SIDES, state[:2]))
    lines = dict(zip(SIDES, state[2:4]))
    sent = dict(zip(SIDES, state[4:6]))
    handed = dict(zip(SIDES, state[6:8]))

    def made(ends, lines, sent, handed):
        return tuple(ends[s] for s in SIDES) + tuple(lines[s] for s in SIDES) + tuple(sent[s] for s in SIDES) + tuple(handed[s] for s in SIDES)

    def after(side, o, lines, sent, handed):
        """What an outcome at a side leaves; a D-ABORT may lose the entries that its end sent earlier, the youngest first."""
        now = dict(ends, **{side: kept(o.rec)})
        if o.ds is None:
            yield made(now, lines, sent, handed)
            return
        entry = (o.ds, o.apdu)
        mine = lines[side]
        for left in range(len(mine) if o.ds[0] != "D-ABORT request" else 0, len(mine) + 1):
            line = mine[:left] + (entry,)
            if len(line) <= ENTRIES:
                yield made(now, dict(lines, **{side: line}), sent, handed)

    quiet = not any(lines.values()) and all(e[0] == IDLE for e in ends.values())
    for side in SIDES:
        r = record(ends[side], plain[side])
        for ev in calls():
            if ev[0] == "start request" and (not quiet or sent["air"] or sent["ground"] or handed["air"] or handed["ground"]):
                continue
            o = machines.step(side, r, ev)
            if not o.refusal:
                yield from after(side, o, lines, sent, handed)
        if len(sent[side]) < MESSAGES:
            job = len(sent[side]) + 1
            o = machines.step(side, r, ("CPDLC-message request", {"message": True, "job": job}))
            if not o.refusal:
                for n in after(side, o, lines, dict(sent, **{side: sent[side] + (job,)}), handed):
                    # the entry carries its message
                    line = list(n[2 + SIDES.index(side)])
                    line[-1] = (*line[-1], job)
                    yield n[:2 + SIDES.index(side)] + (tuple(line),) + n[3 + SIDES.index(side):]
        for ev in (("timer expires", {}), ("system error", {})):
            o = machines.step(side, r, ev)
            if not o.refusal:
                yield from after(side, o, lines, sent, handed)
        # the oldest entry is handed over
        if lines[side]:
            ds, apdu, *job = lines[side][0]
            rest = dict(lines, **{side: lines[side][1:]})
            to = OTHER[side]
            if ends[to][0] == IDLE and ds[0] != "D-START request":
                yield made(ends, rest, sent, handed)
            else:
                o = machines.step(to, record(ends[to], plain[to]), arriving(side, ds, apdu))
                if o.refusal or (o.ds and o.ds[0] == "D-ABORT request"):
                    raise Wrong(f"{to} answers {ds} {apdu} with {o.ds} {o.apdu} at {ends[to]}")
                got = dict(handed)
                if o.user == ("CPDLC-message indication",):
                    got[to] = handed[to] + (job[0],)
                    if sent[side][:len(got[to])] != got[to]:
                        raise Wrong(f"{to} was handed {got[to]} of {sent[side]}")
                yield from after(to, o, rest, sent, got)
        # the carrier removes an undelivered start and turns it away
        if ends[side][0] == REQ and lines[side] and lines[side][0][0][0] == "D-START request":
            o = machines.step(side, r, ("D-START confirmation", {"result": 2, "source": 1, "security": 0, "version": 0, "apdu": machines.MISSING_PDU}))
            yield from after(side, o, dict(lines, **{side: lines[side][1:]}), sent, handed)
    # the carrier fails
    broken = {s: kept(machines.step(s, record(ends[s], plain[s]), ("D-P-ABORT indication", {})).rec) if ends[s][0] != IDLE else ends[s] for s in SIDES}
    if broken != ends or any(lines.values()):
        yield made(broken, {"air": (), "ground": ()}, sent, handed)


def search(air, ground):
    """air, ground: is the end of application type 2"""
    plain = {"air": air, "ground": ground}
    begin = fresh()
    seen, more, spared = {begin}, deque([begin]), 0
    while more:
        state = more.popleft()
        (a, g), lines = state[:2], state[2:4]
        if not lines[0] and not lines[1] and ((a[0], g[0]) not in MATCHES or a[0] in (DLG, END) and a[1] != g[1]):
            raise Wrong(f"{a} and {g} do not match")
        spared += any(e[1] is None for line in lines for e in line)
        for n in steps(state, plain):
            # jobs and numbers of one dialogue: once both ends are IDLE again the walk ends
            if n not in seen:
                seen.add(n)
                more.append(n)
    return len(seen), spared


if __name__ == "__main__":
    try:
        count, spared = search(sys.argv[1:] != ["22"], sys.argv[1:] == [])
    except Wrong as why:
        sys.exit(f"pair: {why}")
    print(f"{count} states, {spared} with an entry without user data")
