#!/usr/bin/env python3
"""Asks the card's archive for the tables of model.py, of both application types, call by call (calls.c), and compares.

    archive.py COMMAND..    the command that runs calls.c; status 0 exactly if every line is the model's

A line of the table is left out where no APDU says what it has: a start in mode dsc of a ground end, a forward or its response of an aircraft. The APDUs that
arrive are those that the archive itself sends at the other end.
"""
import contextlib
import io
import subprocess
import sys

sys.dont_write_bytecode = True
import model  # noqa: E402
from model import BAD_PDU, DLG, FORWARD, IDLE, MISSING_PDU, OWN, RESPONSE, SEND, START, START_DSC, STATES, Rec  # noqa: E402

WHICH = ["start request", "CPDLC-start response", "DSC-start response", "CPDLC-message request", "CPDLC-end request", "DSC-end request", "CPDLC-end response",
         "DSC-end response", "CPDLC-user-abort request", "CPDLC-forward request", "timer expires", "system error", "D-START indication", "D-START confirmation",
         "D-DATA indication", "D-END indication", "D-END confirmation", "D-ABORT indication", "D-P-ABORT indication"]
CODES = {  # the codes of a call, by the names that the model has for them
    "start request": ["mode", "class", "security"], "CPDLC-message request": ["job"], "CPDLC-user-abort request": ["reason"],
    "CPDLC-forward request": ["class", "security"], "D-START indication": ["peer", "security", "priority", "rate", "class", "version"],
    "D-START confirmation": ["result", "source", "security", "version"], "D-ABORT indication": ["originator"]}
MODES = {"cpdlc": 0, "dsc": 1, "no mode": 2}
WHEN_AND_WHO = [2026, 11, 16, 12, 30, 0, 2, 65 * 128 + 66, 0x400123, 0]     # of a forward: date and time, flight AB, address, uplink
NONE, HELD = 2**64 - 1, 1                                                   # PEAT_NONE; the dialogue number that every record holds
USER_ABORT, PROVIDER_ABORT = ("abort user", 5), ("abort provider", 1)


PLAIN_BITS = {"air": 53, "ground": 54, "forward": 13}                       # of type 2: dM0, uM0, the elements of uM0


class Archive:
    def __init__(self, command, plain):
        self.program = subprocess.Popen(command, stdin=subprocess.PIPE, stdout=subprocess.PIPE, text=True)
        self.pdus, self.asked, self.left_out, self.plain = {}, 0, 0, plain
        self.learn()

    def message_bits(self, side, name, p):
        """The bits of the message that a call is given. In type 2 a response and an end have one where the model does not say that they have none."""
        forward = name == "CPDLC-forward request"
        if not self.plain:
            return 8 if p.get("message") or forward else NONE
        with_data = name.endswith(("response", "end request", "message request"))
        return PLAIN_BITS["forward" if forward else side] if forward or (with_data and p.get("message", True)) else NONE

    def call(self, side, r, ev, data=None):
        """data: the user data, "" for none. The fields that calls.c prints."""
        name, p = ev
        rec = bytes([(1 if side == "air" else 2) + (2 if self.plain else 0), STATES.index(r.state), r.dsc, r.timer, r.active, r.request, r.policy, r.forwards, r.version])
        rec += r.highest.to_bytes(8, "big") + HELD.to_bytes(8, "big")
        n = [MODES[p[c]] if c == "mode" else NONE if c == "reason" and not p["given"] else p[c] for c in CODES.get(name, ["result"] if "result" in p else [])]
        n += WHEN_AND_WHO if name == "CPDLC-forward request" else []
        brings = HELD + (name in ("start request", "CPDLC-forward request", "D-START indication"))
        message = self.message_bits(side, name, p)
        words = [WHICH.index(name), rec.hex(), brings, *(n + [0] * 12)[:12], message, int(bool(data)), data or "-"]
        self.program.stdin.write(" ".join(map(str, words)) + "\n")
        self.program.stdin.flush()
        self.asked += 1
        return self.program.stdout.readline().split()

    def learn(self):
        """the APDUs of both ends, as they send them"""
        for side in ("air", "ground"):
            idle, open_ = Rec(version=OWN, forwards=True), Rec(state=DLG, active=True, version=OWN)
            said = {
                START: (idle, ("start request", {"mode": "cpdlc", "class": 0, "security": 0})),
                SEND: (open_, ("CPDLC-message request", {"message": True, "job": 1})),
                USER_ABORT: (open_, ("CPDLC-user-abort request", {"given": True, "reason": 5})),
                PROVIDER_ABORT: (open_, ("system error", {}))}
            if side == "air":
                said[START_DSC] = (idle, ("start request", {"mode": "dsc", "class": 0, "security": 0}))
            else:
                said[FORWARD] = (idle, ("CPDLC-forward request", {"class": 0, "security": 0}))
            for pdu, (r, ev) in said.items():
                self.pdus[side, pdu] = self.call(side, r, ev)[-1]
        arrives = ("D-START indication", {"peer": 0, "security": 0, "priority": 1, "rate": 1, "class": 0, "version": OWN + 1})
        self.pdus["ground", RESPONSE] = self.call("ground", idle, arrives, self.pdus["ground", FORWARD])[-1]

    def user_data(self, side, r, ev):
        """the bytes of the PDU that an event has; None where no APDU says it"""
        name, p = ev
        pdu = p.get("apdu", MISSING_PDU)
        if pdu in (MISSING_PDU, BAD_PDU):
            return "" if pdu == MISSING_PDU else "ff"
        centre = name == "D-START indication" and p["peer"] == 0 or name == "D-START confirmation" and r.state == "FORWARD"
        return self.pdus.get(("ground" if side == "air" or centre else "air", pdu))

    def step(self, side, r, ev):
        """an outcome as the model has them; None where it cannot be asked"""
        data = self.user_data(side, r, ev)
        if data is None:
            self.left_out += 1
            return None
        fields = self.call(side, r, ev, data)
        rec = bytes.fromhex(fields[1])
        refusal, invoked, parameter, security, version, told, told_parameter, dsc, bits, kind, number = map(int, [fields[0]] + fields[2:12])
        after = Rec(STATES[rec[1]], bool(rec[2]), bool(rec[3]), bool(rec[4]), int.from_bytes(rec[9:17], "big"), rec[5], rec[6], bool(rec[7]), rec[8], rec[0] > 2)
        o = model.Out(after, refusal)
        if refusal:
            return o
        start = ("start", "dsc" if number else "cpdlc")
        o.apdu = [("abort user", number), ("abort provider", number), start, ("send",), ("forward",), ("forward response", number), *[None] * 4][kind]
        forwards = (version,) if o.apdu and o.apdu[0].startswith("forward") else ()
        o.ds = [None, ("D-START request", 1, 1, parameter, security) + forwards, ("D-START response", parameter, security) + forwards, ("D-DATA request",),
                ("D-END request",), ("D-END response", parameter), ("D-ABORT request", parameter)][invoked]
        service = "DSC" if dsc else "CPDLC"
        o.user = [None, (service + "-start indication", told_parameter), (service + "-start confirmation", told_parameter), ("CPDLC-message indication",),
                  (service + "-end indication",), (service + "-end confirmation", told_parameter), ("CPDLC-user-abort indication", told_parameter),
                  ("CPDLC-provider-abort indication", told_parameter), ("CPDLC-forward indication",), ("CPDLC-forward confirmation", told_parameter, version)][told]
        o.data = 1 <= told <= 5 if self.plain else bits > 0 and told != 8     # in type 2 the data may hold nothing
        return o


def ask(command, plain):
    """what to print, and whether every line is the model's"""
    archive, wrong, lines = Archive(command, plain), [], 0

    def both(side, r, ev):
        nonlocal lines
        o, m = archive.step(side, r, ev), model.step(side, r, ev)
        if o is not None:
            lines += 1
            if (model.cell(o), o.rec.key()) != (model.cell(m), m.rec.key()):
                wrong.append((side, vars(r), ev, model.cell(o), model.cell(m)))
        return m

    for side, _, r, ev in model.points(plain):
        both(side, r, ev)
    if not plain:
        with contextlib.redirect_stdout(io.StringIO()):
            model.jobs(both)
    for where in wrong[:5]:
        print("archive: %s %s %s\n  archive: %s\n  model:   %s" % where)
    archive.program.stdin.close()
    return "%d lines of the archive, %d that no APDU can say, %d differ" % (lines, archive.left_out, len(wrong)), not wrong and archive.program.wait() == 0


def main(command):
    (words, right), (plain_words, plain_right) = ask(command, False), ask(command, True)
    print(f"{words}; of type 2 {plain_words}")
    return 0 if right and plain_right else 1


if __name__ == "__main__":
    sys.exit(main(sys.argv[1:]))
