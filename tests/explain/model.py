"""What the program `explain` prints of a line, worked out from the documents: the fields by tests/fields's readers, which know nothing of the card, and the
refusals by tests/apdu's, tests/plain's and tests/inner's models."""
import importlib.util
import sys
from pathlib import Path

TESTS = Path(__file__).resolve().parent.parent


def load(name, path, **beside):
    """A module of another test, with the modules that it finds beside it: two tests have a module of one name."""
    spec = importlib.util.spec_from_file_location(name, path)
    module = importlib.util.module_from_spec(spec)
    before = {word: sys.modules.get(word) for word in beside}
    sys.modules.update(beside)
    spec.loader.exec_module(module)
    sys.modules.update({word: was for word, was in before.items() if was is not None})
    return module


pdus = load("apdu_reference", TESTS / "apdu" / "reference.py")
sys.path.insert(0, str(TESTS / "inner"))
import message as cpdlc  # noqa: E402
plain = load("plain_reference", TESTS / "plain" / "plain.py")
per = cpdlc.per

NAMES = {10: "SHORT", 11: "RANGE", 12: "EXTENSION", 13: "LENGTH-FORM", 14: "LIMIT", 15: "TAIL", 16: "NOT-CARRIED", 17: "DEFAULT"}
NOT_READ = "not read: a line is `air BYTES`, `ground BYTES`, `air2 BYTES`, `ground2 BYTES`, `down COUNT BYTES` or `up COUNT BYTES`"
# the numbers of feet and metres are counted from the lowest
LEVELS = ((0, 7060), (0, 25030), (30, 700), (100, 2500))


class Rows:
    """Fields one after another, a line for each that has a bit."""

    def __init__(self, bits):
        self.bits, self.at, self.lines = bits, 0, []

    def field(self, name, read, *parameters):
        value, after = read(self.bits, self.at, *parameters)
        if after > self.at:
            width = after - self.at
            self.lines.append(f"bit {self.at}, {width} bit{'' if width == 1 else 's'}: {name} {value}")
        self.at = after
        return value

    def whole(self, name, lo, hi):
        return self.field(name, per.whole, lo, hi)

    def extension(self):
        self.field("extension bit", per.extension_bit)

    def string(self, name, unit, least, most):
        count = self.field(f"length of the {name}", per.length_within, least, most)
        self.field(name, per.contents, unit, 0, count)

    # ---- an APDU

    def additions(self):
        count = self.field("count of additions", per.addition_count)
        there = self.field("presence of additions", per.additions_there, count)
        for _ in range(bin(there).count("1")):
            octets = self.field("length of an addition", per.length)
            self.field("addition", per.contents, 8, 0, octets)

    def data(self):
        extended = self.field("extension bit", per.bit_field, 1)
        there = self.field("presence bits", per.bit_field, 2)
        if there & 2:
            self.string("identifier", 8, 1, 16)
        if there & 1:
            self.string("message", 1, 0, 16383)
        self.string("check", 1, 0, 64)
        if extended:
            self.additions()

    def sent(self, side, of_two):
        """What a send holds: message data, or in type 2 a message in place."""
        if of_two:
            self.message(plain.SENT[side])
        else:
            self.data()

    def started(self, side, of_two):
        if not of_two:
            self.data()
        elif self.field("message or none", per.bit_field, 1):
            self.message(plain.SENT[side])

    def apdu(self, side, of_two):
        self.extension()
        index = self.whole("alternative", 0, pdus.LAST[side])
        if index < 2:
            self.extension()
            self.whole(("reason of the user", "reason of the provider")[index], 0, (6 if of_two else 12, 7)[index])
        elif index == 2 and side == pdus.AIR and self.field("presence of the mode", per.bit_field, 1):
            if self.whole("mode", 0, 1):
                self.started(side, of_two)
        elif index == 2:
            self.started(side, of_two)
        elif index == 3:
            self.sent(side, of_two)
        elif index == 4:
            for name, low, high in pdus.NUMBERS:
                count = self.whole(name, low, high)
            self.field("characters", per.contents, 7, 0, count)
            self.field("address", per.contents, 1, 0, 24)
            direction = self.whole("direction", 0, 1)
            if of_two:
                self.body(plain.FORWARDED[direction])
            else:
                self.string("message", 1, 0, 16383)
        else:
            self.extension()
            self.whole("result of the forward", 0, 2)

    # ---- a message

    def level(self):
        for _ in range(1 + self.whole("level or block", 0, 1)):
            self.whole("level", *LEVELS[self.whole("unit", 0, 3)])

    def time(self):
        self.whole("hours", 0, 23)
        self.whole("minutes", 0, 59)

    def text(self, lo, hi):
        self.field("characters", per.contents, 7, 0, self.whole("size of the text", lo, hi) if lo < hi else lo)

    def argument(self, kind):
        if kind in ("Level", "LevelLevel"):
            for _ in range(1 + (kind == "LevelLevel")):
                self.level()
        elif kind == "Time":
            self.time()
        elif kind == "Code":
            for _ in range(4):
                self.whole("digit", 0, 7)
        elif kind in cpdlc.SIZES and (kind != "Facility" or self.whole("facility or none", 0, 1)):
            self.text(*cpdlc.SIZES[kind])

    def message(self, direction):
        there = self.whole("presence bits", 0, 3)
        self.whole("identification", 0, 63)
        if there & 2:
            self.whole("reference", 0, 63)
        for name, (lo, hi) in zip(("year", "month", "day"), cpdlc.DATE):
            self.whole(name, lo, hi)
        self.time()
        self.whole("seconds", 0, 59)
        if there & 1 and self.whole("acknowledgement", 0, 1):
            return
        self.body(direction)

    def body(self, direction):
        """What follows the header."""
        if self.whole("presence of constrained data", 0, 1):
            return
        for _ in range(self.whole("count of elements", 1, 5)):
            self.extension()
            kind = cpdlc.carried(direction, self.whole("element", 0, len(cpdlc.TYPES[direction]) - 1))
            if kind is None:
                return
            self.argument(kind)


def shown(rows, walk, verdict, data):
    """The lines of the fields, and what the verdict is: None, or a number and a bit."""
    try:
        walk()
    except per.Refused:
        pass
    if verdict is None:
        return rows.lines + ["accepted"]
    number, at = verdict
    byte, bit = divmod(at, 8)
    hexed = " ".join(f"{b:02x}" for b in data)
    return rows.lines + [f"refused {number} {NAMES[number]} at bit {at}: byte {byte}, bit {bit}", hexed, " " * (3 * byte + bit // 4) + "^"]


def explain_apdu(side, data, of_two):
    rows = Rows(pdus.unpacked(data))
    try:
        (plain if of_two else pdus).read(side, data)
        verdict = None
    except (plain.Refused, pdus.Refused) as why:
        verdict = why.number, why.at
    return shown(rows, lambda: rows.apdu(side, of_two), verdict, data)


def explain_message(direction, count, data):
    if count > cpdlc.MOST_BITS:
        return ["not read: a message has at most 16383 bits"]
    if count > 8 * len(data):
        return ["not read: more bits than the bytes hold"]
    bits = cpdlc.unpacked(data, count)
    rows = Rows(bits)
    try:
        cpdlc.decode(direction, bits)
        verdict = None
    except per.Refused as why:
        verdict = why.number, why.at
    return shown(rows, lambda: rows.message(direction), verdict, data)


def taken(text):
    """The bytes of hexadecimal digits with spaces, or None."""
    digits = text.replace(" ", "").replace("\r", "")
    if len(digits) % 2 or any(c not in "0123456789abcdefABCDEF" for c in digits):
        return None
    return bytes.fromhex(digits)


def explain(line):
    """Every line that is printed of a line."""
    for word, side, of_two in (("air ", pdus.AIR, False), ("ground ", pdus.GROUND, False), ("air2 ", pdus.AIR, True), ("ground2 ", pdus.GROUND, True)):
        if line.startswith(word):
            data = taken(line[len(word):])
            return [line] + ([NOT_READ] if data is None else explain_apdu(side, data, of_two))
    for word, direction in (("down ", cpdlc.DOWNLINK), ("up ", cpdlc.UPLINK)):
        if line.startswith(word):
            count, _, rest = line[len(word):].partition(" ")
            data = taken(rest)
            if any(c not in "0123456789" for c in count) or int(count or "0") > 99999 or data is None:
                return [line, NOT_READ]
            return [line] + explain_message(direction, int(count or "0"), data)
    return [line, NOT_READ]
