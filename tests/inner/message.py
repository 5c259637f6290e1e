"""The CPDLC message as the documents have it: Doc 9705 2.3.4.3, X.691, and document 01's refusals; and as the host keeps it.

A message is a dict: id, ref (None: no reference), date (year, month, day, hours, minutes, seconds), ack (whether a logical
acknowledgement is required), elements: (number, argument). An argument is, by its type: None; a level; two levels; (hours,
minutes); four digits; characters as bytes (a facility that is none: None). A level is one (unit, number), or two for a
block, with the number as a pilot says it.
"""
import sys
from pathlib import Path

HERE = Path(__file__).resolve().parent
sys.path.insert(0, str(HERE.parent / "fields"))
import reference as per  # noqa: E402
from reference import Refused  # noqa: E402

ROOM, SHAPE = 1, 2
TAIL, NOT_CARRIED, DEFAULT = 15, 16, 17
DOWNLINK, UPLINK = 1, 2
MOST_BITS, LEAST_BUFFER = 16383, 2112
BITS_COUNTED = 1 << 24   # a count of bits in an answer; a count of characters is 256 times

CARRIED = ("NULL", "Level", "LevelLevel", "Time", "Code", "FreeText", "Facility", "FacilityDesignation", "ATISCode")
UNITS = ((-60, 7000), (-30, 25000), (30, 700), (100, 2500))     # feet, metres, flight level, metric flight level
DATE = ((1996, 2095), (1, 12), (1, 31), (0, 23), (0, 59), (0, 59))
TIME = DATE[3:5]
SIZES = {"FreeText": (1, 256), "FacilityDesignation": (4, 8), "Facility": (4, 8), "ATISCode": (1, 1)}


class Shape(Exception):
    pass


def listed(direction):
    """The argument type of each element that has an index, in order (tests/elements has the lists of the pages)."""
    name = {DOWNLINK: "downlink", UPLINK: "uplink"}[direction]
    rows = [line.split() for line in (HERE.parent / "elements" / (name + ".txt")).read_text().splitlines() if line and line[0] != "#"]
    assert [int(row[0]) for row in rows] == list(range(len(rows)))
    return [row[2] for row in rows if len(row) == 3]


TYPES = {direction: listed(direction) for direction in (DOWNLINK, UPLINK)}
assert (len(TYPES[DOWNLINK]), len(TYPES[UPLINK])) == (114, 237)


def carried(direction, number):
    """The argument type, or None where the element is not carried or there is none."""
    kind = TYPES[direction][number] if number < len(TYPES[direction]) else None
    return kind if kind in CARRIED else None


# ---- bits to a message

class Reader:
    """Reads field by field. `refused` names the field of a refusal, for the count of what the questions meet."""

    def __init__(self, bits):
        self.bits, self.at, self.refused = bits, 0, None

    def field(self, name, read, *parameters):
        try:
            value, self.at = read(self.bits, self.at, *parameters)
        except Refused as why:
            if name:
                self.refused = name, why.number
            raise
        return value

    def refuse(self, name, number, at):
        self.refused = name, number
        raise Refused(number, at)

    def whole(self, name, lo, hi):
        return self.field(name, per.whole, lo, hi)

    def level(self):
        return tuple((unit, self.whole("level", *UNITS[unit])) for unit in (self.whole("unit", 0, 3) for _ in range(1 + self.whole("level or block", 0, 1))))

    def text(self, kind, lo, hi):
        count = self.whole(f"size of {kind}", lo, hi) if lo < hi else lo
        begin = self.at
        self.field(kind, per.contents, 7, 0, count)
        return bytes(int(self.bits[begin + 7 * i:begin + 7 * i + 7], 2) for i in range(count))

    def argument(self, kind):
        if kind == "NULL":
            return None
        if kind == "Level":
            return self.level()
        if kind == "LevelLevel":
            return self.level(), self.level()
        if kind == "Time":
            return tuple(self.whole(name, *r) for name, r in zip(("hours", "minutes"), TIME))
        if kind == "Code":
            return tuple(self.whole("digit", 0, 7) for _ in range(4))
        if kind == "Facility" and self.whole("facility or none", 0, 1) == 0:
            return None
        return self.text(kind, *SIZES[kind])

    def element(self, direction):
        self.field("extension bit", per.extension_bit)
        begin = self.at
        number = self.whole("index", 0, len(TYPES[direction]) - 1)
        kind = carried(direction, number)
        if kind is None:
            self.refuse("index", NOT_CARRIED, begin)
        return number, self.argument(kind)

    def message(self, direction):
        m = {}
        has_ref, has_ack = divmod(self.field("presence bits", per.bit_field, 2), 2)
        m["id"] = self.whole("identification", 0, 63)
        m["ref"] = self.whole("reference", 0, 63) if has_ref else None
        m["date"] = tuple(self.whole(name, *r) for name, r in zip(DATE_NAMES, DATE))
        m["ack"] = bool(has_ack)
        begin = self.at
        if has_ack and self.whole("acknowledgement", 0, 1) == 1:    # required 0, notRequired 1, DEFAULT notRequired
            self.refuse("acknowledgement", DEFAULT, begin)
        begin = self.at
        if self.field("presence of constrained data", per.bit_field, 1):
            self.refuse("presence of constrained data", NOT_CARRIED, begin)
        m["elements"] = [self.element(direction) for _ in range(self.whole("count of elements", 1, 5))]
        if self.at != len(self.bits):
            self.refuse("bits left over", TAIL, self.at)
        return m


DATE_NAMES = ("year", "month", "day", "hours", "minutes", "seconds")


def decode(direction, bits):
    return Reader(bits).message(direction)


def fault_of(direction, bits):
    """The field and the number of the refusal, or None."""
    reader = Reader(bits)
    try:
        reader.message(direction)
    except Refused:
        return reader.refused
    return None


def expected():
    """Each field with the refusals that it can have: SHORT at every one, RANGE where its bits hold more than its range."""
    wide = ("year", "month", "day", "hours", "minutes", "seconds", "count of elements", "index", "level", "size of FacilityDesignation", "size of Facility")
    exact = ("presence bits", "identification", "reference", "acknowledgement", "presence of constrained data", "extension bit", "unit", "level or block", "digit",
             "facility or none", "size of FreeText", "FreeText", "FacilityDesignation", "Facility", "ATISCode")
    pairs = {(name, per.SHORT) for name in wide + exact} | {(name, per.RANGE) for name in wide}
    return pairs | {("extension bit", per.EXTENSION), ("index", NOT_CARRIED), ("presence of constrained data", NOT_CARRIED), ("acknowledgement", DEFAULT), ("bits left over", TAIL)}


# ---- a message to bits

def put(lo, hi, value):
    try:
        return per.put_whole(lo, hi, value, "")
    except per.Full:
        raise Shape from None


def put_level(level):
    return put(0, 1, len(level) - 1) + "".join(put(0, 3, unit) + put(*UNITS[unit], number) for unit, number in level)


def put_text(lo, hi, chars):
    return put(lo, hi, len(chars)) + "".join(put(0, 127, c) for c in chars)


def put_argument(kind, x):
    if kind == "NULL":
        return ""
    if kind == "Level":
        return put_level(x)
    if kind == "LevelLevel":
        return put_level(x[0]) + put_level(x[1])
    if kind == "Time":
        return "".join(put(*r, n) for r, n in zip(TIME, x))
    if kind == "Code":
        return "".join(put(0, 7, digit) for digit in x)
    if kind == "Facility":
        return "0" if x is None else "1" + put_text(*SIZES[kind], x)
    return put_text(*SIZES[kind], x)


def header_bits(m):
    ref = "" if m["ref"] is None else put(0, 63, m["ref"])
    return (str(int(ref != "")) + str(int(m["ack"])) + put(0, 63, m["id"]) + ref + "".join(put(*r, n) for r, n in zip(DATE, m["date"]))
            + ("0" if m["ack"] else ""))


def encode(direction, m):
    """The bits of a message, however many, or Shape."""
    out = [header_bits(m), "0", put(1, 5, len(m["elements"]))]
    for number, argument in m["elements"]:
        kind = carried(direction, number)
        if kind is None:
            raise Shape
        out += ["0", put(0, len(TYPES[direction]) - 1, number), put_argument(kind, argument)]
    return "".join(out)


# ---- the message range: where its bytes are (include/peatribbon.h)

FRONT, PLACE, PLACES = 12, 24, 5
BYTES = FRONT + PLACES * PLACE
LEVELS_AT, TIME_AT, CODE_AT = (3, 10), 17, 19


def two(n):
    return bytes((n >> 8 & 255, n & 255))


def kept_number(unit, number):
    """Feet and metres are counted from the lowest of their range."""
    return number - min(UNITS[unit][0], 0)


def lay_level(level):
    out = bytes([len(level) - 1])
    for unit, number in level:
        out += bytes([unit]) + two(kept_number(unit, number))
    return out.ljust(7, b"\0")


def lay(direction, m):
    """The message range and the text of a message whose elements are carried."""
    ref = (0, 0) if m["ref"] is None else (1, m["ref"])
    front = bytes((m["id"], *ref)) + two(m["date"][0]) + bytes(m["date"][1:]) + bytes((int(m["ack"]), len(m["elements"])))
    places, text = b"", b""
    for number, argument in m["elements"]:
        kind, p = carried(direction, number), bytearray(PLACE)
        p[0] = number
        levels = {"Level": [argument], "LevelLevel": argument}.get(kind, [])
        for at, level in zip(LEVELS_AT, levels):
            p[at:at + 7] = lay_level(level)
        if kind == "Time":
            p[TIME_AT:TIME_AT + 2] = bytes(argument)
        if kind == "Code":
            p[CODE_AT:CODE_AT + 4] = bytes(argument)
        if kind in SIZES and argument is not None:
            p[1:3] = two(len(argument))
            text += argument
        places += bytes(p)
    return (front + places).ljust(BYTES, b"\0"), text


def pick_level(b):
    if b[0] > 1 or b[1] > 3 or b[4] > 3 or (b[0] == 0 and any(b[4:7])):
        raise Shape
    raw = [(b[1], b[2] * 256 + b[3]), (b[4], b[5] * 256 + b[6])][:1 + b[0]]
    return tuple((unit, n + min(UNITS[unit][0], 0)) for unit, n in raw)


def pick(direction, b, text):
    """The message that a range and a text say, or Shape; numbers may be outside their types, which encode tells."""
    if len(b) != BYTES or b[1] > 1 or b[10] > 1 or (b[1] == 0 and b[2] != 0) or not 1 <= b[11] <= PLACES:
        raise Shape
    m = {"id": b[0], "ref": b[2] if b[1] else None, "date": (b[3] * 256 + b[4], *b[5:10]), "ack": b[10] == 1, "elements": []}
    for i in range(PLACES):
        p = bytearray(b[FRONT + PLACE * i:FRONT + PLACE * (i + 1)])
        if i >= b[11]:
            if any(p):
                raise Shape
            continue
        number, kind, argument = p[0], carried(direction, p[0]), None
        p[0] = 0
        if kind is None:
            raise Shape
        if kind in SIZES:
            count = p[1] * 256 + p[2]
            argument, text, p[1], p[2] = text[:count], text[count:], 0, 0
            if len(argument) != count:
                raise Shape
            if kind == "Facility" and count == 0:
                argument = None
        if kind in ("Level", "LevelLevel"):
            argument = []
            for at in LEVELS_AT[:1 + (kind == "LevelLevel")]:
                argument.append(pick_level(p[at:at + 7]))
                p[at:at + 7] = bytes(7)
            argument = argument[0] if kind == "Level" else tuple(argument)
        for name, at, size in (("Time", TIME_AT, 2), ("Code", CODE_AT, 4)):
            if kind == name:
                argument = tuple(p[at:at + size])
                p[at:at + size] = bytes(size)
        if any(p):                                              # what the kind does not use
            raise Shape
        m["elements"].append((number, argument))
    if text:
        raise Shape
    return m


# ---- the two calls

def packed(bits):
    return bytes(int(bits[i:i + 8].ljust(8, "0"), 2) for i in range(0, len(bits), 8))


def unpacked(data, count):
    return "".join(format(b, "08b") for b in data)[:count]


def read_call(direction, data, count, message_len, text_len):
    """(number, message range, text) or (refusal,): the refusal's number, and 256 times the place where bits are at fault"""
    if text_len < LEAST_BUFFER:
        return (ROOM,)
    if direction not in TYPES or message_len != BYTES or count > MOST_BITS or count > 8 * len(data):
        return (SHAPE,)
    try:
        message, text = lay(direction, decode(direction, unpacked(data, count)))
    except Refused as why:
        return (why.number + 256 * why.at,)
    return 256 * len(text), message, text


def write_call(direction, message, text, out_len):
    """(number, bytes) or (refusal,)"""
    if out_len < LEAST_BUFFER:
        return (ROOM,)
    try:
        if direction not in TYPES:
            raise Shape
        bits = encode(direction, pick(direction, message, text))
        if len(bits) > MOST_BITS:
            raise Shape
    except Shape:
        return (SHAPE,)
    return BITS_COUNTED * len(bits), packed(bits)
