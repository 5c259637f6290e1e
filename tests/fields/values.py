"""From a line of the stored vectors (VECTORS.md) to the fields of its value, in the order of their bits."""
import re

from reference import BIT_FIELD, EXTENSION_BIT, INDEX, LENGTH, LENGTH_WITHIN, LONGEST, MESSAGE, SIZED, STRING, WHOLE

LENGTHS = (0, LONGEST)


def bits_of(hexadecimal, count=None):
    """A string of '0' and '1' from hexadecimal bytes; `-` is none."""
    data = b"" if hexadecimal == "-" else bytes.fromhex(hexadecimal)
    return "".join(format(b, "08b") for b in data)[:count]


class Field:
    """One field of a value: a reader's op and parameters, the value, and the contents that follow a length.

    `also` are reads that begin at the same bit: (op, lo, hi, value); the reference answers them."""

    def __init__(self, op, lo, hi, value, contents="", unit=0, also=()):
        self.op, self.lo, self.hi, self.value = op, lo, hi, value
        self.contents, self.unit, self.also = contents, unit, also


def whole(lo, hi, value, also=()):
    return Field(WHOLE, max(lo, 0), hi - min(lo, 0), value - min(lo, 0), also=also)


def index(last, value):
    return whole(0, last, value)


def extensible(last, value):
    return Field(INDEX, 0, last, value)


def mark():
    return Field(EXTENSION_BIT, 0, 0, 0)


def presence(count, value):
    return Field(BIT_FIELD, count, 0, value)


def string(unit, contents, limits=LENGTHS):
    return Field(STRING, *limits, len(contents) // unit, contents, unit, ((LENGTH, 0, 0, 0), (LENGTH_WITHIN, *limits, 0)))


def octets(hexadecimal, limits=LENGTHS):
    return string(8, bits_of(hexadecimal), limits)


def counted_bits(text, limits=LENGTHS):
    count, _, hexadecimal = text.partition(":")
    return string(1, bits_of(hexadecimal, int(count)), limits)


def text(lo, hi, hexadecimal):
    chars = b"" if hexadecimal == "-" else bytes.fromhex(hexadecimal)
    return [whole(lo, hi, len(chars), ((SIZED, lo, hi, 7),))] + [Field(BIT_FIELD, 7, 0, c) for c in chars]


def pairs(value):
    return dict(part.split("=") for part in value.split(","))


def sequence(name, value):
    v = {k: None if x == "-" else int(x) for k, x in pairs(value).items()}
    if name == "Plain":
        return [whole(1, 31, v["p"]), presence(1, v["q"])]
    if name == "Shut":
        mode = [] if v["m"] == 0 else [index(1, 1)]
        return [presence(1, len(mode)), *mode, whole(0, 63, v["i"])]
    b = [] if v["b"] is None else [whole(1, 12, v["b"])]
    c = [] if v["c"] == 1 else [index(1, 0)]
    d = [] if v["d"] is None else [whole(0, 7, v["d"])]
    return [mark(), presence(3, 4 * len(b) + 2 * len(c) + len(d)), whole(0, 63, v["a"]), *b, *c, *d]


def protected(value):
    v = pairs(value)
    here = [k for k in ("id", "msg") if v[k] != "-"]
    out = [mark(), presence(2, 2 * ("id" in here) + ("msg" in here))]
    if "id" in here:
        out.append(octets(v["id"], (1, 16)))
    if "msg" in here:
        out.append(counted_bits(v["msg"], MESSAGE))
    return out + [counted_bits(v["check"], (0, 64))]


def date_time(value):
    numbers = [int(n) for n in value.split(".")]
    return [whole(lo, hi, n) for (lo, hi), n in zip(((1996, 2095), (1, 12), (1, 31), (0, 23), (0, 59), (0, 59)), numbers)]


def forward(value):
    v = pairs(value)
    way = "down" if "down" in v else "up"
    address = Field(BIT_FIELD, 24, 0, int(v["address"], 16))            # 24 bits of a fixed size: no length
    return date_time(v["date"]) + text(2, 8, v["aircraft"]) + [address, index(1, int(way == "down")), counted_bits(v[way])]


def apdu(value, alternatives):
    name, _, rest = value.partition(":")
    out = [extensible(len(alternatives) - 1, alternatives.index(name))]
    if name == "startdown":
        mode, _, rest = rest.partition(",")
        return out + ([presence(1, 0)] if mode == "mode=0" else [presence(1, 1), index(1, 1)]) + protected(rest)
    if name in ("startup", "send"):
        return out + protected(rest)
    if name == "forward":
        return out + forward(rest)
    return out + [extensible({"abortUser": 12, "abortProvider": 7, "forwardresponse": 2}[name], int(rest))]


LEVELS = ((-60, 7000), (-30, 25000), (30, 700), (100, 2500))


def level(value):
    parts = value.split("~")
    out = [index(1, len(parts) - 1)]
    for part in parts:
        kind, number = part.split(".")
        out += [index(3, int(kind)), whole(*LEVELS[int(kind)], int(number))]
    return out


def dotted(value, *ranges):
    return [whole(lo, hi, int(n)) for (lo, hi), n in zip(ranges, value.split("."))]


ARGUMENTS = {
    "Level": level,
    "LevelLevel": lambda v: [f for one in v.split("/") for f in level(one)],
    "Time": lambda v: dotted(v, (0, 23), (0, 59)),
    "Code": lambda v: dotted(v, (0, 7), (0, 7), (0, 7), (0, 7)),
    "FreeText": lambda v: text(1, 256, v),
    "Facility": lambda v: [index(1, 0)] if v == "none" else [index(1, 1)] + text(4, 8, v),
    "FacilityDesignation": lambda v: text(4, 8, v),
    "ATISCode": lambda v: text(1, 1, v),
    "NULL": lambda v: [],
}


def element_kinds(module):
    """{'u': [type by number], 'd': ..} from the module's own text, without what stands behind an extension marker."""
    found = {"u": [], "d": []}
    for letter, number, kind in re.findall(r"\b([ud])M(\d+)\w+ (\w+)", module):
        if (letter, number) != ("u", "237"):
            assert int(number) == len(found[letter])
            found[letter].append(kind)
    return found


def message(value, kinds):
    v = pairs(value)
    ref = [] if v["ref"] == "-" else [whole(0, 63, int(v["ref"]))]
    ack = [] if v["ack"] == "1" else [index(1, 0)]
    elements = v["elements"].split("+")
    out = [presence(2, 2 * len(ref) + len(ack)), whole(0, 63, int(v["id"])), *ref, *date_time(v["date"]), *ack]
    out += [presence(1, 0), whole(1, 5, len(elements))]
    for element in elements:
        number, argument = element.split(":")
        out += [extensible(len(kinds) - 1, int(number)), *ARGUMENTS[kinds[int(number)]](argument)]
    return out


GROUND = ("abortUser", "abortProvider", "startup", "send", "forward", "forwardresponse")
AIRCRAFT = ("abortUser", "abortProvider", "startdown", "send")


def fields_of(kind, params, value, elements):
    """The fields of a vector's value, in the order of their bits."""
    if kind in ("enum", "choice"):
        return [(extensible if params.endswith("+") else index)(int(params.rstrip("+")) - 1, int(value))]
    if kind in ("whole", "text", "counted"):
        lo, hi = (int(n) for n in params.split(".."))
        if kind == "whole":
            return [whole(lo, hi, int(value))]
        if kind == "text":
            return text(lo, hi, value)
        return [whole(lo, hi, value.count(".") + 1), *dotted(value, *[(0, 63)] * 5)]
    if kind in ("octets", "arcs"):
        return [octets(value, (1, 16) if kind == "arcs" else LENGTHS)]
    table = {
        "bool": lambda: [presence(1, int(value))],
        "bits": lambda: [counted_bits(value)],
        "digits": lambda: dotted(value, *[(0, 7)] * 4),
        "sequence": lambda: sequence(params, value),
        "GroundPDUs": lambda: apdu(value, GROUND),
        "AircraftPDUs": lambda: apdu(value, AIRCRAFT),
        "ProtectedUplinkMessage": lambda: protected(value),
        "ProtectedDownlinkMessage": lambda: protected(value),
        "ATCUplinkMessage": lambda: message(value, elements["u"]),
        "ATCDownlinkMessage": lambda: message(value, elements["d"]),
    }
    return table[kind]() if kind in table else ARGUMENTS[kind](value)
