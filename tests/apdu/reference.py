"""AircraftPDUs and GroundPDUs in unaligned PER, written down from the ASN.1 module (Doc 9705, 2.3.4.2), X.691 and document 01, apart from the card.

Bits are strings of 0 and 1. An APDU is a tuple: ("abort-user", reason), ("abort-provider", reason), ("start", mode, data), ("send", data),
("forward", forward), ("forward-response", result); data is (identifier or None, message or None, check), each the bits of its contents; forward is
(year, month, day, hours, minutes, seconds, characters of the flight identification, address, direction, the message's bits). Additions from a later edition
are a list, the octets of each or None for one that is absent; no additions are an empty list.
"""

AIR, GROUND = 0, 1
LAST = {AIR: 3, GROUND: 5}
INDEX = {"abort-user": 0, "abort-provider": 1, "start": 2, "send": 3, "forward": 4, "forward-response": 5}
USER, PROVIDER, RESULT = 12, 7, 2           # last reasons, last result of a forward
LIMITS = {"identifier": (8, 1, 16), "message": (1, 0, 16383), "check": (1, 0, 64)}       # bits of an item, least, most
ROOM = 2112
# what stands first in a forward message, and the count of the flight identification's characters: least and last value
NUMBERS = (("year", 1996, 2095), ("month", 1, 12), ("day", 1, 31), ("hours", 0, 23), ("minutes", 0, 59), ("seconds", 0, 59), ("count of characters", 2, 8))
SHORT, RANGE, EXTENSION, LENGTH_FORM, LIMIT, TAIL, DEFAULT = 10, 11, 12, 13, 14, 15, 17


class Refused(Exception):
    """A number, the bit at which its field begins, and which field it is."""

    def __init__(self, number, at, field):
        super().__init__(number, at, field)
        self.number, self.at, self.field = number, at, field

    def __str__(self):
        return f"refused {self.number} at {self.at}"


def binary(value, width):
    return format(value, "b").zfill(width) if width else ""


# ---- writing

def length(n):
    if n < 128:
        return binary(n, 8)
    assert n < 16384
    return "10" + binary(n, 14)


def string(bits, unit):
    """From 16,384 items on it comes in fragments (X.691, 11.9.3.8): here the first of 16,384, and the rest behind a length of its own."""
    most = 16384 * unit
    if len(bits) >= most:
        return "11" + binary(1, 6) + bits[:most] + string(bits[most:], unit)
    return length(len(bits) // unit) + bits


def additions_bits(additions):
    """X.691, 19.7 to 19.9: one less than their count behind a bit 0, which of them are there, and each with its length in octets."""
    assert 1 <= len(additions) <= 64
    there = "".join("0" if a is None else "1" for a in additions)
    return "0" + binary(len(additions) - 1, 6) + there + "".join(string(unpacked(a), 8) for a in additions if a is not None)


def data_bits(data, additions=()):
    identifier, message, check = data
    bits = ("1" if additions else "0") + ("0" if identifier is None else "1") + ("0" if message is None else "1")
    if identifier is not None:
        bits += string(identifier, 8)
    if message is not None:
        bits += string(message, 1)
    return bits + string(check, 1) + (additions_bits(additions) if additions else "")


def flight_number(characters):
    """The characters as one number, seven bits each, the first on top."""
    return int("".join(binary(ord(c), 7) for c in characters) or "0", 2)


def forward_bits(forward):
    *numbers, characters, address, direction, message = forward
    bits = "".join(binary(v - low, (high - low).bit_length()) for v, (_, low, high) in zip(numbers + [len(characters)], NUMBERS))
    return bits + "".join(binary(ord(c), 7) for c in characters) + binary(address, 24) + binary(direction, 1) + string(message, 1)


def pdu_bits(side, pdu, additions=()):
    bits = "0" + binary(INDEX[pdu[0]], LAST[side].bit_length())
    if pdu[0] == "abort-user":
        return bits + "0" + binary(pdu[1], 4)
    if pdu[0] == "abort-provider":
        return bits + "0" + binary(pdu[1], 3)
    if pdu[0] == "start":
        if side == AIR:
            bits += "0" if pdu[1] == 0 else "1" + binary(pdu[1], 1)
        return bits + data_bits(pdu[2], additions)
    if pdu[0] == "forward":
        return bits + forward_bits(pdu[1])
    if pdu[0] == "forward-response":
        return bits + "0" + binary(pdu[1], 2)
    return bits + data_bits(pdu[1], additions)


def packed(bits):
    return b"".join(int(bits[i:i + 8].ljust(8, "0"), 2).to_bytes(1, "big") for i in range(0, len(bits), 8))


def unpacked(data):
    return "".join(binary(b, 8) for b in data)


# ---- reading: the fault that is met first in bit order

class Bits:
    COUNTED_FROM = 1                        # a count of additions of 0 says so many

    def __init__(self, bits):
        self.bits, self.at, self.begin, self.field = bits, 0, 0, ""
        self.additions, self.mark, self.root_end = [], 0, 0

    def begins(self, field):
        """A field begins: what is refused before the next one begins is refused here."""
        self.begin, self.field = self.at, field

    def refuse(self, number):
        raise Refused(number, self.begin, self.field)

    def take(self, count):
        if self.at + count > len(self.bits):
            self.refuse(SHORT)
        self.at += count
        return self.bits[self.at - count:self.at]

    def number(self, count):
        return int(self.take(count) or "0", 2)

    def extension(self, of):
        self.begins(f"extension bit of {of}")
        if self.number(1):
            self.refuse(EXTENSION)

    def index(self, last, of):
        self.extension(of)
        self.begins(of)
        value = self.number(last.bit_length())
        if value > last:
            self.refuse(RANGE)
        return value

    def length(self, of):
        self.begins(f"length of {of}")
        first = self.number(8)
        if first < 128:
            return first
        if first >= 192:
            self.refuse(LENGTH_FORM)
        count = (first - 128) * 256 + self.number(8)
        if count < 128:
            self.refuse(LENGTH_FORM)
        return count

    def part(self, name):
        """Where its contents begin, and their count."""
        unit, least, most = LIMITS[name]
        count = self.length(name)
        if not least <= count <= most:
            self.refuse(LIMIT)
        self.begins(name)
        at = self.at
        self.take(unit * count)
        return at, count

    def stepped_over(self):
        """Additions from a later edition, each stepped over by its length."""
        self.begins("count of additions")
        if self.number(1):
            self.refuse(EXTENSION)          # the long form, by its first bit alone
        count = self.number(6) + self.COUNTED_FROM
        self.begins("presence of additions")
        there = self.take(count)
        if "1" not in there:
            self.refuse(EXTENSION)
        for mark in there:
            octets = self.length("an addition") if mark == "1" else None
            self.begins("an addition")
            self.additions.append(None if octets is None else packed(self.take(8 * octets)))

    def data(self):
        self.begins("extension bit of message data")
        self.mark = self.at
        extended = self.number(1)
        self.begins("presence bits")
        there = self.number(2)
        identifier = self.part("identifier") if there & 2 else None
        message = self.part("message") if there & 1 else None
        check = self.part("check")
        self.root_end = self.at
        if extended:
            self.stepped_over()
        return identifier, message, check

    def between(self, name, low, high):
        self.begins(name)
        value = self.number((high - low).bit_length())
        if value > high - low:
            self.refuse(RANGE)
        return low + value

    def forward(self):
        """Its numbers: year to seconds, the count of characters, they as one number, address, direction; and the message's place."""
        numbers = [self.between(*n) for n in NUMBERS]
        for name, width in (("characters", 7 * numbers[-1]), ("address", 24), ("direction", 1)):
            self.begins(name)
            numbers.append(self.number(width))
        return tuple(numbers), self.part("message")

    def tail(self):
        """The first padding bit that is 1; where there is none, the first bit of the bytes that follow, whatever they are."""
        while self.at % 8:
            self.begins("padding")
            if self.number(1):
                self.refuse(TAIL)
        self.begins("bytes behind")
        if self.at < len(self.bits):
            self.refuse(TAIL)


def read(side, data):
    """The APDU with places for its parts: ("send", (identifier, message, check)), each (at, count) or None."""
    return read_bits(side, Bits(unpacked(data)))


def read_bits(side, bits):
    index = bits.index(LAST[side], "alternative")
    kind = next(k for k, i in INDEX.items() if i == index)
    if kind == "abort-user":
        pdu = (kind, bits.index(USER, "user reason"))
    elif kind == "abort-provider":
        pdu = (kind, bits.index(PROVIDER, "provider reason"))
    elif kind == "start":
        mode = 0
        if side == AIR:
            bits.begins("presence of mode")
            if bits.number(1):
                bits.begins("mode")
                mode = bits.number(1)
                if mode == 0:
                    bits.refuse(DEFAULT)
        pdu = (kind, mode, bits.data())
    elif kind == "send":
        pdu = (kind, bits.data())
    elif kind == "forward":
        pdu = (kind,) + bits.forward()
    else:
        pdu = (kind, bits.index(RESULT, "result"))
    bits.tail()
    return pdu


def shown(side, data):
    """The answer of the probe."""
    try:
        pdu = read(side, data)
    except Refused as refused:
        return str(refused)
    words = [pdu[0]]
    if pdu[0] == "forward":
        return " ".join(words + [str(n) for n in pdu[1]] + ["%d:%d" % pdu[2]])
    for x in pdu[1:]:
        words += [str(x)] if isinstance(x, int) else ["-" if p is None else "%d:%d" % p for p in x]
    return " ".join(words)


def stripped(side, data):
    """An accepted APDU with the additions gone, and these."""
    bits = Bits(unpacked(data))
    read_bits(side, bits)
    if not bits.additions:
        return data, []
    return packed(bits.bits[:bits.mark] + "0" + bits.bits[bits.mark + 1:bits.root_end]), bits.additions


# ---- which refusals can come at which field (document 01, "The numbers a refusal carries")

def expected():
    """Each pair of a field and a refusal that it can have. SHORT in whole bytes needs a field that a byte's end can cut."""
    pairs = {("extension bit of alternative", SHORT), ("alternative", RANGE), ("padding", TAIL), ("bytes behind", TAIL), ("mode", DEFAULT)}
    pairs |= {(f"extension bit of {of}", EXTENSION) for of in ("alternative", "user reason", "provider reason", "result")}
    pairs |= {("count of additions", SHORT), ("count of additions", EXTENSION), ("presence of additions", SHORT), ("presence of additions", EXTENSION)}
    pairs |= {("length of an addition", SHORT), ("length of an addition", LENGTH_FORM), ("an addition", SHORT)}
    pairs |= {("user reason", RANGE), ("user reason", SHORT), ("result", RANGE)}
    pairs |= {(name, SHORT) for name in ("year", "day", "hours", "seconds", "characters", "address", "direction")}
    pairs |= {(name, RANGE) for name in ("year", "month", "day", "hours", "minutes", "seconds", "count of characters")}
    for name in LIMITS:
        pairs |= {(f"length of {name}", SHORT), (f"length of {name}", LENGTH_FORM), (f"length of {name}", LIMIT), (name, SHORT)}
    return pairs - {("length of message", LIMIT)}   # a length that two bytes say is within it
