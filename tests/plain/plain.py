"""AircraftPDUs and GroundPDUs of application type 2 in unaligned PER, written down from source document 004 (M-1, M-2, M-9, M-10), X.691 and document 01, apart
from the card. The message is that of tests/inner/message.py.

Bits are strings of 0 and 1. An APDU is a tuple: ("abort-user", reason), ("abort-provider", reason), ("start", mode, message or None), ("send", message),
("forward", forward), ("forward-response", result). A message is a dict of tests/inner/message.py; forward is (year, month, day, hours, minutes, seconds,
characters of the flight identification, address, direction, elements), with direction 0 for uplink elements and 1 for downlink elements.
"""
import importlib.util
import sys
from pathlib import Path

HERE = Path(__file__).resolve().parent
sys.path.insert(0, str(HERE.parent / "inner"))
import message as cpdlc  # noqa: E402

spec = importlib.util.spec_from_file_location("apdus", HERE.parent / "apdu" / "reference.py")
apdus = importlib.util.module_from_spec(spec)
spec.loader.exec_module(apdus)

AIR, GROUND = apdus.AIR, apdus.GROUND
USER = 6                                                        # the last user abort reason (004, M-1.1.1)
SENT = {AIR: cpdlc.DOWNLINK, GROUND: cpdlc.UPLINK}
FORWARDED = (cpdlc.UPLINK, cpdlc.DOWNLINK)                      # by the index of ForwardMessage
SHORT, RANGE, EXTENSION, TAIL, NOT_CARRIED, DEFAULT = 10, 11, 12, 15, 16, 17
Refused = cpdlc.Refused
binary, packed, unpacked = apdus.binary, apdus.packed, apdus.unpacked


# ---- writing

def elements_bits(direction, elements):
    """ATC..MessageData: no constrained data, the count, the elements."""
    whole = cpdlc.encode(direction, {"id": 0, "ref": None, "date": (1996, 1, 1, 0, 0, 0), "ack": False, "elements": elements})
    return whole[len(cpdlc.header_bits({"id": 0, "ref": None, "date": (1996, 1, 1, 0, 0, 0), "ack": False})):]


def forward_bits(forward):
    *heading, direction, elements = forward
    numbers, (characters, address) = heading[:6], heading[6:]
    bits = "".join(binary(v - low, (high - low).bit_length()) for v, (_, low, high) in zip(numbers + [len(characters)], apdus.NUMBERS))
    return bits + "".join(binary(ord(c), 7) for c in characters) + binary(address, 24) + binary(direction, 1) + elements_bits(FORWARDED[direction], elements)


def pdu_bits(side, pdu):
    bits = "0" + binary(apdus.INDEX[pdu[0]], apdus.LAST[side].bit_length())
    if pdu[0] in ("abort-user", "abort-provider"):
        return bits + "0" + binary(pdu[1], 3)
    if pdu[0] == "forward-response":
        return bits + "0" + binary(pdu[1], 2)
    if pdu[0] == "forward":
        return bits + forward_bits(pdu[1])
    if pdu[0] == "send":
        return bits + cpdlc.encode(SENT[side], pdu[1])
    if side == AIR:
        bits += "0" if pdu[1] == 0 else "1" + binary(pdu[1], 1)
    return bits + ("0" if pdu[2] is None else "1" + cpdlc.encode(SENT[side], pdu[2]))


# ---- reading: the fault that is met first in bit order

class Reader(cpdlc.Reader):
    """The message's reader, which begins anywhere and insists on no end; and the fields before it."""

    def index(self, name, last):
        self.field(f"extension bit of {name}", cpdlc.per.extension_bit)
        return self.whole(name, 0, last)

    def data(self, direction):
        begin = self.at
        if self.field("presence of constrained data", cpdlc.per.bit_field, 1):
            self.refuse("presence of constrained data", NOT_CARRIED, begin)
        return [self.element(direction) for _ in range(self.whole("count of elements", 1, 5))]

    def in_place(self, direction):
        m = {}
        has_ref, has_ack = divmod(self.field("presence bits", cpdlc.per.bit_field, 2), 2)
        m["id"] = self.whole("identification", 0, 63)
        m["ref"] = self.whole("reference", 0, 63) if has_ref else None
        m["date"] = tuple(self.whole(name, *r) for name, r in zip(cpdlc.DATE_NAMES, cpdlc.DATE))
        m["ack"] = bool(has_ack)
        begin = self.at
        if has_ack and self.whole("acknowledgement", 0, 1) == 1:
            self.refuse("acknowledgement", DEFAULT, begin)
        m["elements"] = self.data(direction)
        return m

    def heading(self):
        *numbers, count = (self.whole(name, low, high) for name, low, high in apdus.NUMBERS)
        begin = self.at
        self.field("flight identification", cpdlc.per.contents, 7, 0, count)
        characters = "".join(chr(int(self.bits[begin + 7 * i:begin + 7 * i + 7], 2)) for i in range(count))
        address = self.field("address", cpdlc.per.bit_field, 24)
        return (*numbers, characters, address, self.whole("direction", 0, 1))

    def pdu(self, side):
        kind = list(apdus.INDEX)[self.index("alternative", apdus.LAST[side])]
        if kind == "abort-user":
            return kind, self.index("reason", USER)
        if kind == "abort-provider":
            return kind, self.index("reason", apdus.PROVIDER)
        if kind == "forward-response":
            return kind, self.index("result", apdus.RESULT)
        if kind == "send":
            return kind, self.in_place(SENT[side])
        if kind == "forward":
            heading = self.heading()
            return kind, (*heading, self.data(FORWARDED[heading[-1]]))
        mode = 0
        if side == AIR and self.field("presence of mode", cpdlc.per.bit_field, 1):
            begin = self.at
            mode = self.whole("mode", 0, 1)
            if mode == 0:
                self.refuse("mode", DEFAULT, begin)
        return kind, mode, self.in_place(SENT[side]) if self.whole("message or none", 0, 1) else None


def read(side, data):
    """The APDU in whole bytes and how many bits it has, or Refused."""
    reader = Reader(unpacked(data))
    pdu = reader.pdu(side)
    end, byte = reader.at, 8 * -(-reader.at // 8)
    one = reader.bits.find("1", end, byte)
    if one >= 0 or len(reader.bits) > byte:
        reader.refuse("padding", TAIL, one if one >= 0 else byte)
    return pdu, end
