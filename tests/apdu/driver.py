"""Requests for the probe (PROTOCOL.md), each with the answer that it must get: APDUs of the independent coder, and faults worked out by reference.py."""
import random
import struct
import subprocess

import reference
from reference import AIR, GROUND, LIMITS, NUMBERS, ROOM, packed, pdu_bits, data_bits

HEADER = struct.Struct(">BBBBBQQQQQQQHH")
INPUT = 65536           # the bytes that the probe takes in one run
READ, WRITE, WRITE_DATA = 0, 1, 2
NAMES = ("air", "ground")

MESSAGES = (None, 0, 1, 7, 8, 127, 128, 129, 1000, 2047, 2048, 2049)
LONGEST = ((None, 16382, 0), (None, 16383, 1), (None, 16384, 0), (16, 16384, 64))  # and the largest, with checks around their limit
FULL = ROOM // 8         # words of a buffer that is just large enough
CHECKS = tuple(range(66))
IDENTIFIERS = (None, 0, 1, 16, 17)


class Request:
    def __init__(self, why, data, answer):
        self.why, self.data, self.answer = why, data, answer


def noise(rng, count):
    return reference.binary(rng.getrandbits(count), count) if count else ""


def identifier(rng, octets):
    """Contents that the independent coder has too: arcs below 128."""
    return None if octets is None else "".join("0" + noise(rng, 7) for _ in range(octets))


def contents(rng, octets, message, check):
    return identifier(rng, octets), None if message is None else noise(rng, message), noise(rng, check)


FIRST = (1996, 1, 1, 0, 0, 0)
LAST = (2095, 12, 31, 23, 59, 59)


def flight(rng, count):
    return "".join(chr(rng.randrange(128)) for _ in range(count))


def forwards(rng):
    """Each number at its ends, each count of characters, each size of the message."""
    for i in range(6):
        for value in (FIRST[i], LAST[i]):
            yield FIRST[:i] + (value,) + LAST[i + 1:] + (flight(rng, 2), rng.getrandbits(24), 0, noise(rng, 3))
    for count in range(2, 9):
        yield LAST + (flight(rng, count), (1 << 24) - 1, 1, noise(rng, 8))
    for message in MESSAGES + (16382, 16383, 16384):
        if message is not None:
            yield FIRST + (flight(rng, 8), rng.getrandbits(24), message % 2, noise(rng, message))


def values():
    """APDUs of every kind, with and without each optional part, at and past each size. The same on every run."""
    rng = random.Random(9705)
    for side in (AIR, GROUND):
        for last, kind in ((12, "abort-user"), (7, "abort-provider")):
            for reason in range(last + 1):
                yield side, (kind, reason)
        shapes = [(i, m, c) for i in IDENTIFIERS for m in MESSAGES for c in (0, 1, 64)]
        shapes += [(None, None, c) for c in CHECKS] + [(16, 16383, c) for c in (63, 64, 65)] + list(LONGEST)
        if side == GROUND:
            for result in range(3):
                yield side, ("forward-response", result)
            for forward in forwards(rng):
                yield side, ("forward", forward)
        for octets, message, check in shapes:
            data = contents(rng, octets, message, check)
            yield side, ("send", data)
            yield side, ("start", 0, data)
            if side == AIR:
                yield side, ("start", 1, data)


# ---- text that the independent coder reads and prints

def bits_text(bits):
    return "-" if bits is None else f"{len(bits)}:{packed(bits).hex() or '-'}"


def text(side, pdu):
    if pdu[0].startswith("abort"):
        return f"{NAMES[side]} {pdu[0]} {pdu[1]} - - -"
    if pdu[0] == "forward-response":
        return f"{NAMES[side]} {pdu[0]} {pdu[1]} - - -"
    if pdu[0] == "forward":
        *numbers, characters, address, direction, message = pdu[1]
        return f"{NAMES[side]} forward {','.join(str(n) for n in numbers + [address, direction])} {characters.encode('ascii').hex()} {bits_text(message)} -"
    number = pdu[1] if pdu[0] == "start" else "-"
    i, m, c = pdu[-1]
    return f"{NAMES[side]} {pdu[0]} {number} {'-' if i is None else packed(i).hex() or '-'} {bits_text(m)} {bits_text(c)}"


def coded(pdu):
    """Whether the independent coder's text tells the value: no octets are told as an absent identifier is."""
    return pdu[0].startswith(("abort", "forward")) or pdu[-1][0] != ""


# ---- reading

def read(why, side, data):
    return Request(why, HEADER.pack(READ, side, 0, 0, 0, 0, 0, 0, 0, 0, 0, 0, 0, len(data)) + data, reference.shown(side, data))


def thorough(pdu):
    """Whether an APDU is cut at every bit: aborts, and message data at the ends of each size with the other parts small."""
    if pdu[0].startswith(("abort", "forward")):
        return True
    sizes = tuple(None if p is None else len(p) for p in pdu[-1])
    return sizes in {(None, None, 0), (None, None, 64), (8, None, 1), (128, None, 0), (None, 0, 0), (None, 7, 1), (None, 8, 64), (None, 127, 0), (None, 128, 1),
                     (None, 2048, 64), (128, 16383, 64), (8, 8, 1), (None, None, 65), (136, None, 0), (0, None, 0), (None, 2049, 0), (None, 16384, 0)}


def readings(side, pdu):
    """An APDU; with each padding bit set; with bytes behind it; and some cut, filled with zeros, at every bit, and with each of their first bits turned."""
    bits = pdu_bits(side, pdu)
    why = f"{NAMES[side]} {pdu[0]} of {len(bits)} bits"
    whole = packed(bits)
    yield read(why, side, whole)
    for k in range(len(bits), 8 * len(whole)):
        yield read(f"{why}, padding bit {k} set", side, packed(bits.ljust(8 * len(whole), "0")[:k] + "1" + "0" * (8 * len(whole) - k - 1)))
    for more in (b"\0", b"\1") + ((b"\0" * 400,) if len(bits) < 12 else ()):
        yield read(f"{why}, {len(more)} bytes behind", side, whole + more)
    if not thorough(pdu):
        return
    cuts = range(len(bits)) if len(bits) < 400 else list(range(300)) + list(range(300, len(bits), 97)) + list(range(len(bits) - 90, len(bits)))
    for k in cuts:
        yield read(f"{why}, cut at bit {k}", side, packed(bits[:k]))
    for k in range(min(len(bits), 160 if pdu[0] == "forward" else 60)):
        yield read(f"{why}, bit {k} turned", side, packed(bits[:k] + "10"[int(bits[k])] + bits[k + 1:]))


def by_hand():
    """Faults that are worked out by hand, each with its number and the bit at which its field begins."""
    yield AIR, "", (10, 0)                          # no bytes
    yield AIR, "011" + "000" + "00", (10, 6)        # send, the check's length cut
    yield AIR, "1", (12, 0)                         # extension bit of the CHOICE, before SHORT
    yield GROUND, "0110", (11, 1)                   # alternative 6 of GroundPDUs
    yield GROUND, "0111", (11, 1)
    yield AIR, "00001101", (11, 4)                  # user reason 13
    yield AIR, "0001" + "0000", (12, 3)             # extension bit of the reason
    yield AIR, "0100" + "0" + "00" + "0", (10, 7)   # startdown, nothing behind the presence bits
    yield AIR, "01010" + "0" + "00" + "00000000", (17, 4)   # mode present as cpdlc, before the faults behind it
    yield AIR, "01010" + "111", (17, 4)
    yield AIR, "011" + "1", (10, 6)                 # extension bit of the message data: the root comes first
    yield from added_by_hand()
    yield AIR, "011" + "001" + "10001000" + "00000001", (10, 22)    # 88 01 as a message's length: read, and its contents are missing
    yield AIR, "011" + "001" + "10111111" + "11111111", (10, 22)    # BF FF
    yield AIR, "011" + "001" + "10000000" + "01111111", (13, 6)     # 80 7F
    yield AIR, "011" + "001" + "11000001" + "00", (13, 6)           # a fragment
    yield AIR, "011" + "001" + "10001", (10, 6)                     # a length cut
    yield AIR, "011" + "010" + "00000000", (14, 6)                  # no octets in the identifier
    yield AIR, "011" + "010" + "00010001", (14, 6)                  # seventeen
    yield AIR, "011" + "011" + "00010001" + "11" * 8, (14, 6)       # two faults: the identifier's comes first
    yield AIR, "011" + "000" + "01000001", (14, 6)                  # a check of 65 bits
    yield AIR, "011" + "000" + "00000000" + "10", (15, 14)           # a padding bit
    yield AIR, "011" + "000" + "00000000" + "00" + "0" * 8, (15, 16)  # a byte more
    yield AIR, "011" + "000" + "00000000" + "01" + "0" * 8, (15, 15)
    yield AIR, "0" * 8 * 60000, (15, 8)                             # very long
    yield AIR, "1" * 8 * 60000, (12, 0)
    head = "0100" + "0000000" + "0000" + "00000" + "00000" + "000000" + "000000"         # a forward of the first second of 1996
    yield GROUND, "0100" + "1" * 12, (11, 4)        # year 2123
    yield GROUND, "0100" + "0000000" + "1100" + "0" * 9, (11, 11)   # month 13
    yield GROUND, head + "111" + "0" * 16, (11, 37)                 # nine characters
    yield GROUND, head + "000" + "1" * 5, (10, 40)                  # the characters cut: one field
    behind = head + "000" + "1" * 14 + "0" * 24 + "0"
    yield GROUND, behind + "10001000" + "00000001", (10, 95)        # a message of 2,049 bits: read, and its contents are missing
    yield GROUND, behind + "10111111" + "11111111", (10, 95)        # of 16,383
    yield GROUND, behind + "10000000" + "01111111", (13, 79)        # 80 7F
    yield GROUND, behind + "11000001" + "0" * 40, (13, 79)          # a fragment
    yield GROUND, behind + "00000000" + "1", (15, 87)               # a padding bit
    yield GROUND, "0101" + "1" + "000", (12, 4)     # a forward response: its extension bit
    yield GROUND, "0101" + "011" + "0", (11, 5)     # result 3
    yield GROUND, "0101" + "010" + "1", (15, 7)


def added_by_hand():
    """Additions: behind a send with an empty check, which ends at bit 14."""
    root, one = "011" + "1" + "00" + "00000000", "0000000"           # one: a count of one addition
    read_as = "send - - 14:0"
    yield AIR, root, (10, 14)                                       # no count
    yield AIR, root + "1", (12, 14)                                 # the long form of the count, by its first bit alone
    yield AIR, root + "1" * 200, (12, 14)
    yield AIR, root + one + "0", (12, 21)                           # none is there
    yield AIR, root + "0000001" + "00" + "0" * 20, (12, 21)
    yield AIR, root + "0111111" + "1" * 20, (10, 21)                # sixty-four, cut
    yield AIR, root + "0111111" + "0" * 70, (12, 21)
    yield AIR, root + one + "1" + "0", (10, 22)                     # a length cut
    yield AIR, root + one + "1" + "00000000", read_as               # no octets: stepped over
    yield AIR, root + one + "1" + "00000001" + "11111111", read_as
    yield AIR, root + one + "1" + "00000010" + "11111111", (10, 30)     # one octet of two
    yield AIR, root + one + "1" + "10000000" + "01111111" + "1" * 1016, (13, 22)    # 127 in the long form
    yield AIR, root + one + "1" + "11000001" + "1" * 60, (13, 22)   # fragments
    yield AIR, root + one + "1" + "10111111" + "11111111" + "1" * 8 * 16383, read_as
    yield AIR, root + one + "1" + "10111111" + "11111111" + "1" * 8 * 16382, (10, 38)
    yield AIR, root + "0000001" + "10" + "00000001" + "01010101", read_as       # the last is absent
    yield AIR, root + "0000001" + "01" + "00000001" + "01010101", read_as
    yield AIR, root + "0000001" + "11" + "00000000" + "00000001" + "01010101", read_as
    yield AIR, root + "0000001" + "11" + "00000001" + "01010101" + "11000000", (13, 39)
    yield AIR, root + "0111111" + "1" * 64 + ("00000001" + "10110110") * 64, read_as
    yield AIR, root + "0111111" + "0" * 63 + "1" + "00000001" + "10110110", read_as
    yield AIR, root + one + "1" + "00000001" + "11111111" + "1", (15, 38)       # TAIL behind the additions
    yield AIR, root + one + "1" + "00000001" + "11111111" + "00" + "0" * 8, (15, 40)
    yield AIR, "011" + "1" + "00" + "01000001" + "1", (14, 6)       # a fault of the root comes first
    yield AIR, "0100" + root[3:] + one + "1" + "00000001" + "11111111", "start 0 - - 15:0"
    yield GROUND, "0011" + root[3:] + one + "1" + "00000001" + "11111111", "send - - 15:0"


def hand_requests():
    for side, bits, told in by_hand():
        data = packed(bits)
        answer = told if isinstance(told, str) else "refused %d at %d" % told
        yield Request(f"{NAMES[side]} {bits[:40]}", HEADER.pack(READ, side, 0, 0, 0, 0, 0, 0, 0, 0, 0, 0, 0, len(data)) + data, answer)


# ---- writing: the parts stand one after the other behind some other bits

def after(buffer, bits):
    """The buffer with bits at its front, padded with zeros to a whole byte."""
    front = packed(bits)
    return front + buffer[len(front):]


def write(why, op, side, pdu, words, lead=5, stretch=None):
    kind = reference.INDEX[pdu[0]]
    number = pdu[1] if len(pdu) > 1 and isinstance(pdu[1], int) else 0
    data = pdu[-1] if kind in (2, 3) else (None, None, "")
    body, places = "1" * lead, []
    for name, part in zip(LIMITS, data):
        unit = LIMITS[name][0]
        places += [len(body), len(part or "") // unit]
        body += part or ""
    if stretch:                                     # a part that the lent bytes do not hold, or a place or count beside all sense
        places[stretch[0]] = stretch[1]
    source = packed(body)
    buffer = b"\xa5" * (8 * words)
    held = all(part is None or LIMITS[name][1] <= places[2 * i + 1] <= LIMITS[name][2] and places[2 * i] + LIMITS[name][0] * places[2 * i + 1] <= 8 * len(source)
               for i, (name, part) in enumerate(zip(LIMITS, data)))
    typed = (0 <= number <= (12, 7, 1 if side == AIR else 0, 0, -1, -1 if side == AIR else 2)[kind] or kind == 3) if op == WRITE else True
    if 8 * words < ROOM:
        answer = f"room {buffer.hex()}"
    elif not (held if op == WRITE_DATA else typed and (kind not in (2, 3) or held)):
        answer = f"shape {buffer.hex()}"
    else:
        bits = data_bits(data) if op == WRITE_DATA else pdu_bits(side, pdu)
        answer = f"bits {len(bits)} {after(buffer, bits).hex()}"
    header = HEADER.pack(op, side, kind, data[0] is not None, data[1] is not None, number, *places, words, len(source))
    return Request(f"write {why}", header + source, answer)


def write_forward(why, side, numbers, flight_number, address, direction, message, words, lead=5, count=None):
    """A forward message, whose numbers stand in the places of the other parts; its bits stand behind some others, `count` of them are asked for."""
    source = packed("1" * lead + message)
    count = len(message) if count is None else count
    buffer = b"\xa5" * (8 * words)
    typed = all(low <= v <= high for v, (_, low, high) in zip(numbers, NUMBERS)) and flight_number >> 7 * numbers[6] == 0 and address < 1 << 24 and direction < 2
    if 8 * words < ROOM:
        answer = f"room {buffer.hex()}"
    elif side == AIR or not typed or count > LIMITS["message"][2] or lead + count > 8 * len(source):
        answer = f"shape {buffer.hex()}"
    else:
        characters = "".join(chr(flight_number >> 7 * k & 127) for k in reversed(range(numbers[6])))
        bits = pdu_bits(side, ("forward", tuple(numbers[:6]) + (characters, address, direction, message)))
        answer = f"bits {len(bits)} {after(buffer, bits).hex()}"
    first = int.from_bytes(struct.pack(">HBBBBBB", *numbers), "big")
    header = HEADER.pack(WRITE, side, 4, 0, 0, flight_number, first, address, lead, count, direction, 0, words, len(source))
    return Request(f"write {why}", header + source, answer)


def forward_writings(side, forward):
    *numbers, characters, address, direction, message = forward
    given = numbers + [len(characters)], reference.flight_number(characters), address, direction, message
    why = f"{NAMES[side]} forward"
    yield write_forward(why, side, *given, FULL)
    yield write_forward(why, side, *given, FULL + 1, lead=8)
    yield write_forward(why, side, *given, FULL - 1)
    yield write_forward("aircraft's " + why, AIR, *given, FULL)


def odd_forwards():
    right = [2026, 11, 15, 12, 30, 59, 6]
    for i, (_, low, high) in enumerate(NUMBERS):
        for value in (low - 1, high + 1, 255):
            if 0 <= value:
                yield write_forward(f"number {i} is {value}", GROUND, right[:i] + [value] + right[i + 1:], 1, 5, 0, "101", FULL)
    for flight_number in ((1 << 42) - 1, 1 << 42, (1 << 64) - 1):
        yield write_forward("a flight identification", GROUND, right, flight_number, 5, 0, "101", FULL)
    for address in ((1 << 24) - 1, 1 << 24, (1 << 64) - 1):
        yield write_forward("an address", GROUND, right, 77, address, 1, "101", FULL)
    for direction in (2, 255, (1 << 64) - 1):
        yield write_forward("a direction", GROUND, right, 77, 5, direction, "101", FULL)
    for count in (12, 100, 2048, 16383, 16384, 1 << 63, (1 << 64) - 1):
        yield write_forward("a count", GROUND, right, 77, 5, 1, "101", FULL, count=count)


def writings(side, pdu):
    why = f"{NAMES[side]} {pdu[0]}"
    if pdu[0] == "forward":
        yield from forward_writings(side, pdu[1])
        return
    yield write(why, WRITE, side, pdu, FULL)
    yield write(why, WRITE, side, pdu, FULL + 1, lead=8)
    yield write(why, WRITE, side, pdu, FULL - 1)
    if pdu[0] == "send":
        yield write(why, WRITE_DATA, side, pdu, FULL, lead=3)
        yield write(why, WRITE_DATA, side, pdu, FULL - 1)


def odd_writings():
    data = ("01" * 8, "10" * 20, "1" * 12)
    far = (0, 1, 2 ** 63, 2 ** 64 - 1, 2 ** 64 - 9, 70000)
    for side in (AIR, GROUND):
        for number in (0, 1, 2, 7, 8, 12, 13, 255, 2 ** 32, 2 ** 64 - 1):
            yield write("a reason", WRITE, side, ("abort-user", number), FULL)
            yield write("a reason", WRITE, side, ("abort-provider", number), FULL)
            yield write("a mode", WRITE, side, ("start", number, data), FULL)
            yield write("a result", WRITE, side, ("forward-response", number), FULL)
        for words in (0, 1, 40, FULL - 1, FULL, 512):
            yield write("a buffer", WRITE, side, ("send", data), words)
            yield write("a buffer and a fault", WRITE, side, ("abort-user", 13), words)
        for place in range(6):
            for value in far:
                if place % 2 == 0 or value not in (0, 1):
                    yield write(f"place {place} is {value}", WRITE, side, ("send", data), FULL, stretch=(place, value)) if value > 1 else write("a place", WRITE, side, ("send", data), FULL)


def noisy():
    """Bytes by chance, most of which break off in the middle."""
    rng = random.Random(691)
    for _ in range(6000):
        side = rng.randrange(2)
        yield read("chance", side, bytes(rng.randrange(256) for _ in range(rng.randrange(24))))
    for _ in range(3000):
        side = rng.randrange(2)
        octets, message, check = rng.choice((None, 1, 3, 16)), rng.choice((None, 0, 5, FULL)), rng.randrange(20)
        additions = [rng.choice((None, rng.randbytes(rng.randrange(6)))) for _ in range(rng.choice((0, 1, 2, 9)))]
        bits = list(pdu_bits(side, ("send", contents(rng, octets, message, check)), additions))
        for _ in range(rng.randrange(1, 4)):
            k = rng.randrange(len(bits))
            bits[k] = "10"[int(bits[k])]
        yield read("chance", side, packed("".join(bits)))
    short = list(forwards(rng))[:24]
    for _ in range(3000):
        bits = list(pdu_bits(GROUND, ("forward", rng.choice(short))))
        for _ in range(rng.randrange(1, 4)):
            k = rng.randrange(len(bits))
            bits[k] = "10"[int(bits[k])]
        yield read("chance", GROUND, packed("".join(bits)))


# ---- additions from a later edition

ADDED = ([b"\x5a"], [b""], [None, b"ab"], [b"ab", None, None], [b"", b"", b"\xff"], [bytes(127)], [bytes(128)], [b"x"] * 64, [None] * 63 + [b"y"], [b"z"] + [None] * 63,
         [None, b"1", None, b"22", None, b"333", None])
# longer than any buffer
ADDED_LONG = ([b"\xa5" * 16383], [bytes(1000)] * 5)
# what may stand where an addition's length stands: the long form of a short length, fragments, more octets than there are
LENGTHS = ("10" + "0" * 14, "10" + format(127, "014b"), "11000001", "11111111", "10" + "1" * 14, "01111111")


def added_readings(side, pdu, additions):
    """An APDU with additions: whole, with a bit set in the padding, with a byte behind it; cut at every bit of them, each of their first bits turned, and with
    other lengths."""
    root, bits = pdu_bits(side, pdu), pdu_bits(side, pdu, additions)
    why = f"{NAMES[side]} {pdu[0]} with {len(additions)} additions, {len(bits)} bits"
    whole = packed(bits)
    yield read(why, side, whole)
    yield read(f"{why}, a byte behind", side, whole + b"\0")
    if len(bits) % 8:
        yield read(f"{why}, the last padding bit set", side, whole[:-1] + bytes([whole[-1] | 1]))
    begin, some = len(root), 90 if len(bits) < 3000 else 24
    for k in sorted({*range(begin, min(len(bits), begin + some)), *range(begin, len(bits), 1 + len(bits) // 20), len(bits) - 1}):
        yield read(f"{why}, cut at bit {k}", side, packed(bits[:k]))
    for k in {0, begin - 1, *range(begin, min(len(bits), begin + some))}:
        yield read(f"{why}, bit {k} turned", side, packed(bits[:k] + "10"[int(bits[k])] + bits[k + 1:]))
    first = begin + 7 + len(additions)
    for other in LENGTHS:
        yield read(f"{why}, a length {other}", side, packed(bits[:first] + other + bits[first + 8:]))


def added():
    rng = random.Random(2020)
    for octets, message, check in ((None, None, 0), (None, 5, 3), (2, 9, 64)):
        data = contents(rng, octets, message, check)
        for additions in ADDED:
            for side, pdu in ((AIR, ("send", data)), (AIR, ("start", 1, data)), (GROUND, ("start", 0, data))):
                yield from added_readings(side, pdu, additions)
    for additions in ADDED_LONG:
        yield from added_readings(GROUND, ("send", contents(rng, 1, 3, 8)), additions)


def requests():
    yield from hand_requests()
    for side, pdu in values():
        yield from readings(side, pdu)
        if coded(pdu):
            yield from writings(side, pdu)
        else:
            yield write("an identifier of no octets", WRITE, side, pdu, FULL)
    yield from odd_writings()
    yield from odd_forwards()
    yield from added()
    yield from noisy()


def ask(command, asked, report):
    """Runs the probe on as many requests at a time as one run takes."""
    batch, size = [], 0
    for request in list(asked) + [None]:
        if request is None or size + len(request.data) > INPUT:
            if batch:
                done = subprocess.run(command, input=b"".join(r.data for r in batch), capture_output=True, check=False)
                lines = done.stdout.decode("ascii", "replace").splitlines()
                for i, r in enumerate(batch):
                    report(r, lines[i] if i < len(lines) else "nothing")
                if len(lines) > len(batch):
                    report(None, "more lines than requests")
            batch, size = [], 0
        if request is not None:
            batch.append(request)
            size += len(request.data)
