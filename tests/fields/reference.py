"""The fields of unaligned PER as X.691 and document 01 have them, plainly, over strings of '0' and '1'.

A reader takes the bits that count, a place and its parameters (lo, hi, value), and answers (value, next) or raises Refused
with document 01's number and the place at which the refused field begins; at one field the order is 10, 12, 13, 11, 14. A writer answers the bits that it puts, or raises Full.
"""
SHORT, RANGE, EXTENSION, LENGTH_FORM, LIMIT = 10, 11, 12, 13, 14
LONGEST = 16383         # what a length in its two-byte form can say
MESSAGE = (0, 16383)    # the bits of a CPDLC message

# The ops of PROTOCOL.md. A writer's op is WRITE and the op of the reader of the same field.
BIT_FIELD, WHOLE, EXTENSION_BIT, INDEX, LENGTH, LENGTH_WITHIN, CONTENTS, STRING, SIZED, COPY, ADDITIONS, ADDITION_COUNT, ADDITIONS_THERE = range(1, 14)
WRITE = 128


class Refused(Exception):
    def __init__(self, number, at):
        super().__init__(number, at)
        self.number, self.at = number, at

    def __str__(self):
        return f"refused {self.number} at {self.at}"


class Full(Exception):
    pass


def width_of(last):
    """The bits that the numbers 0 to last need (X.691, 11.5.7.1)."""
    return last.bit_length()


# ---- readers

def bit_field(bits, at, width, *_):
    if at + width > len(bits):
        raise Refused(SHORT, at)
    return int(bits[at:at + width] or "0", 2), at + width


def whole(bits, at, lo, hi, *_):
    distance, after = bit_field(bits, at, width_of(hi - lo))
    if distance > hi - lo:
        raise Refused(RANGE, at)
    return lo + distance, after


def extension_bit(bits, at, *_):
    bit, after = bit_field(bits, at, 1)
    if bit:
        raise Refused(EXTENSION, at)
    return 0, after


def extensible_index(bits, at, _, last, *__):
    return whole(bits, extension_bit(bits, at)[1], 0, last)


def length(bits, at, *_):
    """X.691, 11.9.3.5 to 11.9.3.8: 0 and 7 bits; 10 and 14 bits; 11 begins fragments."""
    first, after = bit_field(bits, at, 8)
    if first < 0x80:
        return first, after
    if first >= 0xC0:
        raise Refused(LENGTH_FORM, at)
    both, after = bit_field(bits, at, 16)
    if both - 0x8000 < 128:
        raise Refused(LENGTH_FORM, at)
    return both - 0x8000, after


def length_within(bits, at, lo, hi, *_):
    count, after = length(bits, at)
    if not lo <= count <= hi:
        raise Refused(LIMIT, at)
    return count, after


def contents(bits, at, unit, _, count):
    if at + unit * count > len(bits):
        raise Refused(SHORT, at)
    return count, at + unit * count


def string(bits, at, lo, hi, unit):
    count, after = length_within(bits, at, lo, hi)
    return contents(bits, after, unit, 0, count)


def sized(bits, at, lo, hi, unit):
    count, after = whole(bits, at, lo, hi)
    return contents(bits, after, unit, 0, count)


# ---- additions from a later edition, behind the root of an extensible SEQUENCE (X.691, 19.7 to 19.9)

def addition_count(bits, at, *_):
    """11.9.3.4: a bit 0 and one less than the count in six bits; a bit 1 begins the long form, which is refused by it alone."""
    extension_bit(bits, at)
    less, after = bit_field(bits, at, 7)
    return less + 1, after


def additions_there(bits, at, count, *_):
    there, after = bit_field(bits, at, count)
    if not there:
        raise Refused(EXTENSION, at)
    return there, after


def additions(bits, at, *_):
    """Each that is there is stepped over by its length in octets."""
    count, at = addition_count(bits, at)
    there, at = additions_there(bits, at, count)
    for _ in range(format(there, "b").count("1")):
        octets, at = length(bits, at)
        _, at = contents(bits, at, 8, 0, octets)
    return 0, at


READERS = {BIT_FIELD: bit_field, WHOLE: whole, EXTENSION_BIT: extension_bit, INDEX: extensible_index, LENGTH: length,
           LENGTH_WITHIN: length_within, CONTENTS: contents, STRING: string, SIZED: sized, ADDITIONS: additions, ADDITION_COUNT: addition_count,
           ADDITIONS_THERE: additions_there}


# ---- writers: the bits that are put

def digits(value, width):
    if not 0 <= value < 2 ** width:
        raise Full
    return format(value, "b").zfill(width) if width else ""


def put_whole(lo, hi, value, _):
    if not lo <= value <= hi:
        raise Full
    return digits(value - lo, width_of(hi - lo))


def put_length(_, __, value, ___):
    if value > LONGEST:
        raise Full
    return digits(value, 8) if value < 128 else "10" + digits(value, 14)


def run(source, at, count):
    if at + count > len(source):
        raise Full
    return source[at:at + count]


WRITERS = {
    WRITE + BIT_FIELD: lambda width, _, value, __: digits(value, width),
    WRITE + WHOLE: put_whole,
    WRITE + EXTENSION_BIT: lambda *_: "0",
    WRITE + INDEX: lambda _, last, value, __: "0" + put_whole(0, last, value, ""),
    WRITE + LENGTH: put_length,
    WRITE + STRING: lambda unit, at, value, source: put_length(0, 0, value, "") + run(source, at, unit * value),
    WRITE + COPY: lambda end, at, value, source: run(source[:end], at, value),
}
