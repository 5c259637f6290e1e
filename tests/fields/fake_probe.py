"""A probe in Python, over the reference: it tries the driver. An argument names a fault that it shall have."""
import sys

import reference
from driver import HEADER, hexadecimal
from reference import COPY, EXTENSION_BIT, SIZED, STRING, WHOLE, WRITE, Full, Refused

FAULT = sys.argv[1] if len(sys.argv) > 1 else ""


def answer(op, lo, hi, value, at, end, body, more):
    bits = "".join(format(b, "08b") for b in body)
    if op > WRITE:
        return write(op, lo, hi, value, at, end, bits, "".join(format(b, "08b") for b in more))
    try:
        found, after = reference.READERS[op](bits[:end], at, lo, hi, value)
    except Refused as refused:
        return f"refused {wrong_refusal(refused.number, op, bits[:end], at)} at {wrong_place(refused, op, at)}"
    if FAULT == "value" and op == WHOLE and found == hi:
        found += 1
    if FAULT == "next" and op == SIZED:
        after += 1
    return f"ok {found} {after}"


def wrong_place(refused, op, at):
    """Where reading stopped, and not where the field begins; or counted from a part of the bits."""
    if FAULT == "stopped" and refused.number in (11, 13, 14) and op != EXTENSION_BIT:
        return refused.at + 8
    if FAULT == "part" and op in (SIZED, STRING):
        return refused.at - at
    return refused.at


def wrong_refusal(number, op, bits, at):
    if FAULT == "short" and number == 10 and at == len(bits):
        return 11
    if FAULT == "form" and number == 13 and op == STRING:
        return 14
    if FAULT == "extension" and number == 12 and at + 1 == len(bits):
        return 10
    return number


def write(op, lo, hi, value, at, end, bits, source):
    try:
        put = reference.WRITERS[op](lo, hi, value, source)
        after = at + len(put)
        if after > min(end + (FAULT == "room"), len(bits)):
            raise Full
    except Full:
        return f"full {hexadecimal(bits)}"
    rest = bits[after:]
    if FAULT == "behind" and op == WRITE + COPY:
        rest = "0" * (-after % 8) + rest[-after % 8:]
    return f"ok {after} {hexadecimal(bits[:at] + put + rest)}"


def main():
    data, at = sys.stdin.buffer.read(), 0
    while at < len(data):
        op, lo, hi, value, place, end, length, more = HEADER.unpack_from(data, at)
        at += HEADER.size
        print(answer(op, lo, hi, value, place, end, data[at:at + length], data[at + length:at + length + more]))
        at += length + more


main()
