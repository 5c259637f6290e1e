"""A probe that goes by reference.py, with a fault on demand: shows that the driver notices one."""
import sys

import driver
import reference
from reference import LIMITS, ROOM


def forward(side, flight_number, places, words, source, fault):
    numbers = list(places[0].to_bytes(8, "big"))
    numbers = [256 * numbers[0] + numbers[1]] + numbers[2:]
    address, at, count, direction = places[1:5]
    buffer = b"\xa5" * (8 * words)
    if len(buffer) < ROOM:
        return f"room {buffer.hex()}"
    bits = reference.unpacked(source)
    ranged = all(low <= v <= high for v, (_, low, high) in zip(numbers, reference.NUMBERS)) and address < 2 ** 24 and direction < 2
    if side == reference.AIR or not ranged or flight_number >= 2 ** (7 * numbers[6]) or count > LIMITS["message"][2] - (fault == "limit") or at + count > len(bits):
        return f"shape {buffer.hex()}"
    characters = "".join(chr(flight_number >> 7 * k & 127) for k in reversed(range(numbers[6])))
    out = reference.pdu_bits(side, ("forward", tuple(numbers[:6]) + (characters, address, direction, bits[at:at + count])))
    front = reference.packed(out)
    return f"bits {len(out)} {(front + buffer[len(front):]).hex()}"


def written(op, side, kind, identified, messaged, number, places, words, source, fault):
    if op == driver.WRITE and kind == 4:
        return forward(side, number, places, words, source, fault)
    buffer = b"\xa5" * (8 * words)
    if len(buffer) < ROOM:
        return f"room {buffer.hex()}"
    bits = reference.unpacked(source)
    names = [n for n, there in zip(LIMITS, (identified, messaged, True)) if there]
    parts = {}
    for i, name in enumerate(LIMITS):
        if name not in names or (op == driver.WRITE and kind not in (2, 3)):
            parts[name] = None
            continue
        unit, least, most = LIMITS[name]
        at, count = places[2 * i], places[2 * i + 1]
        if not least <= count <= most - (fault == "limit") or at + unit * count > len(bits):
            return f"shape {buffer.hex()}"
        parts[name] = bits[at:at + unit * count]
    data = (parts["identifier"], parts["message"], parts["check"])
    if op == driver.WRITE_DATA:
        out = reference.data_bits(data)
    else:
        last = (12, 7, 1 if side == reference.AIR else 0, 2 ** 64, -1, -1 if side == reference.AIR else 2)[kind]
        if number > last:
            return f"shape {buffer.hex()}"
        name = next(k for k, i in reference.INDEX.items() if i == kind)
        out = reference.pdu_bits(side, (name, number) if kind not in (2, 3) else (name, number, data) if kind == 2 else (name, data))
    front = reference.packed(out)
    if fault == "padding" and len(out) % 8:
        front = front[:-1] + bytes([front[-1] | 1])
    return f"bits {len(out)} {(front + buffer[len(front):]).hex()}"


def main():
    fault = sys.argv[1] if len(sys.argv) > 1 else ""
    if fault == "count":                    # as many additions as the six bits say, and not one more
        reference.Bits.COUNTED_FROM = 0
    data, at = sys.stdin.buffer.read(), 0
    while at + driver.HEADER.size <= len(data):
        op, side, kind, identified, messaged, number, *places, words, count = driver.HEADER.unpack_from(data, at)
        at += driver.HEADER.size
        body = data[at:at + count]
        at += count
        if op == driver.READ:
            line = reference.shown(side, body)
            number, place = (line.split()[1], int(line.split()[3])) if line.startswith("refused") else ("", 0)
            if fault == "tail" and number == "15":
                line = "abort-user 0"
            if fault == "order" and number == "12":
                line = f"refused 10 at {place}"
            if fault == "stopped" and number in ("11", "13", "14"):     # where reading stopped, not where the field begins
                line = f"refused {number} at {place + 8}"
            if fault == "second" and number == "10" and place >= 8:     # the second byte of a length that is cut
                line = f"refused 10 at {place + 8}"
            if fault == "marked" and number == "12" and place > 4:       # where none is there: the extension bit, and not the presence bits
                line = "refused 12 at 3"
            if fault == "root" and number == "14" and "1" in reference.unpacked(body)[3:4]:     # the extension bit before the faults of the root
                line = "refused 12 at 3"
            if fault == "alone" and number and side == reference.GROUND and body and body[0] >> 4 == reference.INDEX["forward"]:   # a forward by its alternative
                line = "forward"
            if fault == "padded" and number == "15" and place % 8:      # the beginning of the padding
                line = f"refused 15 at {place - 1}"
            print(line)
        else:
            print(written(op, side, kind, identified, messaged, number, places, words, body, fault))


main()
