"""Turns vectors into requests for the probe (PROTOCOL.md) and holds its answers to the vectors and to reference.py."""
import random
import struct
import subprocess

import reference
from reference import (ADDITION_COUNT, ADDITIONS, ADDITIONS_THERE, BIT_FIELD, CONTENTS, COPY, EXTENSION_BIT, INDEX, LENGTH, LENGTH_WITHIN, MESSAGE, SIZED, STRING, WHOLE, WRITE, Full,
                       Refused)

HEADER = struct.Struct(">BQQQQQHH")
ROOM = 65536            # the bytes that the probe takes in one run


def packed(bits):
    """Whole bytes, padded with zeros."""
    return b"".join(int(bits[i:i + 8].ljust(8, "0"), 2).to_bytes(1, "big") for i in range(0, len(bits), 8))


# ---- requests, each with the answer that it must get

class Request:
    def __init__(self, why, op, lo, hi, value, at, end, body, more, answer):
        self.why, self.answer = why, answer
        self.data = HEADER.pack(op, lo, hi, value, at, end, len(body), len(more)) + body + more
        self.shown = f"op {op} lo {lo} hi {hi} value {value} at {at} end {end} bytes {body.hex() or '-'} more {more.hex() or '-'}"


def reader(why, op, lo, hi, value, at, bits, answer=None):
    """A read of a string of bits. Without an answer, the reference gives it."""
    if answer is None:
        try:
            answer = "ok %d %d" % reference.READERS[op](bits, at, lo, hi, value)
        except Refused as refused:
            answer = str(refused)
    return Request(why, op, lo, hi, value, at, len(bits), packed(bits), b"", answer)


def writer(why, op, lo, hi, value, at, end, buffer, source="", put=None):
    """A write into a buffer. `put` is what must stand there; without it, the reference gives it."""
    try:
        put = reference.WRITERS[op](lo, hi, value, source) if put is None else put
        after = at + len(put)
        if after > min(end, len(buffer)):
            raise Full
        answer = f"ok {after} {hexadecimal(buffer[:at] + put + buffer[after:])}"
    except Full:
        answer = f"full {hexadecimal(buffer)}"
    return Request(why, op, lo, hi, value, at, end, packed(buffer), packed(source), answer)


def hexadecimal(bits):
    return packed(bits).hex() or "-"


# ---- the edges: ranges; items, their count and the bits that are there; and reads and writes as (op, lo, hi, value)

RANGES = ((0, 63), (1, 5), (1, 12), (1996, 2095), (0, 7), (0, 7060), (0, 25030), (30, 700), (0, 2 ** 32), (7, 7),
          (0, 2 ** 64 - 1), (5, 2 ** 63))
RUNS = ((7, 3, 21), (7, 3, 20), (8, 0, 0), (1, 64, 63), (8, 2 ** 60, 64), (7, 2 ** 63, 64), (64, 2 ** 58, 0), (1, 2 ** 64 - 1, 80))
FAR_READS = ((BIT_FIELD, 2, 0, 0), (WHOLE, 0, 63, 0), (WHOLE, 0, 2 ** 64 - 1, 0), (EXTENSION_BIT, 0, 0, 0), (INDEX, 0, 236, 0),
             (LENGTH, 0, 0, 0), (LENGTH_WITHIN, *MESSAGE, 0), (CONTENTS, 8, 0, 3), (STRING, *MESSAGE, 1), (SIZED, 4, 8, 7),
             (ADDITIONS, 0, 0, 0), (ADDITION_COUNT, 0, 0, 0), (ADDITIONS_THERE, 3, 0, 0))
FAR_WRITES = ((WRITE + BIT_FIELD, 2, 0, 1), (WRITE + WHOLE, 0, 63, 5), (WRITE + EXTENSION_BIT, 0, 0, 0), (WRITE + INDEX, 0, 236, 9),
              (WRITE + LENGTH, 0, 0, 300), (WRITE + STRING, 1, 0, 8), (WRITE + COPY, 8, 0, 8))
NOISY_READS = ((BIT_FIELD, 2, 0, 0), (BIT_FIELD, 7, 0, 0), (WHOLE, 0, 63, 0), (WHOLE, 1, 5, 0), (WHOLE, 1996, 2095, 0),
               (WHOLE, 0, 7060, 0), (WHOLE, 0, 2, 0), (EXTENSION_BIT, 0, 0, 0), (INDEX, 0, 3, 0), (INDEX, 0, 12, 0),
               (INDEX, 0, 236, 0), (LENGTH, 0, 0, 0), (LENGTH_WITHIN, *MESSAGE, 0), (LENGTH_WITHIN, 1, 16, 0), (CONTENTS, 7, 0, 4),
               (STRING, 0, 64, 1), (STRING, *MESSAGE, 1), (STRING, 0, 3000, 1), (STRING, 1, 16, 8), (SIZED, 1, 256, 7), (SIZED, 4, 8, 7),
               (ADDITIONS, 0, 0, 0), (ADDITION_COUNT, 0, 0, 0), (ADDITIONS_THERE, 2, 0, 0))


class Maker:
    """Makes requests from vectors, with a seed of its own so that every run asks the same."""

    def __init__(self):
        self.random = random.Random(691)
        self.seen = set()                           # the fields that were cut at every bit

    def noise(self, count):
        return format(self.random.getrandbits(count), "b").zfill(count) if count else ""

    def whole_bytes(self, count):
        return self.noise(-(-count // 8) * 8)

    def place(self):
        return self.random.choice((0, 1, 2, 3, 4, 5, 6, 7, self.random.randrange(8, 60)))

    def of_vector(self, why, fields, bits):
        """Each field of a value read where it stands, behind noise, and written; and read damaged."""
        chosen = set(range(len(fields)))
        if len(fields) > 12:                        # of a long text, some characters
            chosen = set(self.random.sample(range(len(fields)), 10)) | {0, len(fields) - 1}
        before, behind, at = self.noise(self.place()), self.noise(self.random.randrange(12)), 0
        for i, field in enumerate(fields):
            value, end = reference.READERS[field.op](bits, at, field.lo, field.hi, field.unit)
            if value != field.value or field.contents != bits[end - len(field.contents):end]:
                raise AssertionError(f"{why}: the reference reads {value} at bit {at}, the vector has {field.value}")
            if i in chosen:
                yield from self.read(why, field, before + bits + behind, len(before) + at, len(before) + end)
                yield from self.written(why, field, bits[at:end])
                yield from self.damaged(why, field, before, bits[at:end])
            at = end
        if at != len(bits):
            raise AssertionError(f"{why}: the fields end at bit {at}, the vector at {len(bits)}")

    def of_fragments(self, why, count, bits):
        """What an independent coder makes of a string that is too long for one length: no reader takes it, no writer makes it."""
        for shift in range(8):
            before = self.noise(shift)
            for op, lo, hi, unit in ((LENGTH, 0, 0, 0), (LENGTH_WITHIN, *MESSAGE, 0), (STRING, *MESSAGE, 1)):
                yield reader(why, op, lo, hi, unit, shift, before + bits, f"refused 13 at {shift}")
        yield writer(why, WRITE + LENGTH, 0, 0, count, 0, 64, self.noise(64))

    def read(self, why, field, bits, at, end):
        yield reader(why, field.op, field.lo, field.hi, field.unit, at, bits, f"ok {field.value} {end}")
        for op, lo, hi, value in field.also:
            yield reader(why, op, lo, hi, value, at, bits)
        if field.unit:
            yield reader(why, CONTENTS, field.unit, 0, field.value, end - len(field.contents), bits, f"ok {field.value} {end}")

    def written(self, why, field, bits):
        at = self.place()
        buffer = self.whole_bytes(at + len(bits) + self.random.randrange(20))
        end = self.random.choice((len(buffer), at + len(bits), len(buffer) + 100))
        lo, hi, source = field.lo, field.hi, ""
        if field.op == STRING:
            lo, hi = field.unit, self.place()
            source = self.noise(hi) + field.contents
            source += self.noise(-len(source) % 8)
        yield writer(why, WRITE + field.op, lo, hi, field.value, at, end, buffer, source, bits)
        if bits and self.random.random() < 0.3:
            yield writer(why + ", one bit too little room", WRITE + field.op, lo, hi, field.value, at, at + len(bits) - 1, buffer, source)

    def damaged(self, why, field, before, bits):
        """Cut at a bit, at every bit where the field is met for the first time, and with one bit turned."""
        head = min(len(bits), 24)
        met = (field.op, field.lo, field.hi, len(bits).bit_length())
        cuts = range(len(bits)) if met not in self.seen and len(bits) < 200 else {self.random.randrange(head)} if bits else ()
        self.seen.add(met)
        for cut in cuts:
            for op, lo, hi, value in ((field.op, field.lo, field.hi, field.unit), *field.also):
                yield reader(why + ", cut", op, lo, hi, value, len(before), before + bits[:cut])
        if bits and self.random.random() < 0.3:
            turn = self.random.randrange(head)
            other = bits[:turn] + "10"[int(bits[turn])] + bits[turn + 1:] + self.noise(9)
            yield reader(why + ", a bit turned", field.op, field.lo, field.hi, field.unit, len(before), before + other)

    # ---- what no vector has

    def edges(self):
        """Every kind of refusal at its edge, at every place in a byte."""
        for shift in range(8):
            before = self.noise(shift)
            yield from self.number_edges(before)
            yield from self.length_edges(before)
            yield from self.index_edges(before)
            yield from self.addition_edges(before)
        yield from self.far_places()
        yield from self.refused_values()
        yield from self.copies()
        yield from self.noisy_reads()

    def number_edges(self, before):
        for lo, hi in RANGES:
            width = reference.width_of(hi - lo)
            for raw in {0, hi - lo, min(hi - lo + 1, 2 ** width - 1), 2 ** width - 1}:
                bits = before + reference.digits(raw, width)
                yield reader("a number at its edge", WHOLE, lo, hi, 0, len(before), bits)
                if width:
                    yield reader("a number cut before its last bit", WHOLE, lo, hi, 0, len(before), bits[:-1])
        for width in (0, 1, 2, 7, 8, 9, 24, 63, 64):
            yield reader("a bit-field", BIT_FIELD, width, 0, 0, len(before), before + self.noise(width))
            if width:
                yield reader("a bit-field cut", BIT_FIELD, width, 0, 0, len(before), before + self.noise(width - 1))

    def length_edges(self, before):
        at = len(before)
        for limits in (MESSAGE, (0, 2048), (0, 64), (1, 16)):       # the second is a limit below what two bytes carry
            asks = ((LENGTH, 0, 0, 0), (LENGTH_WITHIN, *limits, 0), (STRING, *limits, 1), (STRING, *limits, 8))
            for count in (0, 1, 15, 16, 17, 63, 64, 65, 126, 127, 128, 129, 2047, 2048, 2049, 16382, 16383):
                bits = before + reference.put_length(0, 0, count, "")
                for op, lo, hi, unit in asks:
                    yield reader("a length", op, lo, hi, unit, at, bits)
                    yield reader("a length cut", op, lo, hi, unit, at, bits[:-1])
                    if 0 < unit * count < 3000:
                        yield reader("contents one bit short", op, lo, hi, unit, at, bits + "1" * (unit * count - 1))
            for op, lo, hi, unit in asks:
                for count in (0, 1, 126, 127):
                    yield reader("a length in too long a form", op, lo, hi, unit, at, before + "10" + reference.digits(count, 14) + "0" * 40)
                for top in range(0, 64, 7):
                    begun = before + "11" + reference.digits(top, 6)
                    yield reader("fragments", op, lo, hi, unit, at, begun)
                    yield reader("fragments, cut", op, lo, hi, unit, at, begun[:-1])
        for unit, count, there in RUNS:
            yield reader("contents", CONTENTS, unit, 0, count, at, before + "1" * there)

    def index_edges(self, before):
        for last in (0, 1, 2, 3, 5, 7, 12, 113, 114, 236, 237, 255):
            width = reference.width_of(last)
            for raw in {0, last, min(last + 1, 2 ** width - 1), 2 ** width - 1}:
                for mark_bit in "01":
                    yield reader("an index at its edge", INDEX, 0, last, 0, len(before), before + mark_bit + reference.digits(raw, width))
            yield reader("an extension bit of 1 and nothing behind", INDEX, 0, last, 0, len(before), before + "1")
            yield reader("no bit", INDEX, 0, last, 0, len(before), before)
        for bit in ("0", "1", ""):
            yield reader("an extension bit", EXTENSION_BIT, 0, 0, 0, len(before), before + bit)

    def addition_edges(self, before):
        """Additions: counts at both ends, one there, some and all; each cut at every bit."""
        at = len(before)
        for count, there in ((1, "1"), (1, "0"), (2, "01"), (2, "10"), (2, "00"), (9, "101000000"), (64, "1" * 64), (64, "0" * 63 + "1"), (64, "0" * 64)):
            bits = before + "0" + reference.digits(count - 1, 6)
            yield reader("a count of additions", ADDITION_COUNT, 0, 0, 0, at, bits)
            yield reader("additions there", ADDITIONS_THERE, count, 0, 0, len(bits), bits + there)
            yield reader("additions there, cut", ADDITIONS_THERE, count, 0, 0, len(bits), bits + there[:-1])
            sizes = [self.random.choice((0, 1, 2, 127)) for _ in range(there.count("1"))]
            whole = bits + there + "".join(reference.put_length(0, 0, n, "") + self.noise(8 * n) for n in sizes)
            yield reader("additions", ADDITIONS, 0, 0, 0, at, whole + self.noise(5))
            cuts = range(at, len(whole)) if len(whole) - at < 200 else self.random.sample(range(at, len(whole)), 40)
            for cut in cuts:
                yield reader("additions, cut", ADDITIONS, 0, 0, 0, at, whole[:cut])
        one = before + "0000000" + "1"
        for form in ("10" + reference.digits(127, 14), "11" + "0" * 6, "10" + "1" * 14):
            yield reader("an addition's length", ADDITIONS, 0, 0, 0, at, one + form + self.noise(1100))
        yield reader("the longest addition", ADDITIONS, 0, 0, 0, at, one + "10" + "1" * 14 + self.noise(8 * 16383))
        yield reader("an addition of 128 octets", ADDITIONS, 0, 0, 0, at, one + reference.put_length(0, 0, 128, "") + self.noise(8 * 128))
        for long in ("1", "1" + "0" * 40, "1" * 80):
            for op in (ADDITIONS, ADDITION_COUNT):
                yield reader("the long form of a count", op, 0, 0, 0, at, before + long)
        yield reader("none of no additions", ADDITIONS_THERE, 0, 0, 0, at, before + "11")

    def far_places(self):
        """A place far behind the end is SHORT or full, and no sum wraps."""
        for at in (65, 1000, 2 ** 32, 2 ** 61, 2 ** 63, 2 ** 64 - 64, 2 ** 64 - 1):
            for op, lo, hi, value in FAR_READS:
                yield reader("a place behind the end", op, lo, hi, value, at, "0" * 64, f"refused 10 at {at}")
            for op, lo, hi, value in FAR_WRITES:
                yield writer("a place behind the end", op, lo, hi, value, at, 64, self.noise(64), "10100101")
                yield writer("an end far behind the buffer", op, lo, hi, value, 60, at, self.noise(64), "10100101")
            yield writer("contents that begin behind their bytes", WRITE + STRING, 8, at, 1, 0, 64, self.noise(64), self.noise(64))
            yield writer("a run that begins behind its bytes", WRITE + COPY, 64, at, 1, 0, 64, self.noise(64), self.noise(64))

    def refused_values(self):
        far = 2 ** 64 - 1
        for lo, hi in ((0, 63), (1, 5), (1996, 2095), (30, 700), (7, 7), (1, 2 ** 63), (0, far)):
            for value in {max(lo - 1, 0), lo, hi, min(hi + 1, far), far, 0}:
                yield writer("a number at the edge of its range", WRITE + WHOLE, lo, hi, value, 3, 96, self.noise(96))
        for last in (0, 1, 5, 12, 113, 236):
            for value in (last, last + 1, 255, far):
                yield writer("an index at the edge", WRITE + INDEX, 0, last, value, 5, 64, self.noise(64))
        for value in (0, 1, 127, 128, 2048, 16383, 16384, 2 ** 32 + 1, far):
            yield writer("a length at its edge", WRITE + LENGTH, 0, 0, value, 1, 64, self.noise(64))
            for unit in (1, 8):
                yield writer("contents at the edge", WRITE + STRING, unit, 0, value, 1, 2400, self.noise(2400), self.noise(2048))
        for width in (0, 1, 2, 7, 24, 63, 64):
            for value in {0, 2 ** width - 1, min(2 ** width, far), far}:
                yield writer("a bit-field at its edge", WRITE + BIT_FIELD, width, 0, value, 6, 96, self.noise(96))

    def copies(self):
        for to in range(8):
            for at in range(8):
                for count in (0, 1, 7, 8, 9, 16, 17, 64, self.random.randrange(300), self.random.randrange(2600)):
                    buffer = self.whole_bytes(to + count + self.random.randrange(20))
                    source = self.whole_bytes(at + count + self.random.randrange(20))
                    yield writer("a copy", WRITE + COPY, len(source), at, count, to, len(buffer), buffer, source)
                    if count:
                        yield writer("a copy, one bit too little room", WRITE + COPY, len(source), at, count, to, to + count - 1, buffer, source)
                        yield writer("a copy, one bit too few", WRITE + COPY, at + count - 1, at, count, to, len(buffer), buffer, source)

    def noisy_reads(self):
        """Any field read from noise at any place: the reference says what it is, or which fault is met first."""
        for _ in range(6000):
            bits = self.noise(self.random.randrange(1, 90))
            yield reader("noise", *self.random.choice(NOISY_READS), self.random.randrange(len(bits) + 1), bits)


# ---- asking

def ask(command, requests, report):
    """Sends the requests, as many a run as fit, and calls report(request, line) for each whose answer is not as it must be."""
    batch, size = [], 0
    for request in requests:
        if size + len(request.data) > ROOM:
            answered(command, batch, report)
            batch, size = [], 0
        batch.append(request)
        size += len(request.data)
    answered(command, batch, report)


def answered(command, batch, report):
    if not batch:
        return
    done = subprocess.run(command, input=b"".join(r.data for r in batch), stdout=subprocess.PIPE, stderr=subprocess.PIPE)
    lines = done.stdout.decode("ascii", "replace").splitlines()
    for i, request in enumerate(batch):
        line = lines[i] if i < len(lines) else "no answer"
        report(request, line)
    if done.returncode != 0 or len(lines) > len(batch):
        report(None, f"status {done.returncode}, {len(lines)} lines for {len(batch)} requests")
