#!/usr/bin/env python3
"""Holds peat-compare to a model, over recordings longer than one call takes.

    tool.py COMMAND ..     the words that run peat-compare; the last line is `N passed, M failed`

Each pair is a file of up to 200 KiB and the same with an envelope put in, left out or changed, cut, damaged, turned around, or another one. The model reads
envelopes by itself.
"""
import json
import random
import subprocess
import sys
import tempfile
from collections import Counter
from pathlib import Path

MOST_BITS = 16383
passed = failed = 0
seen = Counter()


def check(right, words):
    global passed, failed
    if right:
        passed += 1
    else:
        failed += 1
        print("recordings: peat-compare: " + words)


# ---- the model

class Refused(Exception):
    pass


def number(s, at):
    value = 0
    for i in range(10):
        if at >= len(s):
            raise Refused(20)
        b = s[at]
        at += 1
        if i == 9 and b > 1:
            raise Refused(21)
        value |= (b & 127) << 7 * i
        if b < 128:
            if b == 0 and i > 0:
                raise Refused(21)
            return value, at
    raise Refused(21)


def envelope(s, at):
    kind, at = number(s, at)
    if kind not in (1, 2, 3):
        raise Refused(22)
    job, at = number(s, at)
    if job == 0:
        raise Refused(21)
    bits, at = number(s, at)
    if bits > MOST_BITS or kind == 3 and bits != 8:
        raise Refused(23)
    end = at + (bits + 7) // 8
    if end > len(s):
        raise Refused(20)
    if bits % 8 and s[end - 1] & 0xFF >> bits % 8:
        raise Refused(23)
    return (kind, job, bits, bytes(s[at:end])), end


def read(s, name):
    found, at = [], 0
    while at < len(s):
        try:
            one, after = envelope(s, at)
        except Refused as why:
            return None, {"verdict": "refused", "refusal": why.args[0], "recording": name, "byte": at}
        found.append((at, one))
        at = after
    return found, None


def model(a, b):
    x, refused = read(a, "first")
    if refused:
        return refused
    y, refused = read(b, "second")
    if refused:
        return refused
    said = {"verdict": "equal"}
    for i, ((at, p), (_, q)) in enumerate(zip(x, y)):
        if p != q:
            field = next(name for name, u, v in zip(("kind", "job", "bit count", "body"), p, q) if u != v)
            said = {"verdict": "differs", "byte": at, "envelopes": i, "field": field}
            break
    else:
        if len(a) != len(b):
            said = {"verdict": "rest", "recording": "first" if len(a) > len(b) else "second", "byte": min(len(a), len(b)), "bytes": abs(len(a) - len(b))}
    m, n = Counter(p[1] for _, p in x), Counter(q[1] for _, q in y)
    said.update(only_first=sorted(j for j in m if j not in n), only_second=sorted(j for j in n if j not in m),
                repeated=sorted(j for j in set(m) | set(n) if m[j] > 1 or n[j] > 1))
    return said


# ---- recordings

def groups(n):
    out = bytearray()
    while n > 127:
        out.append(n & 127 | 128)
        n >>= 7
    out.append(n)
    return bytes(out)


def some(chance, jobs):
    kind = chance.choice((1, 1, 2, 3))
    bits = 8 if kind == 3 else chance.choice((0, 10, chance.randrange(200), chance.randrange(MOST_BITS + 1)))
    body = bytearray(chance.randbytes((bits + 7) // 8))
    if bits % 8:
        body[-1] &= 0xFF00 >> bits % 8 & 0xFF
    job = chance.choice((1 + chance.randrange(jobs), 1 + chance.randrange(jobs), 2 ** 64 - 1 - chance.randrange(9)))
    return groups(kind) + groups(job) + groups(bits) + bytes(body)


def pair(chance):
    jobs = chance.choice((5, 500, 20000))
    one = [some(chance, jobs) for _ in range(chance.choice((3, 60, 400)))]
    two, how = list(one), chance.randrange(8)
    at = chance.randrange(len(one))
    if how == 1:
        two[at] = some(chance, jobs)
    elif how == 2:
        two.insert(at, some(chance, jobs))
    elif how == 3:
        del two[at]
    elif how == 4:
        two = two[:at]
    elif how == 5:
        two[at:] = reversed(two[at:])
    elif how == 6:
        two = [some(chance, jobs) for _ in two]
    a, b = b"".join(one), b"".join(two)
    if how == 7:
        b = bytearray(b)
        b[chance.randrange(len(b))] ^= 1 << chance.randrange(8)
        b = bytes(b[:chance.randrange(len(b))] if chance.randrange(3) == 0 else b)
    return (a, b) if chance.randrange(2) else (b, a)


def at_a_cut():
    """the next envelope of one does not fit behind the first piece, that of the other does"""
    front = b"".join(groups(1) + groups(j) + groups(16000) + bytes(2000) for j in range(1, 17))
    return front + groups(1) + groups(99) + groups(16000) + bytes(2000), front + groups(1) + groups(99) + groups(8) + b"\0"


def main():
    command, chance = sys.argv[1:], random.Random(20261116)
    pairs = [at_a_cut(), at_a_cut()[::-1], (b"", b""), (b"", b"\1\7\0"), (bytes(70000), b"")] + [pair(chance) for _ in range(150)]
    with tempfile.TemporaryDirectory() as made:
        first, second = Path(made, "first"), Path(made, "second")
        for a, b in pairs:
            first.write_bytes(a)
            second.write_bytes(b)
            want = model(a, b)
            seen[want["verdict"]] += 1
            seen["long"] += len(a) > 32768 and len(b) > 32768
            done = subprocess.run([*command, "--json", str(first), str(second)], capture_output=True, text=True)
            said = json.loads(done.stdout) if done.stdout else {"stderr": done.stderr}
            check(said == want, "%s for %s" % (str(said)[:300], str(want)[:300]))
            check(done.returncode == {"equal": 0, "refused": 2}.get(want["verdict"], 1), "status %d of %s" % (done.returncode, want["verdict"]))
            text = subprocess.run([*command, str(first), str(second)], capture_output=True, text=True).stdout
            check(text.split()[:1] == [want["verdict"]], "the first word is %s" % text.split()[:1])
        for words in ([], [str(first)], [str(first), str(first / "none")], ["--xml", str(first), str(second)]):
            check(subprocess.run([*command, *words], capture_output=True).returncode == 2, "is not refused: %s" % words)
        check("Not proved" in subprocess.run([*command, "--help"], capture_output=True, text=True).stdout, "--help does not say what is not proved")
    print("recordings: peat-compare: " + ", ".join("%d %s" % (n, name) for name, n in sorted(seen.items())))
    check(len(seen) == 5 and min(seen.values()) >= 5, "hardly any of these")
    print("%d passed, %d failed" % (passed, failed))
    return failed != 0


if __name__ == "__main__":
    sys.exit(main())
