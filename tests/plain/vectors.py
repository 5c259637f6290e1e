"""Random APDUs of application type 2, as plain.py writes them: lines SIDE KIND BITS HEX."""
import random
import sys
from pathlib import Path

sys.path.insert(0, str(Path(__file__).resolve().parent))
import plain  # noqa: E402
from plain import AIR, GROUND, cpdlc  # noqa: E402

NAMES = {AIR: "air", GROUND: "ground"}


def argument(rng, kind):
    if kind == "NULL":
        return None
    level = lambda: tuple((u, rng.randint(*cpdlc.UNITS[u])) for u in (rng.randrange(4) for _ in range(rng.choice((1, 1, 2)))))
    if kind == "Level":
        return level()
    if kind == "LevelLevel":
        return level(), level()
    if kind == "Time":
        return rng.randint(0, 23), rng.randint(0, 59)
    if kind == "Code":
        return tuple(rng.randint(0, 7) for _ in range(4))
    if kind == "Facility" and rng.random() < 0.3:
        return None
    low, high = cpdlc.SIZES[kind]
    return bytes(rng.randint(32, 126) for _ in range(rng.choice((low, high, rng.randint(low, high)))))


def elements(rng, direction):
    numbers = [n for n in range(len(cpdlc.TYPES[direction])) if cpdlc.carried(direction, n)]
    return [(n, argument(rng, cpdlc.carried(direction, n))) for n in (rng.choice(numbers) for _ in range(rng.randint(1, 5)))]


def date(rng):
    return tuple(rng.randint(*r) for r in cpdlc.DATE)


def message(rng, direction):
    return {"id": rng.randrange(64), "ref": rng.choice((None, rng.randrange(64))), "date": date(rng), "ack": rng.random() < 0.5, "elements": elements(rng, direction)}


def pdu(rng, side):
    kind = rng.choice(("abort-user", "abort-provider", "start", "start", "send", "send", "send") + (("forward", "forward", "forward-response") if side == GROUND else ()))
    if kind == "abort-user":
        return kind, rng.randint(0, plain.USER)
    if kind == "abort-provider":
        return kind, rng.randint(0, 7)
    if kind == "forward-response":
        return kind, rng.randint(0, 2)
    if kind == "send":
        return kind, message(rng, plain.SENT[side])
    if kind == "start":
        return kind, rng.randrange(2) if side == AIR else 0, rng.choice((None, message(rng, plain.SENT[side])))
    direction = rng.randrange(2)
    flight = "".join(chr(rng.randint(32, 126)) for _ in range(rng.randint(2, 8)))
    return kind, (*date(rng), flight, rng.randrange(1 << 24), direction, elements(rng, plain.FORWARDED[direction]))


def largest():
    """The largest start of the ground: five texts of 256 characters."""
    text = next(n for n in range(len(cpdlc.TYPES[cpdlc.UPLINK])) if cpdlc.carried(cpdlc.UPLINK, n) == "FreeText")
    return "start", 0, {"id": 63, "ref": 0, "date": (2095, 12, 31, 23, 59, 59), "ack": True, "elements": [(text, b"~" * 256)] * 5}


def every(count, seed):
    rng = random.Random(seed)
    for side in (AIR, GROUND):
        for reason in range(plain.USER + 1):
            yield side, ("abort-user", reason)
        for reason in range(8):
            yield side, ("abort-provider", reason)
        for mode in range(2 if side == AIR else 1):
            yield side, ("start", mode, None)
    for result in range(3):
        yield GROUND, ("forward-response", result)
    yield GROUND, largest()
    for _ in range(count):
        side = rng.choice((AIR, GROUND))
        yield side, pdu(rng, side)


def lines(count, seed):
    for side, value in every(count, seed):
        bits = plain.pdu_bits(side, value)
        yield f"{NAMES[side]} {value[0]} {len(bits)} {plain.packed(bits).hex()}"


if __name__ == "__main__":
    for line in lines(int(sys.argv[1]) if len(sys.argv) > 1 else 3000, 14):
        print(line)
