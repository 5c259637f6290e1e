"""Later editions of the module: ProtectedUplinkMessage and ProtectedDownlinkMessage with additions behind their extension marker. The independent coder writes
APDUs of them, which the card must read as if the additions were not there."""
import random

import driver
from reference import AIR, GROUND

# How many additions an edition has. The last is more than the short form of the count has room for.
EDITIONS = (1, 2, 3, 7, 8, 9, 20, 63, 64, 65)
TOO_MANY = 65

# An addition: its declaration, and values of it as the coder's text has them (oracle.erl): a word, or a word for each member of a group.
TYPES = (
    ("a{} INTEGER (0..255) OPTIONAL", ("0", "77", "255")),
    ("a{} BOOLEAN OPTIONAL", ("true", "false")),
    ("a{} IA5String OPTIONAL", ('"A"', '"later"')),
    ("[[ a{} INTEGER (0..7) ]]", ("0", "7")),
    ("a{} NULL OPTIONAL", ("'NULL'",)),
    ("a{} OCTET STRING OPTIONAL", ("o:0:0", "o:1:171", "o:40:255")),
    ("a{} CHOICE {{ p NULL, q INTEGER, ... }} OPTIONAL", ("{p,'NULL'}", "{q,300}", "{q,-1}")),
    ("a{} ENUMERATED {{ one, two, ..., three }} OPTIONAL", ("one", "two", "three")),
    ("a{} BIT STRING OPTIONAL", ("b:0:-", "b:3:a0", "b:130:0f")),
    ("a{} SEQUENCE {{ x INTEGER, y BOOLEAN OPTIONAL, ... }} OPTIONAL", ("{r,5,asn1_NOVALUE}", "{r,70000,true}")),
)
# a group of two, which the coder takes at the end only
GROUP = ("[[ h1 INTEGER (0..7), h2 BOOLEAN OPTIONAL ]]", (("5", "true"), ("0", "-")))
# octets of an octet string whose addition is as long as the forms of a length have edges; from the third last on it comes in fragments
LONG = (125, 126, 127, 128, 1000, 16380, 16381, 16382, 16383, 30000)
FRAGMENTED = 16382


def additions(n):
    """The declarations of an edition's additions, and the values of each, as lists of words."""
    all_of = [(declaration.format(i), [(v,) for v in values]) for i in range(n) for declaration, values in (TYPES[i % len(TYPES)],)]
    return all_of if n < 3 else all_of[:-1] + [(GROUP[0], [tuple(v) for v in GROUP[1]])]


def module(text, declarations):
    """The module's text with additions in both types."""
    marker = "    integrityCheck BIT STRING,\n    ...\n"
    assert text.count(marker) == 2
    return text.replace(marker, "    integrityCheck BIT STRING,\n    ...,\n    " + ",\n    ".join(declarations) + "\n")


def roots(rng):
    """Message data of every shape, and the APDUs that hold it."""
    for octets, message, check in ((None, None, 0), (None, None, 5), (None, 9, 1), (2, None, 64), (16, 40, 32)):
        data = driver.contents(rng, octets, message, check)
        yield AIR, ("send", data)
        yield AIR, ("start", 1, data)
        yield GROUND, ("start", 0, data)


def chosen(n):
    """Which additions are there: all, each end alone, every second one, absent ones at the end."""
    yield range(n)
    yield {0}
    yield {n - 1}
    yield set(range(0, n, 2))
    yield set(range((n + 1) // 2))


def values():
    """(additions, side, APDU, words of the additions): the same on every run. The octet strings of LONG are in the edition of one octet string, 0."""
    rng = random.Random(1990)
    for n in EDITIONS:
        all_of = additions(n)
        for side, pdu in roots(rng):
            for there in chosen(n):
                words = [rng.choice(v) if i in there else ("-",) * len(v[0]) for i, (_, v) in enumerate(all_of)]
                yield n, side, pdu, [w for one in words for w in one]
    for octets in LONG:
        yield 0, AIR, ("send", driver.contents(rng, 1, 3, 4)), [f"o:{octets}:{octets % 256}"]


def declared(n):
    return ["a0 OCTET STRING OPTIONAL"] if n == 0 else [declaration for declaration, _ in additions(n)]


def presence(n, words):
    """Which of the additions are there, by the words."""
    if n == 0:
        return [True]
    there, at = [], 0
    for _, v in additions(n):
        there.append(any(w != "-" for w in words[at:at + len(v[0])]))
        at += len(v[0])
    return there
