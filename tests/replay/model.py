#!/usr/bin/env python3
"""The model of the duties once more, in Python, with no code of the program's: which line of a day it does not make, and the rule.

    model.py SEED COUNT DAY .. -- COMMAND ..

Spoils each DAY in COUNT ways, by chance from SEED: a line left out, written twice or in the place of the next, a number or a word changed. The COMMAND (the
program replay) must say of each what the model says. The last line is `N passed, M failed`.
"""
import random
import re
import subprocess
import sys
import tempfile

IDLE, START_REQ, START_IND, DIALOGUE, END, FORWARD = range(6)
CARD, CARRIER, UNREAD, ANOTHER, KIND, BEHIND = 20, 21, 22, 24, 25, 26
SAYS = {CARD: "the card does not do this", CARRIER: "the carrier does not do this", UNREAD: "the line can not be read", ANOTHER: "the message is another",
        KIND: "the envelope is not one", BEHIND: "this line stands behind another"}
DELIVERED = 2  # the kind of an envelope with a delivered message
NUMBERS = 64  # of a book
NEEDS = {"from": 4, "takes": 1, "refuses": 1, "acknowledges": 1, "tells-refused": 2, "tells-ended": 2, "tells-broken": 2, "starts-cpdlc": 1, "starts-dsc": 1, "accepts-start": 0,
         "rejects-start": 0, "asks-end": 0, "accepts-end": 0, "rejects-end": 0, "aborts": 1, "expires": 1, "error": 1, "turned-back": 0, "shows": 0, "sends": 0, "released": 0,
         "gives-up": 0, "power-fails": 0, "cut-off": 0, "carrier-fails": 0, "record": 4, "quiet": 0, "hears-start": 2, "hears-start-accepted": 2, "hears-start-rejected": 2,
         "hears-data": 3, "hears-end": 2, "hears-end-accepted": 2, "hears-end-rejected": 2, "hears-abort": 2, "hears-end-confirmed": 2,
         "bits": 1, "reason": 1, "posts": 1, "opens": 1, "replies": 1, "closes": 1, "discards": 1, "opened": 0, "closed": 0,
         "centre": 3, "forwards": 2, "hears-forward": 2, "hears-answer": 1, "tells-answered": 3}
SAID = {"bits", "reason", "posts", "opens", "replies", "closes", "discards", "opened", "closed"}  # no moves: they say something of one
OF_LINKS = {"forwards", "hears-forward", "hears-answer", "tells-answered"}
OF_DIALOGUES = {"takes", "starts-cpdlc", "starts-dsc", "accepts-start", "rejects-start", "asks-end", "accepts-end", "rejects-end", "hears-start", "hears-start-accepted",
                "hears-start-rejected", "hears-data", "hears-end", "hears-end-accepted", "hears-end-rejected", "hears-end-confirmed"}
LINE = re.compile(r"([ag]) ([a-z-]+)((?: [0-9]+)*)")


class Breaks(Exception):
    """A rule that a line breaks."""


class End:
    def __init__(self, side, number, highest):
        self.side, self.state, self.dsc, self.number, self.highest = side, IDLE, False, number, highest
        self.line, self.decided, self.open, self.notices = [], set(), [], []
        self.unsent, self.power, self.waiting = 0, "up", False
        self.watch = Watch()

    def may_start(self, dsc):
        return self.side == "a" or not dsc

    def ends(self):
        return self.dsc == (self.side == "a")

    def tell(self, fate):
        self.notices += [(job, fate) for job in self.open]
        self.open = []

    def close(self):
        self.state, self.dsc = IDLE, False

    def put(self, kind, job=0):
        self.line.append((kind, self.number, job))
        self.unsent += 1


class Watch:
    """What the lines that are no moves said of an end."""

    def __init__(self):
        self.last, self.job = "", 0  # the last move, and its job
        self.known = {}  # of a job: the digest of its message, or the reason of its refusal
        self.book, self.book_of, self.reply = set(), 0, None
        self.is_shown, self.was_open, self.was_closed = False, False, False

    def moved(self, word, numbers):
        self.last = word
        self.job = numbers[2] if word == "hears-data" else numbers[1] if word == "tells-refused" else numbers[0] if word in ("takes", "refuses") else 0

    def look(self, end):
        closed = end.state == IDLE or end.power != "up"
        self.was_open |= not closed
        self.was_closed |= closed


def need(right, rule):
    if not right:
        raise Breaks(rule)


class Model:
    def __init__(self):
        self.ends, self.broken, self.starts = None, set(), None
        self.links, self.whole = False, False  # two centres; both have said what they are

    def abort(self, end, left):
        end.close()
        kept = []
        for entry in end.line:
            if entry[1] != end.number or left > 0:
                kept.append(entry)
                left -= entry[1] == end.number
        end.line = kept
        end.put("abort")
        self.broken.add(end.number)
        end.tell("broken")

    def step(self, line):
        found = LINE.fullmatch(line)
        need(found and found.group(2) in NEEDS, UNREAD)
        side, word, numbers = found.group(1), found.group(2), [int(n) for n in found.group(3).split()]
        need(len(numbers) == NEEDS[word] and all(n < 2 ** 64 for n in numbers), UNREAD)
        if self.ends is None:
            self.first(side, word, numbers)
            return
        here, there = self.ends[side], self.ends["g" if side == "a" else "a"]
        if self.links and not self.whole:
            need(word == "centre" and side != self.starts, UNREAD)
            need(numbers[0] <= there.number, 12)
            here.number, here.version, here.answers = numbers
            self.whole = True
            return
        need(word not in ("from", "centre"), UNREAD)
        if word in SAID:
            getattr(self, "says_" + word)(here, there, *numbers)
            return
        need(here.watch.reply is None, 11)
        need(word not in (OF_DIALOGUES if self.links else OF_LINKS), CARD)
        self.moves(here, there, side, word, numbers)
        here.watch.moved(word, numbers)
        for end in (here, there):
            end.watch.look(end)

    def first(self, side, word, numbers):
        need(word in ("from", "centre"), UNREAD)
        self.starts = side
        if word == "from":
            need(numbers[0] >= numbers[2] if side == "a" else numbers[2] >= numbers[0], 12)
            self.ends = {"a": End("a", *numbers[:2]), "g": End("g", *numbers[2:])}
            return
        self.links, self.ends = True, {"a": End("a", 0, 0), "g": End("g", 0, 0)}
        end = self.ends[side]
        end.number, end.version, end.answers = numbers

    def moves(self, here, there, side, word, numbers):
        need(not self.links or word != "released", 4)
        if word in ("hears-forward", "hears-answer") or self.links and word in ("aborts", "expires", "turned-back", "sends", "cut-off", "hears-abort"):
            getattr(self, "link_" + word.replace("-", "_"))(here, there, *numbers)
        elif word == "tells-answered":
            need(here.power != "down", 3)
            need(1 <= numbers[0] <= len(here.notices) and here.notices[numbers[0] - 1] == (numbers[1], numbers[2]), 4)
        elif word.startswith("hears-"):
            need(word != "hears-start" or side != self.starts, 17)
            self.ready(here)
            self.hears(here, there, word[6:], *numbers)
        elif word.startswith("tells-"):
            need(here.power != "down", 3)
            need(1 <= numbers[0] <= len(here.notices) and here.notices[numbers[0] - 1] == (numbers[1], word[6:]), 4)
        else:
            name = word.split("-")[0]
            getattr(self, "begins" if name == "starts" else name)(here, there, word, *numbers)

    @staticmethod
    def ready(here):
        need(here.power == "up", 3)
        need(not here.waiting, 14)

    def takes(self, here, there, word, job):
        self.ready(here)
        need(job not in here.decided, 6)
        need((here.state == DIALOGUE or here.state == END and not here.ends()) and job > here.highest, CARD)
        here.highest = job
        here.decided.add(job)
        here.open.append(job)
        here.put("data", job)

    def refuses(self, here, there, word, job):
        need(here.power != "down", 3)
        need(job not in here.decided, 6)
        here.decided.add(job)
        here.notices.append((job, "refused"))

    def acknowledges(self, here, there, word, job):
        need(here.power != "down", 3)
        need(job in here.decided, 1)

    def begins(self, here, there, word, number):
        self.ready(here)
        need(here.side == self.starts, 12)
        need(there.state == IDLE, 3)
        need(number > here.number, 12)
        dsc = word == "starts-dsc"
        need(here.state == IDLE and here.may_start(dsc), CARD)
        here.tell("broken")
        here.number, here.state, here.dsc = number, START_REQ, dsc
        here.put(word)

    def answer(self, here, there, word):
        """To a start or to an end."""
        self.ready(here)
        accepted, to = word.startswith("accepts"), word[8:]
        need(here.state == START_IND and there.may_start(here.dsc) if to == "start" else here.state == END and not here.ends(), CARD)
        if accepted == (to == "start"):
            here.state = DIALOGUE
        else:
            here.close()
        here.put(to + ("-accepted" if accepted else "-rejected"))

    accepts = rejects = answer

    def asks(self, here, there, word):
        self.ready(here)
        need(here.state == DIALOGUE and here.ends(), CARD)
        here.state = END
        here.put("end")

    def aborts(self, here, there, word, left):
        self.ready(here)
        need(here.state != IDLE, CARD)
        self.abort(here, left)

    def expires(self, here, there, word, left):
        self.ready(here)
        need(here.state == START_REQ, CARD)
        self.abort(here, left)

    def error(self, here, there, word, left):
        need(here.power != "down", 3)
        if here.state != IDLE and here.power == "up":
            if self.links:
                self.link_aborts(here, there, left)
            else:
                self.aborts(here, there, word, left)

    def turned(self, here, there, word):
        self.ready(here)
        starts = [e for e in here.line if e[0].startswith("starts") and e[1] == here.number]
        need(here.state == START_REQ and starts, CARRIER)
        here.line.remove(starts[0])
        here.close()
        here.tell("broken")

    def hears(self, here, there, kind, number, left, job=0):
        confirmed = kind == "end-confirmed"
        kind = "end-accepted" if confirmed else kind
        need(len(there.line) > there.unsent, 7)
        first, of, what = there.line[0]
        start = first.startswith("starts")
        need(kind == ("start" if start else first), 7)
        need(of == number, 12)
        need(kind != "data" or what == job, 7)
        if confirmed:
            need(of == here.number and here.state == END and here.ends(), 4)
        there.line.pop(0)
        breaks = kind == "abort" and of == here.number
        if here.state == IDLE and not start:
            if breaks:
                here.tell("broken")
            return
        if of <= here.number if start else of != here.number:
            return  # stale
        if start:
            here.tell("broken")
            here.number = of
        expected = {"start": here.state == IDLE and there.may_start(first == "starts-dsc"), "start-accepted": here.state == START_REQ, "start-rejected": here.state == START_REQ,
                    "data": here.state == DIALOGUE or here.state == END and here.ends(), "end": here.state == DIALOGUE and not here.ends(),
                    "end-accepted": here.state == END and here.ends(), "end-rejected": here.state == END and here.ends(), "abort": True}[kind]
        if not expected:
            self.abort(here, left)
        elif kind == "start":
            here.state, here.dsc = START_IND, here.dsc or first == "starts-dsc"
        elif kind in ("start-accepted", "end-rejected"):
            here.state = DIALOGUE
        elif kind == "end":
            here.state = END
        elif kind == "data":
            here.waiting = True
        else:
            here.close()
        if expected and (confirmed or breaks):
            here.tell("ended" if confirmed else "broken")

    def shows(self, here, there, word):
        need(here.power != "down", 3)
        need(here.waiting, 1)
        here.waiting = False

    def sends(self, here, there, word):
        need(here.power == "up", 3)
        need(here.unsent > 0, 1)
        here.unsent -= 1

    def released(self, here, there, word):
        need(here.power == "up", 3)
        need(not here.line and not there.line and here.state == there.state == IDLE and here.number not in self.broken, 4)
        here.tell("ended")

    def gives(self, here, there, word):
        need(here.power == "up", 3)
        here.tell("broken")

    def power(self, here, there, word):
        here.power, here.waiting = "down", False

    def cut(self, here, there, word):
        if here.power != "apart":
            here.tell("broken")
            here.power, here.unsent = "apart", 0

    def carrier(self, here, there, word):
        for end in (here, there):
            self.broken |= {entry[1] for entry in end.line} | ({end.number} if end.state != IDLE else set())
        for end in (here, there):
            if end.state != IDLE:
                end.close()
            end.line, end.unsent = [], 0
            end.tell("broken")
        here.power = "up"
        there.power = "up" if there.power == "apart" else there.power

    def record(self, here, there, word, *held):
        need(here.power != "up" or held == (here.state, int(here.dsc), here.number, here.highest), 2)

    def quiet(self, here, there, word):
        need(not here.line and not there.line, CARRIER)

    # ---- two centres

    def forwards(self, here, there, word, job, number):
        self.ready(here)
        need(here.side == self.starts, 12)
        need(job not in here.decided, 13)
        need(number > here.number, 12)
        need(here.state == IDLE, CARD)
        here.decided.add(job)
        here.open.append(job)
        here.number, here.state = number, FORWARD
        here.put("starts", job)

    def arrived(self, here, there, kinds, number):
        self.ready(here)
        need(len(there.line) > there.unsent, 7)
        need(there.line[0][0] in kinds, 7)
        need(there.line[0][1] == number, 12)

    def link_hears_forward(self, here, there, number, version):
        need(here.side != self.starts, 17)
        self.arrived(here, there, ("starts",), number)
        need(version == there.version, 15)
        there.line.pop(0)
        if number <= here.number:
            return
        here.number = number
        result = 1 if not here.answers else 2 if here.version != version else 0
        here.put(result)
        here.waiting = result == 0

    def link_hears_answer(self, here, there, number):
        self.arrived(here, there, (0, 1, 2), number)
        result = there.line.pop(0)[0]
        if here.state == FORWARD and number == here.number:
            here.close()
            here.tell(result)

    def link_hears_abort(self, here, there, number, left):
        self.arrived(here, there, ("abort",), number)
        there.line.pop(0)
        if here.state == FORWARD and number == here.number:
            here.close()
            here.tell("broken")

    def link_aborts(self, here, there, left):
        self.ready(here)
        need(here.state == FORWARD, CARD)
        self.abort(here, left)

    link_expires = link_aborts

    def link_turned_back(self, here, there):
        self.ready(here)
        starts = [e for e in here.line if e[0] == "starts" and e[1] == here.number]
        need(here.state == FORWARD and starts, CARRIER)
        here.line.remove(starts[0])
        here.close()
        here.tell("broken")

    def link_sends(self, here, there):
        need(here.power == "up", 3)
        need(not here.waiting, 14)
        need(here.unsent > 0, 1)
        here.unsent -= 1

    @staticmethod
    def link_cut_off(here, there):
        if here.power != "apart":
            here.tell("broken")
            here.power = "apart"

    # ---- what is said of a move

    @staticmethod
    def says_bits(here, there, digest):
        watch = here.watch
        need(watch.last in ("takes", "hears-data"), BEHIND)
        known = (here if watch.last == "takes" else there).watch.known
        need(known.get(watch.job, digest) == digest, ANOTHER)
        if watch.last == "takes":
            known[watch.job] = digest

    @staticmethod
    def says_reason(here, there, reason):
        watch = here.watch
        need(watch.last in ("refuses", "tells-refused"), BEHIND)
        need(watch.known.get(watch.job, reason) == reason, 4)
        if watch.last == "refuses":
            watch.known[watch.job] = reason

    @staticmethod
    def says_posts(here, there, kind):
        need(here.watch.last == "shows", BEHIND)
        need(kind == DELIVERED, KIND)

    @staticmethod
    def book(here):
        """That of this dialogue."""
        watch = here.watch
        if watch.book_of != here.number:
            watch.book, watch.book_of = set(), here.number
        return watch.book

    def says_opens(self, here, there, number):
        need(here.watch.last == "takes", BEHIND)
        book = self.book(here)
        need(number < NUMBERS and number not in book, 11)
        book.add(number)

    def says_replies(self, here, there, number):
        need(here.watch.last.startswith("hears-"), BEHIND)
        need(here.watch.reply is None, 11)
        if number in self.book(here):
            here.watch.reply = number

    def says_closes(self, here, there, number):
        need(here.watch.reply == number, 11)
        here.watch.reply = None
        self.book(here).discard(number)

    def says_discards(self, here, there, number):
        need(here.watch.reply is None and number in self.book(here), 11)
        self.book(here).discard(number)

    @staticmethod
    def says_opened(here, there):
        watch = here.watch
        need(not watch.is_shown and watch.was_open, 16)
        watch.is_shown, watch.was_closed = True, False
        watch.look(here)

    @staticmethod
    def says_closed(here, there):
        watch = here.watch
        need(watch.is_shown and watch.was_closed, 16)
        watch.is_shown, watch.was_open = False, False
        watch.look(here)


def says(lines):
    """What replay has to print of these lines."""
    model = Model()
    for n, line in enumerate(lines, 1):
        try:
            model.step(line)
        except Breaks as broken:
            rule = broken.args[0]
            return f"line {n}: {line}\n", SAYS.get(rule, f"duty {rule},")
    return f"every line is a move of the model: {len(lines)} lines\n", ""


def spoil(lines, chance):
    lines, at, way = list(lines), chance.randrange(1, len(lines) - 1), chance.randrange(6)
    words = lines[at].split()
    if way == 0:
        del lines[at]
    elif way == 1:
        lines.insert(at, lines[at])
    elif way == 2:
        lines[at], lines[at + 1] = lines[at + 1], lines[at]
    elif way == 3 and len(words) > 2:
        i = chance.randrange(2, len(words))
        lines[at] = " ".join(words[:i] + [str(max(0, int(words[i]) + chance.choice([-1, 1, 7])))] + words[i + 1:])
    elif way == 4:
        lines[at] = ("g" if words[0] == "a" else "a") + lines[at][1:]
    else:
        word = chance.choice(sorted(NEEDS))
        lines[at] = " ".join([words[0], word] + [str(chance.randrange(3)) for _ in range(NEEDS[word])])
    return lines


def main(words):
    cut = words.index("--")
    chance, count, days, command = random.Random(int(words[0])), int(words[1]), words[2:cut], words[cut + 1:]
    passed = failed = named = 0
    with tempfile.NamedTemporaryFile("w") as file:
        for day in days:
            with open(day, encoding="ascii") as whole:
                good = whole.read().split("\n")[:-1]
            for n in range(count):
                lines = spoil(good, chance) if n else good
                first, second = says(lines)
                file.seek(0)
                file.truncate()
                file.write("".join(line + "\n" for line in lines))
                file.flush()
                said = subprocess.run([*command, file.name], capture_output=True, text=True, check=False).stdout
                named += second != ""
                if said.startswith(first) and said[len(first):].startswith(second):
                    passed += 1
                    continue
                failed += 1
                if failed < 6:
                    print(f"replay: {day}, spoiled {n}: the model says {first!r} {second!r}, and replay {said!r}")
    print(f"replay: {passed + failed} days in Python and by replay, {named} of them named")
    print(f"{passed} passed, {failed} failed")
    return 1 if failed else 0


if __name__ == "__main__":
    sys.exit(main(sys.argv[1:]))
