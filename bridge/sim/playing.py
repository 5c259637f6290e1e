"""What the tests, the demonstration and the soak with a real broker share: the programs, a private RabbitMQ, a stage with a
journal and aircraft, and what was told and seen in the end."""
import fcntl
import json
import os
import re
import select
import signal
import socket
import subprocess
import threading
import time
from pathlib import Path

TOP = Path(__file__).resolve().parents[2]
OUT = TOP / "target/bridge"  # build chooses
X86 = str(TOP / "tools/x86")
running = []  # processes to end


class Missing(Exception):
    """What is needed is not on this machine."""


class Broken(Exception):
    """What must work does not."""


def call(*words, **more):
    return subprocess.run([str(w) for w in words], capture_output=True, text=True, cwd=more.pop("cwd", TOP), **more)


def program(name, *words, env=None, at=(), **more):
    """Starts a program; at: the words that bring it somewhere else (a network namespace)."""
    p = subprocess.Popen([*at, X86, "run", str(OUT / name)] + [str(w) for w in words], cwd=TOP, env=dict(os.environ, **(env or {})), **more)
    running.append(p)
    return p


def end_all():
    for p in running:
        if p.poll() is None:
            p.kill()
            p.wait()


def until(what, seconds, every=0.05):
    """Polls until it holds."""
    end = time.monotonic() + seconds
    while time.monotonic() < end:
        if what():
            return True
        time.sleep(every)
    return False


def ends(p, seconds):
    """The status of a process, or None where it goes on."""
    try:
        return p.wait(seconds)
    except subprocess.TimeoutExpired:
        return None


def free_port():
    """A port of the loopback address that is free now."""
    with socket.socket() as s:
        s.bind(("127.0.0.1", 0))
        return s.getsockname()[1]


def page(port, seconds=5.0):
    """What a bridge's page says, or None, and after how long."""
    at, said = time.monotonic(), b""
    try:
        with socket.create_connection(("127.0.0.1", port), seconds) as s:
            s.settimeout(seconds)
            s.sendall(b"GET /metrics HTTP/1.0\r\n\r\n")
            while part := s.recv(65536):
                said += part
    except OSError:
        return None, time.monotonic() - at
    return said.decode(), time.monotonic() - at


FLAGS = "-std=c99 -pthread -O2 -g -Wall -Wextra -Werror -pedantic -D_POSIX_C_SOURCE=200809L -Iinclude".split()
built = dict(sanitizers=[], libraries=[])  # how the programs were built


def build(checked=False):
    """The programs, and a bridge with points at which it kills itself. Checked: with the sanitizers that the machine has."""
    global OUT
    said = call("tests/archive")
    if said.returncode != 0:
        raise Broken("the archive is not built: " + said.stdout[-300:] + said.stderr[-300:])
    words = call("tools/libraries", "rabbitmq", "sqlite")
    if words.returncode != 0:
        raise Missing("there is no SQLite, or no AMQP library, for x86-64")
    built["libraries"] = words.stdout.split() + call("tools/libraries", "postgres").stdout.split() + call("tools/libraries", "microhttpd").stdout.split()
    built["sanitizers"] = call("tools/x86", "sanitizers").stdout.split() if checked else []
    OUT = TOP / ("target/bridge_checked" if checked else "target/bridge")
    OUT.mkdir(parents=True, exist_ok=True)
    with open(OUT / "lock", "w") as lock:  # tests run side by side
        fcntl.flock(lock, fcntl.LOCK_EX)
        said = call("make", "-s", "-C", "bridge", "OUT=" + str(OUT), "MORE=" + " ".join(built["sanitizers"]))
        if said.returncode != 0:
            raise Broken("the bridge does not link: " + said.stderr[:500])
        link("killed", ["points"], "tests/bridge_broker/points.c", "tests/bridge/disk.c")


def objects_but(*names):
    """The bridge's objects, without those named, those for a library that is not there, and those in the place of one that is."""
    database = {"journal_postgres", "postgres_lease", "postgres_tables", "pg", "letters"}
    missing = {"broker_none"} | ({"journal_none"} if "-lpq" in built["libraries"] else database)
    missing |= {"page_none", "certificates_none"} if "-lmicrohttpd" in built["libraries"] else {"page", "page_files", "certificates"}
    return [o for o in sorted(OUT.glob("*.o")) if o.stem not in missing.union(names)]


def link(name, instead, *sources, flags=()):
    """A bridge with these sources instead of some of its objects."""
    objects, new = objects_but(*instead), OUT / ("%s.%d" % (name, os.getpid()))
    said = call(X86, "cc", *FLAGS, *flags, *built["sanitizers"], "-o", new, *sources, *objects, "target/staticlib/libcard.a", *built["libraries"])
    if said.returncode != 0:
        raise Broken("%s does not link: %s" % (name, said.stderr[:500]))
    new.replace(OUT / name)  # whole at any time, also for a test that runs beside this one


def variant(name, *edits):
    """A bridge in which some lines are others; an edit is a source, what stands in it once, and what is to stand there."""
    texts = {}
    for source, line, other in edits:
        text = texts.get(source) or (TOP / "bridge" / (source + ".c")).read_text()
        if text.count(line) != 1:
            raise Broken("%s: the line is not in bridge/%s.c once: %s" % (name, source, line))
        texts[source] = text.replace(line, other)
    made = [OUT / (name + "_" + source + ".c") for source in texts]
    for file, text in zip(made, texts.values()):
        file.write_text(text)
    link(name, list(texts), *made, flags=["-Ibridge", "-w"])


def fetch_broker():
    said = call("tools/broker", "get")
    if said.returncode != 0:
        raise Missing(said.stdout.strip().splitlines()[-1] if said.stdout.strip() else "RabbitMQ can not be had")


def broker(word, folder):
    said = call("tools/broker", word, folder)
    if said.returncode != 0:
        raise Broken("broker %s: %s" % (word, said.stdout[-300:]))


class Stage:
    """A folder with a journal, aircraft, and the broker's queues."""

    def __init__(self, room, name, plain_port, dialogues, queues="peat", **more):
        self.queues, self.centres = queues, int(more.get("centres", 0))
        self.folder = Path(room) / name
        self.folder.mkdir()
        self.port, self.dialogues = plain_port, dialogues
        self.decks, self.letters, self.log = self.folder / "decks", self.folder / "letters", self.folder / "log"
        self.more = more
        self.config = self.write("config")
        if self.command("init") != 0:
            raise Broken(name + ": no journal is made")
        self.position("declare", dialogues, self.centres)
        self.aircraft = None
        self.at = ()  # where the bridges run
        self.built = "bridge"  # which one

    def write(self, name, **more):
        """A configuration; what is given replaces what a test uses otherwise."""
        settings = dict(journal=self.folder / (name + ".journal"), witness=self.folder / (name + ".witness"), dialogues=self.dialogues,
                        aircraft=self.folder / "a{}", broker="127.0.0.1", port=self.port, user="guest", password_file=self.folder / "password",
                        retry_ms=20, retry_most_ms=200, reconnect_ms=20, reconnect_most_ms=300, claim_ms=15000, heartbeat_s=5, stop_ms=30000,
                        messages="opaque")  # the jobs are patterns, which no card reads (pattern.h)
        if self.queues != "peat":
            settings.update({"queue_" + kind: self.queues + "." + kind for kind in ("down", "dead", "owner")})
            settings.update({"queue_" + kind: self.queues + "." + kind + ".{}" for kind in ("up", "words", "forward")})
        settings.update(self.more)
        settings.update(more)
        if "database" in settings:
            del settings["journal"]
        (self.folder / "password").write_text("guest\n")
        path = self.folder / name
        path.write_text("".join("%s = %s\n" % s for s in settings.items()))
        return path

    def said(self, event):
        """How often the bridges' log has an event."""
        return self.log.read_text().count('"event":"%s"' % event) if self.log.exists() else 0

    def command(self, word, config=None):
        return call(X86, "run", OUT / "bridge", word, config or self.config).returncode

    def fly(self, aborts=0, down=0, reply=0, start=0):
        self.aircraft = program("aircraft", self.folder / "a{}", self.dialogues, self.decks, aborts, down, reply, start, stdout=subprocess.DEVNULL)
        until(lambda: (self.folder / ("a%02d" % (self.dialogues - 1))).exists(), 10)

    def land(self):
        self.aircraft.terminate()
        return ends(self.aircraft, 20) == 0

    def bridge(self, point=None, config=None, forgetful=False, env=None):
        """A bridge; one that kills itself at a point; one whose disk forgets what was not synced."""
        env = dict(env or {})
        env.update({} if point is None else {"PEAT_POINT": str(point)})
        env.update({"PEAT_DISK": "1"} if forgetful else {})
        with open(self.log, "a") as log:
            return program("killed" if point is not None or forgetful else self.built, config or self.config, env=env, at=self.at, stderr=log)

    def position(self, *words):
        return call(X86, "run", OUT / "position", self.port, *words, env=dict(os.environ, PEAT_QUEUES=self.queues))

    def put(self, dialogue, payload, times=1):
        words = payload.hex()
        if len(payload) > 4096:
            file = self.folder / "payload"
            file.write_text(words)
            words = "@%s" % file
        if self.position("put", dialogue, times, words).returncode != 0:
            raise Broken("a payload is not stored")

    def clear(self, dialogue, first, last, *heads):
        """Jobs that are CPDLC messages, with headers."""
        if self.position("clear", dialogue, first, last, *heads).returncode != 0:
            raise Broken("a job is not stored")

    def word(self, dialogue, text):
        if self.position("word", dialogue, text).returncode != 0:
            raise Broken("a word is not stored")

    def queue(self, word, *words):
        """Deletes a queue, or makes one."""
        if self.position(word, *words).returncode != 0:
            raise Broken("%s %s" % (word, words))

    def count(self, queue):
        """The letters that wait in a queue; -1: the broker does not say."""
        said = self.position("count", queue).stdout.strip()
        return int(said) if said.isdigit() else -1

    def events(self, event):
        """The lines of the bridges' log that have an event."""
        lines = self.log.read_text().splitlines() if self.log.exists() else []
        return [json.loads(line) for line in lines if '"event":"%s"' % event in line]

    def depth(self):
        """The payloads that wait in the queues; -1: the broker does not say."""
        said = self.position("depth", self.dialogues).stdout.strip()
        return int(said) if said.isdigit() else -1

    def collect(self, jobs=0, rate=0):
        """A position that gives jobs and writes down what it is told."""
        return program("position", self.port, "run", self.dialogues, jobs, rate, self.letters, env=dict(PEAT_QUEUES=self.queues), stdout=subprocess.PIPE, text=True)

    def told(self):
        """id -> dialogue, type, reason (or its headers), body of each letter"""
        rows = {}
        if self.letters.exists():
            for line in self.letters.read_text().splitlines():
                parts = line.split(" ")
                if len(parts) == 5 and parts[4].endswith("."):
                    rows[parts[0]] = (int(parts[1]) if parts[1].isdigit() else parts[1], parts[2], parts[3], bytes.fromhex(parts[4][:-1]))
        return rows

    def fates(self):
        """(dialogue, job) -> the fates that were told: ended, broken, refused"""
        rows = {}
        for dialogue, kind, _, body in self.told().values():
            if isinstance(dialogue, str):
                continue  # of another centre
            for job in jobs_of(body) if kind in ("ended", "broken") else [refused_job(body)] if kind == "refused" else ():
                rows.setdefault((dialogue, job), []).append(kind)
        return rows

    def seen(self):
        """(dialogue, job) -> how often a flight deck saw it"""
        rows = {}
        for line in self.decks.read_text().splitlines()[1:]:
            dialogue, job, times = map(int, line.split())
            rows[dialogue, job] = times
        return rows

    def saw(self, dialogue, job):
        """Whether a flight deck has seen it by now."""
        self.aircraft.send_signal(signal.SIGUSR2)
        return self.decks.exists() and (dialogue, job) in self.seen()

    def drain(self, seconds=60):
        """Bridges, until no payload waits; each stops in order."""
        for _ in range(6):
            b = self.bridge()
            until(lambda: b.poll() is not None or self.depth() == 0, seconds, 0.3)
            time.sleep(0.3)
            b.terminate()
            if ends(b, 60) != 0:
                b.kill()
                raise Broken("the bridge does not stop in order; its last words:\n" + self.log.read_text()[-1500:])
            if self.depth() == 0:
                return
        raise Broken("payloads wait for ever")

    def verdict(self, jobs):
        said = call(X86, "run", OUT / "position", "verdict", self.dialogues, jobs, self.decks, self.letters)
        return said.returncode == 0, said.stdout.rstrip()


class Page:
    """The bridge's page. How long it took to answer is kept."""

    def __init__(self, port):
        self.port, self.longest = port, 0.0

    def read(self):
        """name -> value; empty where nobody answers in time"""
        began = time.monotonic()
        try:
            with socket.create_connection(("127.0.0.1", self.port), 10) as s:
                s.settimeout(10)
                s.sendall(b"GET /metrics HTTP/1.0\r\n\r\n")
                text = b""
                while part := s.recv(65536):
                    text += part
        except OSError:
            text = b""
        self.longest = max(self.longest, time.monotonic() - began)
        rows = (line.rsplit(" ", 1) for line in text.decode().splitlines() if line.startswith("peat_"))
        return {name: float(value) for name, value in rows}

    def watch(self, what, seconds, every=0.1):
        """Reads it until it holds of what it says."""
        return until(lambda: what(self.read()), seconds, every)


class Relay:
    """Between a bridge and its broker: bytes pass, each so many seconds late; from the broker nothing passes while it is held."""

    def __init__(self, to, late=0.0):
        self.to, self.late, self.hold_after = to, late, None
        self.passed = self.held = 0  # bytes of the broker
        self.listener = socket.create_server(("127.0.0.1", 0))
        self.port = self.listener.getsockname()[1]
        threading.Thread(target=self.serve, daemon=True).start()

    def serve(self):
        while True:
            try:
                near, _ = self.listener.accept()
                far = socket.create_connection(("127.0.0.1", self.to))
            except OSError:
                return
            for pair in ((near, far, False), (far, near, True)):
                threading.Thread(target=self.copy, args=pair, daemon=True).start()

    def hold(self, after):
        """Nothing of the broker passes behind so many bytes from now."""
        self.hold_after = self.passed + after

    def let_go(self):
        self.hold_after = None

    def copy(self, source, sink, of_broker):
        waiting = []  # when, bytes
        try:
            while True:
                timeout = max(0.0, waiting[0][0] - time.monotonic()) if waiting else None
                if select.select([source], [], [], timeout)[0]:
                    part = source.recv(4096)
                    if not part:
                        break
                    waiting.append((time.monotonic() + self.late, part))
                while waiting and waiting[0][0] <= time.monotonic():
                    part = waiting.pop(0)[1]
                    self.send(sink, part) if of_broker else sink.sendall(part)
        except OSError:
            pass
        for s in (source, sink):
            try:
                s.shutdown(socket.SHUT_RDWR)
            except OSError:
                pass

    def send(self, sink, part):
        while part:
            room = len(part) if self.hold_after is None else max(0, self.hold_after - self.passed)
            if room == 0:
                self.held = len(part)
                time.sleep(0.01)
                continue
            sink.sendall(part[:room])
            self.passed += len(part[:room])
            part = part[room:]

    def close(self):
        self.listener.close()


def free_port():
    with socket.socket() as s:
        s.bind(("127.0.0.1", 0))
        return s.getsockname()[1]


def jobs_of(body):
    """The jobs of a notice."""
    text = re.search(rb'"jobs":"([0-9,-]*)"', body).group(1).decode()
    for part in filter(None, text.split(",")):
        first, _, last = part.partition("-")
        yield from range(int(first), int(last or first) + 1)


def refused_job(body):
    """The job of an envelope of kind 3: groups of seven bits, the lowest first."""
    job = 0
    for place, group in enumerate(body[1:]):
        job |= (group & 127) << 7 * place
        if group < 128:
            return job
    raise Broken("an envelope is cut")


def said_given(giver, seconds):
    """The position says that it has given all its jobs."""
    ready, _, _ = select.select([giver.stdout], [], [], seconds)
    return bool(ready) and giver.stdout.readline().strip() == "given"


# ---- payloads

def number(n):
    groups = []
    while True:
        groups.append(n & 127 | (128 if n > 127 else 0))
        n >>= 7
        if n == 0:
            return bytes(groups)


def message(dialogue, job):
    """as pattern.h has it"""
    head = job.to_bytes(8, "big") + bytes([dialogue]) + bytes(8)
    return head + bytes((job * i + dialogue) & 255 for i in range(17, 17 + job * 29 % (2000 if job % 8 == 3 else 200)))


def envelope(dialogue, job):
    body = message(dialogue, job)
    return number(1) + number(job) + number(8 * len(body)) + body
