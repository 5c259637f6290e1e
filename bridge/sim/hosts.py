"""Several hosts with one journal: a private PostgreSQL, a replica of it, and bridges that are started again when they end, as
systemd does."""
import contextlib
import json
import os
import random
import re
import signal
import socket
import subprocess
import threading
import time
from pathlib import Path

from playing import TOP, Broken, Missing, Stage, call, ends, program, running

FAILED, REFUSED, FENCED, SLOW, MEMORY = 3, 4, 5, 6, 7


def fetch_database():
    said = call("tools/database", "get")
    if said.returncode != 0:
        raise Missing(said.stdout.strip().splitlines()[-1] if said.stdout.strip() else "PostgreSQL can not be had")


class Database:
    """A PostgreSQL in a folder."""
    all = []

    def __init__(self, folder, of=None):
        self.folder = Path(folder)
        Database.all.append(self)
        self.do(*(["replica", self.folder, of.folder] if of else ["start", self.folder]))
        self.port = int((self.folder / "port").read_text())

    def do(self, *words):
        said = call("tools/database", *words)
        if said.returncode != 0:
            raise Broken("database %s: %s" % (words[0], said.stdout[-300:] + said.stderr[-300:]))
        return said.stdout.strip()

    def say(self, text):
        return self.do("say", self.folder, text)

    def reload(self, **settings):
        for name, value in settings.items():
            self.say("ALTER SYSTEM SET %s = '%s'" % (name, value))
        self.say("SELECT pg_reload_conf()")
        time.sleep(0.2)

    def leave_replica_behind(self):
        """Nothing goes to the replica from now on: the process that sends is stopped."""
        os.kill(int(self.say("SELECT pid FROM pg_stat_replication")), signal.SIGSTOP)

    @contextlib.contextmanager
    def held(self, text):
        """A session that runs a text in a transaction, and keeps what it locked until it is left."""
        holder = subprocess.Popen([str(TOP / "tools/database"), "say", str(self.folder), "BEGIN; %s; SELECT 'held'; SELECT pg_sleep(600)" % text],
                                  stdout=subprocess.DEVNULL, stderr=subprocess.DEVNULL, start_new_session=True)
        running.append(holder)
        asks = "SELECT count(*) FROM pg_stat_activity WHERE query LIKE 'BEGIN; %%' AND wait_event = 'PgSleep'"
        end = time.monotonic() + 20
        while self.say(asks) != "1":
            if time.monotonic() > end:
                raise Broken("nobody holds what should be held")
            time.sleep(0.02)
        try:
            yield
        finally:
            self.say("SELECT pg_terminate_backend(pid) FROM pg_stat_activity WHERE wait_event = 'PgSleep'")
            holder.wait(20)

    @contextlib.contextmanager
    def stopped(self, pid):
        """A session whose process gets no time."""
        os.kill(pid, signal.SIGSTOP)
        try:
            yield
        finally:
            os.kill(pid, signal.SIGCONT)

    def way(self, *others):
        """The configuration's words for it, or for whichever of several can be written."""
        all = (self,) + others
        return "host=%s port=%s user=peat dbname=peat target_session_attrs=read-write" % (",".join("127.0.0.1" for _ in all), ",".join(str(d.port) for d in all))


def end_databases():
    for d in Database.all:
        call("tools/database", "end", d.folder)


class Carrier:
    """Between the bridges (sockets r{} of a folder) and the aircraft (a{}), with a line for each connection. A bridge's end of a line
    stays open when the aircraft closes its own, and what comes on it after a later bridge has connected is counted: late."""

    def __init__(self, folder, dialogues):
        self.late, self.newest, self.ended = 0, {}, False
        self.listeners = []
        for d in range(dialogues):
            s = socket.socket(socket.AF_UNIX, socket.SOCK_SEQPACKET)
            s.bind(str(folder / ("r%02d" % d)))
            s.listen(16)
            self.listeners.append(s)
            threading.Thread(target=self.welcome, args=(s, d, str(folder / ("a%02d" % d))), daemon=True).start()

    def end(self):
        self.ended = True
        for s in self.listeners:
            s.close()

    def welcome(self, listener, dialogue, path):
        while not self.ended:
            try:
                bridge, _ = listener.accept()
            except OSError:
                return
            aircraft = socket.socket(socket.AF_UNIX, socket.SOCK_SEQPACKET)
            try:
                aircraft.connect(path)
            except OSError:
                bridge.close()
                continue
            line = self.newest[dialogue] = object()
            threading.Thread(target=self.up, args=(bridge, aircraft, dialogue, line), daemon=True).start()
            threading.Thread(target=self.down, args=(bridge, aircraft), daemon=True).start()

    def up(self, bridge, aircraft, dialogue, line):
        while True:
            try:
                packet = bridge.recv(65536)
            except OSError:
                packet = b""
            if not packet:
                break
            self.late += self.newest[dialogue] is not line
            try:
                aircraft.send(packet)
            except OSError:
                pass
        with contextlib.suppress(OSError):
            aircraft.shutdown(socket.SHUT_RDWR)

    def down(self, bridge, aircraft):
        while True:
            try:
                packet = aircraft.recv(65536)
            except OSError:
                packet = b""
            if not packet:
                return
            with contextlib.suppress(OSError):
                bridge.send(packet)


class Line:
    """A connection to a port of the loopback address that can stall: so many bytes more come, and then none, in the middle of
    whatever it is, until it goes on."""

    def __init__(self, to):
        self.to, self.left = to, None  # left: bytes that still come; None: all
        self.listener = socket.create_server(("127.0.0.1", 0))
        self.port = self.listener.getsockname()[1]
        threading.Thread(target=self.welcome, daemon=True).start()

    def stall_after(self, count):
        self.left = count

    def stalls(self):
        return self.left == 0

    def go_on(self):
        self.left = None

    def end(self):
        self.listener.close()

    def welcome(self):
        while True:
            try:
                near, _ = self.listener.accept()
                far = socket.create_connection(("127.0.0.1", self.to), 5)
            except OSError:
                return
            threading.Thread(target=self.copy, args=(near, far, False), daemon=True).start()
            threading.Thread(target=self.copy, args=(far, near, True), daemon=True).start()

    def copy(self, one, other, counted):
        try:
            one.settimeout(None)
            while data := one.recv(4096):
                while counted and self.left is not None and len(data) > self.left:
                    other.sendall(data[:self.left])
                    data, self.left = data[self.left:], 0
                    while self.left == 0:
                        time.sleep(0.01)
                if counted and self.left is not None:
                    self.left -= len(data)
                other.sendall(data)
        except OSError:
            pass
        with contextlib.suppress(OSError):
            other.shutdown(socket.SHUT_RDWR)


class Locks(threading.Thread):
    """Somebody who locks some rows of a stage for a moment, over and over."""

    def __init__(self, database, schema, dialogues):
        super().__init__(daemon=True)
        self.database, self.schema, self.dialogues, self.count, self.ended = database, schema, dialogues, 0, False
        self.start()

    def run(self):
        while not self.ended:
            some = ",".join(str(d) for d in random.sample(range(self.dialogues), random.randint(1, 3)))
            self.database.say("BEGIN; SELECT 1 FROM %s.dialogue WHERE dialogue IN (%s) FOR UPDATE; SELECT pg_sleep(%.2f); COMMIT"
                              % (self.schema, some, random.uniform(0.05, 1.0)))
            self.count += 1

    def end(self):
        self.ended = True
        self.join(20)


class Host:
    """A bridge of a stage, with its own configuration, witness and log. `program`: another build of it."""

    def __init__(self, stage, name, program="bridge", **more):
        self.stage, self.name, self.program = stage, name, program
        self.log = stage.folder / (name + ".log")
        self.config = stage.write(name, host=name, **more)
        self.process, self.standby, self.statuses = None, False, []
        if not (stage.folder / (name + ".witness")).exists() and stage.command("join", self.config) != 0:
            raise Broken("a host does not join")

    def start(self, standby=False, env=None):
        self.standby, self.env, self.since = standby, env, time.time()
        with open(self.log, "a") as log:
            self.process = program(self.program, *(["--standby"] if standby else []), self.config, stderr=log, env=env)
        return self

    def tend(self):
        """What systemd does: a bridge whose database failed or was too slow, or that was fenced, is started again."""
        if self.process is not None and self.process.poll() is not None:
            self.statuses.append(self.process.poll())
            if self.statuses[-1] not in (FENCED, FAILED, SLOW):
                raise Broken("host %s ended with %d; its last words:\n%s" % (self.name, self.statuses[-1], self.log.read_text()[-800:]))
            time.sleep(0.05)
            self.start(self.standby, self.env)

    def began(self):
        """Its last bridge has the journal, and hears signals."""
        return self.process is None or bool(self.events("began", self.since))

    def kill(self):
        self.process.kill()
        self.process.wait()
        self.process = None

    def signal(self, which):
        self.process.send_signal(which)

    def stop(self, seconds=60):
        """In order; its status."""
        self.process.terminate()
        status = ends(self.process, seconds)
        if status is None:
            self.process.kill()
        self.process = None
        return status

    def events(self, event, since=0.0):
        """The lines of the log with an event, from a time on (wall clock)."""
        found = []
        if self.log.exists():
            for line in self.log.read_text().splitlines():
                if '"event":"%s"' % event in line:
                    row = json.loads(line)
                    row["at"] = wall(row["time"])
                    if row["at"] >= since:
                        found.append(row)
        return found

    def opened(self, since=0.0):
        """The dialogues that it opened since then."""
        return {row["dialogue"] for row in self.events("opened", since)}


def wall(text):
    """The time of a line of the log, in seconds since 1970."""
    day, ms = re.match(r"(.*)\.(\d+)Z$", text).groups()
    return time.mktime(time.strptime(day, "%Y-%m-%dT%H:%M:%S")) - time.timezone + int(ms) / 1000


def watch(hosts, what, seconds, every=0.05):
    """Polls until it holds, and tends the hosts meanwhile."""
    end = time.monotonic() + seconds
    while time.monotonic() < end:
        for h in hosts:
            h.tend()
        if what():
            return True
        time.sleep(every)
    return False


def rest(hosts, seconds):
    watch(hosts, lambda: False, seconds)


class SharedStage(Stage):
    """A stage whose journal is in a database; each stage has a schema of its own."""

    def __init__(self, room, name, port, dialogues, database, *others, **more):
        self.schema = re.sub("[^a-z]", "_", name)
        database.say("CREATE SCHEMA " + self.schema)
        self.database = database
        self.metrics_port = more.get("metrics_port")
        settings = dict(database=database.way(*others) + " options=-csearch_path=" + self.schema, lease_ms=1500, heartbeat_s=1, claim_ms=5000, standby_ms=500)
        settings.update(more)
        self.lease_ms = settings["lease_ms"]
        super().__init__(room, name, port, dialogues, **settings)

    def owners(self, database=None):
        """dialogue -> host"""
        rows = (database or self.database).say("SELECT dialogue, owner FROM %s.dialogue" % self.schema).splitlines()
        return {int(r.split("|")[0]): r.split("|")[1].split("/")[0] for r in rows}

    def renewed(self, since):
        """Each dialogue's lease was renewed after a time (wall clock): somebody who ran then has it."""
        return self.database.say("SELECT bool_and(until > to_timestamp(%.3f) + %d * interval '1 ms') FROM %s.dialogue" % (since, self.lease_ms, self.schema)) == "t"

    def leases(self):
        rows = self.database.say("SELECT dialogue, number FROM %s.dialogue" % self.schema).splitlines()
        return {int(r.split("|")[0]): int(r.split("|")[1]) for r in rows}


def stopped_and_woken(host, others, seconds):
    """A host sleeps for so long and goes on; its status, or None where it does not end by itself."""
    sleeper = host.process
    host.process = None
    sleeper.send_signal(signal.SIGSTOP)
    rest(others, seconds)
    sleeper.send_signal(signal.SIGCONT)
    status = ends(sleeper, 20)
    if status is None:
        host.process = sleeper
    return status
