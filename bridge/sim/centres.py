"""Two centres, each with a bridge and a broker, or with queues of its own: forwards in both directions, and what was shown and told in the end."""
import re
from collections import Counter

from playing import Broken, Stage, ends, jobs_of, until

NAMES = ("EDAA", "EDBB")


class Centres:
    """places: for each centre the port of its broker and the word that its queues begin with."""

    def __init__(self, room, places):
        out = ("east", "west")
        self.stages = [Stage(room, out[i], port, 1, queues=queues, messages="checked", centres=1, facility=NAMES[i], centre_names=NAMES[1 - i],
                             centre_out=room / ("to_%s_{}" % out[1 - i]), centre_in=room / ("to_%s_{}" % out[i])) for i, (port, queues) in enumerate(places)]
        self.bridges = [None, None]
        self.collectors = []

    def start(self, i, point=None):
        """A bridge, which hears signals from then on."""
        began = self.stages[i].said("began")
        self.bridges[i] = self.stages[i].bridge(point)
        until(lambda: self.stages[i].said("began") > began, 20)

    def kill(self, i):
        self.bridges[i].kill()
        self.bridges[i].wait()

    def give(self, first, last):
        for s in self.stages:
            if s.position("forward", 0, first, last).returncode != 0:
                raise Broken("a forward is not stored")

    def collect(self):
        self.collectors = [s.collect() for s in self.stages]

    def account(self, i):
        """Of the forwards of centre i: job -> how often it was shown, job -> its fates."""
        seen = Counter(int(m.group(1)) for _, kind, heads, _ in self.stages[1 - i].told().values() if kind == "incoming" for m in [re.search(";x-peat-flight=J([0-9]+)", heads)])
        fates = {}
        for of, kind, _, body in self.stages[i].told().values():
            if isinstance(of, str) and kind in ("forwarded", "declined", "broken"):
                for job in jobs_of(body):
                    fates.setdefault(job, []).append(kind)
        return seen, fates

    def told(self, jobs):
        return all(len(self.account(i)[1]) == jobs for i in (0, 1))

    def finish(self, jobs, seconds=60):
        """Waits until every fate is told, and stops the bridges; whether they did."""
        good = until(lambda: self.told(jobs), seconds, 0.3)
        for b in self.bridges:
            b.terminate()
        good = all([ends(b, 60) == 0 for b in self.bridges]) and good
        for c in self.collectors:
            c.terminate()
            ends(c, 10)
        return good

    def verdict(self, jobs):
        """What is wrong, as words; and an account."""
        wrong, lines = [], []
        for i in (0, 1):
            seen, fates = self.account(i)
            kinds = Counter(kind for told in fates.values() for kind in told)
            lines.append("%s to %s: %d forwards, %d shown; told: %d forwarded, %d broken, %d declined" % (NAMES[i], NAMES[1 - i], jobs, len(seen), kinds["forwarded"], kinds["broken"], kinds["declined"]))
            wrong += ["shown twice: %s" % [j for j, n in seen.items() if n > 1]] if any(n > 1 for n in seen.values()) else []
            wrong += ["told %s" % fates] if sorted(fates) != list(range(1, jobs + 1)) or any(len(t) != 1 for t in fates.values()) else []
            wrong += ["forwarded, and not shown: %s" % j for j, t in fates.items() if t == ["forwarded"] and seen[j] == 0]
        return wrong, "\n".join(lines)
