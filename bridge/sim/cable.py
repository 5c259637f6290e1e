"""A network that can be cut for real: two network namespaces and a pair of virtual interfaces between them. A program that
calls `private_network` runs again in a network of its own (with its own loopback address, so nothing of the machine's network
is touched); the broker stays with it, and the bridge goes to the far end of the cable. Where the machine gives no namespaces
there is no cable."""
import os
import shutil
import subprocess
import sys

from playing import Broken, call, running, until

NEAR, FAR = "10.255.77.1", "10.255.77.2"
HERE = "PEAT_PRIVATE_NETWORK"


def private_network():
    """Goes on in a network of its own; False: the machine lets nobody make one."""
    if os.environ.get(HERE):
        return True
    if not all(map(shutil.which, ("unshare", "nsenter", "ip"))):
        return False
    if call("unshare", "-rn", "unshare", "-n", "true").returncode != 0 or call("unshare", "-rn", "ip", "link", "add", "near", "type", "veth").returncode != 0:
        return False
    sys.stdout.flush()
    os.execvpe("unshare", ["unshare", "-rn", sys.executable] + sys.argv, dict(os.environ, **{HERE: "1"}))


def ip(*words, at=()):
    said = call(*at, "ip", *words)
    if said.returncode != 0:
        raise Broken("ip %s: %s" % (" ".join(map(str, words)), said.stderr.strip()))


class Cable:
    """The broker's end has the address NEAR; what is started with `far` is at the other."""

    def __init__(self):
        holder = subprocess.Popen(["unshare", "-n", "sleep", "infinity"])
        running.append(holder)
        here, there = "/proc/self/ns/net", "/proc/%d/ns/net" % holder.pid
        if not until(lambda: os.readlink(here) != os.readlink(there), 10):
            raise Broken("there is no second network namespace")
        self.far = ["nsenter", "--net=" + there]
        ip("link", "set", "lo", "up")
        ip("link", "add", "near", "type", "veth", "peer", "name", "far", "netns", holder.pid)
        ip("addr", "add", NEAR + "/30", "dev", "near")
        ip("addr", "add", FAR + "/30", "dev", "far", at=self.far)
        ip("link", "set", "lo", "up", at=self.far)
        ip("link", "set", "far", "up", at=self.far)
        self.plug()

    def pull(self):
        """Packets get lost from now on, and neither end is told."""
        ip("link", "set", "near", "down")

    def plug(self):
        ip("link", "set", "near", "up")
