"""What a scene plays on: an etcd with proxies over it, or ZooKeeper."""
import re
import time
import urllib.request
from collections import Counter
from contextlib import contextmanager

from cluster import Etcd, Proxy
from wire import dial


def processor(pid):
    """The seconds of processor time that a process has used, by its own clock (clock_getcpuclockid(3))."""
    return time.clock_gettime((~pid << 3) | 2)


class Ours:
    """An etcd of one member with its data in memory, and proxies over it."""

    name = "zetcd"

    def __init__(self, program, work, proxies):
        self.etcd, self.proxies = Etcd(work, "--quota-backend-bytes", "8589934592", "--log-level", "error"), []
        for _ in range(proxies):
            self.proxies.append(Proxy(program, self.etcd.address, work))
        self.ports = [it.port for it in self.proxies]
        self.server = self.proxies[0].process

    def asks(self):
        """The transactions that etcd has carried out, one for each ask of a proxy; a proxy's reaper has one a second among them."""
        text = urllib.request.urlopen(f"http://{self.etcd.address}/metrics", timeout=10).read().decode()
        return sum(float(it) for it in re.findall(r'^grpc_server_handled_total\{[^}]*grpc_method="Txn"[^}]*\} (\S+)$', text, re.M))

    def causes(self):
        """Why connections of the first proxy have ended, each cause with how many did. A dial has it write their lines."""
        dial(self.ports[0]).close()
        time.sleep(1)
        words = [line.split() for line in self.proxies[0].lines()]
        return Counter(it[2] for it in words if it[0] == "closed")

    def end(self):
        for it in self.proxies:
            it.end()
        self.etcd.end()


class Theirs:
    """A ZooKeeper, which all scenes share."""

    name = "ZooKeeper"

    def __init__(self, zookeeper):
        self.ports, self.server = [zookeeper.port], zookeeper.process

    def asks(self):
        return 0.0

    def end(self):
        pass


@contextmanager
def ended(stage):
    try:
        yield stage
    finally:
        stage.end()
