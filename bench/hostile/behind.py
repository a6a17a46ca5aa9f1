"""A proxy that falls behind."""
import signal
import threading
import time

from clients import crowd
from cluster import Etcd, Proxy, until
from wire import CREATE, EXISTS, MULTI, Client, create, multi, read

STOPPED, RATE, MULTIS, CONNECTIONS, PARTS, PATH = 25.0, 40.0, 960, 8, 24, 1_000


def long_path(family, number):
    front = b"/family-%d/%09d-" % (family, number)
    return front + b"p" * (PATH - len(front))


class Load:
    """Eight connections that make 20 multis a second together, each of 24 nodes with paths of 1,000 bytes. The nodes of each connection
    have a parent of their own, so that no multi is in the way of another."""

    def __init__(self, port):
        self.port, self.made, self.is_over = port, [0] * CONNECTIONS, threading.Event()
        self.thread = threading.Thread(target=self.run, daemon=True)
        self.thread.start()

    def run(self):
        self.found = crowd(CONNECTIONS, self.one)

    def one(self, place):
        client, next_at = Client(self.port, timeout=40_000, seconds=120), time.time()
        client.does(CREATE, create(b"/family-%d" % place))
        while not self.is_over.is_set():
            first = self.made[place] * PARTS
            client.does(MULTI, multi(*[(CREATE, create(long_path(place, first + it))) for it in range(PARTS)]))
            self.made[place] += 1
            next_at = max(next_at + CONNECTIONS / RATE, time.time() - 1)
            self.is_over.wait(max(0.0, next_at - time.time()))
        client.end()

    def stop(self):
        self.is_over.set()
        self.thread.join(130)
        assert self.found == [None] * CONNECTIONS, self.found


def a_proxy_that_was_stopped(program, work):
    """A proxy is stopped for 25 seconds while another makes 20 multis a second, each of 24 nodes with paths of 1,000 bytes. It goes on: a
    client of it is told of an update that was made afterwards."""
    etcd = Etcd(work, "--quota-backend-bytes", "8589934592", "--log-level", "error")
    proxies = []
    try:
        behind, other = proxies = [Proxy(program, etcd.address, work) for _ in range(2)]
        load = Load(other.port)
        time.sleep(2)
        before, since = sum(load.made), time.time()
        behind.signal(signal.SIGSTOP)
        time.sleep(STOPPED)
        # A machine that is busy with other work makes them more slowly.
        assert until(lambda: sum(load.made) - before >= MULTIS, 150), f"only {sum(load.made) - before} multis"
        behind.signal(signal.SIGCONT)
        made, stopped, since = sum(load.made) - before, time.time() - since, time.time()
        watcher = Client(behind.port, timeout=40_000, seconds=120)
        assert watcher.ask(EXISTS, read(b"/told", True))[0] == -101
        maker = Client(other.port, timeout=40_000, seconds=60)
        maker.does(CREATE, create(b"/told"))
        load.stop()
        told = []
        threading.Thread(target=lambda: told.append(watcher.notice()), daemon=True).start()
        until(lambda: told or behind.process.poll() is not None, 90, 0.05)
        took = time.time() - since
        status = behind.process.poll()
        assert told and status is None, f"status {status} after {took:.0f} s, {made} multis: {behind.lines()[-1:]} {behind.faults()[-3:]}"
        assert b"/told" in told[0], told
        time.sleep(10)
        assert behind.process.poll() is None, behind.lines()
        return f"{made} multis while it was stopped for {stopped:.0f} s; a client of it is told of an update {took:.1f} s after it goes on"
    finally:
        for it in proxies:
            it.signal(signal.SIGCONT) if it.process.poll() is None else None
            it.end()
        etcd.end()


checks = [a_proxy_that_was_stopped]
