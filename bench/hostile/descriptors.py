"""A proxy whose table of descriptors is full."""
import resource
import socket
import threading
import time

from cluster import Etcd, Proxy, until
from floods import is_served
from stage import Meter, numbers
from wire import EXISTS, Client, connect, dial, is_readable, read

# How soon a new client is served once all others have left, in seconds.
SOON = 5.0
# The most processors that a proxy may use while its table is full. One that tries again without a pause uses a whole one.
MOST_CORES = 0.2


class Served(threading.Thread):
    """A client that has a place, and asks ten times a second."""

    def __init__(self, port):
        super().__init__(daemon=True)
        self.client, self.is_over, self.times, self.fault = Client(port), threading.Event(), [], None
        self.start()

    def run(self):
        try:
            while not self.is_over.wait(0.1):
                since = time.time()
                self.client.does(EXISTS, read(b"/"))
                self.times.append(time.time() - since)
        except Exception as fault:
            self.fault = fault

    def stop(self):
        self.is_over.set()
        self.join(60)
        self.client.end()
        assert self.fault is None and self.times, f"who has a place is not served on: {self.fault}"


def is_soon_served(port, what):
    """After how many seconds a new client is served."""
    since = time.time()
    assert until(lambda: is_served(port), 30, 0.1), f"nobody is served any more {what}"
    took = time.time() - since
    assert took < SOON, f"a new client is served after {took:.1f} s {what}"
    return took


def is_answered(stream):
    """Whether an answer has come, and not the end of the stream alone."""
    try:
        return is_readable(stream, 0) and stream.recv(1, socket.MSG_PEEK) != b""
    except OSError:
        return False


def crowded(proxy, meter, count):
    """So many clients ask for a session; the table is full for some seconds; then all leave. How many of them were served, and how many
    processors the proxy used at the full table."""
    first = Served(proxy.port)
    streams = [dial(proxy.port, seconds=10) for _ in range(count)]
    for stream in streams:
        stream.sendall(connect(40_000))
    time.sleep(4 + count / 100)
    served = sum(is_answered(stream) for stream in streams)
    since, held = time.time(), numbers(proxy.process.pid)[3]
    time.sleep(5)
    cores = meter.cores(since)
    first.stop()
    for stream in streams:
        stream.close()
    return served, held, cores, max(first.times)


def silent(proxy, count):
    """So many connect and say nothing, and leave once those that were taken first were let go."""
    streams = [dial(proxy.port, seconds=10) for _ in range(count)]
    time.sleep(13)
    for stream in streams:
        stream.close()


def with_descriptors(limit, clients, peers):
    def check(program, work):
        kept = resource.getrlimit(resource.RLIMIT_NOFILE)
        etcd = Etcd(work, "--log-level", "error")
        proxy = None
        try:
            resource.setrlimit(resource.RLIMIT_NOFILE, (limit, kept[1]))
            try:
                proxy = Proxy(program, etcd.address, work)
            finally:
                resource.setrlimit(resource.RLIMIT_NOFILE, kept)
            meter = Meter(proxy.process)
            served, held, cores, worst = crowded(proxy, meter, clients)
            took = is_soon_served(proxy.port, f"after {clients} clients, of which {served} were served, with {held} descriptors")
            silent(proxy, peers)
            again = is_soon_served(proxy.port, f"after {peers} silent peers")
            meter.stop()
            assert proxy.process.poll() is None, proxy.faults()
            assert served < clients and held > limit - 4, f"the table was not full: {served} of {clients} served, {held} descriptors"
            assert cores < MOST_CORES, f"{cores:.2f} processors at a full table"
            assert worst < 10, f"who has a place waited {worst:.1f} s"
            return (f"{served + 1} of {clients + 1} served with {held} descriptors, {cores:.2f} processors meanwhile; all left, and a new client "
                    f"is served after {took:.2f} s; after {peers} silent peers, {again:.2f} s")
        finally:
            if proxy:
                proxy.end()
            etcd.end()

    check.__name__ = f"a_proxy_with_{limit}_descriptors"
    check.__doc__ = f"With {limit} descriptors, {clients} clients ask for a session and leave, and then {peers} peers say nothing."
    return check


checks = [with_descriptors(40, 12, 12), with_descriptors(42, 12, 12), with_descriptors(1025, 256, 256)]
