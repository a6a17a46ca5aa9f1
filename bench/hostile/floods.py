"""Floods of dials, and what keeps a proxy from its end."""
import base64
import json
import resource
import socket
import threading
import time
import urllib.request

from cluster import Etcd, Proxy, until
from clients import crowd
from stage import THREADS, Meter, numbers, staged
from wire import (CREATE, EXISTS, GET, PING, SET, Client, Closed, connect, create, dial, is_cut, put, read, request)


def threads_of(stage):
    return numbers(stage.proxy.process.pid)[2]


def etcd_does(port, route, **members):
    """What an etcd answers to this; members of bytes are spelled in base64."""
    spelled = {name: base64.b64encode(it).decode() if isinstance(it, bytes) else it for name, it in members.items()}
    return json.load(urllib.request.urlopen(f"http://127.0.0.1:{port}{route}", json.dumps(spelled).encode(), 10))


def sessions(stage):
    """How many sessions are open."""
    return int(etcd_does(stage.etcd.port, "/v3/kv/range", key=b"zk/s/", range_end=b"zk/s0", count_only=True).get("count", "0"))


def dials_that_close(program, work):
    """6,000 connect and close at once, from 16 threads; half of them have sent a connect. The sessions that they leave are removed."""
    with staged(program, work) as it:
        def harm(number):
            for one in range(375):
                stream = dial(it.port)
                if one % 2:
                    stream.sendall(connect(10_000))
                stream.close()

        since = time.time()
        found = crowd(16, harm)
        assert found == [None] * 16, found
        late = Client(it.port)
        took = time.time() - since
        late.does(EXISTS, read(b"/"))
        assert until(lambda: threads_of(it) <= THREADS + 2, 20), threads_of(it)
        kinds = {cause and cause.split()[0] for cause in it.causes(range(2, 6002))}
        assert kinds <= {"client", "read", "write"}, kinds
        late.end()
        left = sessions(it)
        assert until(lambda: sessions(it) <= 1, 180, 1.0), sessions(it)
        it.bounds(60)
        return it.told(f"a new client is served after {took:.0f} s, 6,000 were taken by then", f"causes {', '.join(sorted(kinds))}",
                       f"{left} sessions were left, and gone {time.time() - since - took:.0f} s later")


def dials_that_are_silent(program, work):
    """300 connect and say nothing: 255 of them take all places for 10 seconds. A client that has one is served on, and a new one waits.
    Then 2,000 do so, and leave after 20 seconds."""
    with staged(program, work) as it:
        silent = [dial(it.port) for _ in range(300)]
        since = time.time()
        late = Client(it.port, seconds=150)
        waited = time.time() - since
        late.does(EXISTS, read(b"/"))
        late.end()
        assert all(is_cut(stream, 20) for stream in silent[:255]), "a silent client keeps its place"
        for stream in silent:
            stream.close()
        causes = it.causes(range(2, 257))
        assert causes == ["read"] * 255, [cause for cause in causes if cause != "read"]
        crowded = [half_dial(it.port) for _ in range(2000)]
        time.sleep(20)
        for stream in crowded:
            stream.close()
        since = time.time()
        late = Client(it.port, seconds=150)
        again = time.time() - since
        threads = max(turn[3] for turn in it.meter.turns)
        assert threads <= 256 + THREADS, threads
        assert waited < 25 and again < 30, (waited, again)
        it.bounds(60, 60)
        return it.told(f"a new client waited {waited:.0f} s after 300, and {again:.1f} s after 2,000 had left", f"{threads} threads")


def half_dial(port):
    """A stream that may be connected later."""
    it = socket.socket()
    it.setblocking(False)
    it.connect_ex(("127.0.0.1", port))
    return it


def a_proxy_with_few_descriptors(program, work):
    """With 200 descriptors, 400 connect and say nothing: whoever has a place is served on, and the others wait, and are taken later."""
    kept = resource.getrlimit(resource.RLIMIT_NOFILE)
    etcd = Etcd(work, "--log-level", "error")
    proxy = None
    try:
        resource.setrlimit(resource.RLIMIT_NOFILE, (200, kept[1]))
        try:
            proxy = Proxy(program, etcd.address, work)
        finally:
            resource.setrlimit(resource.RLIMIT_NOFILE, kept)
        first = Client(proxy.port)
        meter = Meter(proxy.process)
        silent = [dial(proxy.port, seconds=5) for _ in range(120)]
        times, end = [], time.time() + 20
        while time.time() < end:
            since = time.time()
            first.does(EXISTS, read(b"/"))
            times.append(time.time() - since)
            time.sleep(0.1)
        cores = meter.cores(end - 20)
        for stream in silent:
            stream.close()
        since = time.time()
        assert until(lambda: is_served(proxy.port), 90, 0.5), "nobody is served any more"
        waited = time.time() - since
        meter.stop()
        assert proxy.process.poll() is None
        assert max(times) < 10, times
        assert cores < 0.5, cores
        return (f"+{meter.grown():.0f} MB, {cores:.2f} processors; a client that has a place waits at most {1000 * max(times):.0f} ms, "
                f"and a new one {waited:.0f} s once the others have left")
    finally:
        if proxy:
            proxy.end()
        etcd.end()


def is_served(port):
    try:
        client = Client(port, seconds=5)
        client.does(EXISTS, read(b"/"))
        client.end()
        return True
    except (OSError, Closed):
        return False


def clients_that_keep_a_proxy_from_its_end(program, work):
    """One sends pings without a pause and reads the replies; one reads a reply of 1 MB a kilobyte at a time; one is silent. Then
    the head is spoilt, and the proxy ends."""
    with staged(program, work) as it:
        maker = Client(it.port)
        maker.does(CREATE, create(b"/big", b"x" * 1_000_000))
        is_over = threading.Event()
        silent = dial(it.port)
        chatty, slow = Client(it.port), Client(it.port, room=4096)

        def chat():
            try:
                while not is_over.is_set():
                    chatty.stream.sendall(request(-2, PING) * 64)
            except OSError:
                pass

        def listen():
            try:
                while not is_over.is_set() and chatty.stream.recv(1 << 16):
                    pass
            except OSError:
                pass

        def sip():
            try:
                slow.stream.sendall(request(7, GET, read(b"/big")) * 100)
                while not is_over.is_set() and slow.stream.recv(1024):
                    time.sleep(0.05)
            except OSError:
                pass

        for job in (chat, listen, sip):
            threading.Thread(target=job, daemon=True).start()
        time.sleep(2)
        it.other.stop()
        told = it.told()
        since = time.time()
        etcd_does(it.etcd.port, "/v3/kv/put", key=b"zk/head", value=b"nonsense")
        try:
            status = it.proxy.status(100)
            took = time.time() - since
            lines = it.proxy.lines()
            assert status == 10, (f"no end after {took:.0f} s: it listens {is_listening(it.port)}, has {threads_of(it)} threads, "
                                  f"lines {lines[-3:]}" if status is None else f"status {status}")
            assert lines[-1].startswith("feed damaged"), lines
            assert took < 75, took
        finally:
            is_over.set()
        return f"status 10 after {took:.1f} s, {', '.join(line for line in lines[1:-1])}; {told}"


def is_listening(port):
    try:
        dial(port, seconds=1).close()
        return True
    except OSError:
        return False


checks = [dials_that_close, dials_that_are_silent, a_proxy_with_few_descriptors, clients_that_keep_a_proxy_from_its_end]
