"""Peers that mean harm to `zetcd etcd`."""
import base64
import json
import random
import socket
import threading
import time
from contextlib import contextmanager

from clients import crowd, pour
from cluster import MemoryEtcd, until
from stage import Meter, WORST, MEDIAN, numbers
from wire import dial, is_cut

ROUTES = ("/v3/kv/txn", "/v3/kv/range", "/v3/lease/grant", "/v3/lease/keepalive", "/v3/watch")


def ask_of(route, body, length=None):
    return (f"POST {route} HTTP/1.1\r\nhost: x\r\ncontent-type: application/json\r\ncontent-length: "
            f"{len(body) if length is None else length}\r\n\r\n").encode() + body


def spelled(it):
    return base64.b64encode(it).decode()


def txn(*acts):
    return json.dumps({"success": list(acts)}).encode()


def put(key, value):
    return {"request_put": {"key": spelled(key), "value": spelled(value)}}


def answer_of(stream):
    """The status and the body of one answer."""
    head = b""
    while not head.endswith(b"\r\n\r\n"):
        piece = stream.recv(1)
        if piece == b"":
            raise OSError("closed")
        head += piece
    length = int(head.lower().split(b"content-length:")[1].split(b"\r\n")[0])
    body = b""
    while len(body) < length:
        piece = stream.recv(length - len(body))
        if piece == b"":
            raise OSError("closed")
        body += piece
    return int(head.split()[1]), body


class Asker(threading.Thread):
    """Another client, which puts, reads and deletes a key every 200 milliseconds."""

    def __init__(self, port):
        super().__init__(daemon=True)
        self.is_over, self.times, self.fault = threading.Event(), [], None
        self.stream = dial(port, seconds=30)
        self.start()

    def run(self):
        key = spelled(b"other")
        acts = [txn(put(b"other", b"x")), txn({"request_range": {"key": key}}), txn({"request_delete_range": {"key": key}})]
        try:
            while not self.is_over.is_set():
                since = time.time()
                for body in acts:
                    self.stream.sendall(ask_of("/v3/kv/txn", body))
                    status, _ = answer_of(self.stream)
                    assert status == 200, status
                self.times.append(time.time() - since)
                self.is_over.wait(max(0.0, 0.2 - (time.time() - since)))
        except (OSError, AssertionError) as fault:
            self.fault = fault


class Stage:
    def __init__(self, etcd):
        self.etcd, self.port = etcd, etcd.port
        self.other, self.meter, self.since = Asker(etcd.port), Meter(etcd.process), time.time()

    def threads(self):
        return numbers(self.etcd.process.pid)[2]

    def told(self, megabytes, *more):
        """What was measured, within this bound."""
        assert not self.meter.is_too_large, "it takes too much memory"
        assert self.other.fault is None, f"another client is cut off: {self.other.fault}"
        times = sorted(self.other.times)
        assert times and times[len(times) // 2] <= MEDIAN and times[-1] <= WORST, times[-3:]
        assert self.meter.grown() <= megabytes, f"it grew by {self.meter.grown():.0f} MB, not {megabytes}"
        return "; ".join([f"+{self.meter.grown():.0f} MB", f"{self.meter.seconds():.1f} s of processor", *more,
                          f"another client {len(times)} times, {1000 * times[len(times) // 2]:.0f} ms, at most {1000 * times[-1]:.0f}"])


@contextmanager
def staged(program, work):
    etcd, stage = MemoryEtcd(program, work), None
    try:
        stage = Stage(etcd)
        yield stage
    finally:
        if stage:
            stage.other.is_over.set()
            stage.meter.stop()
        etcd.end()


def an_etcd_that_is_flooded(program, work):
    """5,000 connect and close; then 2,000 connect and say nothing, and are let go after 10 seconds."""
    with staged(program, work) as it:
        def harm(_number):
            for _ in range(312):
                dial(it.port).close()

        crowd(16, harm)
        silent = [dial(it.port) for _ in range(2000)]
        since = time.time()
        late = dial(it.port, seconds=30)
        late.sendall(ask_of("/v3/kv/range", json.dumps({"key": spelled(b"a")}).encode()))
        answer_of(late)
        served, threads = time.time() - since, it.threads()
        late.close()
        assert until(lambda: it.threads() < 20, 100, 0.5), it.threads()
        took = time.time() - since
        assert all(is_cut(stream, 5) for stream in silent), "a silent one is not let go"
        return it.told(2000 * 0.1 + 30, f"{threads} threads", f"a new client is served after {1000 * served:.0f} ms",
                       f"all silent ones are gone after {took:.0f} s")


def asks_that_nobody_reads(program, work):
    """32 ask without an end, and read nothing; 32 send an ask a byte a second, so fewer than 32 bytes in 10 seconds. All are cut off."""
    with staged(program, work) as it:
        key = spelled(b"large")
        stream = dial(it.port)
        stream.sendall(ask_of("/v3/kv/txn", txn(put(b"large", b"x" * 1_000_000))))
        answer_of(stream)
        asks = ask_of("/v3/kv/range", json.dumps({"key": key}).encode()) * 64

        def harm(number):
            mine = dial(it.port, room=4096)
            since = time.time()
            if number % 2:
                pour(mine, asks, 150, threading.Event())
                return time.time() - since
            for byte in ask_of("/v3/kv/range", b"{" + b" " * 1000 + b"}"):
                try:
                    mine.sendall(bytes([byte]))
                except OSError:
                    break
                time.sleep(1)
            return time.time() - since

        ends = crowd(64, harm)
        slow, deaf = ends[::2], ends[1::2]
        assert all(isinstance(end, float) and 9 < end < 30 for end in slow), ends
        assert all(isinstance(end, float) and 50 < end < 180 for end in deaf), ends
        assert until(lambda: it.threads() <= 5, 10), it.threads()
        return it.told(64 * 4 + 20, f"cut off after {min(deaf):.0f} to {max(deaf):.0f} s, and after {min(slow):.0f} to {max(slow):.0f} s")


def bodies_of_8_MB(program, work):
    """Four at once ask with 8 MB of empty objects, of numbers, of keys; then one by one 24 times."""
    with staged(program, work) as it:
        most = 8_388_608
        bodies = [b'{"success":[' + b",".join([middle] * ((most - 14) // (len(middle) + 1))) + b"]}"
                  for middle in (b"{}", b"1", b'{"request_range":{"key":"YQ=="}}', b'""')]
        statuses = []

        def harm(number):
            stream = dial(it.port, seconds=120)
            stream.sendall(ask_of("/v3/kv/txn", bodies[number % 4]))
            statuses.append(answer_of(stream)[0])
            stream.close()

        found = crowd(4, harm)
        first = it.meter.grown()
        assert found == [None] * 4, found
        for number in range(24):
            harm(number)
        assert set(statuses) == {400}, statuses
        time.sleep(1)
        return it.told(4 * 200 + 30, f"4 at once +{first:.0f} MB", f"{it.meter.now():.0f} MB when all are gone")


def asks_of_1_MB_on_256_connections(program, work):
    """256 put the same 256 keys with values of 700 KB once, and read 700 KB ten times. The puts stay, as documented."""
    with staged(program, work) as it:
        value = b"x" * 700_000

        def harm(number):
            stream = dial(it.port, seconds=240)
            key = b"large-%d" % number
            stream.sendall(ask_of("/v3/kv/txn", txn(put(key, value))))
            assert answer_of(stream)[0] == 200
            for _ in range(10):
                stream.sendall(ask_of("/v3/kv/range", json.dumps({"key": spelled(key)}).encode()))
                assert answer_of(stream)[0] == 200
            return stream

        since = time.time()
        found = crowd(256, harm)
        assert all(isinstance(stream, socket.socket) for stream in found), found[:3]
        took = time.time() - since
        for stream in found:
            stream.close()
        time.sleep(1)
        return it.told(256 * 8 + 50, f"in {took:.0f} s", f"{it.meter.now():.0f} MB after, of which 179 are values")


def asks_that_are_none(program, work):
    """Lengths out of range, two lengths, random bytes, heads without an end, other methods, half an ask: the connection is closed."""
    with staged(program, work) as it:
        seed = random.Random(5)
        heads = [ask_of("/v3/kv/txn", b"", -1), ask_of("/v3/kv/txn", b"", 8_388_609), ask_of("/v3/kv/txn", b"", 2**64),
                 ask_of("/v3/kv/txn", b"", "1\r\ncontent-length: 2"), b"GET / HTTP/1.1\r\n\r\n", ask_of("/other", b"{}"),
                 b"POST /v3/kv/txn HTTP/1.1\r\ntransfer-encoding: chunked\r\n\r\n",
                 b"POST /v3/kv/txn HTTP/1.1\r\n" + b"a: b\r\n" * 65 + b"\r\n",
                 b"POST /v3/kv/txn HTTP/1.1\r\na: " + b"b" * 20_000, b"x" * 20_000, b"\x16\x03\x01\x02\x00" + b"x" * 500]
        heads += [ask_of("/v3/kv/txn", b"{}", 100), b"POST /v3"]  # cut off in the middle
        heads += [seed.randbytes(seed.randrange(1, 3000)) for _ in range(300)]
        for number, content in enumerate(heads):
            stream = dial(it.port)
            try:
                stream.sendall(content)
                stream.shutdown(socket.SHUT_WR)
            except OSError:
                pass
            assert is_cut(stream, 10), number
            stream.close()
        stream, refused = dial(it.port), 0
        bodies = [b"", b"[", b"[" * 100_000, b"nonsense", b"[7]", b'{"success":[{}]}'] + [seed.randbytes(50) for _ in range(50)]
        for route in ROUTES[:4]:
            for body in bodies:
                stream.sendall(ask_of(route, body))
                status, answer = answer_of(stream)
                assert status == 400 and answer == b'{"error":"unreadable"}', (route, body, status, answer)
                refused += 1
        return it.told(20, f"{len(heads)} cut off, {refused} refused")


def watches_that_are_left(program, work):
    """1,500 watch a key that nobody puts, and go away. Their threads and descriptors are free again soon after."""
    with staged(program, work) as it:
        body = json.dumps({"create_request": {"key": spelled(b"never"), "start_revision": "1"}}).encode()
        for _ in range(1500):
            stream = dial(it.port)
            stream.sendall(ask_of("/v3/watch", body))
            stream.recv(4096)
            stream.close()
        left = numbers(it.etcd.process.pid)
        gone = until(lambda: it.threads() < 20, 90, 0.5)
        later = numbers(it.etcd.process.pid)
        text = f"{left[2]} threads and {left[3]} descriptors at once, {later[2]} and {later[3]} after 90 s"
        assert gone, text
        return it.told(100, text)


checks = [an_etcd_that_is_flooded, asks_that_nobody_reads, bodies_of_8_MB, asks_of_1_MB_on_256_connections, asks_that_are_none,
          watches_that_are_left]
