"""An etcd that means harm, or is ill: a relay in front of a real one, which spoils what is asked of a few nodes, or the watch."""
import threading
import time

from clients import crowd
from cluster import Proxy, free_port, until
from relay import Over, Relay, chunk, head
from stage import Meter, staged
from wire import CREATE, EXISTS, GET, PING, SET, Client, Closed, create, dial, is_cut, put, read

MOST_BODY = 8_388_608
SPOILT = b"/spoilt"


def spoiling(deed):
    """A relay that does this to each ask that names a node below `/spoilt`."""
    def rule(route, keys, out, relay):
        if route == "/v3/kv/txn" and any(SPOILT in key for key in keys):
            deed(out, relay)
            return True
        return False

    return lambda port: Relay(port, rule)


def cut_off(stage, count, seconds):
    """Has so many clients ask for a spoilt node at once. Each has to be cut off within so many seconds. Gives the slowest one's time."""
    def harm(_number):
        client = Client(stage.port, timeout=40_000, seconds=seconds + 30)
        since = time.time()
        try:
            client.does(GET, read(SPOILT))
        except Closed:
            return time.time() - since
        return None

    found = crowd(count, harm)
    assert all(isinstance(it, float) and it <= seconds for it in found), found
    causes = stage.causes(range(2, 2 + count))
    assert causes == ["link"] * count, causes
    return max(found)


def text_of(middle, most=MOST_BODY):
    """A transaction's answer of at most so many bytes, whose responses are this again and again."""
    first, last = b'{"header":{"revision":"9"},"succeeded":true,"responses":[', b"]}"
    count = (most - len(first) - len(last) + 1) // (len(middle) + 1)
    return first + b",".join([middle] * count) + last


def in_pieces(out, content):
    for at in range(0, len(content), 1 << 16):
        out.sendall(content[at:at + (1 << 16)])


def answers_that_come_slowly(program, work):
    """Every answer about a few nodes comes after five seconds."""
    def rule(route, keys, out, relay):
        if any(SPOILT in key for key in keys):
            time.sleep(5)
        return False

    with staged(program, work, lambda port: Relay(port, rule)) as it:
        def ask(_number):
            client = Client(it.port, timeout=40_000)
            since = time.time()
            error, _ = client.ask(EXISTS, read(SPOILT))
            client.end()
            return error, time.time() - since

        found = crowd(32, ask)
        assert all(error == -101 and 5 <= took < 15 for error, took in found), found
        it.bounds(20, 20)
        return it.told(f"32 are answered after {max(took for _error, took in found):.1f} s")


def answers_that_never_come(program, work):
    """Nothing comes, or a byte a second. The link gives up."""
    turn = [0]

    def deed(out, relay):
        turn[0] += 1
        if turn[0] % 2:
            relay.is_over.wait(300)
            raise Over()
        out.sendall(head(1000))
        while not relay.is_over.wait(1.0):
            out.sendall(b"{")

    with staged(program, work, spoiling(deed)) as it:
        took = cut_off(it, 32, 180)
        assert took >= 55, took
        assert it.says("no answer within a minute"), it.proxy.faults()
        it.bounds(20, 60)
        return it.told(f"32 are cut off after {took:.0f} s")


def answers_of_8_MB(program, work):
    """Eight clients at once are answered with 8 MB: of empty objects, of numbers, of keys, of one string, of open brackets."""
    bodies = [text_of(b"{}"), text_of(b"1"), text_of(b'{"response_range":{"kvs":[{"key":"YQ=="}]}}'), text_of(b'{"response_put":{}}'),
              b'"' + b"x" * (MOST_BODY - 2) + b'"', b"[" * MOST_BODY, b'{"a":' * (MOST_BODY // 5),
              b'{"header":{"revision":"9"},"kvs":[' + b",".join([b'{"key":"YQ=="}'] * 559_000) + b"]}"]
    turn, lock = [0], threading.Lock()

    def deed(out, relay):
        with lock:
            turn[0] += 1
            body = bodies[turn[0] % len(bodies)]
        assert len(body) <= MOST_BODY
        out.sendall(head(len(body)))
        in_pieces(out, body)

    with staged(program, work, spoiling(deed)) as it:
        took = cut_off(it, 8, 120)
        first = it.meter.grown()
        for _ in range(3):
            for _ in range(8):
                client = Client(it.port, timeout=40_000, seconds=150)
                try:
                    client.does(GET, read(SPOILT))
                    raise AssertionError("it is answered")
                except Closed:
                    client.end()
        assert it.says("what came cannot be understood"), it.proxy.faults()
        time.sleep(1)
        it.bounds(8 * 200 + 50)
        return it.told(f"8 at once +{first:.0f} MB, in {took:.0f} s", f"{it.meter.now():.0f} MB when all 32 are gone")


def answers_that_are_too_long(program, work):
    """An answer of 8 MB and a byte, with a length, in chunks, and without an end; and a head without an end."""
    turn, lock = [0], threading.Lock()

    def deed(out, relay):
        with lock:
            turn[0] += 1
            kind = turn[0] % 4
        if kind == 0:
            out.sendall(head(MOST_BODY + 1))
            in_pieces(out, b"x" * (MOST_BODY + 1))
        elif kind == 1:
            out.sendall(head())
            for _ in range(200):
                out.sendall(chunk(b"x" * 65536))
        elif kind == 2:
            out.sendall(b"HTTP/1.1 200 OK\r\n\r\n")
            while not relay.is_over.is_set():
                out.sendall(b"x" * 65536)
        else:
            out.sendall(b"HTTP/1.1 200 OK\r\n")
            while not relay.is_over.is_set():
                out.sendall(b"x: y\r\n" * 1000)

    with staged(program, work, spoiling(deed)) as it:
        took = cut_off(it, 16, 60)
        assert it.says("has more than 8388608 bytes") and it.says("no HTTP answer"), it.proxy.faults()
        it.bounds(16 * 20 + 20)
        return it.told(f"16 are cut off after {took:.1f} s")


def answers_of_another(program, work):
    """An answer to another ask, a status other than 200, what is no HTTP, half an answer and then an end."""
    def body(text):
        return head(len(text)) + text

    one = b'{"response_range":{}}'
    deeds = [(body(b'{"header":{"revision":"9"},"succeeded":true,"responses":[' + one + b"]}"), "cannot be understood"),
             (body(b'{"header":{"revision":"9"},"succeeded":true,"responses":[' + b",".join([b'{"response_put":{}}'] * 4) + b"]}"),
              "cannot be understood"),
             (body(b'{"header":{"revision":"-9"},"succeeded":true,"responses":[' + b",".join([one] * 4) + b"]}"), "cannot be understood"),
             (body(b"nonsense"), "cannot be understood"), (body(b""), "cannot be understood"),
             (head(2, b"503 Service Unavailable") + b"{}", "status 503"), (head(2, b"200 OK")[:-2], "connection ended"),
             (b"\x15\x03\x01\x00\x02\x02\x28", "no HTTP answer"), (b"HTTP/1.1 200 OK\r\ncontent-length: -1\r\n\r\n", "broken at byte"),
             (b"HTTP/1.1 200 OK\r\ncontent-length: 1\r\ncontent-length: 2\r\n\r\n", "broken at byte"),
             (head() + b"zz\r\n", "broken at byte"), (head() + b"5\r\nabc", "connection ended"), (b"", "connection ended")]
    turn = [0]

    def deed(out, relay):
        out.sendall(deeds[turn[0]][0])
        raise Over()

    with staged(program, work, spoiling(deed)) as it:
        for number, (_content, cause) in enumerate(deeds):
            turn[0], before = number, len(it.proxy.faults())
            client = Client(it.port)
            try:
                client.does(GET, read(SPOILT))
                raise AssertionError(f"answer {number} is taken")
            except Closed:
                client.end()
            assert until(lambda: len(it.proxy.faults()) > before), number
            assert cause in it.proxy.faults()[-1], (number, cause, it.proxy.faults()[-1])
        causes = it.causes(range(2, 2 + len(deeds)))
        assert causes == ["link"] * len(deeds), causes
        it.bounds(10, 10)
        return it.told(f"{len(deeds)} answers, each refused for its cause")


def an_answer_that_shows_nothing(program, work):
    """An answer to another ask, which has a revision and nothing else that was asked for: the link gives up."""
    asks = [0]

    def deed(out, relay):
        asks[0] += 1
        text = b'{"ID":"7","TTL":"9","header":{"revision":"9"}}'
        out.sendall(head(len(text)) + text)

    with staged(program, work, spoiling(deed)) as it:
        client = Client(it.port, seconds=10)
        client.send(GET, read(SPOILT))
        is_over = is_cut(client.stream, 10)
        client.end()
        before = asks[0]
        time.sleep(5)
        text = it.told(f"asked {before} times in 10 s, and {asks[0] - before} times after the client had left")
        assert is_over and it.causes([2]) == ["link"], text
        return text


def ended_by_watch(program, work, line_rule, fault, end, seconds, megabytes, cores=1.5):
    """A proxy over an etcd whose watch gives what this rule sends ends with this last line, and says this fault before. The other client
    has no watch, and goes on until then."""
    with staged(program, work, lambda port: Relay(port, line_rule=line_rule)) as it:
        since = time.time()
        status = it.proxy.status(seconds)
        took = time.time() - since
        assert status == 10 and it.proxy.lines()[-1] == end, (status, it.proxy.lines()[-1:], it.proxy.faults()[-2:])
        assert any(fault in line for line in it.proxy.faults()), it.proxy.faults()
        assert it.proxy.lines()[1] == "closed 1 feed", it.proxy.lines()
        it.bounds(megabytes)
        assert it.meter.cores(since) <= cores, it.meter.cores(since)
        return f"+{it.meter.grown():.0f} MB, {it.meter.seconds():.1f} s of processor; status 10 after {took:.0f} s"


def a_watch_with_a_line_of_8_MB_and_a_byte(program, work):
    def rule(line, out):
        if b'"created":true' in line:
            return False
        out.sendall(b"%x\r\n" % (MOST_BODY + 1))
        in_pieces(out, b"x" * (MOST_BODY + 1))
        raise Over()

    def always(line, out):
        out.sendall(chunk(line))
        return rule(b"", out)

    return ended_by_watch(program, work, always, "has more than 8388608 bytes", "feed no line", 90, 40)


def a_watch_with_a_line_of_garbage_a_second(program, work):
    def rule(line, out):
        for _ in range(1000):
            out.sendall(chunk(b"garbage\n"))
            time.sleep(1)
        return True

    return ended_by_watch(program, work, rule, "cannot be understood", "feed no line", 90, 20)


def a_watch_with_a_byte_a_second(program, work):
    """The lines come a byte a second: nobody is told of an update, and nobody else is harmed."""
    def rule(line, out):
        if b'"created":true' in line:
            return False
        for byte in line:
            out.sendall(chunk(bytes([byte])))
            time.sleep(1)
        return True

    with staged(program, work, lambda port: Relay(port, line_rule=rule)) as it:
        time.sleep(20)
        cores = it.meter.cores(it.since)
        assert it.proxy.process.poll() is None and it.proxy.faults() == [], it.proxy.faults()
        it.bounds(20)
        assert cores < 1.0, f"{cores:.2f} processors"
        return it.told(f"{cores:.2f} processors")


def left_by_16(it):
    """16 clients that have a watch armed make an update, whose reply waits for the watch, and go away. Gives how many processors the
    proxy takes while they wait, and after they left."""
    waiting = [Client(it.port) for _ in range(16)]
    for number, client in enumerate(waiting):
        client.ask(EXISTS, read(b"/never", True))
        client.send(CREATE, create(b"/waits-%d" % number))
    time.sleep(5)
    since = time.time()
    time.sleep(10)
    before = it.meter.cores(since)
    for client in waiting:
        client.end()
    time.sleep(2)
    since = time.time()
    time.sleep(20)
    return before, it.meter.cores(since)


class Silence:
    """A rule for a watch's lines that keeps all of them after the first, until it is over."""

    def __init__(self):
        self.lock, self.kept, self.is_over = threading.Lock(), [], False

    def rule(self, line, out):
        with self.lock:
            if self.is_over or b'"created":true' in line:
                return False
            self.kept.append((line, out))
            return True

    def end(self):
        with self.lock:
            self.is_over = True
            for line, out in self.kept:
                out.sendall(chunk(line))


def a_watch_that_falls_silent(program, work):
    """Those who wait for it, and those who left, cost next to nothing."""
    with staged(program, work, lambda port: Relay(port, line_rule=Silence().rule)) as it:
        before, after = left_by_16(it)
        it.bounds(20)
        text = it.told(f"{before:.2f} processors while 16 wait, {after:.2f} after they left")
        assert before < 0.2 and after < 0.2, text
        return text


def clients_that_leave_a_silent_watch(program, work):
    """Their replies wait for the watch, and so do their ends: once it goes on, each gives up its place."""
    silence = Silence()
    with staged(program, work, lambda port: Relay(port, line_rule=silence.rule)) as it:
        left_by_16(it)
        kept = [cause for cause in it.causes(range(2, 18), 2) if cause is None]
        since = time.time()
        silence.end()
        causes = it.causes(range(2, 18))
        took = time.time() - since
        assert all(cause and cause.startswith("client") for cause in causes), causes
        it.bounds(20)
        return it.told(f"{len(kept)} keep their places until the watch goes on, and none {took:.1f} s later")


def a_watch_whose_peer_is_gone(program, work):
    """The stream of the watch is gone without a word. It is dialled again soon after a minute, and who waits is told of what was
    missed."""
    with staged(program, work, lambda port: Relay(port)) as it:
        waiting, maker = Client(it.port, seconds=180), Client(it.port)
        waiting.ask(EXISTS, read(b"/missed", True))
        it.relay.forget()
        since = time.time()
        maker.does(CREATE, create(b"/missed"))
        maker.end()
        frame = b""
        while b"/missed" not in frame and time.time() < since + 150:
            waiting.send(PING, xid=-2)
            frame = waiting.receive()
            time.sleep(0.5)
        took = time.time() - since
        assert b"/missed" in frame, "nothing is told"
        assert it.says("watch of"), it.proxy.faults()
        it.bounds(20)
        return it.told(f"told after {took:.0f} s")


def a_watch_that_never_stops(program, work):
    """The watch gives lines without updates as fast as they can be read."""
    def rule(line, out):
        out.sendall(chunk(line))
        many = chunk(b'{"result":{"header":{"revision":"9"}}}\n') * 1000
        end = time.time() + 20
        while time.time() < end:
            out.sendall(many)
        return True

    with staged(program, work, lambda port: Relay(port, line_rule=rule)) as it:
        time.sleep(15)
        assert it.proxy.process.poll() is None
        it.bounds(20)
        return it.told(f"{it.meter.cores(it.since):.2f} processors")


def an_etcd_that_says_nothing_at_first(program, work):
    """It takes the first ask, and never answers."""
    def rule(route, keys, out, relay):
        relay.is_over.wait(300)
        raise Over()

    relay = Relay(free_port(), rule)
    proxy = Proxy(program, relay.address, work, is_awaited=False)
    try:
        meter, since = Meter(proxy.process), time.time()
        status = proxy.status(180)
        took = time.time() - since
        meter.stop()
        assert status == 6 and proxy.lines() == ["net fault"], (status, proxy.lines())
        assert meter.seconds() < 30 and took > 50, (meter.seconds(), took)
        return f"status 6 after {took:.0f} s; {meter.seconds():.1f} s of processor"
    finally:
        proxy.end()
        relay.end()


def an_etcd_whose_door_is_full(program, work):
    """After the first clients nobody at etcd's address accepts any more, so that a dial gets no answer at all."""
    with staged(program, work, lambda port: Relay(port)) as it:
        reader = Client(it.port)
        it.other.stop()
        it.relay.fill()
        late = []
        for _ in range(3):
            late.append(dial(it.port))
        times, end = [], time.time() + 25
        while time.time() < end:
            asked = time.time()
            reader.does(EXISTS, read(b"/"))
            times.append(time.time() - asked)
            time.sleep(0.2)
        assert all(is_cut(stream, 5) for stream in late), "a client that can have no link waits"
        causes = it.closed()
        assert [causes.get(number) for number in (3, 4, 5)] == ["no link"] * 3, causes
        it.bounds(10, 10)
        return f"reads at most {1000 * max(times):.0f} ms meanwhile"


checks = [answers_that_come_slowly, answers_that_never_come, answers_of_8_MB, answers_that_are_too_long, answers_of_another,
          an_answer_that_shows_nothing,
          a_watch_with_a_line_of_8_MB_and_a_byte, a_watch_with_a_line_of_garbage_a_second, a_watch_with_a_byte_a_second,
          a_watch_that_falls_silent, clients_that_leave_a_silent_watch, a_watch_whose_peer_is_gone, a_watch_that_never_stops,
          an_etcd_that_says_nothing_at_first, an_etcd_whose_door_is_full]
