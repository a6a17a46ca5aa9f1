"""Clients that mean harm, over a real etcd."""
import random
import socket
import struct
import threading
import time

from cluster import until
from stage import THREADS, numbers, staged
from wire import (CHILDREN, CREATE, DELETE, EXISTS, GET, MOST, MULTI, PING, SET, Client, Closed, Refused, connect, create, delete, dial,
                  integer, is_cut, multi, packet, put, read, request)


def crowd(count, job):
    """Runs `job(number)` in so many threads, and gives what they give."""
    found = [None] * count

    def run(number):
        try:
            found[number] = job(number)
        except (OSError, Closed, Refused) as fault:
            found[number] = fault

    threads = [threading.Thread(target=run, args=(it,), daemon=True) for it in range(count)]
    for it in threads:
        it.start()
    for it in threads:
        it.join(300)
        assert not it.is_alive(), "a client hangs"
    return found


def pour(stream, piece, seconds, is_over):
    """Sends this again and again for so many seconds, or until the stream is cut off or it is over."""
    end = time.time() + seconds
    stream.settimeout(1.0)
    while time.time() < end and not is_over.is_set():
        try:
            stream.send(piece)
        except socket.timeout:
            pass
        except OSError:
            break


def clients_that_read_nothing(program, work):
    """16 send pings and 16 ask for a node of 100 KB, as fast as they can, and read nothing. They are cut off within four minutes: a write
    of which the system took a part waits for 60 seconds again."""
    with staged(program, work) as it:
        maker = Client(it.port)
        maker.does(CREATE, create(b"/big", b"x" * 100_000))
        pings = request(-2, PING) * 4096
        gets = request(7, GET, read(b"/big")) * 256
        is_over = threading.Event()

        def harm(client, piece):
            pour(client.stream, piece, 270, is_over)

        mute = [Client(it.port, room=4096) for _ in range(32)]
        since = time.time()
        for number, client in enumerate(mute):
            threading.Thread(target=harm, args=(client, (pings, gets)[number % 2]), daemon=True).start()
        first = last = None
        while time.time() < since + 260 and last is None:
            causes = it.closed()
            found = [causes[number] for number in range(3, 35) if number in causes]
            first = first or (found and time.time() - since) or None
            last = time.time() - since if len(found) == 32 else None
            time.sleep(1)
        is_over.set()
        # If the system takes a few bytes after a while, the session may lapse in between.
        assert last and {cause.split()[0] for cause in found} <= {"write", "expired"}, found
        assert first > 25, (first, last)
        it.bounds(32 * 6 + 30, 60)
        return it.told(f"32 are cut off after {first:.0f} to {last:.0f} s", f"{found.count('write')} for `write`")


def a_client_that_lags(program, work):
    """It has a watch, asks for 12 MB, and reads on only after 4,200 updates."""
    with staged(program, work) as it:
        client = Client(it.port, timeout=40_000, room=4096)
        client.does(CREATE, create(b"/big", b"x" * 100_000))
        client.ask(EXISTS, read(b"/never", True))
        client.stream.sendall(request(7, GET, read(b"/big")) * 120)
        time.sleep(2)

        def update(number):
            other = Client(it.port)
            path = b"/updated-%d" % number
            other.does(CREATE, create(path))
            for _ in range(10):
                other.stream.sendall(request(7, SET, put(path, b"x")) * 27)
                for _ in range(27):
                    other.reply()
            other.end()

        since = time.time()
        crowd(16, update)
        took = time.time() - since
        if took < 55:
            try:
                client.stream.settimeout(30)
                while True:
                    client.receive()
            except Closed:
                pass
        [cause] = it.causes([2])
        # A machine may be too busy for so many updates in a minute.
        assert cause and cause.startswith("lagged" if took < 55 else "write"), cause
        it.bounds(60)
        return it.told(f"4,336 updates in {took:.0f} s", cause)


def clients_that_connect_a_byte_a_second(program, work):
    """32 send a connect, a byte a second: after 10 seconds they are let go. 32 more send 31 bytes of one, and nothing else."""
    with staged(program, work) as it:
        streams, since = [dial(it.port) for _ in range(64)], time.time()
        for stream in streams[32:]:
            stream.sendall(connect()[:31])
        for byte in connect()[:9]:
            for stream in streams[:32]:
                stream.sendall(bytes([byte]))
            time.sleep(1)
        assert all(is_cut(stream, 15) for stream in streams)
        took = time.time() - since
        assert 9 < took < 25, took
        causes = it.causes(range(2, 66))
        assert causes == ["read"] * 64, causes
        it.bounds(64 * 1 + 10, 30)
        return it.told(f"64 let go after {took:.0f} s")


def clients_that_send_a_byte_a_second(program, work):
    """32 send 40 bytes of a connect at once, and then the others and a ping, a byte a second, and are answered. When they stop, they are
    let go after 60 seconds."""
    with staged(program, work) as it:
        bytes_of = connect(40_000) + request(-2, PING)
        streams = [dial(it.port) for _ in range(32)]
        for at in range(39, len(bytes_of)):
            for stream in streams:
                stream.sendall(bytes_of[at:at + 1] if at > 39 else bytes_of[:40])
            time.sleep(1)
        for stream in streams:
            stream.settimeout(10)
            answer = stream.recv(4096)
            while len(answer) < 41 + 20:
                answer += stream.recv(4096)
        since = time.time()
        assert all(is_cut(stream, 80) for stream in streams)
        took = time.time() - since
        assert 50 < took < 75, took
        causes = it.causes(range(2, 34))
        assert causes == ["read"] * 32, causes
        it.bounds(32 * 1 + 10, 30)
        return it.told(f"32 answered, and let go after {took:.0f} s of silence")


def frames_of_1_MB_on_all_connections(program, work):
    """255 clients make a node of 1 MB each at once. If the etcd takes longer than their timeout for that, their sessions lapse, and
    if it takes longer than a minute, their links end."""
    with staged(program, work) as it:
        def harm(number):
            client = Client(it.port, timeout=40_000, seconds=240)
            path = b"/big-%03d" % number
            frame = create(path, b"x" * (MOST - 8 - len(create(path))))
            assert len(frame) + 8 == MOST
            client.does(CREATE, frame)
            return client

        since = time.time()
        clients = crowd(255, harm)
        took = time.time() - since
        failed = [client for client in clients if not isinstance(client, Client)]
        assert all(isinstance(client, (Closed, ConnectionError)) or client.args == (-112,) for client in failed), failed
        held = it.meter.now()
        for client in clients:
            if isinstance(client, Client):
                client.end()
        assert until(lambda: numbers(it.proxy.process.pid)[2] <= THREADS + 1, 60), "threads stay"
        kinds = {cause.split()[0] for number, cause in it.closed().items() if 2 <= number <= 256}
        assert kinds <= {"client", "read", "link", "expired"}, kinds
        it.bounds(255 * 12)
        return it.told(f"in {took:.0f} s, of {len(failed)} the session or the link ended",
                       f"{held:.0f} MB while they are idle, {it.meter.now():.0f} MB after they left")


def frames_of_1_MB_that_spell_nothing(program, work):
    """255 clients, or as many as get a session within two minutes, send four frames of 1 MB each at once, which spell no request, and read
    that they do not. Of etcd they want a session and keepalives alone; if it has no time for these, their links or sessions end."""
    with staged(program, work) as it:
        frame = create(b"/none", b"x" * (MOST - 9 - len(create(b"/none")))) + b"x"
        assert len(frame) + 8 == MOST

        def harm(client):
            for _ in range(4):
                error, _ = client.ask(CREATE, frame)
                assert error in (-5, -112), error
                if error == -112:
                    raise Closed()

        clients, since = [], time.time()
        while len(clients) < 255 and time.time() < since + 120:
            clients.append(Client(it.port, timeout=40_000, seconds=240))
        count, since = len(clients), time.time()
        found = crowd(count, lambda number: harm(clients[number]))
        took = time.time() - since
        failed = [fault for fault in found if fault is not None]
        assert all(isinstance(fault, (Closed, ConnectionError)) for fault in failed), failed
        held = it.meter.now()
        for client in clients:
            client.end()
        assert until(lambda: numbers(it.proxy.process.pid)[2] <= THREADS + 1, 60), "threads stay"
        kinds = {cause.split()[0] for number, cause in it.closed().items() if 2 <= number <= count + 1}
        assert kinds <= {"client", "read", "link", "expired"}, kinds
        it.bounds(20 + count * 4)
        return it.told(f"{count} clients in {took:.0f} s, the links or sessions of {len(failed)} ended",
                       f"{held:.0f} MB while they are idle, {it.meter.now():.0f} MB after they left")


def frames_that_are_none(program, work):
    """Lengths out of range, random bytes, half a frame and then an end: before a session and in one."""
    with staged(program, work) as it:
        seed = random.Random(7)
        cases = []  # what is sent, whether in a session, and the cause
        for length in (-1, -2**31, 1_048_576, 2**31 - 1):
            cases.append((integer(length) + b"x" * 100, False, f"length 0 {length}"))
            cases.append((integer(length), True, f"length 49 {length}"))
            cases.append((request(1, PING) * 3 + integer(length), True, f"length {49 + 36} {length}"))
        for count in (0, 1, 7):
            cases.append((packet(b"x" * count), False, "noheader 0"))
            cases.append((packet(b"x" * count), True, "noheader 49"))
        half = request(1, CREATE, create(b"/half", b"x" * 1000))[:500]
        cases.append((b"", False, "client 0"))
        cases.append((connect()[:20], False, "client 20"))
        cases.append((half, True, f"client {49 + 500}"))
        cases.append((integer(MOST) + b"x" * 1_000_000, True, f"client {49 + 1_000_004}"))
        number = 1
        for content, is_in_session, cause in cases:
            number += 1
            stream = Client(it.port).stream if is_in_session else dial(it.port)
            stream.sendall(content)
            if cause.startswith("client"):
                stream.shutdown(socket.SHUT_WR)
            assert is_cut(stream, 10), cause
            stream.close()
        for _ in range(300):
            number += 1
            stream = dial(it.port)
            try:
                stream.sendall(seed.randbytes(seed.randrange(1, 4096)))
                stream.shutdown(socket.SHUT_WR)
            except OSError:
                pass
            assert is_cut(stream, 10), "random bytes"
            stream.close()
        found = it.causes(range(2, number + 1))
        assert found[:len(cases)] == [cause for _, _, cause in cases], list(zip(found, cases))
        random_ones = {cause and cause.split()[0] for cause in found[len(cases):]}
        assert random_ones <= {"length", "noheader", "client", "read"}, random_ones
        it.bounds(20, 20)
        return it.told(f"{len(cases)} cases with their causes, 300 streams of random bytes: {', '.join(sorted(random_ones))}")


def requests_that_are_none(program, work):
    """Frames of the right length whose bodies are random, or are cut off, or claim millions of items: each is answered."""
    with staged(program, work) as it:
        seed = random.Random(11)
        client, count = Client(it.port), 0
        kinds = [1, 2, 3, 4, 5, 6, 8, 9, 12, 13, 14, 101, 7, 0, -1, 2**31 - 1]
        huge = integer(2**31 - 1)
        bodies = [b"", huge, huge * 50, integer(-2) * 10, b"\xff" * 64, multi() + b"x"]
        for kind in kinds:
            for body in bodies + [seed.randbytes(seed.randrange(0, 400)) for _ in range(60)]:
                error, _ = client.ask(kind, body)
                assert error in (0, -5, -6, -8, -101), (kind, error)
                count += 1
        it.bounds(20)
        return it.told(f"{count} answered on one connection")


def nodes_with_many_children(program, work):
    """A node of 45,000 children, whose list is 7 MB of an etcd's answer: one client lists it, and then 8 at once do, twice each."""
    with staged(program, work) as it:
        names, maker = 45_000, Client(it.port, timeout=40_000, seconds=240)
        maker.does(CREATE, create(b"/many"))
        since = time.time()
        for first in range(0, names, 24):
            some = range(first, min(first + 24, names))
            maker.does(MULTI, multi(*[(CREATE, create(b"/many/%05d" % one)) for one in some]))
        made, resting = time.time() - since, it.meter.grown()

        def take(_number):
            client = Client(it.port, timeout=40_000, seconds=240)
            for _ in range(2):
                answer = client.does(CHILDREN, read(b"/many"))
                assert struct.unpack(">i", answer[:4])[0] == names
            return client

        clients = [take(0)]
        alone = it.meter.grown()
        since = time.time()
        clients += crowd(8, take)
        took = time.time() - since
        assert all(isinstance(client, Client) for client in clients), clients
        for client in clients:
            client.end()
        time.sleep(1)
        it.bounds(8 * 200 + 50)
        return it.told(f"made in {made:.0f} s, +{resting:.0f} MB", f"one client +{alone:.0f} MB",
                       f"8 at once +{it.meter.grown():.0f}, in {took:.0f} s",
                       f"{it.meter.now():.0f} MB after they left")


def updates_with_the_longest_entries(program, work):
    """4,400 multis of 12 creates and 12 deletes of paths of 1,020 bytes: the hub keeps the last 4,096 of their entries. An etcd without
    the processor time for that carries out as many as it can within four minutes. If it takes longer for one than a session's timeout
    or a link's patience, its client begins another session."""
    with staged(program, work) as it:
        counts, ends, since = [0] * 16, [0] * 16, time.time()

        def harm(number):
            parent = b"/" + b"p" * 998 + b"%02d" % number
            paths = [parent + b"/" + b"c" * 16 + b"%02d" % one for one in range(12)]
            frame = multi(*[(CREATE, create(path)) for path in paths], *[(DELETE, delete(path)) for path in paths])
            while counts[number] < 275 and time.time() < since + 240:
                try:
                    client = Client(it.port, timeout=40_000, seconds=240)
                    error, _ = client.ask(CREATE, create(parent))
                    assert error in (0, -110, -112), error
                    while counts[number] < 275 and time.time() < since + 240:
                        client.does(MULTI, frame)
                        counts[number] += 1
                    client.end()
                except (Closed, ConnectionError):
                    ends[number] += 1
                except Refused as refused:
                    assert refused.args == (-112,), refused
                    ends[number] += 1

        found = crowd(16, harm)
        took, count, held = time.time() - since, sum(counts), it.meter.now()
        assert found == [None] * 16, (found, counts)
        kinds = {cause.split()[0] for cause in it.closed().values()}
        assert kinds <= {"client", "read", "write", "link", "expired"}, kinds
        # 80 KB an entry, and 1 MB and more for each of the clients.
        it.bounds(20 + 330 * min(count, 4096) / 4096)
        return it.told(f"{count} updates in {took:.0f} s, and {sum(ends)} sessions or links ended", f"{held:.0f} MB after them")


checks = [clients_that_read_nothing, a_client_that_lags, clients_that_connect_a_byte_a_second,
          clients_that_send_a_byte_a_second, frames_of_1_MB_on_all_connections, frames_of_1_MB_that_spell_nothing,
          frames_that_are_none, requests_that_are_none, nodes_with_many_children, updates_with_the_longest_entries]
