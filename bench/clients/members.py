"""Members: an etcd of three, each of which is killed and comes back, while clients work at two proxies that know all three."""
import base64
import json
import signal
import socket
import threading
import time
import urllib.request
from contextlib import contextmanager

from kazoo.client import KazooState
from kazoo.retry import KazooRetry

from basics import kazoos
from cluster import Members, Proxy, free_port, until
from faults import counting, hosts_of, longest_pause
from parted import PartedMembers
from wire import CREATE, GET, PING, SET, Client, Closed, create, is_readable, put, read, request


@contextmanager
def three_members(program, work):
    etcd, proxies = Members(work), []
    try:
        proxies.append(Proxy(program, etcd.address, work))
        proxies.append(Proxy(program, etcd.address, work))
        yield etcd, proxies
    finally:
        for proxy in proxies:
            proxy.end()
        etcd.end()


class Direct(threading.Thread):
    """A client of etcd itself: puts a key again and again, and goes on to the next member if one does not answer."""

    def __init__(self, etcd, is_over):
        super().__init__()
        self.addresses, self.is_over, self.times = etcd.address.split(","), is_over, []

    def run(self):
        body = json.dumps({"key": base64.b64encode(b"direct").decode(), "value": ""}).encode()
        at = 0
        while not self.is_over.is_set():
            try:
                urllib.request.urlopen(f"http://{self.addresses[at]}/v3/kv/put", body, timeout=5).read()
                self.times.append(time.time())
                time.sleep(0.01)
            except OSError:
                at = (at + 1) % len(self.addresses)


def killed(etcd, member, seconds=3):
    """Kills a member, and has it back after so many seconds."""
    member.stop(signal.SIGKILL)
    time.sleep(seconds)
    member.start()
    assert until(lambda: all(it.is_healthy() for it in etcd.members), 20), "a member does not come back"
    time.sleep(1)


def a_killed_member_loses_no_session(program, work):
    with three_members(program, work) as (etcd, proxies):
        with kazoos(hosts_of(proxies), hosts_of(proxies[::-1]), timeout=10.0) as (a, b):
            lock = a.Lock("/lock", "a")
            assert lock.acquire(timeout=5)
            sessions, states = [it.client_id[0] for it in (a, b)], []
            for it in (a, b):
                it.add_listener(states.append)
            leads, is_led, others = threading.Event(), threading.Event(), []

            def lead():
                leads.set()
                is_led.wait(180)

            first = threading.Thread(target=a.Election("/election", "a").run, args=(lead,))
            first.start()
            assert leads.wait(10)
            second = threading.Thread(target=b.Election("/election", "b").run, args=(lambda: others.append(time.time()),))
            second.start()
            is_over = threading.Event()
            direct = Direct(etcd, is_over)
            direct.start()

            def harm():
                for member in etcd.members:
                    killed(etcd, member)
                killed(etcd, etcd.leader())

            pause = counting(etcd, proxies, 2, harm, writers=3)
            is_over.set()
            direct.join(20)
            assert until(lambda: a.connected and b.connected, 20)
            assert [it.client_id[0] for it in (a, b)] == sessions and KazooState.LOST not in states, states
            retry = KazooRetry(max_tries=20, max_delay=1.0)
            assert retry(b.exists, "/lock") and not b.Lock("/lock", "b").acquire(blocking=False)
            assert others == [], "two lead"
            is_led.set()
            first.join(20)
            second.join(20)
            assert len(others) == 1, "the other does not lead"
            lock.release()
            assert b.Lock("/lock", "b").acquire(timeout=5)
            for proxy in proxies:
                assert proxy.process.poll() is None, proxy.lines()
        return f"the longest pause was {pause:.1f} s, of a client of etcd {longest_pause(direct.times):.1f} s"


def a_proxy_begins_where_one_member_is_down(program, work):
    etcd = Members(work)
    try:
        etcd.members[0].stop(signal.SIGKILL)
        assert until(lambda: any(it.leads() for it in etcd.members[1:]), 20)
        proxy = Proxy(program, etcd.address, work)
        try:
            with kazoos(proxy.address) as (a,):
                a.create("/x", b"x")
                assert a.get("/x")[0] == b"x"
        finally:
            proxy.end()
    finally:
        etcd.end()


def no_link_is_told_where_no_member_answers(program, work):
    with three_members(program, work) as (etcd, proxies):
        for member in etcd.members:
            member.stop(signal.SIGKILL)
        with socket.create_connection(("127.0.0.1", proxies[0].port), 5):
            assert until(lambda: "closed 1 no link" in proxies[0].lines(), 10), proxies[0].lines()


HEAD = base64.b64encode(b"zk/head").decode()
LOOK = {"success": [{"request_range": {"key": HEAD}}]}
CONNECT = bytes.fromhex("0000002d" + "00000000" + "00" * 8 + "00007530" + "00" * 8 + "00000010" + "00" * 16 + "00")


class Told:
    """A member that answers what is read with a head at revision 5 and nothing else, and what is written as if a guard had failed. It
    closes each stream that asks for a watch or a lease. `asked` has what each of the members was asked: its number, the route, the body."""

    def __init__(self, number, asked):
        self.number, self.asked = number, asked
        self.listener = socket.create_server(("127.0.0.1", free_port()))
        self.address = f"127.0.0.1:{self.listener.getsockname()[1]}"
        threading.Thread(target=self.accept, daemon=True).start()

    def accept(self):
        while True:
            try:
                stream = self.listener.accept()[0]
            except OSError:
                return
            threading.Thread(target=self.serve, args=(stream,), daemon=True).start()

    def serve(self, stream):
        with stream, stream.makefile("rb") as lines:
            while True:
                words, length = lines.readline().split(), 0
                if not words:
                    return
                for line in iter(lines.readline, b"\r\n"):
                    if line.lower().startswith(b"content-length:"):
                        length = int(line[15:])
                route, body = words[1].decode(), json.loads(lines.read(length))
                self.asked.append((self.number, route, body))
                if route != "/v3/kv/txn":
                    return
                text = json.dumps(self.answer(body)).encode()
                stream.sendall(b"HTTP/1.1 200 OK\r\nContent-Length: %d\r\n\r\n" % len(text) + text)

    def answer(self, body):
        is_read = not body.get("compare")
        parts = []
        for part in body.get("success" if is_read else "failure", []):
            is_head = part["request_range"]["key"] == HEAD
            head = {"key": HEAD, "create_revision": "2", "mod_revision": "5", "version": "4", "value": "AQAAAAA="}
            parts.append({"response_range": {"kvs": [head], "count": "1"} if is_head else {}})
        return {"header": {"revision": "5"}, "succeeded": is_read, "responses": parts}

    def end(self):
        try:
            self.listener.shutdown(socket.SHUT_RDWR)
        except OSError:
            pass
        self.listener.close()


def the_endpoints_are_dialled_in_turn(program, work):
    asked = []
    members = [Told(number, asked) for number in range(3)]
    proxy = Proxy(program, ",".join(it.address for it in members), work)
    try:
        # The first ask only reads, and there is a head, so nothing is written.
        assert asked[0][::2] == (0, LOOK) and not any(it[2].get("compare") for it in asked), asked[:3]
        watches = lambda: [number for number, route, _body in list(asked) if route == "/v3/watch"]
        assert until(lambda: len(watches()) >= 7, 30), watches()
        assert watches()[:7] == [0, 1, 2, 0, 1, 2, 0], watches()
        # A client's link is to the first member that can be dialled, from the one on that was dialled last.
        connects = lambda: [it[0] for it in list(asked)[1:] if it[2] == LOOK]
        for first in (0, 1, 2):
            with socket.create_connection(("127.0.0.1", proxy.port), 5) as client:
                client.sendall(CONNECT)
                assert until(lambda: len(connects()) > first, 10), connects()
            members[first].end()
        assert connects() == [0, 1, 2], connects()
    finally:
        proxy.end()
        for it in members:
            it.end()


class Watcher(threading.Thread):
    """Reads a node and watches it, again as soon as it is told. `seen` has the time and the version of each reading, and `told` how many
    notifications came for it before the next one."""

    def __init__(self, port, path):
        super().__init__(daemon=True)
        self.client, self.path, self.is_over, self.seen, self.told, self.fault = Client(port), path, threading.Event(), [], [], None
        self.start()

    def run(self):
        try:
            while not self.is_over.is_set():
                answer = self.client.does(GET, read(self.path, True))
                if self.seen:
                    self.told.append(len(self.client.notices))
                self.client.notices.clear()
                self.seen.append((time.time(), int.from_bytes(answer[-36:-32], "big")))
                while not self.client.notices and not self.is_over.is_set():
                    self.hear()
            time.sleep(2)
            while is_readable(self.client.stream, 0.0):
                self.hear()
            self.told.append(len(self.client.notices))
        except Exception as fault:
            self.fault = fault

    def hear(self):
        """Takes what comes within a second, and pings if nothing does."""
        if not is_readable(self.client.stream, 1.0):
            self.client.stream.sendall(request(-2, PING))
            return
        frame = self.client.receive()
        if frame[:4] == bytes([255] * 4):
            self.client.notices.append(frame)

    def first_of(self, version):
        """When it first read this version or a later one."""
        return next((at for at, found in list(self.seen) if found >= version), None)


def watchers_at(member):
    """How many watches this member of etcd has."""
    text = urllib.request.urlopen(f"http://{member.address}/metrics", timeout=5).read().decode()
    return sum(float(line.split()[1]) for line in text.splitlines() if line.startswith("etcd_debugging_mvcc_watcher_total "))


def hand_leadership(etcd, member):
    """Has this member lead."""
    if not member.leads():
        etcd.leader().control("move-leader", f"{member.status()['header']['member_id']:x}")
    assert until(member.leads, 10), "it does not lead"


def is_told_while_the_watched_member_is_cut_off(program, work, leads):
    """Three members: clients have their links at the first one, updates are followed at the second, and a writer has the third."""
    etcd, proxies = PartedMembers(work), []
    try:
        links, watched, third = etcd.members
        proxies.append(Proxy(program, f"{links.address},{watched.address}", work))
        # The watch leaves the member at which it was begun when that goes, and does not come back by itself.
        killed(etcd, links)
        assert until(lambda: watchers_at(watched), 10), "the watch is not where it is meant to be"
        proxies.append(Proxy(program, third.address, work))
        hand_leadership(etcd, watched if leads else third)
        writer = Client(proxies[1].port)
        writer.does(CREATE, create(b"/w", b""))
        watcher = Watcher(proxies[0].port, b"/w")
        assert until(lambda: watcher.seen, 10), watcher.fault
        etcd.part(etcd.members.index(watched))
        assert until(lambda: links.leads() or third.leads(), 20), "no other member leads"
        late = [told_late(writer, watcher, version) for version in range(1, 5)]
        etcd.heal()
        late += [told_late(writer, watcher, version) for version in range(5, 9)]
        watcher.is_over.set()
        watcher.join(20)
        assert watcher.fault is None, watcher.fault
        assert [version for _, version in watcher.seen] == list(range(9)), watcher.seen
        assert watcher.told == [1] * 8 + [0], watcher.told
        for it in proxies:
            assert it.process.poll() is None, it.lines()
        return f"told {max(late[:4]):.2f} s after an update at the most, after the heal {max(late[4:]):.2f} s"
    finally:
        for it in proxies:
            it.end()
        etcd.end()


def told_late(writer, watcher, version):
    """Makes an update that gives this version. Gives how long after it the watcher has read it, in seconds."""
    time.sleep(1)
    writer.does(SET, put(watcher.path, b"%d" % version))
    at = time.time()
    assert until(lambda: watcher.first_of(version) or watcher.fault, 15), f"nothing of update {version} for 15 s"
    assert watcher.fault is None, watcher.fault
    return watcher.first_of(version) - at


def a_follower_that_is_cut_off_holds_up_no_watch(program, work):
    return is_told_while_the_watched_member_is_cut_off(program, work, False)


def a_leader_that_is_cut_off_holds_up_no_watch(program, work):
    return is_told_while_the_watched_member_is_cut_off(program, work, True)


def what_comes_of_a_client(proxy):
    """Whether a client gets a session and makes a node, or is cut off, and after how many seconds."""
    since = time.time()
    try:
        client = Client(proxy.port)
        client.does(CREATE, create(b"/of-%d" % time.time_ns(), b""))
        client.end()
        return f"is served after {time.time() - since:.1f} s"
    except (OSError, Closed):
        return f"is cut off after {time.time() - since:.1f} s"


def a_proxy_begins_beside_a_member_without_a_leader(program, work):
    etcd = PartedMembers(work)
    try:
        etcd.part(0)
        assert until(lambda: not etcd.members[0].is_healthy(), 20), "the member that is cut off still has a leader"
        assert until(lambda: any(it.leads() for it in etcd.members[1:]), 20), "no other member leads"
        since = time.time()
        proxy = Proxy(program, etcd.address, work, is_awaited=False)
        try:
            assert until(lambda: proxy.lines() or proxy.process.poll() is not None, 30)
            listens = time.time() - since
            assert proxy.lines() == [f"listening {proxy.address}"] and listens < 10, f"{proxy.lines()} after {listens:.1f} s"
            # A client's link is to the member that answered the proxy's first ask.
            meanwhile = what_comes_of_a_client(proxy)
            assert meanwhile.startswith("is served"), meanwhile
            etcd.heal()
            assert until(etcd.members[0].is_healthy, 20), "the member that was cut off has no leader again"
            assert what_comes_of_a_client(proxy).startswith("is served"), "no client is served after the heal"
        finally:
            proxy.end()
        return f"it listens after {listens:.1f} s; a client {meanwhile} while the first member has no leader"
    finally:
        etcd.end()


checks = [a_killed_member_loses_no_session, a_proxy_begins_where_one_member_is_down, no_link_is_told_where_no_member_answers,
          the_endpoints_are_dialled_in_turn, a_follower_that_is_cut_off_holds_up_no_watch, a_leader_that_is_cut_off_holds_up_no_watch,
          a_proxy_begins_beside_a_member_without_a_leader]
