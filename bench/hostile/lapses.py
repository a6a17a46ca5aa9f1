"""Sessions that are left behind by the thousand, and what is theirs."""
import base64
import json
import shutil
import signal
import statistics
import threading
import time
import urllib.request

from clients import crowd
from cluster import Etcd, Proxy, until
from floods import etcd_does
from relay import Far
from stage import numbers
from wire import CREATE, Client, Closed, Refused, create

EPHEMERAL = 1
ABANDONED, THREADS = 1_300, 8
# How late the node of an honest client may go, in seconds: nine of ten of them.
LATE = 3.0
# What two proxies take of the time of one.
PART = 0.6


class Ends(threading.Thread):
    """When sessions lapse, and when nodes go: when etcd tells of the end of the record of a session's life, and of a node."""

    def __init__(self, port):
        super().__init__(daemon=True)
        self.lapsed, self.gone, self.port, self.is_on = {}, {}, port, threading.Event()
        self.start()
        assert self.is_on.wait(10), "etcd does not begin the watch"

    def run(self):
        spelled = {"key": base64.b64encode(b"zk/d").decode(), "range_end": base64.b64encode(b"zk/m").decode(), "filters": ["NOPUT"]}
        ask = urllib.request.Request(f"http://127.0.0.1:{self.port}/v3/watch", json.dumps({"create_request": spelled}).encode())
        try:
            with urllib.request.urlopen(ask) as lines:
                for line in lines:
                    self.is_on.set()
                    now = time.time()
                    for event in json.loads(line)["result"].get("events", []):
                        self.ended(base64.b64decode(event["kv"]["key"]), now)
        except (OSError, ValueError):
            pass

    def ended(self, key, now):
        if key.startswith(b"zk/l/"):
            self.lapsed[int(key[5:], 16)] = now
        if key.startswith(b"zk/d/"):
            self.gone[key[9:]] = now


def abandon(port, count, timeout, path_of, is_over=None):
    """From 8 threads, so many sessions with one ephemeral node each, whose clients leave without a word."""
    def harm(thread):
        for one in range(thread, count, THREADS):
            if is_over and is_over.is_set():
                return
            client = Client(port, timeout=timeout, seconds=120)
            client.does(CREATE, create(path_of(thread, one), flags=EPHEMERAL))
            client.end()

    found = crowd(THREADS, harm)
    assert found == [None] * THREADS, found


def counted(etcd, front):
    return int(etcd_does(etcd.port, "/v3/kv/range", key=front + b"/", range_end=front + b"0", count_only=True).get("count", "0"))


def asked(etcd):
    """How many transactions etcd has carried out."""
    text = urllib.request.urlopen(f"http://127.0.0.1:{etcd.port}/metrics").read().decode()
    lines = [it for it in text.splitlines() if it.startswith("grpc_server_handled_total") and 'grpc_method="Txn"' in it]
    return sum(float(it.split()[-1]) for it in lines)


def families(port):
    """A node for each thread, below which its nodes stand."""
    client = Client(port)
    for thread in range(THREADS):
        client.does(CREATE, create(b"/of-%d" % thread))
    client.end()


def below_one_each(thread, one):
    return b"/of-%d/left-%d" % (thread, one)


def honest_clients_among_lapsed_sessions(program, work):
    """8 threads open 1,300 sessions of 4 seconds with one ephemeral node each and leave. Meanwhile forty honest clients die, one after the
    other, and the node of each is gone soon after its session has lapsed."""
    etcd = Etcd(work, "--quota-backend-bytes", "8589934592", "--log-level", "error")
    proxy = None
    try:
        proxy = Proxy(program, etcd.address, work)
        families(proxy.port)
        ends, died = Ends(etcd.port), {}
        since = time.time()
        flood = threading.Thread(target=abandon, args=(proxy.port, ABANDONED, 4_000, below_one_each), daemon=True)
        flood.start()
        taken = None
        for number in range(40):
            client = Client(proxy.port, timeout=4_000, seconds=60)
            client.does(CREATE, create(b"/honest-%d" % number, flags=EPHEMERAL))
            client.end()
            died[client.session] = b"/honest-%d" % number
            if taken is None and not flood.is_alive():
                taken = time.time() - since
            time.sleep(0.5)
        flood.join(120)
        assert not flood.is_alive(), "the flood hangs"
        taken = taken or time.time() - since
        assert until(lambda: all(path in ends.gone for path in died.values()), 120, 0.2), "a node stays"
        late = sorted(ends.gone[path] - ends.lapsed[session] for session, path in died.items())
        assert until(lambda: counted(etcd, b"zk/s") == 0, 120, 0.2), "a session stays"
        took = time.time() - since
        tenth = late[int(0.9 * len(late))]
        told = (f"{ABANDONED} sessions in {taken:.0f} s, all gone after {took:.0f} s; nodes of honest clients go {statistics.median(late):.2f} s "
                f"after the lapse, nine of ten by {tenth:.2f}, the last {late[-1]:.2f}")
        assert tenth <= LATE, told
        return told
    finally:
        if proxy:
            proxy.end()
        etcd.end()


def cleared_by(program, work, etcd, address, count):
    """In how many seconds so many proxies, started at once, clear all lapsed sessions, and with how many transactions each."""
    proxies = []
    try:
        before, left = asked(etcd), counted(etcd, b"zk/s")
        since = time.time()
        proxies = [Proxy(program, address, work, is_awaited=False) for _ in range(count)]
        assert until(lambda: counted(etcd, b"zk/s") == 0, 180, 0.05), f"{counted(etcd, b'zk/s')} of {left} sessions stay"
        return time.time() - since, (asked(etcd) - before) / left
    finally:
        for it in proxies:
            it.end()


def cleared(program, work, path_of, away):
    """What `cleared_by` gives for one proxy and for two, three times each, over the same lapsed sessions and an etcd that is so many
    seconds away."""
    etcd = Etcd(work, "--quota-backend-bytes", "8589934592", "--log-level", "error")
    far, kept = Far(etcd.port, away), etcd.folder + ".kept"
    try:
        proxy = Proxy(program, etcd.address, work)
        try:
            families(proxy.port)
            abandon(proxy.port, ABANDONED, 40_000, path_of)
        finally:
            proxy.end()
        assert until(lambda: counted(etcd, b"zk/l") == 0, 120, 0.5), "a lease stays"
        assert counted(etcd, b"zk/s") >= ABANDONED, counted(etcd, b"zk/s")
        etcd.stop()
        shutil.copytree(etcd.folder, kept)
        found = {1: [], 2: []}
        for count in (1, 2, 2, 1, 1, 2):
            shutil.rmtree(etcd.folder)
            shutil.copytree(kept, etcd.folder)
            etcd.start()
            found[count].append(cleared_by(program, work, etcd, far.address if away else etcd.address, count))
            etcd.stop()
        return found
    finally:
        far.end()
        etcd.end()
        shutil.rmtree(kept, ignore_errors=True)


def figures(found):
    """The text, and what two proxies take of the time of one."""
    took = {count: statistics.median(time for time, _ in runs) for count, runs in found.items()}
    asks = {count: statistics.median(asks for _, asks in runs) for count, runs in found.items()}
    text = ", ".join(f"{count} in {took[count]:.1f} s ({' '.join(f'{time:.1f}' for time, _ in found[count])}; {asks[count]:.1f} asks a session)"
                     for count in found)
    return f"{text}: {took[2] / took[1]:.2f}", took[2] / took[1]


def two_proxies_clear_lapsed_sessions(program, work):
    """1,300 sessions have lapsed while there was no proxy, in an etcd that is 10 milliseconds away, so that no processor is what is short.
    Two proxies clear them in at most 0.6 of the time that one takes."""
    text, part = figures(cleared(program, work, below_one_each, 0.01))
    assert part <= PART, text
    return text


def lapsed_sessions_of_a_near_etcd(program, work):
    """The same over an etcd of the same machine."""
    text, _part = figures(cleared(program, work, below_one_each, 0.0))
    return text


def lapsed_sessions_below_one_node(program, work):
    """The same, where all of their nodes stand below one, so that each end is in the way of all others."""
    text, _part = figures(cleared(program, work, lambda thread, one: b"/of-0/left-%d" % one, 0.01))
    return text


def sessions_that_lapse_after_a_fault(program, work):
    """etcd is gone for eight seconds, so that each worker that looks for lapsed sessions fails once or twice; then it is back, and a client
    dies. Its node goes soon after its session has lapsed."""
    etcd = Etcd(work, "--log-level", "error")
    proxy = None
    try:
        proxy = Proxy(program, etcd.address, work)
        time.sleep(2)
        etcd.stop(signal.SIGKILL)
        time.sleep(8)
        etcd.start()
        assert until(lambda: any("reaper at" in it for it in proxy.faults()), 1), f"no worker failed: {proxy.faults()}"
        ends = Ends(etcd.port)
        client = Client(proxy.port, timeout=4_000, seconds=60)
        client.does(CREATE, create(b"/after", flags=EPHEMERAL))
        client.end()
        assert until(lambda: b"/after" in ends.gone, 40, 0.1), f"its node stays: {proxy.faults()[-3:]} {proxy.lines()[-2:]}"
        late = ends.gone[b"/after"] - ends.lapsed[client.session]
        assert late <= 10, f"{late:.1f} s"
        return f"its node goes {late:.2f} s after the lapse; {sum('reaper at' in it for it in proxy.faults())} workers had failed"
    finally:
        if proxy:
            proxy.end()
        etcd.end()


def looks_for_lapsed_sessions(program, work):
    """What a proxy asks, and what it and etcd take, if nobody asks it for anything: with no session, and with 5,000 that live."""
    etcd = Etcd(work, "--quota-backend-bytes", "8589934592", "--log-level", "error")
    proxy = None
    try:
        proxy = Proxy(program, etcd.address, work)
        said = []
        for name in ("no session", "5,000 sessions"):
            if name != "no session":
                five_thousand(etcd)
            time.sleep(3)
            asks, own, other = asked(etcd), numbers(proxy.process.pid)[4], numbers(etcd.process.pid)[4]
            time.sleep(20)
            said.append(f"{name}: {(asked(etcd) - asks) / 20:.1f} asks a second, {(numbers(proxy.process.pid)[4] - own) / 20:.3f} processors and "
                        f"{(numbers(etcd.process.pid)[4] - other) / 20:.3f} of etcd")
        return "; ".join(said)
    finally:
        if proxy:
            proxy.end()
        etcd.end()


def five_thousand(etcd):
    """Keys of 5,000 open sessions that live."""
    for first in range(0, 5_000, 50):
        puts = [{"request_put": {"key": base64.b64encode(b"zk/%s/%016x" % (kind, (one * 2_654_435_761 << 29) % 2**63 + 1)).decode(), "value": ""}}
                for one in range(first, first + 50) for kind in (b"s", b"l")]
        ask = urllib.request.Request(f"http://127.0.0.1:{etcd.port}/v3/kv/txn", json.dumps({"success": puts}).encode())
        urllib.request.urlopen(ask, timeout=10).read()


checks = [honest_clients_among_lapsed_sessions, two_proxies_clear_lapsed_sessions, lapsed_sessions_of_a_near_etcd,
          lapsed_sessions_below_one_node, sessions_that_lapse_after_a_fault, looks_for_lapsed_sessions]
