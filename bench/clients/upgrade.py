"""Upgrade: the steps of docs/OPERATIONS.md from a program whose sessions own at most 40 ephemeral nodes (layout 1) to this one (layout 2:
60 nodes, without counts), and back. OLD names such a program, for example what `tools/native` builds of an older commit."""
import base64
import json
import multiprocessing
import os
import signal
import time
from contextlib import contextmanager

from kazoo.client import KazooClient
from kazoo.exceptions import NoChildrenForEphemeralsError, SystemZookeeperError
from kazoo.retry import KazooRetry

from basics import Skipped, kazoos
from cluster import Etcd, Proxy, until
from wire import SET_WATCHES, Client, watches


class Host:
    """An etcd, and at one address a proxy, of one program after the other."""

    def __init__(self, program, work):
        self.etcd, self.work = Etcd(work), work
        self.proxy = Proxy(program, self.etcd.address, work)
        self.address = self.proxy.address

    def stop(self):
        self.proxy.signal(signal.SIGTERM)
        self.proxy.process.wait()

    def start(self, program):
        self.proxy = Proxy(program, self.etcd.address, self.work, port=self.proxy.port)

    def restart(self, program):
        self.stop()
        self.start(program)

    def stored(self, prefix):
        """The keys below this prefix, without it, and their values."""
        found = json.loads(self.etcd.control("get", "--prefix", prefix, "-w", "json")).get("kvs", [])
        return {base64.b64decode(it["key"])[len(prefix):].decode(): base64.b64decode(it.get("value", "")) for it in found}

    def sessions(self):
        """How many sessions are open, as docs/OPERATIONS.md counts them."""
        said = self.etcd.control("get", "zk/s/", "--prefix", "--keys-only", "--limit=1", "-w", "fields").decode()
        return int(next(it for it in said.splitlines() if "Count" in it).split()[-1])

    def layout_of(self, client):
        return self.stored("zk/s/")[f"{client.client_id[0]:016x}"][0]

    def end(self):
        self.proxy.end()
        self.etcd.end()


@contextmanager
def older_host(work):
    """A host that serves with the older program."""
    program = os.environ.get("OLD")
    if not program:
        raise Skipped("OLD names no program whose sessions own at most 40 ephemeral nodes")
    host = Host(program, work)
    try:
        yield host
    finally:
        host.end()


def own(client, front, count):
    for n in range(count):
        client.create(f"{front}{n:02}", b"x", ephemeral=True)


def refused(call, fault):
    try:
        call()
    except fault:
        return True
    return False


def goes_on(client, session):
    """Whether this client comes back with the same session."""
    found = until(lambda: client.connected, 20) and KazooRetry(max_tries=60, max_delay=1.0)(client.exists, "/p")
    return found is not None and client.client_id[0] == session


def as_made(stat, client):
    """Whether a node is as its session made it, and had no children."""
    return stat.pzxid == stat.czxid == stat.mzxid and stat.cversion == stat.numChildren == 0 and stat.ephemeralOwner == client.client_id[0]


def a_session_of_before_goes_on(program, work):
    with older_host(work) as host, kazoos(host.address, timeout=40.0) as (a,):
        a.create("/p")
        own(a, "/p/a", 40)
        assert refused(lambda: own(a, "/p/x", 1), SystemZookeeperError) and host.layout_of(a) == 1
        session, before = a.client_id[0], a.exists("/p/a00")
        host.restart(program)
        assert goes_on(a, session), "its session is lost"
        assert a.exists("/p/a00") == before and as_made(before, a), before
        assert refused(lambda: own(a, "/p/x", 1), SystemZookeeperError), "it owns a 41st node"
        seen = []
        a.get("/p/a02", watch=seen.append)
        a.set("/p/a02", b"y")
        assert until(lambda: [it.type for it in seen] == ["CHANGED"]), seen
        a.delete("/p/a39")
        own(a, "/p/x", 1)
        assert refused(lambda: own(a, "/p/y", 1), SystemZookeeperError) and host.layout_of(a) == 1
        assert sorted(host.stored("zk/c/")) == sorted(["0000/", "0001/p", "0002/p/x00"] + [f"0002/p/a{n:02}" for n in range(39)])
        a.stop()
        with kazoos(host.address) as (b,):
            assert until(lambda: b.get_children("/p") == []), "its close leaves nodes"
        assert sorted(host.stored("zk/c/")) == ["0000/", "0001/p"]


def sessions_of_both_layouts_share_a_tree(program, work):
    with older_host(work) as host, kazoos(host.address, timeout=40.0) as (a,):
        a.create("/p")
        own(a, "/p/a", 40)
        session = a.client_id[0]
        host.restart(program)
        assert goes_on(a, session)
        with kazoos(host.address, timeout=40.0) as (b,):
            own(b, "/p/b", 60)
            assert refused(lambda: own(b, "/p/x", 1), SystemZookeeperError), "it owns a 61st node"
            assert (host.layout_of(a), host.layout_of(b)) == (1, 2)
            counted = [it[4:] for it in host.stored("zk/c/")]
            assert sum(it.startswith("/p/a") for it in counted) == 40 and not any(it.startswith("/p/b") for it in counted), counted
            assert as_made(a.exists("/p/b00"), b) and a.get_children("/p/b00") == []
            for is_sequence in (False, True):
                assert refused(lambda: a.create("/p/b00/c", sequence=is_sequence), NoChildrenForEphemeralsError)
            seen = []
            for client, path in ((a, "/p/b03"), (b, "/p/a03"), (b, "/p/b04")):
                client.get_children(path, watch=seen.append)
            for client, path in ((b, "/p/a03"), (a, "/p/b03"), (a, "/p/b04")):
                client.delete(path)
            assert until(lambda: len(seen) == 3) and {(it.type, it.path) for it in seen} == {("DELETED", f"/p/{it}") for it in ("a03", "b03", "b04")}
            # The deletes make room for their owners, whose layouts stay.
            own(b, "/p/y", 2)
            own(a, "/p/z", 1)
            assert refused(lambda: own(b, "/p/x", 1), SystemZookeeperError) and refused(lambda: own(a, "/p/x", 1), SystemZookeeperError)
            assert (host.layout_of(a), host.layout_of(b)) == (1, 2)
            for client, path in ((a, "/p/a10"), (b, "/p/b10")):
                is_told_of_what_happened(host, client, path)
            other = b.client_id[0]
            host.restart(program)
            assert goes_on(a, session) and goes_on(b, other)
            assert len(a.get_children("/p")) == 100


def is_told_of_what_happened(host, client, path):
    """Has watches set again on this node, by a client that saw the node made, and by one that did not."""
    stat, name = client.exists(path), path.encode()
    other = Client(host.proxy.port)
    other.does(SET_WATCHES, watches(children=[name], zxid=stat.czxid))
    assert other.notices == [], "it is told of what it saw"
    other.does(SET_WATCHES, watches(children=[name], zxid=stat.czxid - 1))
    assert [kind_of(it) for it in other.notices] == [4], "it is not told of what it did not see"
    client.delete(path)
    other.notices.clear()
    assert kind_of(other.notice()) == 2
    own(client, path, 1)
    other.end()


def kind_of(notice):
    return int.from_bytes(notice[:4], "big")


def owner(address, pipe):
    """A client in a process of its own, which owns all that a session may."""
    client = KazooClient(hosts=address, timeout=4.0)
    client.start(10)
    own(client, "/p/c", 60)
    pipe.send(client.client_id[0])
    time.sleep(600)


def the_steps_back_leave_no_session(program, work):
    with older_host(work) as host, kazoos(host.address) as (a,):
        a.create("/p", b"x")
        session = a.client_id[0]
        host.restart(program)
        assert goes_on(a, session)
        ours, its = multiprocessing.Pipe()
        client = multiprocessing.Process(target=owner, args=(host.address, its), daemon=True)
        client.start()
        assert ours.poll(60), "it does not own 60 nodes"
        client.kill()
        a.stop()
        host.stop()
        # Without a proxy the session lapses, but what is stored of it stays.
        since = time.time()
        assert until(lambda: host.stored("zk/l/") == {}, 60, 0.2), "a lease does not lapse"
        assert host.sessions() == 1
        alone = Proxy(program, host.etcd.address, work)
        try:
            assert until(lambda: host.sessions() == 0, 30, 0.1), "a session is left"
            took = time.time() - since
        finally:
            alone.end()
        host.start(os.environ["OLD"])
        with kazoos(host.address) as (b,):
            assert b.get("/p")[0] == b"x" and b.get_children("/p") == []
            own(b, "/p/d", 40)
            assert refused(lambda: own(b, "/p/x", 1), SystemZookeeperError) and len(b.get_children("/p")) == 40
        assert not any("damaged" in it for it in host.proxy.lines()), host.proxy.lines()
        return f"no session was left {took:.0f} s after the last new proxy was stopped"


checks = [a_session_of_before_goes_on, sessions_of_both_layouts_share_a_tree, the_steps_back_leave_no_session]
