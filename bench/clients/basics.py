"""Each client connects, creates, reads, watches, elects a leader and holds a lock over two proxies."""
import subprocess
import threading
import time
from contextlib import contextmanager

from kazoo.client import KazooClient
from kazoo.exceptions import BadVersionError, ConnectionLoss, NoNodeError, NodeExistsError
from kazoo.recipe.watchers import ChildrenWatch

from cluster import Etcd, MemoryEtcd, Proxy, until


class Skipped(Exception):
    """Why a check is not tried."""


@contextmanager
def two_proxies(program, work, *flags, etcd=None):
    etcd = etcd or Etcd(work, *flags)
    proxies = []
    try:
        proxies.append(Proxy(program, etcd.address, work))
        proxies.append(Proxy(program, etcd.address, work))
        yield etcd, proxies
    finally:
        for proxy in proxies:
            proxy.end()
        etcd.end()


@contextmanager
def kazoos(*hosts, timeout=10.0):
    """A started kazoo client for each of these addresses."""
    clients = []
    try:
        for host in hosts:
            client = KazooClient(hosts=host, timeout=timeout, randomize_hosts=False)
            client.start(10)
            clients.append(client)
        yield clients
    finally:
        for client in clients:
            try:
                client.stop()
                client.close()
            except Exception:
                pass


def runs(*words):
    made = subprocess.run(words, capture_output=True, text=True, timeout=120)
    assert made.returncode == 0 and made.stdout.strip().endswith("ok"), made.stdout + made.stderr[-400:]


def kazoo_reads_writes_and_watches(program, work):
    with two_proxies(program, work) as (_etcd, proxies), kazoos(*[it.address for it in proxies]) as (a, b):
        assert a.create("/k", b"x") == "/k"
        seen = []
        content, stat = b.get("/k", watch=seen.append)
        assert (content, stat.version) == (b"x", 0)
        a.set("/k", b"y", 0)
        assert until(lambda: [it.type for it in seen] == ["CHANGED"])
        for what, fault in ((lambda: a.set("/k", b"z", 0), BadVersionError), (lambda: a.create("/k"), NodeExistsError),
                            (lambda: a.get("/none"), NoNodeError)):
            try:
                what()
                raise AssertionError(f"no {fault.__name__}")
            except fault:
                pass
        names = []
        ChildrenWatch(b, "/k", lambda children: names.append(sorted(children)))
        made = [a.create("/k/n-", sequence=True, ephemeral=True) for _ in range(3)]
        assert made == [f"/k/n-{it:010}" for it in range(3)]
        assert until(lambda: names[-1] == ["n-0000000000", "n-0000000001", "n-0000000002"])
        parts = b.transaction()
        parts.check("/k", 1)
        parts.set_data("/k", b"w", 1)
        parts.create("/k/m")
        parts.delete("/k/m")
        assert [type(it).__name__ for it in parts.commit()] == ["bool", "ZnodeStat", "str", "bool"]
        path, stat = a.create("/s", b"abc", include_data=True)
        assert (path, stat, stat.dataLength) == ("/s", a.exists("/s"), 3)
        a.stop()
        assert until(lambda: names[-1] == [])


def kazoo_holds_a_lock(program, work):
    with two_proxies(program, work) as (_etcd, proxies), kazoos(*[it.address for it in proxies]) as (a, b):
        mine, theirs = a.Lock("/lock", "a"), b.Lock("/lock", "b")
        assert mine.acquire(timeout=5) and not theirs.acquire(blocking=False)
        count, both, most = [0], [0], [0]

        def hold(client, name):
            lock = client.Lock("/turns", name)
            for _ in range(20):
                with lock:
                    both[0] += 1
                    most[0] = max(most[0], both[0])
                    count[0] += 1
                    both[0] -= 1

        workers = [threading.Thread(target=hold, args=it) for it in ((a, "a"), (b, "b"), (a, "a2"), (b, "b2"))]
        for it in workers:
            it.start()
        for it in workers:
            it.join(60)
        assert (count[0], most[0]) == (80, 1), (count, most)
        mine.release()
        assert theirs.acquire(timeout=5)
        theirs.release()


def kazoo_elects_a_leader(program, work):
    with two_proxies(program, work) as (_etcd, proxies), kazoos(*[it.address for it in proxies]) as (a, b):
        led, may_end = [], threading.Event()

        def lead(name):
            led.append(name)
            may_end.wait(20)

        first = threading.Thread(target=lambda: a.Election("/election", "a").run(lead, "a"))
        first.start()
        assert until(lambda: led == ["a"])
        second = threading.Thread(target=lambda: b.Election("/election", "b").run(lead, "b"))
        second.start()
        time.sleep(0.5)
        assert led == ["a"]
        may_end.set()
        first.join(10)
        second.join(10)
        assert led == ["a", "b"]


def kazoo_has_its_other_recipes(program, work):
    with two_proxies(program, work) as (_etcd, proxies), kazoos(*[it.address for it in proxies]) as (a, b):
        counter, other = a.Counter("/counter"), b.Counter("/counter")
        for _ in range(10):
            counter += 1
            other += 2
        assert a.Counter("/counter").value == 30
        party = b.Party("/party", "b")
        party.join()
        assert list(a.Party("/party")) == ["b"]
        queue = a.Queue("/queue")
        queue.put(b"1")
        queue.put(b"2")
        assert [b.Queue("/queue").get() for _ in range(3)] == [b"1", b"2", None]
        barrier = a.Barrier("/barrier")
        barrier.create()
        assert not b.Barrier("/barrier").wait(0.3)
        barrier.remove()
        assert b.Barrier("/barrier").wait(5)
        semaphore = [it.Semaphore("/semaphore", max_leases=2) for it in (a, b, b)]
        assert [it.acquire(blocking=False) for it in semaphore] == [True, True, False]
        a.ensure_path("/deep/er/and/deeper")
        assert b.exists("/deep/er/and/deeper")
        a.delete("/deep", recursive=True)
        assert not b.exists("/deep")


def the_java_client_reads_writes_and_watches(program, work):
    with two_proxies(program, work) as (_etcd, proxies):
        runs("java", "Clients", "basics", proxies[0].address, proxies[1].address)


def the_java_client_holds_a_lock(program, work):
    with two_proxies(program, work) as (_etcd, proxies):
        runs("java", "Clients", "lock", proxies[0].address, proxies[1].address)


def the_java_client_elects_a_leader(program, work):
    with two_proxies(program, work) as (_etcd, proxies):
        runs("java", "Clients", "elect", proxies[0].address, proxies[1].address)


def the_java_client_takes_watches_away(program, work):
    with two_proxies(program, work) as (_etcd, proxies):
        runs("java", "Clients", "unwatch", proxies[0].address, proxies[1].address)


def curator_reads_writes_locks_and_elects(program, work):
    with two_proxies(program, work) as (_etcd, proxies):
        runs("java", "Curator", proxies[0].address, proxies[1].address)


def the_c_client_reads_writes_watches_locks_and_elects(program, work):
    with two_proxies(program, work) as (_etcd, proxies):
        runs(f"{work}/clients", proxies[0].address, proxies[1].address)


def zkcli_reads_writes_and_watches(program, work):
    commands = """create /cli x
get -s /cli
get -w /cli
set /cli y
get /cli
create -s -e /cli/n- z
ls /cli
stat /cli
getAcl /cli
create /cli/old
delete /cli/old
set -v 7 /cli w
deleteall /cli
ls /
quit
"""
    with two_proxies(program, work) as (_etcd, proxies):
        made = subprocess.run(["java", "org.apache.zookeeper.ZooKeeperMain", "-server", proxies[0].address],
                              input=commands, capture_output=True, text=True, timeout=60)
        text = made.stdout + made.stderr
        for wanted in ("Created /cli", "Created /cli/n-0000000000", "[n-0000000000]", "type:NodeDataChanged path:/cli", "dataVersion = 1",
                       "version No is not valid", "'world,'anyone"):
            assert wanted in text, f"no {wanted!r} in {text[-1500:]}"
        with kazoos(proxies[1].address) as (a,):
            assert a.get_children("/") == []


@contextmanager
def zkcli(address, work):
    """A zkCli, as what takes a line and whether its output has this by now."""
    path = f"{work}/zkcli-{time.time_ns()}"
    cli = subprocess.Popen(["java", "org.apache.zookeeper.ZooKeeperMain", "-server", address], stdin=subprocess.PIPE,
                           stdout=open(path, "wb"), stderr=subprocess.STDOUT, text=True, bufsize=1)
    try:
        yield lambda line: cli.stdin.write(line + "\n"), lambda text: until(lambda: text in open(path, errors="replace").read(), 20)
    finally:
        cli.kill()
        cli.wait()


def zkclis_elect_and_lock(program, work):
    # Who makes the node leads, or holds the lock; who comes late is told when it goes, by its owner or with the owner's session.
    with two_proxies(program, work) as (_etcd, proxies), zkcli(proxies[0].address, work) as (ask, shows), \
            zkcli(proxies[1].address, work) as (other_asks, other_shows):
        ask("create -e /cli-lock a")
        assert shows("Created /cli-lock"), "no lock"
        other_asks("create -e /cli-lock b")
        assert other_shows("already exists: /cli-lock"), "two own it"
        other_asks("stat -w /cli-lock")
        assert other_shows("ephemeralOwner")
        ask("delete /cli-lock")
        assert other_shows("type:NodeDeleted path:/cli-lock"), "nobody is told"
        other_asks("create -e /cli-lock b")
        assert other_shows("Created /cli-lock"), "the lock did not pass on"
        other_asks("create -e /cli-leader b")
        assert other_shows("Created /cli-leader"), "nobody leads"
        ask("create -e /cli-leader a")
        assert shows("already exists: /cli-leader"), "two lead"
        ask("stat -w /cli-leader")
        assert shows("ephemeralOwner")
        other_asks("quit")
        assert shows("type:NodeDeleted path:/cli-leader"), "nobody is told"
        ask("create -e /cli-leader a")
        assert shows("Created /cli-leader"), "the other does not lead"


def large_nodes_and_long_listings(program, work):
    with two_proxies(program, work) as (_etcd, proxies), kazoos(*[it.address for it in proxies], timeout=40.0) as (a, b):
        large = bytes(range(256)) * 4000
        a.create("/large", large)
        assert b.get("/large")[0] == large
        b.set("/large", large[::-1])
        assert a.get("/large")[0] == large[::-1]
        a.create("/many")
        names = [f"{number:05}" + "n" * 30 for number in range(2000)]
        for waiting in [a.create_async(f"/many/{it}") for it in names]:
            waiting.get(60)
        assert b.get_children("/many") == names
        for waiting in [b.delete_async(f"/many/{it}") for it in names[:1000]]:
            waiting.get(60)
        assert a.get_children("/many") == names[1000:]
        # Beyond a frame's limit the connection ends, and the session goes on.
        try:
            a.set("/large", b"x" * 1_048_576)
            raise AssertionError("it is taken")
        except ConnectionLoss:
            pass
        assert until(lambda: a.connected, 10)
        assert a.get("/large")[0] == large[::-1]


def many_requests_at_once(program, work):
    with two_proxies(program, work) as (_etcd, proxies), kazoos(*[it.address for it in proxies]) as (a, b):
        a.create("/counter", b"")
        waiting = [it.set_async("/counter", str(number).encode()) for number in range(300) for it in (a, b)]
        versions = [it.get(60).version for it in waiting]
        assert sorted(versions) == list(range(1, 601))
        assert versions[0::2] == sorted(versions[0::2]) and versions[1::2] == sorted(versions[1::2])


def an_etcd_in_memory_does_as_well(program, work):
    with two_proxies(program, work, etcd=MemoryEtcd(program, work)) as (_etcd, proxies):
        with kazoos(*[it.address for it in proxies], timeout=4.0) as (a, b):
            lock, names = a.Lock("/lock", "a"), []
            assert lock.acquire(timeout=5) and not b.Lock("/lock", "b").acquire(blocking=False)
            ChildrenWatch(b, "/", lambda children: names.append(sorted(children)))
            a.create("/mine", ephemeral=True)
            assert until(lambda: names[-1] == ["lock", "mine"]), names
            parts = b.transaction()
            parts.check("/mine", 0)
            parts.create("/theirs", b"x")
            parts.set_data("/theirs", b"y")
            assert [type(it).__name__ for it in parts.commit()] == ["bool", "str", "ZnodeStat"]
            assert a.get("/theirs")[0] == b"y"
            # The connection ends and the session does not: its lease lapses, and a proxy removes its nodes.
            proxies[0].end()
            assert b.Lock("/lock", "b").acquire(timeout=20)
            assert until(lambda: names[-1] == ["lock", "theirs"]), names


def connections_that_end_are_told(program, work):
    with two_proxies(program, work) as (_etcd, proxies):
        with kazoos(proxies[0].address):
            pass
        with kazoos(proxies[0].address):
            assert until(lambda: "closed 1 closed" in proxies[0].lines())


checks = [kazoo_reads_writes_and_watches, kazoo_holds_a_lock, kazoo_elects_a_leader, kazoo_has_its_other_recipes,
          the_java_client_reads_writes_and_watches, the_java_client_holds_a_lock, the_java_client_elects_a_leader,
          the_java_client_takes_watches_away, curator_reads_writes_locks_and_elects,
          the_c_client_reads_writes_watches_locks_and_elects, zkcli_reads_writes_and_watches, zkclis_elect_and_lock,
          large_nodes_and_long_listings, many_requests_at_once, an_etcd_in_memory_does_as_well, connections_that_end_are_told]
