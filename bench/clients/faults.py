"""Faults: a proxy is killed, etcd restarts, is compacted and filled, a client stops."""
import multiprocessing
import os
import signal
import subprocess
import threading
import time

from kazoo.client import KazooClient, KazooState
from kazoo.exceptions import BadVersionError, ConnectionLoss, KazooException, OperationTimeoutError, SessionExpiredError
from kazoo.recipe.cache import TreeCache, TreeEvent
from kazoo.recipe.watchers import ChildrenWatch
from kazoo.retry import KazooRetry

from basics import kazoos, two_proxies
from cluster import Etcd, Proxy, until


def hosts_of(proxies):
    return ",".join(it.address for it in proxies)


class Writer(threading.Thread):
    """Adds one to a counter, again and again, and makes a sequence node beside each. Notes what it was sure of and what not."""

    def __init__(self, hosts, is_over):
        super().__init__()
        self.client = KazooClient(hosts=hosts, timeout=10.0)
        self.client.start(10)
        self.is_over = is_over
        self.sure, self.unsure, self.zxids, self.made, self.times = 0, 0, [], [], []

    def run(self):
        while not self.is_over.is_set():
            try:
                content, stat = self.client.get("/counter")
                self.zxids.append(self.client.last_zxid)
                self.client.set("/counter", str(int(content) + 1).encode(), stat.version)
                self.sure += 1
                self.times.append(time.time())
                self.made.append(self.client.create("/log/n-", content, sequence=True))
            except BadVersionError:
                pass
            except (ConnectionLoss, SessionExpiredError, OperationTimeoutError, KazooException):
                self.unsure += 1
                time.sleep(0.05)


def longest_pause(times):
    return max((later - earlier for earlier, later in zip(times, times[1:])), default=0.0)


def counting(etcd, proxies, seconds, harm, writers=6):
    """Has writers count while harm is done, and checks that no update that was acknowledged is lost and that no zxid goes back.
    Gives the longest pause between two acknowledged updates of one writer, in seconds."""
    hosts = hosts_of(proxies)
    with kazoos(hosts) as (watcher,):
        watcher.create("/counter", b"0")
        watcher.create("/log")
        is_over = threading.Event()
        all_writers = [Writer(hosts, is_over) for _ in range(writers)]
        for it in all_writers:
            it.start()
        harm()
        time.sleep(seconds)
        is_over.set()
        for it in all_writers:
            it.join(60)
            assert not it.is_alive(), "a writer hangs"
        retry = KazooRetry(max_tries=-1, max_delay=1.0, deadline=60)
        content, stat = retry(watcher.get, "/counter")
        sure, unsure = sum(it.sure for it in all_writers), sum(it.unsure for it in all_writers)
        assert sure <= stat.version <= sure + unsure, (sure, unsure, stat.version)
        assert int(content) == stat.version
        names = set(retry(watcher.get_children, "/log"))
        made = [it.rsplit("/", 1)[1] for one in all_writers for it in one.made]
        assert len(set(made)) == len(made) and set(made) <= names, "a node that was acknowledged is lost"
        for it in all_writers:
            assert it.zxids == sorted(it.zxids), "a zxid went back"
            it.client.stop()
        assert sure > 0
        return max(longest_pause(it.times) for it in all_writers)


def a_killed_proxy_loses_nothing(program, work):
    with two_proxies(program, work) as (etcd, proxies):
        def harm():
            for _ in range(3):
                time.sleep(1)
                proxies[0].end()
                time.sleep(0.5)
                proxies[0] = Proxy(program, etcd.address, work, port=proxies[0].port)

        counting(etcd, proxies, 2, harm)


def a_killed_proxy_keeps_sessions_and_locks(program, work):
    with two_proxies(program, work) as (_etcd, proxies):
        with kazoos(hosts_of(proxies), proxies[1].address) as (a, b):
            lock = a.Lock("/lock", "a")
            assert lock.acquire(timeout=5)
            a.create("/mine", ephemeral=True)
            session, states = a.client_id[0], []
            a.add_listener(states.append)
            proxies[0].end()
            assert until(lambda: KazooState.SUSPENDED in states and a.connected, 10)
            assert a.client_id[0] == session and KazooState.LOST not in states
            assert b.exists("/mine") and not b.Lock("/lock", "b").acquire(blocking=False)
            lock.release()
            assert b.Lock("/lock", "b").acquire(timeout=5)


def watches_move(program, work, *words):
    """A client of this command sets watches at the first of two proxies, which is killed while changes are made at the other."""
    with two_proxies(program, work) as (_etcd, proxies), kazoos(proxies[1].address) as (b,):
        client = subprocess.Popen([*words, hosts_of(proxies), "-"], stdin=subprocess.PIPE, stdout=subprocess.PIPE, text=True)
        try:
            assert client.stdout.readline() == "ready\n"
            # Which of the two it chose is its own affair.
            held = [it for it in proxies if len(open_streams(it)) > (it is proxies[1])]
            held[0].signal(signal.SIGSTOP)
            other = proxies[1 - proxies.index(held[0])]
            with kazoos(other.address) as (c,):
                c.create("/w/created")
                c.delete("/w/deleted")
                c.set("/w/changed", b"y")
                held[0].end()
                client.stdin.write("\n")
                client.stdin.close()
                assert client.wait(40) == 0, client.stdout.read()
        finally:
            client.kill()


def open_streams(proxy):
    """The streams that clients have to this proxy."""
    listed = subprocess.run(["ss", "-Htn", "state", "established", f"( sport = :{proxy.port} )"], capture_output=True, text=True)
    return listed.stdout.splitlines()


def the_java_client_keeps_its_watches(program, work):
    watches_move(program, work, "java", "Clients", "failover")


def the_c_client_keeps_its_watches(program, work):
    watches_move(program, work, f"{work}/clients", "failover")


def etcd_restarts(seconds):
    def check(program, work):
        with two_proxies(program, work) as (etcd, proxies):
            with kazoos(*[it.address for it in proxies], timeout=40.0) as (a, b):
                lock = a.Lock("/lock", "a")
                assert lock.acquire(timeout=5)
                session, states, seen = a.client_id[0], [], []
                a.add_listener(states.append)
                b.create("/watched", b"x")
                b.get("/watched", watch=seen.append)

                def harm():
                    time.sleep(1)
                    etcd.stop()
                    time.sleep(seconds)
                    etcd.start()

                counting(etcd, proxies, 12, harm, writers=3)
                assert until(lambda: a.connected and b.connected, 40)
                assert a.client_id[0] == session and KazooState.LOST not in states
                # An idle connection learns with its next request that its link was cut.
                retry = KazooRetry(max_tries=60, max_delay=1.0)
                assert retry(b.exists, "/lock") and not b.Lock("/lock", "b").acquire(blocking=False)
                retry(a.set, "/watched", b"y")
                assert until(lambda: len(seen) > 0, 10), "the watch is lost"
                lock.release()
                assert b.Lock("/lock", "b").acquire(timeout=5)
                for proxy in proxies:
                    assert proxy.process.poll() is None, proxy.lines()
                    assert any("watch of" in it for it in proxy.faults()), proxy.faults()
    return check


def etcd_restarts_within_2_seconds(program, work):
    etcd_restarts(2)(program, work)


def etcd_restarts_within_20_seconds(program, work):
    etcd_restarts(20)(program, work)


def sleeper(hosts, told):
    """A client in a process of its own, which holds a lock and an ephemeral node."""
    client = KazooClient(hosts=hosts, timeout=4.0)
    client.add_listener(lambda state: told.put(state))
    client.start(10)
    client.Lock("/lock", "sleeper").acquire(timeout=5)
    client.create("/sleeper", ephemeral=True)
    told.put("holds")
    time.sleep(120)


def a_stopped_client_loses_its_session(program, work):
    with two_proxies(program, work) as (_etcd, proxies), kazoos(proxies[1].address) as (b,):
        told = multiprocessing.Queue()
        client = multiprocessing.Process(target=sleeper, args=(proxies[0].address, told), daemon=True)
        client.start()
        while told.get(timeout=15) != "holds":
            pass
        gone = []
        assert b.exists("/sleeper", watch=gone.append)
        lock = b.Lock("/lock", "b")
        os.kill(client.pid, signal.SIGSTOP)
        since = time.time()
        assert lock.acquire(timeout=20), "the lock did not pass on"
        waited = time.time() - since
        assert until(lambda: len(gone) == 1 and not b.exists("/sleeper"), 5)
        assert 2.0 < waited < 9.0, f"the lock passed on after {waited:.1f} s"
        os.kill(client.pid, signal.SIGCONT)
        states = []
        while KazooState.LOST not in states:
            states.append(told.get(timeout=20))
        client.terminate()
        client.join()


def registrar(hosts, told):
    """A client in a process of its own, whose session owns sixty members of a party."""
    client = KazooClient(hosts=hosts, timeout=8.0)
    client.start(10)
    for n in range(60):
        client.Party("/services", f"service-{n:02}").join()
    told.put(client.client_id[0])
    client.add_listener(told.put)
    time.sleep(120)


def a_registry_of_sixty_members_is_kept_and_lapses(program, work):
    with two_proxies(program, work) as (etcd, proxies), kazoos(proxies[1].address) as (b,):
        told, counts = multiprocessing.Queue(), []
        client = multiprocessing.Process(target=registrar, args=(proxies[0].address, told), daemon=True)
        client.start()
        session, services = told.get(timeout=30), b.Party("/services")
        ChildrenWatch(b, "/services", lambda names: counts.append(len(names)))
        # It reads and watches each member, and its children too.
        cache, kinds = TreeCache(b, "/services"), []
        cache.listen(lambda event: kinds.append(event.event_type))
        cache.start()
        assert until(lambda: kinds.count(TreeEvent.NODE_ADDED) == 61), kinds
        proxies[0].end()
        proxies[0] = Proxy(program, etcd.address, work, port=proxies[0].port)
        assert [told.get(timeout=20) for _ in range(2)] == [KazooState.SUSPENDED, KazooState.CONNECTED]
        assert sorted(services) == [f"service-{n:02}" for n in range(60)]
        assert {b.exists(f"/services/{it}").ephemeralOwner for it in b.get_children("/services")} == {session}
        os.kill(client.pid, signal.SIGSTOP)
        since = time.time()
        assert until(lambda: counts[-1] == 0, 40), "its members stay"
        waited = time.time() - since
        assert counts == [60, 0], "its members do not go at once"
        assert until(lambda: kinds.count(TreeEvent.NODE_REMOVED) == 60) and list(services) == [], kinds
        os.kill(client.pid, signal.SIGCONT)
        while told.get(timeout=20) != KazooState.LOST:
            pass
        client.terminate()
        client.join()
        return f"sixty members were gone {waited:.1f} s after their client was stopped, of which 8 are the timeout"


def compaction_is_not_felt(program, work):
    with two_proxies(program, work) as (etcd, proxies):
        def harm():
            for _ in range(5):
                time.sleep(0.5)
                etcd.control("compact", str(etcd.revision()))

        counting(etcd, proxies, 2, harm)
        for proxy in proxies:
            assert proxy.process.poll() is None and proxy.faults() == [], proxy.faults()


def a_proxy_that_missed_updates_ends(program, work):
    with two_proxies(program, work) as (etcd, proxies), kazoos(proxies[1].address, timeout=40.0) as (b,):
        b.create("/x")
        with kazoos(proxies[0].address):
            proxies[0].signal(signal.SIGSTOP)
            etcd.stop()
            etcd.start()
            assert until(lambda: b.connected, 20)
            for _ in range(5):
                KazooRetry(max_tries=20, max_delay=1.0)(b.set, "/x", b"y")
            etcd.control("compact", str(etcd.revision()))
            proxies[0].signal(signal.SIGCONT)
            assert proxies[0].status(30) == 10, "no status 10"
            last = proxies[0].lines()[-1].split()
            assert last[:2] == ["feed", "compacted"] and int(last[2]) > 0, proxies[0].lines()
            assert any("compacted unread" in it for it in proxies[0].faults()), proxies[0].faults()
        assert proxies[1].process.poll() is None


def a_proxy_begins_where_others_wrote_and_compacted(program, work):
    with two_proxies(program, work) as (etcd, proxies), kazoos(proxies[0].address) as (a,):
        a.create("/x", b"x")
        for n in range(5):
            etcd.control("put", "other/key", str(n))
        etcd.control("compact", str(etcd.revision()))
        late = Proxy(program, etcd.address, work)
        try:
            assert late.status(2) is None, late.lines()
            with kazoos(late.address) as (b,):
                seen = []
                assert b.get("/x", watch=seen.append)[0] == b"x"
                a.set("/x", b"y")
                assert until(lambda: len(seen) == 1) and b.get("/x")[0] == b"y", "the update is missed"
            assert late.faults() == [], late.faults()
        finally:
            late.end()


def a_full_etcd_refuses_updates_and_comes_back(program, work):
    with two_proxies(program, work, "--quota-backend-bytes", str(16 * 1024 * 1024)) as (etcd, proxies):
        with kazoos(proxies[0].address, proxies[1].address, timeout=40.0) as (a, b):
            a.create("/full", b"")
            b.create("/kept", b"kept")
            sure, big = 0, b"x" * 500_000
            try:
                for _ in range(200):
                    a.set("/full", big)
                    sure += 1
                raise AssertionError("the quota is never reached")
            except ConnectionLoss:
                pass
            assert b.get("/kept")[0] == b"kept", "a read is refused"
            assert until(lambda: any("status 429" in it for it in proxies[0].faults())), proxies[0].faults()
            etcd.control("compact", str(etcd.revision()))
            etcd.control("defrag")
            etcd.control("alarm", "disarm")
            retry = KazooRetry(max_tries=60, max_delay=1.0)
            _content, stat = retry(a.get, "/full")
            assert sure <= stat.version <= sure + 1, (sure, stat.version)
            retry(a.set, "/full", b"again")
            assert b.get("/full")[0] == b"again"


checks = [a_killed_proxy_loses_nothing, a_killed_proxy_keeps_sessions_and_locks, the_java_client_keeps_its_watches,
          the_c_client_keeps_its_watches, etcd_restarts_within_2_seconds,
          etcd_restarts_within_20_seconds, a_stopped_client_loses_its_session,
          a_registry_of_sixty_members_is_kept_and_lapses, compaction_is_not_felt,
          a_proxy_that_missed_updates_ends, a_proxy_begins_where_others_wrote_and_compacted,
          a_full_etcd_refuses_updates_and_comes_back]
