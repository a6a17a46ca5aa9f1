"""Backup and restore: the steps of docs/OPERATIONS.md, and what a proxy does that was not stopped before a restore."""
import os
import shutil
import signal
import struct
import subprocess
import time

from basics import kazoos
from cluster import Etcd, Members, Proxy, until
from faults import hosts_of
from wire import CREATE, GET, SET, Client, Closed, connect, create, dial, is_readable, put, read


def saved(etcd, work, name):
    """A backup of etcd's, as a file."""
    file = f"{work}/{name}.db"
    etcd.control("snapshot", "save", file)
    return file


def put_back(etcd, file, *flags):
    """Puts a backup in the place of what a member that is stopped has."""
    shutil.rmtree(etcd.folder)
    words = ["etcdctl", "snapshot", "restore", file, "--data-dir", etcd.folder, *flags]
    made = subprocess.run(words, env={**os.environ, "ETCDCTL_API": "3"}, capture_output=True, text=True)
    assert made.returncode == 0, made.stderr


def a_cluster_is_restored_step_by_step(program, work):
    """Save; stop the proxies and then the members; restore each member from the one file; start the members and then the proxies."""
    etcd, proxies = Members(work), []
    try:
        proxies += [Proxy(program, etcd.address, work) for _ in range(2)]
        with kazoos(hosts_of(proxies), timeout=20.0) as (a,):
            a.create("/kept", b"before")
            a.create("/of-a-session", b"", ephemeral=True)
            file = saved(etcd.members[0], work, "steps")
            a.set("/kept", b"after")
            a.create("/lost")
            zxid = a.last_zxid
            for it in proxies:
                it.end()
        for it in etcd.members:
            it.stop()
        peers = ",".join(f"m{n}=http://127.0.0.1:{it.peer}" for n, it in enumerate(etcd.members))
        for n, it in enumerate(etcd.members):
            put_back(it, file, "--name", f"m{n}", "--initial-cluster", peers, "--initial-advertise-peer-urls", f"http://127.0.0.1:{it.peer}",
                     "--initial-cluster-token", "restored")
        for it in etcd.members:
            it.start(is_awaited=False)
        assert until(lambda: all(it.is_healthy() for it in etcd.members), 30), "the members do not come back"
        since = time.time()
        proxies += [Proxy(program, etcd.address, work) for _ in range(2)]
        with kazoos(hosts_of(proxies[2:])) as (b,):
            assert b.get("/kept")[0] == b"before" and not b.exists("/lost")
            b.set("/kept", b"again")
            assert until(lambda: not b.exists("/of-a-session"), 60), "a session of before the backup does not lapse"
            lapsed = time.time() - since
            assert refuses_the_time_that_is_lost(proxies[2], zxid + 100)
        return f"the nodes of a session that was open in the backup were gone {lapsed:.0f} s after the proxies began"
    finally:
        for it in proxies:
            it.end()
        etcd.end()


def refuses_the_time_that_is_lost(proxy, zxid):
    """Whether a client is closed that has seen an update of after the backup."""
    frame = bytearray(connect())
    frame[8:16] = struct.pack(">q", zxid)
    with dial(proxy.port) as late:
        late.sendall(frame)
        late.settimeout(10)
        assert late.recv(1) == b""
    dial(proxy.port).close()
    return until(lambda: any(f" ahead {zxid} " in it for it in proxy.lines()), 5)


def restored_under_a_proxy(program, work):
    """Restores a backup of before 200 updates under a proxy that runs. Until that ends, clients come that read and watch what nobody
    changes any more. Gives how the proxy ended and after how many seconds, how many clients were served, and how many of them told."""
    etcd = Etcd(work)
    proxy = Proxy(program, etcd.address, work)
    try:
        writer = Client(proxy.port)
        writer.does(CREATE, create(b"/old", b""))
        file = saved(etcd, work, "under")
        for n in range(200):
            writer.does(SET, put(b"/old", b"%d" % n))
        etcd.stop(signal.SIGKILL)
        put_back(etcd, file)
        etcd.start()
        since, told, served = time.time(), 0, 0
        while proxy.process.poll() is None and time.time() - since < 90:
            try:
                client = Client(proxy.port, seconds=10.0)
                client.does(GET, read(b"/old", True))
                served += 1
                told += is_readable(client.stream, 1.0) and client.notice() is not None
                client.end()
            except (OSError, Closed, struct.error):
                pass
            # A session is an update: too many of them, and etcd is not behind any more.
            time.sleep(1)
        took = time.time() - since
        return (proxy.status(1), proxy.lines()[-1]), took, served, told
    finally:
        proxy.end()
        etcd.end()


def a_proxy_that_runs_over_a_restore_ends(program, work):
    end, took, served, told = restored_under_a_proxy(program, work)
    assert end == (10, "feed no line"), f"{end} after {took:.0f} s"
    return f"{took:.0f} s after etcd was back; {served} clients were served meanwhile"


def a_proxy_that_runs_over_a_restore_tells_of_no_lost_update(program, work):
    _end, took, served, told = restored_under_a_proxy(program, work)
    assert not told, f"{told} of {served} clients were told of an update that did not happen, within {took:.0f} s"
    return f"none of {served} clients was told"


checks = [a_cluster_is_restored_step_by_step, a_proxy_that_runs_over_a_restore_ends, a_proxy_that_runs_over_a_restore_tells_of_no_lost_update]
