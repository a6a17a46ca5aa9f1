"""Clients of every kind under kills, stops, cuts and restarts, recorded by `tools/audit` and judged.

Between the clients and three proxies stands the record; between two of the proxies and etcd a relay that is slow and cuts streams. A
random one of the faults happens every second or two. AUDIT_SECONDS says how long (60 if it is not set), AUDIT_SEED which random words.
The record is kept if it is not lawful, or where AUDIT_KEEP names a folder that is to be made.

Then bugs are planted, and the judge has to find each: relays that spoil what a proxy says (`spoilers`), and the programs that AUDIT_PLANTED
names, with blanks between them. Such a program is one of the edits in a crate's wrong/, which `tools/native` builds without a proof."""
import os
import random
import shutil
import signal
import subprocess
import sys
import threading
import time

from kazoo.client import KazooClient
from kazoo.exceptions import KazooException
from kazoo.handlers.threading import KazooTimeoutError

import history
import spoilers
from cluster import Etcd, Proxy, free_port

AUDIT = os.path.join(os.path.dirname(os.path.dirname(os.path.dirname(os.path.realpath(__file__)))), "tools", "audit")


class Record:
    """`tools/audit record` before these proxies, in a folder of its own."""

    def __init__(self, etcd, proxies, folder):
        self.folder, self.ports = folder, [free_port() for _ in proxies]
        self.address = ",".join(f"127.0.0.1:{port}" for port in self.ports)
        pairs = [f"127.0.0.1:{port}={proxy}" for port, proxy in zip(self.ports, proxies)]
        words = [sys.executable, AUDIT, "record", etcd, *pairs, folder]
        self.process = subprocess.Popen(words, stdout=subprocess.PIPE, text=True)
        assert self.process.stdout.readline().startswith("recording"), "no record"

    def end(self):
        if self.process.poll() is None:
            self.process.send_signal(signal.SIGINT)
        status = self.process.wait(60)
        assert status == 0, f"the record is not whole: status {status}"


def judged(program, folder, *words):
    """The status of a judgement, and what it said."""
    made = subprocess.run([sys.executable, AUDIT, "judge", *words, folder], capture_output=True, text=True, env={**os.environ, "ZETCD": program})
    return made.returncode, made.stdout + made.stderr


class Roamer(history.Client):
    """A client that leaves now and then, and comes back with another session, so that its session lapses."""

    def connect_and_ask(self):
        if self.dice.random() < 0.1:
            self.session, self.password = 0, bytes(16)
        super().connect_and_ask()


class Kazoo(threading.Thread):
    """Holds a lock and counts under it, watches the count, and keeps a sequence of its own."""

    def __init__(self, hosts, seed, is_over):
        super().__init__(daemon=True)
        self.hosts, self.dice, self.is_over, self.counted, self.told = hosts, random.Random(seed), is_over, 0, 0

    def heard(self, _event):
        self.told += 1

    def run(self):
        while not self.is_over.is_set():
            client = KazooClient(hosts=self.hosts, timeout=self.dice.choice([4.0, 8.0, 20.0]))
            try:
                client.start(10)
                self.work(client)
            except (KazooException, KazooTimeoutError, OSError):
                time.sleep(0.2)
            finally:
                try:
                    client.stop()
                    client.close()
                except Exception:  # it may be anywhere between two states
                    pass

    def work(self, client):
        client.ensure_path("/kazoo/counter")
        client.ensure_path("/kazoo/log")
        for _ in range(self.dice.randrange(5, 60)):
            if self.is_over.is_set():
                return
            with client.Lock("/kazoo/lock", str(self.ident)):
                content, stat = client.get("/kazoo/counter", watch=self.heard)
                client.set("/kazoo/counter", str(int(content or 0) + 1).encode(), stat.version)
                self.counted += 1
            parts = client.transaction()
            parts.check("/kazoo/counter", -1)
            parts.create("/kazoo/log/n-", b"x", sequence=True, ephemeral=self.dice.random() < 0.3)
            parts.commit()
            names = client.get_children("/kazoo/log", watch=self.heard)
            if len(names) > 20:
                client.delete(f"/kazoo/log/{self.dice.choice(names)}")


class Faults:
    """What is done to proxies and etcd. Each method is a fault."""

    def __init__(self, program, work, etcd, proxies, endpoints, dice):
        self.program, self.work, self.etcd, self.proxies, self.endpoints, self.dice = program, work, etcd, proxies, endpoints, dice
        self.counts = {}

    def kills_a_proxy(self):
        at = self.dice.randrange(len(self.proxies))
        self.proxies[at].end()
        time.sleep(self.dice.random())
        self.revives(at)

    def revives(self, at):
        self.proxies[at].end()
        self.proxies[at] = Proxy(self.program, self.endpoints[at], self.work, port=self.proxies[at].port)

    def stops_a_proxy(self):
        proxy = self.dice.choice(self.proxies)
        proxy.signal(signal.SIGSTOP)
        time.sleep(self.dice.choice([0.3, 1.0, 3.0, 6.0]))
        proxy.signal(signal.SIGCONT)

    def restarts_etcd(self):
        self.etcd.stop(self.dice.choice([signal.SIGTERM, signal.SIGKILL]))
        time.sleep(self.dice.choice([0.2, 1.0, 3.0]))
        self.etcd.start()
        for at, proxy in enumerate(self.proxies):
            if proxy.process.poll() is not None:
                self.revives(at)

    def stops_etcd(self):
        self.etcd.process.send_signal(signal.SIGSTOP)
        time.sleep(self.dice.choice([0.2, 1.0, 2.0]))
        self.etcd.process.send_signal(signal.SIGCONT)

    def next(self):
        fault = self.dice.choices([self.kills_a_proxy, self.stops_a_proxy, self.stops_etcd, self.restarts_etcd], [6, 5, 3, 1])[0]
        self.counts[fault.__name__] = self.counts.get(fault.__name__, 0) + 1
        fault()


def others(work, hosts, seconds):
    """The Java and the C client, if they were compiled."""
    found = []
    if os.path.exists(f"{work}/Clients.class"):
        found.append(["java", "Clients", "roam", hosts, str(seconds)])
    if os.path.exists(f"{work}/clients"):
        found.append([f"{work}/clients", "roam", hosts, str(seconds)])
    return [subprocess.Popen(it, stdout=subprocess.PIPE, text=True) for it in found]


def play(program, work, seconds, seed):
    """A run of so many seconds, recorded in a folder; gives that and what was done."""
    dice, etcd = random.Random(seed), Etcd(work)
    proxies, started, record = [], [], None
    try:
        slow = history.Relay(etcd)
        slow.dice = random.Random(seed)
        endpoints = [etcd.address, slow.address, slow.address]
        proxies += [Proxy(program, it, work) for it in endpoints]
        record = Record(etcd.address, [it.address for it in proxies], os.path.join(work, f"record-{seed}"))
        is_over, known = threading.Event(), history.Acknowledged()
        clients = [Roamer(record.ports, seed * 1000 + number, is_over, known) for number in range(6)]
        clients += [Kazoo(record.address, seed * 1000 + 100 + number, is_over) for number in range(3)]
        for it in clients:
            it.start()
        started = others(work, record.address, seconds)
        faults, end = Faults(program, work, etcd, proxies, endpoints, dice), time.time() + seconds
        while time.time() < end:
            time.sleep(dice.uniform(0.5, 2.0))
            faults.next()
        is_over.set()
        for it in clients:
            it.join(60)
            assert not it.is_alive(), f"a client hangs: {it}"
        said = [it.communicate(timeout=60)[0].split("\n")[0] for it in started]
        record.end()
        return record.folder, f"{faults.counts}, Java and C: {said}"
    finally:
        for it in started:
            it.kill()
        for it in proxies:
            it.signal(signal.SIGCONT)
            it.end()
        if record and record.process.poll() is None:
            record.process.kill()
        etcd.end()


def clients_under_faults_are_recorded_and_judged(program, work):
    seconds, seed = float(os.environ.get("AUDIT_SECONDS", "60")), int(os.environ.get("AUDIT_SEED", "1"))
    folder, done = play(program, work, seconds, seed)
    status, said = judged(program, folder)
    keep = os.environ.get("AUDIT_KEEP") or (f"/tmp/audit-record-{seed}-{int(time.time())}" if status else None)
    if keep:
        shutil.copytree(folder, keep)
    assert status == 0, f"{said}\n(the record is {keep})"
    return f"seed {seed}, {seconds:.0f} s, {done}: {said.splitlines()[0]}"


def spoil(program, planted, work, name, kind=None):
    """A record of some clients over two proxies that run `planted`; of the second a relay of this kind spoils what it says, once."""
    etcd = Etcd(work)
    proxies, record = [Proxy(planted, etcd.address, work) for _ in range(2)], None
    try:
        spoiler = kind(proxies[1].port) if kind else None
        served = [proxies[0].address, (spoiler or proxies[1]).address]
        record = Record(etcd.address, served, os.path.join(work, f"record-{name}"))
        is_over, known = threading.Event(), history.Acknowledged()
        clients = [history.Client(record.ports, number, is_over, known) for number in range(4)]
        for it in clients:
            it.start()
        end = time.time() + (90 if kind else 5)  # on a busy machine it takes long until there is something to spoil
        while time.time() < end and not (spoiler and spoiler.done):
            time.sleep(0.05)
        time.sleep(0.5)
        is_over.set()
        for it in clients:
            it.join(40)
        record.end()
        assert kind is None or spoiler.done, f"{name} had nothing to spoil"
        return judged(program, record.folder)
    finally:
        if record and record.process.poll() is None:
            record.process.kill()
        for it in proxies:
            it.end()
        etcd.end()


def relays_that_spoil_are_found(program, work):
    for kind in spoilers.ALL:
        status, said = spoil(program, program, work, kind.__name__, kind)
        assert status == 8 and any(it in said for it in kind.FOUND), f"{kind.__name__}: status {status}, {said}"
    return ", ".join(it.__name__ for it in spoilers.ALL)


def planted_programs_are_found(program, work):
    planted = os.environ.get("AUDIT_PLANTED", "").split()
    for it in planted:
        name = os.path.basename(it)
        status, said = spoil(program, it, work, name)
        assert status == 8 and "\nconnection " in said, f"{name}: status {status}, {said}"
    return ", ".join(os.path.basename(it) for it in planted) or "AUDIT_PLANTED names none"


checks = [clients_under_faults_are_recorded_and_judged, relays_that_spoil_are_found, planted_programs_are_found]
