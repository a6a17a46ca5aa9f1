"""The measurements of bench/serve.sh: speed.py PROGRAM FOLDER SECONDS."""
import glob
import os
import signal
import subprocess
import sys
import threading
import time

from cluster import Etcd, Proxy, ZooKeeper, until

WHAT = ["get", "set", "create", "sequence", "multi"]
CONNECTIONS = [1, 16, 128]


def load(work, port, protocol, what, connections, seconds):
    made = subprocess.run([f"{work}/load", str(port), protocol, what, str(connections), str(seconds)],
                          capture_output=True, text=True, timeout=seconds * 4 + 60)
    if made.returncode != 0:
        return None
    return [int(it) for it in made.stdout.split()]


def told(rate):
    return f"{rate[0]:6d} ({rate[1]:6d} {rate[2]:7d})" if rate else "     - (     -       -)"


def memory(pid):
    for line in open(f"/proc/{pid}/status"):
        if line.startswith("VmRSS:"):
            return int(line.split()[1])


def processor(pid):
    words = open(f"/proc/{pid}/stat").read().rsplit(")", 1)[1].split()
    return (int(words[11]) + int(words[12])) / os.sysconf("SC_CLK_TCK")


class Switches(threading.Thread):
    """Counts the context switches of a process while it is watched: each thread's, as they were seen last."""

    def __init__(self, pid):
        super().__init__(daemon=True)
        self.pid, self.last, self.is_over = pid, {}, threading.Event()
        self.look()
        self.before = sum(self.last.values())
        self.start()

    def look(self):
        for path in glob.glob(f"/proc/{self.pid}/task/*/status"):
            try:
                lines = open(path).read().splitlines()
            except OSError:
                continue
            self.last[path] = sum(int(it.split()[1]) for it in lines if "ctxt_switches" in it)

    def run(self):
        while not self.is_over.wait(0.1):
            self.look()

    def end(self):
        self.is_over.set()
        self.join()
        return sum(self.last.values()) - self.before


def costs(ours, before, after, seconds):
    """The processor time of each process for a request, in microseconds."""
    if not ours or ours[0] == 0:
        return "     -      -"
    return " ".join(f"{(now - then) * 1e6 / (ours[0] * seconds):6.0f}" for then, now in zip(before, after))


def idle(work, proxy, connections, seconds):
    """KB a connection, and cores used by so many idle ones that watch."""
    before = memory(proxy.process.pid)
    held = subprocess.Popen([f"{work}/load", str(proxy.port), "zk", "hold", str(connections), str(seconds + 3)], stdout=subprocess.PIPE)
    held.stdout.readline()
    after, since, used = memory(proxy.process.pid), time.time(), processor(proxy.process.pid)
    time.sleep(seconds)
    cores = (processor(proxy.process.pid) - used) / (time.time() - since)
    held.wait()
    return (after - before) / connections, cores


def main():
    for it in (signal.SIGTERM, signal.SIGHUP):
        signal.signal(it, lambda *_: sys.exit(130))
    program, work, seconds = sys.argv[1], sys.argv[2], float(sys.argv[3])
    etcd = Etcd(work)
    zookeeper = ZooKeeper(work)
    proxy = Proxy(program, etcd.address, work)
    try:
        print(f"{'':10s} {'connections':>11s}   {'zetcd':^22s}   {'the gateway':^22s}   ratio   {'ZooKeeper':^22s}   us of zetcd and etcd   switches")
        for what in WHAT:
            for connections in CONNECTIONS:
                # By turns, so that both meet the same moments of a busy machine.
                before = [processor(it.process.pid) for it in (proxy, etcd)]
                switches = Switches(proxy.process.pid)
                ours = load(work, proxy.port, "zk", what, connections, seconds)
                switched = f"{switches.end() / (ours[0] * seconds):6.1f}" if ours and ours[0] else "     -"
                used = costs(ours, before, [processor(it.process.pid) for it in (proxy, etcd)], seconds)
                theirs = load(work, etcd.port, "etcd", what, connections, seconds)
                real = load(work, zookeeper.port, "zk", what, connections, seconds) if zookeeper.is_up else None
                ratio = f"{ours[0] / theirs[0]:5.2f}" if ours and theirs else "    -"
                print(f"{what:10s} {connections:11d}   {told(ours)}   {told(theirs)}   {ratio}   {told(real)}   {used}   {switched}", flush=True)
        for connections in CONNECTIONS:
            ours = load(work, proxy.port, "zk", "watch", connections, seconds)
            real = load(work, zookeeper.port, "zk", "watch", connections, seconds) if zookeeper.is_up else None
            print(f"{'watch':10s} {connections:11d}   {told(ours)}   {'':22s}           {told(real)}", flush=True)
        if until(lambda: load(work, proxy.port, "zk", "get", 1, 0.2) is not None):
            kilobytes, cores = idle(work, proxy, 250, 10)
            print(f"250 idle watchers: {kilobytes:.0f} KB each, {cores:.3f} cores")
    finally:
        proxy.end()
        zookeeper.end()
        etcd.end()


main()
