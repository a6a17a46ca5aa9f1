"""An etcd, proxies and a ZooKeeper on the loopback, as processes, for the scripts of bench/."""
import glob
import json
import os
import random
import re
import shutil
import signal
import socket
import subprocess
import time
import urllib.request


PORTS = iter(random.sample(range(20000, 32000), 12000))


def free_port():
    """A port at which nobody listens, below those that the system gives to streams that are dialled."""
    for port in PORTS:
        with socket.socket() as it:
            try:
                it.bind(("127.0.0.1", port))
                return port
            except OSError:
                pass
    raise RuntimeError("no port is free")


def until(holds, seconds=10.0, pause=0.02):
    """Whether this comes to hold within so many seconds."""
    end = time.time() + seconds
    while time.time() < end:
        if holds():
            return True
        time.sleep(pause)
    return bool(holds())


def answers(port):
    try:
        socket.create_connection(("127.0.0.1", port), 0.5).close()
        return True
    except OSError:
        return False


class Etcd:
    def __init__(self, work, *flags, peer=None, is_awaited=True):
        self.port, self.peer, self.flags = free_port(), peer or free_port(), flags
        self.folder = os.path.join(work, f"etcd-{self.port}")
        self.address = f"127.0.0.1:{self.port}"
        self.process = None
        self.start(is_awaited)

    def start(self, is_awaited=True):
        urls = f"http://{self.address}"
        words = ["etcd", "--data-dir", self.folder, "--listen-client-urls", urls, "--advertise-client-urls", urls,
                 "--listen-peer-urls", f"http://127.0.0.1:{self.peer}", "--unsafe-no-fsync", *self.flags]
        log = open(self.folder + ".log", "ab")
        self.process = subprocess.Popen(words, stdout=log, stderr=log)
        if is_awaited and not until(self.is_healthy, 60):
            raise RuntimeError("etcd does not come up")

    def is_healthy(self):
        try:
            return b"true" in urllib.request.urlopen(f"http://{self.address}/health", timeout=1).read()
        except OSError:
            return False

    def stop(self, how=signal.SIGTERM):
        self.process.send_signal(how)
        self.process.wait()

    def end(self):
        if self.process.poll() is None:
            self.stop(signal.SIGKILL)
        shutil.rmtree(self.folder, ignore_errors=True)

    def control(self, *words, value=b""):
        made = subprocess.run(["etcdctl", "--endpoints", f"http://{self.address}", *words], input=value,
                              env={**os.environ, "ETCDCTL_API": "3"}, capture_output=True)
        if made.returncode != 0:
            raise RuntimeError(made.stderr.decode())
        return made.stdout

    def status(self):
        return json.loads(self.control("endpoint", "status", "-w", "json"))[0]["Status"]

    def revision(self):
        return self.status()["header"]["revision"]

    def leads(self):
        status = self.status()
        return status.get("leader") == status["header"]["member_id"]


class Members:
    """An etcd of several members. `address` is the text that names them all."""

    def __init__(self, work, size=3):
        peers = [free_port() for _ in range(size)]
        urls = [f"http://127.0.0.1:{port}" for port in peers]
        all_of_them = ",".join(f"m{n}={url}" for n, url in enumerate(urls))
        self.members = [Etcd(work, "--name", f"m{n}", "--initial-advertise-peer-urls", urls[n], "--initial-cluster", all_of_them,
                             peer=peers[n], is_awaited=False) for n in range(size)]
        self.address = ",".join(it.address for it in self.members)
        if not until(lambda: all(it.is_healthy() for it in self.members), 60):
            raise RuntimeError("the members do not come up")

    def leader(self):
        return next(it for it in self.members if it.process.poll() is None and it.leads())

    def end(self):
        for it in self.members:
            it.end()


class MemoryEtcd:
    """The etcd in memory, `zetcd etcd`."""

    def __init__(self, program, work):
        self.port = free_port()
        self.address = f"127.0.0.1:{self.port}"
        self.process = subprocess.Popen([program, "etcd", self.address, "4294967295"],
                                        stdout=open(os.path.join(work, f"memory-{self.port}.out"), "wb"))
        if not until(lambda: answers(self.port), 60):
            raise RuntimeError("the etcd in memory does not come up")

    def end(self):
        self.process.kill()
        self.process.wait()


class Proxy:
    def __init__(self, program, endpoint, work, limit=4294967295, port=None, is_awaited=True, out=None):
        self.port = port or free_port()
        self.address = f"127.0.0.1:{self.port}"
        self.out = out or os.path.join(work, f"proxy-{self.port}-{time.time_ns()}.out")
        self.err = os.path.join(work, f"proxy-{self.port}-{time.time_ns()}.err")
        self.process = subprocess.Popen([program, "serve", self.address, endpoint, str(limit)],
                                        stdout=open(self.out, "wb"), stderr=open(self.err, "wb"))
        if is_awaited and not until(lambda: self.lines() and self.lines()[0] == f"listening {self.address}", 60):
            raise RuntimeError(f"the proxy does not listen: {self.lines()} {self.faults()}")

    def lines(self):
        return open(self.out).read().splitlines() if os.path.isfile(self.out) else []

    def faults(self):
        """The lines on standard error, but for those that name the session of a connection."""
        is_session = re.compile(r"zetcd: connection \d+: session 0x[0-9a-f]+$").match
        return [it for it in open(self.err).read().splitlines() if not is_session(it)]

    def signal(self, how):
        self.process.send_signal(how)

    def status(self, seconds=15):
        """The status with which it ends by itself; None if it does not in this time."""
        try:
            return self.process.wait(seconds)
        except subprocess.TimeoutExpired:
            return None

    def end(self):
        if self.process.poll() is None:
            self.process.kill()
            self.process.wait()


class ZooKeeper:
    def __init__(self, work):
        self.port = free_port()
        folder = os.path.join(work, "zookeeper")
        os.mkdir(folder)
        with open(f"{folder}/zoo.cfg", "w") as config:
            config.write(f"tickTime=2000\ndataDir={folder}\nclientPort={self.port}\nmaxClientCnxns=0\nadmin.enableServer=false\n")
        jars = ":".join(it for it in glob.glob("/usr/share/java/*.jar") if any(
            it.startswith(f"/usr/share/java/{name}.") for name in
            ["zookeeper", "zookeeper-jute", "slf4j-api", "slf4j-nop", "snappy-java", "commons-cli", "jackson-core",
             "jackson-annotations", "jackson-databind"]) or "/netty-" in it or "/metrics-core" in it or "snappy" in it)
        self.process = subprocess.Popen(
            ["java", "-cp", jars, "org.apache.zookeeper.server.ZooKeeperServerMain", f"{folder}/zoo.cfg"],
            stdout=open(f"{folder}/log", "wb"), stderr=subprocess.STDOUT)
        self.is_up = until(self.serves, 30)

    def serves(self):
        """Whether it serves; it listens some time before it does."""
        try:
            with socket.create_connection(("127.0.0.1", self.port), 1) as it:
                it.sendall(b"srvr")
                return b"Zxid" in it.recv(65536)
        except OSError:
            return False

    def end(self):
        self.process.kill()
        self.process.wait()
