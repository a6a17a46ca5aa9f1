"""The measurements of bench/instructions.sh: instructions.py PROGRAM FOLDER COUNT [WHAT..]."""
import os
import signal
import struct
import subprocess
import sys

from cluster import Etcd, free_port, until
from history import EPHEMERAL, SEQUENCE, Wire, request, text

CONTENT = b"x" * 100
WATCHED, PLAIN = 1, 0


class Session:
    """A client with one session."""

    def __init__(self, port):
        self.wire, self.xid = Wire(port), 0
        self.wire.send(struct.pack(">iqiq", 0, 0, 30000, 0) + text(bytes(16)) + b"\0")
        self.wire.receive()

    def ask(self, kind, **op):
        self.xid += 1
        self.wire.send(request(self.xid, {"kind": kind, **op}))
        raw = self.wire.receive()
        xid, _, error = struct.unpack_from(">iqi", raw)
        if error != 0 or xid not in (self.xid, -2):
            sys.exit(f"{kind}: error {error}, xid {xid} for {self.xid}")

    def create(self, path, flags=0):
        self.ask("create", path=path, content=CONTENT, flags=flags)

    def close(self):
        self.wire.send(struct.pack(">ii", self.xid + 1, -11))
        self.wire.receive()
        self.wire.socket.close()


def a_get(session, port, path):
    session.ask("get", path=path, watch=PLAIN)


def a_set(session, port, path):
    session.ask("set", path=path, content=CONTENT, version=-1)


def a_create_or_delete(session, port, path):
    session.is_there = not getattr(session, "is_there", False)
    if session.is_there:
        session.create(path + "/x")
    else:
        session.ask("delete", path=path + "/x", version=-1)


def an_ephemeral(session, port, path):
    session.create(f"{path}/{session.xid}", EPHEMERAL)


def a_sequence(session, port, path):
    session.create(path + "/n-", SEQUENCE)


def a_multi(session, port, path):
    session.ask("multi", parts=[{"kind": "check", "path": path, "version": -1}, {"kind": "set", "path": path, "content": CONTENT, "version": -1},
                                {"kind": "set", "path": path + "/y", "content": CONTENT, "version": -1}])


def a_connect(session, port, path):
    Session(port).close()


def a_ping(session, port, path):
    session.ask("ping")


def a_round(session, port, path):
    """A getData that watches, a setData, and the notice."""
    if not hasattr(session, "setter"):
        session.setter = Session(port)
    session.ask("get", path=path, watch=WATCHED)
    a_set(session.setter, port, path)
    session.wire.receive()


WHAT = {"get": a_get, "set": a_set, "create": a_create_or_delete, "ephemeral": an_ephemeral, "sequence": a_sequence, "multi": a_multi,
        "connect": a_connect, "ping": a_ping, "notice": a_round}
TOLD = {"get": "getData", "set": "setData", "create": "create and delete, each", "ephemeral": "create of an ephemeral node",
        "sequence": "sequence create", "multi": "multi of three", "connect": "connect with close", "ping": "ping",
        "notice": "notice, with its getData and setData"}


def instructions(program, work, etcd, what, count):
    """What the proxy executes in a run of so many requests."""
    port, name = free_port(), f"{what}-{count}"
    out, said = f"{work}/{name}.callgrind", f"{work}/{name}.out"
    words = ["valgrind", "--tool=callgrind", "--fair-sched=try", f"--callgrind-out-file={out}", f"--log-file={work}/{name}.log",
             program, "serve", f"127.0.0.1:{port}", etcd.address, "4294967295"]
    proxy = subprocess.Popen(words, stdout=open(said, "wb"), stderr=subprocess.STDOUT)
    try:
        if not until(lambda: os.path.isfile(said) and open(said).read().startswith("listening "), 120):
            sys.exit(f"the proxy does not listen: {open(said).read()}")
        session, path = Session(port), f"/{name}"
        session.create(path)
        session.create(path + "/y")
        for _ in range(count):
            WHAT[what](session, port, path)
    finally:
        proxy.send_signal(signal.SIGTERM)
        proxy.wait()
    for line in open(out):
        if line.startswith("totals:"):
            return int(line.split()[1])
    sys.exit("callgrind counted nothing")


def main():
    signal.signal(signal.SIGTERM, lambda *_: sys.exit(130))
    program, work, count = sys.argv[1], sys.argv[2], int(sys.argv[3])
    etcd = Etcd(work)
    try:
        for what in sys.argv[4:] or WHAT:
            # A session of an older program owns 40 ephemeral nodes at most.
            least = min(count, 8) if what == "ephemeral" else count
            few, many = (instructions(program, work, etcd, what, it) for it in (least, 5 * least))
            print(f"{TOLD[what]:36s} {(many - few) / (4 * least):12,.0f}", flush=True)
    finally:
        etcd.end()


if __name__ == "__main__":
    main()
