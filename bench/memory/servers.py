"""`zetcd etcd` and `zetcd serve` under a small load, with one of their allocations refused in each run."""
import json
import os
import re
import signal
import socket
import struct
import subprocess
import time

from cluster import MemoryEtcd, Proxy, free_port, until
from sweeps import Ends
from wire import CLOSE, CREATE, EXISTS, GET, MULTI, SET, Client, Closed, Refused, create, dial, multi, put, read

PATIENCE = 20.0  # seconds that an answer may take


class Wrong(Exception):
    """What a server must not do."""


class Server:
    """A server of which one allocation is refused; of number 0, none."""

    def __init__(self, run, number, words):
        self.port = free_port()
        self.address = f"127.0.0.1:{self.port}"
        name = os.path.join(run.work, f"{words[0]}-{self.port}")
        self.count, self.out, self.err = name + ".count", name + ".out", name + ".err"
        environment = {**os.environ, "LD_PRELOAD": run.library, "REFUSE": str(number), "REFUSE_COUNT": self.count}
        with open(self.out, "wb") as out, open(self.err, "wb") as err:
            self.process = subprocess.Popen([run.program, words[0], self.address, *words[1:]], env=environment, stdout=out, stderr=err)

    def lines(self):
        with open(self.out, encoding="utf-8") as it:
            return it.read().splitlines()

    def listens(self):
        """Whether it comes to listen; it may have ended before."""
        until(lambda: self.lines() or self.process.poll() is not None, PATIENCE, 0.002)
        return self.lines()[:1] == [f"listening {self.address}"]

    def status(self):
        """The status with which it ends by itself. It may still wait for connections that it could not take, so it is dialled."""
        for _ in range(50):
            try:
                return self.process.wait(0.1)
            except subprocess.TimeoutExpired:
                try:
                    dial(self.port, seconds=1.0).close()
                except OSError:
                    pass
        raise Wrong(f"it does not end; it wrote {self.lines()}")

    def allocations(self):
        with open(self.count, "rb") as it:
            return struct.unpack("=Q", it.read(8))[0]

    def end(self):
        if self.process.poll() is None:
            self.process.send_signal(signal.SIGKILL)
        self.process.wait()
        for it in (self.count, self.out, self.err):
            os.remove(it)


def kind_of(status):
    """The kind of an end that a server may have; if the system's own calls find no memory, a door, a dial or a thread fails."""
    kinds = {0: "served on", 7: "status 7", 6: "status 6"}
    if status not in kinds:
        raise Wrong(f"status {status}")
    return kinds[status]


def sweep_server(run, name, once):
    """Refuses each allocation in turn: `once(number)` gives the kind of the end, and how many allocations there were."""
    ends = Ends(name)
    _, count = once(0)
    numbers = range(1, count + 1, run.every)

    def one(number):
        try:
            return number, once(number)[0], None
        except Exception as wrong:  # each run by itself
            return number, None, f"{type(wrong).__name__} {wrong}"

    for number, kind, wrong in run.each(one, numbers):
        if wrong:
            ends.blame(number, wrong)
        else:
            ends.count(kind)
    return ends


# ---- the etcd in memory

PUTS = ('{"compare":[{"key":"YQ==","mod_revision":"0","target":"MOD"}],"success":[{"request_put":{"key":"YQ==","value":"MQ=="}},'
        '{"request_put":{"key":"Yg==","value":"MQ=="}}]}')
SWAPS = ('{"compare":[{"key":"YQ==","mod_revision":"2","target":"MOD"}],"success":[{"request_delete_range":{"key":"Yg=="}},'
         '{"request_put":{"key":"Yw==","value":"Mg=="}}]}')
ALL = '{"key":"YQ==","range_end":"eg=="}'
GRANT, ALIVE = '{"ID":"17","TTL":"30"}', '{"ID":"17"}'
WATCH = '{"create_request":{"key":"YQ==","start_revision":"1"}}'
# The keys after none of the two transactions, after the first and after both.
STATES = [set(), {"YQ==", "Yg=="}, {"YQ==", "Yw=="}]


def asked(port, route, body):
    """The status and the body of an answer, over a connection of its own, as curl asks; None if it was closed before a whole answer."""
    try:
        stream = dial(port, seconds=PATIENCE)
    except ConnectionError:
        return None
    found = b""
    try:
        stream.sendall(f"POST {route} HTTP/1.1\r\nhost: x\r\ncontent-length: {len(body)}\r\n\r\n{body}".encode())
        while True:
            head, _, text = found.partition(b"\r\n\r\n")
            length = re.search(rb"content-length: (\d+)", head)
            if length and len(text) == int(length[1]):
                return int(head.split()[1]), json.loads(text)
            if route == "/v3/watch" and text.endswith(b"0\r\n\r\n"):
                return int(head.split()[1]), text
            piece = stream.recv(65536)
            if piece == b"":
                return None
            found += piece
    except socket.timeout:
        raise Wrong(f"no answer to {route} within {PATIENCE:.0f} s, after {found!r}") from None
    except ConnectionError:
        return None
    finally:
        stream.close()


def etcd_once(run, number):
    """Two transactions, a lease and ranges, each over a connection of its own, and what the store has then."""
    server = Server(run, number, ["etcd", "7"])
    try:
        if not server.listens():
            return kind_of(server.status()), 0
        possible, asks = {0}, 0

        def ask(route, body):
            nonlocal asks
            asks += 1
            answer = asked(server.port, route, body)
            if answer is not None and answer[0] != 200:
                raise Wrong(f"{route} is answered {answer}")
            return answer and answer[1]

        def look():
            """The keys that are there are those after some of the transactions that were asked, whole."""
            nonlocal possible
            answer = ask("/v3/kv/range", ALL)
            if answer is not None:
                keys = {kv["key"] for kv in answer.get("kvs", [])}
                possible = {it for it in possible if STATES[it] == keys}
                if not possible:
                    raise Wrong(f"the store has {sorted(keys)}")

        for before, transaction in enumerate([PUTS, SWAPS]):
            answer = ask("/v3/kv/txn", transaction)
            if answer is None:
                possible = possible | {before + 1} if before in possible else possible
            elif answer.get("succeeded"):
                possible = {before + 1} if before in possible else set()
            else:
                possible = {it for it in possible if it != before}
            if not possible:
                raise Wrong(f"transaction {before + 1} is answered {answer}")
            look()
        granted = ask("/v3/lease/grant", GRANT)
        alive = ask("/v3/lease/keepalive", ALIVE)
        if granted is not None and granted.get("TTL") != "30" or granted and alive and alive["result"].get("TTL") != "30":
            raise Wrong(f"the lease is answered {granted} and {alive}")
        look()
        kind = kind_of(server.status())
        if number == 0 and (kind != "served on" or asks != 7 or possible != {2}):
            raise RuntimeError("with all its memory it serves something else")
        return kind, server.allocations()
    finally:
        server.end()


def etcd(run):
    if run.is_wanted("etcd"):
        yield lambda: sweep_server(run, "etcd", lambda number: etcd_once(run, number))


# ---- a proxy

class Tree:
    """The nodes below /NUMBER as a client's four updates leave them: their data, by name, and how many children each has."""

    def __init__(self, name):
        self.path = f"/{name}".encode()
        self.updates = [
            (CREATE, create(self.path, b"x")),
            (SET, put(self.path, b"y")),
            (MULTI, multi((CREATE, create(self.path + b"/a", b"1")), (CREATE, create(self.path + b"/b", b"2")))),
            (SET, put(self.path, b"z")),
        ]
        children = {b"/a": b"1", b"/b": b"2"}
        self.states = [{}, {b"": b"x"}, {b"": b"y"}, {b"": b"y", **children}, {b"": b"z", **children}]

    def found(self, client):
        """The nodes that are there."""
        nodes = {}
        for name in (b"", b"/a", b"/b"):
            error, answer = client.ask(GET, read(self.path + name))
            if error not in (0, -101):
                raise Wrong(f"a getData is answered {error}")
            if error == 0:
                nodes[name] = answer[4:4 + struct.unpack(">i", answer[:4])[0]]
        return nodes


def is_told(client, path):
    """Whether the client was told once that the node's data changed."""
    return [it for it in client.notices] == [struct.pack(">iii", 3, 3, len(path)) + path]


def first_client(server, tree):
    """Makes the four updates, with a read and a watch before the last: how many of them were answered, and how many were sent."""
    answered = sent = 0
    try:
        client = Client(server.port, seconds=PATIENCE)
        for number, (kind, body) in enumerate(tree.updates):
            if number == 3 and client.does(GET, read(tree.path, True))[4:5] != b"y":
                raise Wrong("a getData is answered with other data")
            sent += 1
            client.does(kind, body)
            answered += 1
        if not is_told(client, tree.path):
            raise Wrong(f"the watch was told {client.notices}")
        client.does(CLOSE)
        client.end()
    except (Closed, ConnectionError):
        pass
    except socket.timeout:
        raise Wrong(f"no answer within {PATIENCE:.0f} s, after {answered} updates") from None
    except Refused as refused:
        raise Wrong(f"update {sent} is answered {refused}") from None
    return answered, sent


def second_client(server, tree, answered, sent):
    """Looks at the node: a client that comes later sees no less than what was answered, and no more than what was sent."""
    try:
        client = Client(server.port, seconds=PATIENCE)
        error, _ = client.ask(EXISTS, read(tree.path))
        if not (error == 0 and sent > 0 or error == -101 and answered == 0):
            raise Wrong(f"an exists is answered {error} after {answered} of {sent} updates")
        client.does(CLOSE)
        client.end()
    except (Closed, ConnectionError, Refused):
        pass
    except socket.timeout:
        raise Wrong(f"a second client has no answer within {PATIENCE:.0f} s") from None


# Why a connection may end here, and what is said of the whole server.
CLOSED = re.compile(r"closed (\d+) (closed|client \d+|memory|no link|read|write)$")


def serve_once(run, house, number):
    """A client that makes four updates, and a second one, over a proxy; what the store has then, as a proxy tells that lacks no memory."""
    etcd_in_memory, clean = house
    server = Server(run, number, ["serve", etcd_in_memory.address, "2"])
    tree = Tree(f"n{server.port}")
    try:
        answered = sent = 0
        if server.listens():
            answered, sent = first_client(server, tree)
            second_client(server, tree, answered, sent)
        kind = kind_of(server.status())
        lines = server.lines()
        for line in lines:
            if not CLOSED.match(line) and line not in (f"listening {server.address}", "net fault"):
                raise Wrong(f"it writes {line!r}")
        watcher = Client(clean.port, seconds=PATIENCE)
        found = tree.found(watcher)
        watcher.does(CLOSE)
        watcher.end()
        if found not in tree.states[answered:sent + 1]:
            raise Wrong(f"after {answered} of {sent} updates the store has {found}; it wrote {lines}")
        if number == 0 and (kind != "served on" or answered != 4 or lines[1:] != ["closed 1 closed", "closed 2 closed"]):
            raise RuntimeError(f"with all its memory it serves something else: {lines}")
        if kind == "served on":
            causes = sorted({CLOSED.match(line)[2].split()[0] for line in lines[1:]} - {"closed"})
            kind = f"served on, {' and '.join(causes)}" if causes else kind
        return kind, server.allocations()
    finally:
        server.end()


def serve(run):
    if not run.is_wanted("serve"):
        return

    def swept():
        etcd_in_memory = MemoryEtcd(run.program, run.work)
        clean = None
        try:
            clean = Proxy(run.program, etcd_in_memory.address, run.work)
            return sweep_server(run, "serve", lambda number: serve_once(run, (etcd_in_memory, clean), number))
        finally:
            if clean:
                clean.end()
            etcd_in_memory.end()

    yield swept
