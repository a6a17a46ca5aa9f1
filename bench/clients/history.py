"""Random requests of many clients over several proxies, whose every reply and notification is compared afterwards with what etcd's own
history says. A connection's replies are to come in the order of its requests, each as of an update that is not older than any update
that some client had an answer of when the request was sent; each notification in its place among them."""
import base64
import json
import os
import random
import socket
import struct
import subprocess
import threading
import time

from cluster import Etcd, Proxy, until

PATHS = ["/t", "/t/a", "/t/b", "/t/a/x", "/t/a/y", "/t/b/z", "/u"]
LEAVES = ["/t/a/x", "/t/a/y", "/t/b/z", "/t/b", "/u"]
EPHEMERAL, SEQUENCE = 1, 2
CREATED, DELETED, CHANGED, CHILDREN = 1, 2, 3, 4


# ---- ZooKeeper's protocol

def text(it):
    raw = it.encode() if isinstance(it, str) else it
    return struct.pack(">i", len(raw)) + raw


OPEN_ACL = struct.pack(">ii", 1, 31) + text("world") + text("anyone")


class Reader:
    def __init__(self, raw):
        self.raw, self.at = raw, 0

    def take(self, form):
        found = struct.unpack_from(">" + form, self.raw, self.at)
        self.at += struct.calcsize(">" + form)
        return found[0] if len(found) == 1 else found

    def buffer(self):
        count = self.take("i")
        self.at += max(count, 0)
        return self.raw[self.at - max(count, 0):self.at]

    def text(self):
        return self.buffer().decode()

    def stat(self):
        names = ["czxid", "mzxid", "ctime", "mtime", "version", "cversion", "aversion", "owner", "length", "children", "pzxid"]
        return dict(zip(names, self.take("qqqqiiiqiiq")))


class Ended(Exception):
    pass


class Wire:
    def __init__(self, port):
        self.socket = socket.create_connection(("127.0.0.1", port), 5)
        self.socket.settimeout(30)
        self.socket.setsockopt(socket.IPPROTO_TCP, socket.TCP_NODELAY, 1)

    def send(self, *packets):
        try:
            self.socket.sendall(b"".join(struct.pack(">i", len(it)) + it for it in packets))
        except OSError as why:
            raise Ended(str(why))

    def exactly(self, count):
        parts = b""
        while len(parts) < count:
            try:
                piece = self.socket.recv(count - len(parts))
            except OSError as why:
                raise Ended(str(why))
            if not piece:
                raise Ended("closed")
            parts += piece
        return parts

    def receive(self):
        return self.exactly(struct.unpack(">i", self.exactly(4))[0])


def request(xid, op):
    kind = op["kind"]
    head = struct.pack(">i", xid)
    path = text(op.get("path", ""))
    if kind == "create":
        return head + struct.pack(">i", 1) + path + text(op["content"]) + OPEN_ACL + struct.pack(">i", op["flags"])
    if kind == "delete":
        return head + struct.pack(">i", 2) + path + struct.pack(">i", op["version"])
    if kind in ("exists", "get", "children", "children2"):
        return head + struct.pack(">i", {"exists": 3, "get": 4, "children": 8, "children2": 12}[kind]) + path + bytes([op["watch"]])
    if kind == "set":
        return head + struct.pack(">i", 5) + path + text(op["content"]) + struct.pack(">i", op["version"])
    if kind == "sync":
        return head + struct.pack(">i", 9) + path
    if kind == "ping":
        return head + struct.pack(">i", 11)
    if kind == "multi":
        body = b""
        for part in op["parts"]:
            code = {"create": 1, "delete": 2, "set": 5, "check": 13}[part["kind"]]
            whole = request(0, part)[8:] if part["kind"] != "check" else text(part["path"]) + struct.pack(">i", part["version"])
            body += struct.pack(">ibi", code, 0, -1) + whole
        return head + struct.pack(">i", 14) + body + struct.pack(">ibi", -1, 1, -1)
    raise ValueError(kind)


def reply_of(raw, op):
    """The reply to this request, as a dict."""
    it = Reader(raw)
    xid, zxid, error = it.take("iqi")
    found = {"xid": xid, "zxid": zxid, "error": error}
    if error:
        return found
    kind = op["kind"]
    if kind in ("create", "sync"):
        found["path"] = it.text()
    if kind == "get":
        found["content"] = it.buffer()
    if kind in ("children", "children2"):
        found["names"] = [it.text() for _ in range(it.take("i"))]
    if kind in ("exists", "get", "set", "children2"):
        found["stat"] = it.stat()
    if kind == "multi":
        found["results"] = []
        while True:
            code, is_done, error = it.take("ibi")
            if is_done:
                break
            one = {"kind": code, "error": it.take("i") if code == -1 else 0}
            if code == 1:
                one["path"] = it.text()
            if code == 5:
                one["stat"] = it.stat()
            found["results"].append(one)
    assert it.at == len(raw), f"bytes after a reply to {op}"
    return found


# ---- the clients

class Acknowledged:
    """The greatest zxid of an update that some client has an answer of."""
    def __init__(self):
        self.zxid, self.lock = 0, threading.Lock()

    def rises(self, zxid):
        with self.lock:
            self.zxid = max(self.zxid, zxid)


def random_op(dice):
    path = dice.choice(PATHS)
    kind = dice.choice(["create", "create", "delete", "set", "set", "get", "get", "exists", "children", "children2", "multi", "sync", "ping"])
    op = {"kind": kind, "path": path}
    if kind == "create":
        op.update(content=os.urandom(dice.choice([0, 3, 40])), flags=dice.choice([0, 0, 0, EPHEMERAL, SEQUENCE, 3]))
        if op["flags"] & SEQUENCE:
            op["path"] += "/s-"
    if kind == "delete":
        op.update(path=dice.choice(LEAVES), version=dice.choice([-1, -1, -1, 0]))
    if kind == "set":
        op["version"] = dice.choice([-1, -1, 0, 1, 2])
    if kind == "set":
        op["content"] = os.urandom(dice.choice([0, 5, 60]))
    if kind in ("get", "exists", "children", "children2"):
        op["watch"] = dice.random() < 0.4
    if kind == "multi":
        op["parts"] = [it for it in (random_op(dice) for _ in range(8)) if it["kind"] in ("create", "delete", "set")][:dice.choice([1, 2, 3])]
        if dice.random() < 0.3:
            op["parts"].append({"kind": "check", "path": path, "version": dice.choice([-1, 0])})
    return op


class Client(threading.Thread):
    """One connection after the other, in one session if it can be resumed."""
    def __init__(self, ports, seed, is_over, known):
        super().__init__(daemon=True)
        self.ports, self.dice, self.is_over, self.known = ports, random.Random(seed), is_over, known
        self.session, self.password, self.seen = 0, bytes(16), 0
        self.connections, self.wrong, self.sessions = [], None, []

    def run(self):
        while not self.is_over.is_set() and self.wrong is None:
            try:
                self.connect_and_ask()
            except (Ended, OSError):
                time.sleep(0.02)
            except Exception as why:
                self.wrong = f"{type(why).__name__}: {why}"

    def connect_and_ask(self):
        wire = Wire(self.dice.choice(self.ports))
        wire.send(struct.pack(">iqiq", 0, self.seen, 8000, self.session) + text(self.password) + b"\0")
        it = Reader(wire.receive())
        _, timeout, session = it.take("iiq")
        if timeout == 0:
            self.session, self.password = 0, bytes(16)
            raise Ended("expired")
        self.session, self.password = session, it.buffer()
        log = {"session": session, "events": []}
        self.connections.append(log)
        xid = 0
        while not self.is_over.is_set():
            ops = [random_op(self.dice) for _ in range(self.dice.choice([1, 1, 2, 5]))]
            floor, first = self.known.zxid, xid + 1
            wire.send(*[request(first + number, op) for number, op in enumerate(ops)])
            for op in ops:
                xid += 1
                log["events"].append(("asked", xid, op, floor))
            waiting = list(ops)
            while waiting:
                raw = wire.receive()
                if struct.unpack_from(">i", raw)[0] == -1:
                    notice = Reader(raw)
                    notice.take("iqi")
                    kind, state = notice.take("ii")
                    log["events"].append(("notice", kind, notice.text(), state))
                    continue
                op = waiting.pop(0)
                reply = reply_of(raw, op)
                log["events"].append(("reply", reply, op))
                self.seen = max(self.seen, reply["zxid"])
                if op["kind"] in ("create", "delete", "set", "multi") and reply["error"] == 0:
                    self.known.rises(reply["zxid"])
            if self.dice.random() < 0.01:
                wire.socket.close()
                raise Ended("by itself")
        wire.socket.close()


# ---- etcd's history

class History:
    """The keys below zk/ after each update."""
    def __init__(self, etcd, wait=2.0):
        last = etcd.revision()
        self.heads, self.changes = [], {}
        watch = subprocess.Popen(["etcdctl", "--endpoints", f"http://{etcd.address}", "watch", "zk/", "--prefix", "--rev", "1", "-w", "json"],
                                 env={**os.environ, "ETCDCTL_API": "3"}, stdout=subprocess.PIPE)
        timer = threading.Timer(wait + last / 2000, watch.kill)
        timer.start()
        for line in watch.stdout:
            for event in json.loads(line).get("Events") or []:
                kv = event["kv"]
                key, value = base64.b64decode(kv["key"]).decode(), base64.b64decode(kv.get("value", ""))
                revision = kv["mod_revision"]
                self.changes.setdefault(revision, []).append((key, None if event.get("type") == 1 else value))
                if key == "zk/head":
                    self.heads.append(revision)
        timer.cancel()
        self.heads.sort()
        self.states, data, counts = {}, {}, {}
        for revision in sorted(self.changes):
            for key, value in self.changes[revision]:
                place = {"zk/d/": data, "zk/c/": counts}.get(key[:5])
                if place is not None:
                    if value is None:
                        place.pop(key[9:], None)
                    else:
                        place[key[9:]] = (revision, value)
                if key == "zk/head":
                    triggers = self.triggers_of(value)
            if any(key == "zk/head" for key, _ in self.changes[revision]):
                self.states[revision] = (dict(data), dict(counts), triggers)

    @staticmethod
    def triggers_of(value):
        it = Reader(value)
        assert it.take("b") == 1
        return [(it.take("b"), it.text()) for _ in range(it.take("i"))]

    def between(self, after, upto):
        return [it for it in self.heads if after < it <= upto]

    def node(self, zxid, path):
        data, counts, _ = self.states[zxid]
        if path not in data:
            return None
        revision, raw = data[path]
        it = Reader(raw)
        assert it.take("b") == 1
        czxid, version, ctime, mtime, owner = it.take("qiqqq")
        content = raw[it.at:]
        # A node of a session of layout 2 has no counts: no child of it ever came.
        parent_revision, raw = counts.get(path) or (czxid or revision, bytes(9))
        creates, children = struct.unpack(">xii", raw)
        stat = dict(czxid=czxid or revision, mzxid=revision, ctime=ctime, mtime=mtime, version=version, cversion=2 * creates - children,
                    aversion=0, owner=owner, length=len(content), children=children, pzxid=parent_revision)
        return content, stat, creates

    def names(self, zxid, path):
        front = path.rstrip("/") + "/"
        return sorted((it[len(front):] for it in self.states[zxid][0] if it != "/" and it.startswith(front) and "/" not in it[len(front):]),
                      key=lambda it: it.encode())


# ---- the comparison

def parent_of(path):
    return path.rsplit("/", 1)[0] or "/"


def refusal(history, zxid, op):
    """The error of this single request in the state at this zxid; 0 if it succeeds."""
    kind, path = op["kind"], op["path"]
    node = history.node(zxid, path)
    if kind == "create":
        parent = history.node(zxid, parent_of(path))
        if parent is None:
            return -101
        if node is not None and not op["flags"] & SEQUENCE:
            return -110
        return -108 if parent[1]["owner"] else 0
    if node is None:
        return -101
    if op["version"] not in (-1, node[1]["version"]):
        return -103
    return -111 if kind == "delete" and node[1]["children"] else 0


class Walk:
    """The state of one connection as its packets are followed: the last zxid, and what is armed."""
    def __init__(self, history):
        self.history, self.place, self.armed, self.expected = history, 0, set(), []

    def move(self, zxid):
        """The updates up to this zxid fire."""
        for update in self.history.between(self.place, zxid) if self.armed else []:
            for kind, path in self.history.states[update][2]:
                hits = {CREATED: [(path, "data")], DELETED: [(path, "data"), (path, "child")], CHANGED: [(path, "data")],
                        CHILDREN: [(path, "child")]}[kind]
                hit = [it for it in hits if it in self.armed]
                if hit:
                    self.armed -= set(hit)
                    self.expected.append((kind, path))
        self.place = max(self.place, zxid)


def check_read(history, reply, op):
    zxid, node = reply["zxid"], history.node(reply["zxid"], op["path"])
    if node is None:
        assert reply["error"] == -101, f"no such node at {zxid}: {reply}"
        return
    assert reply["error"] == 0, f"{op['path']} is there at {zxid}: {reply}"
    content, stat, _creates = node
    if "content" in reply:
        assert reply["content"] == content, f"other data at {zxid}"
    if "stat" in reply:
        assert reply["stat"] == stat, f"other stat at {zxid}: {reply['stat']} for {stat}"
    if "names" in reply:
        assert reply["names"] == history.names(zxid, op["path"]), f"other names at {zxid}"


def check_update(history, reply, op):
    zxid, kind = reply["zxid"], op["kind"]
    if reply["error"]:
        assert reply["error"] == refusal(history, zxid, op), f"{op} at {zxid}: {reply}, not {refusal(history, zxid, op)}"
        return
    before = history.heads[history.heads.index(zxid) - 1]
    assert refusal(history, before, op) == 0, f"{op} succeeds at {zxid}, and is refused with {refusal(history, before, op)} there"
    if kind == "create":
        wanted = op["path"]
        if op["flags"] & SEQUENCE:
            wanted += f"{history.node(before, parent_of(wanted))[2]:010}"
        assert reply["path"] == wanted, f"{reply['path']} for {wanted}"
        content, stat, _ = history.node(zxid, wanted)
        assert content == op["content"] and bool(stat["owner"]) == bool(op["flags"] & EPHEMERAL), "another node"
        assert stat["czxid"] == stat["mzxid"] == stat["pzxid"] == zxid
    if kind == "delete":
        assert history.node(zxid, op["path"]) is None
    if kind == "set":
        content, stat, _ = history.node(zxid, op["path"])
        assert content == op["content"] and reply["stat"] == stat, f"other stat: {reply['stat']} for {stat}"
        assert stat["version"] == history.node(before, op["path"])[1]["version"] + 1


def check_multi(history, reply, op):
    if not op["parts"] or reply["error"]:
        assert reply["error"] == 0, reply
    codes = [it["error"] for it in reply["results"]]
    if any(codes):
        assert len(codes) == len(op["parts"])
        failed = next(number for number, it in enumerate(codes) if it)
        assert codes == [0] * failed + [codes[failed]] + [-2] * (len(codes) - failed - 1), codes
        if failed == 0 and op["parts"][0]["kind"] != "check":
            assert codes[0] == refusal(history, reply["zxid"], op["parts"][0]), codes
    else:
        assert reply["zxid"] in history.states, "its zxid is no update's"


def check_connection(history, log):
    walk, asked, received, is_first = Walk(history), [], [], True
    for event in log["events"]:
        if event[0] == "asked":
            asked.append(event)
        elif event[0] == "notice":
            received.append((event[1], event[2]))
        else:
            _, reply, op = event
            _, xid, _, floor = asked.pop(0)
            assert reply["xid"] == xid, "another xid"
            zxid = reply["zxid"]
            assert zxid >= walk.place, f"a zxid goes back: {zxid} after {walk.place}"
            if reply["error"] in (-112, -118):
                return
            walk.move(zxid)
            assert walk.expected == received, f"told {received}, and not {walk.expected}, up to {zxid}"
            if op["kind"] == "ping":
                continue
            assert zxid >= floor, f"a reply as of {zxid}, though {floor} was acknowledged before it was asked: {op}"
            assert zxid in history.states, f"{zxid} is no update's"
            if op["kind"] in ("get", "exists", "children", "children2"):
                check_read(history, reply, op)
                if op["watch"] and (reply["error"] == 0 or op["kind"] == "exists"):
                    walk.armed.add((op["path"], "child" if op["kind"].startswith("children") else "data"))
            elif op["kind"] in ("create", "delete", "set"):
                check_update(history, reply, op)
            elif op["kind"] == "multi":
                check_multi(history, reply, op)
    walk.move(history.heads[-1])
    assert walk.expected[:len(received)] == received, "a notification that no update gives"


def checked(program, work, seconds, harm=None, proxies=3, clients=12, seed=1, relay=None):
    etcd = Etcd(work)
    endpoint = relay(etcd) if relay else etcd.address
    servers = [Proxy(program, endpoint, work) for _ in range(proxies)]
    try:
        is_over, known = threading.Event(), Acknowledged()
        all_clients = [Client([it.port for it in servers], seed * 1000 + number, is_over, known) for number in range(clients)]
        for it in all_clients:
            it.start()
        end = time.time() + seconds
        while time.time() < end:
            time.sleep(0.7)
            if harm:
                harm(etcd, servers)
        is_over.set()
        for it in all_clients:
            it.join(40)
            assert not it.is_alive(), "a client hangs"
            assert it.wrong is None, it.wrong
        history = History(etcd)
        replies = 0
        for it in all_clients:
            for log in it.connections:
                check_connection(history, log)
                replies += sum(1 for event in log["events"] if event[0] == "reply")
        told = sum(1 for it in all_clients for log in it.connections for event in log["events"] if event[0] == "notice")
        print(f"       {replies} replies, {told} notifications, {len(history.heads)} updates, "
              f"{sum(len(it.connections) for it in all_clients)} connections", flush=True)
        assert replies > 100
    finally:
        for server in servers:
            server.end()
        etcd.end()


def replies_are_those_of_one_history(program, work):
    checked(program, work, 10)


def replies_are_those_of_one_history_while_proxies_die(program, work):
    dice = random.Random(7)

    def harm(etcd, servers):
        number = dice.randrange(len(servers))
        servers[number].end()
        servers[number] = Proxy(program, etcd.address, work, port=servers[number].port)

    checked(program, work, 10, harm, seed=2)


class Relay:
    """Passes bytes on to etcd, late, and cuts a stream now and then."""
    def __init__(self, etcd):
        self.etcd, self.dice = etcd, random.Random(3)
        self.listener = socket.socket()
        self.listener.bind(("127.0.0.1", 0))
        self.listener.listen(100)
        self.address = f"127.0.0.1:{self.listener.getsockname()[1]}"
        threading.Thread(target=self.accept, daemon=True).start()

    def accept(self):
        while True:
            near, _ = self.listener.accept()
            try:
                far = socket.create_connection(("127.0.0.1", self.etcd.port), 5)
            except OSError:
                near.close()
                continue
            for one, other in ((near, far), (far, near)):
                one.setsockopt(socket.IPPROTO_TCP, socket.TCP_NODELAY, 1)
                threading.Thread(target=self.carry, args=(one, other), daemon=True).start()

    def carry(self, one, other):
        try:
            while True:
                piece = one.recv(65536)
                if not piece or self.dice.random() < 0.0005:
                    break
                time.sleep(self.dice.random() * 0.02)
                half = self.dice.randrange(len(piece)) if self.dice.random() < 0.1 else len(piece)
                other.sendall(piece[:half])
                other.sendall(piece[half:])
        except OSError:
            pass
        for it in (one, other):
            try:
                it.shutdown(socket.SHUT_RDWR)
            except OSError:
                pass


def replies_are_those_of_one_history_over_a_bad_network(program, work):
    checked(program, work, 15, relay=lambda etcd: Relay(etcd).address, seed=3)


checks = [replies_are_those_of_one_history, replies_are_those_of_one_history_while_proxies_die,
          replies_are_those_of_one_history_over_a_bad_network]
