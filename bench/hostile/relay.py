"""Stands between a proxy and the JSON gateway of an etcd, and does as it likes with what is asked."""
import base64
import http.client
import json
import os
import socket
import threading
import time

from cluster import free_port


TCP_REPAIR = 19  # of linux/tcp.h: a socket that is closed so sends nothing


class Over(Exception):
    """This connection ends."""


def named(body):
    """The keys that an ask names, decoded."""
    found = set()

    def look(it):
        if isinstance(it, dict):
            for name, value in it.items():
                if name == "key" and isinstance(value, str):
                    found.add(base64.b64decode(value))
                look(value)
        elif isinstance(it, list):
            for one in it:
                look(one)

    look(json.loads(body or b"{}"))
    return found


def head(length=None, status=b"200 OK"):
    framing = b"transfer-encoding: chunked" if length is None else b"content-length: %d" % length
    return b"HTTP/1.1 " + status + b"\r\ncontent-type: application/json\r\n" + framing + b"\r\n\r\n"


def chunk(content):
    return b"%x\r\n" % len(content) + content + b"\r\n"


class Relay:
    """`rule(route, keys, out, relay)` is asked first: it sends to `out` what it likes and gives True, or gives False, and then the etcd
    is asked. `line_rule(line, out)` is the same for a line of a watch."""

    def __init__(self, port, rule=None, line_rule=None):
        self.etcd, self.rule, self.line_rule = port, rule or (lambda *_: False), line_rule
        self.port = free_port()
        self.address = f"127.0.0.1:{self.port}"
        self.streams, self.watches, self.is_over, self.is_full = [], [], threading.Event(), False
        self.listener = socket.socket()
        self.listener.setsockopt(socket.SOL_SOCKET, socket.SO_REUSEADDR, 1)
        self.listener.bind(("127.0.0.1", self.port))
        self.listener.listen(512)
        threading.Thread(target=self.accept, daemon=True).start()

    def accept(self):
        while True:
            try:
                stream, _ = self.listener.accept()
            except OSError:
                return
            self.streams.append(stream)
            if self.is_full:
                return
            stream.setsockopt(socket.IPPROTO_TCP, socket.TCP_NODELAY, 1)
            threading.Thread(target=self.serve, args=(stream,), daemon=True).start()

    def serve(self, stream):
        above = http.client.HTTPConnection("127.0.0.1", self.etcd)
        source = stream.makefile("rb")
        try:
            while True:
                first = source.readline()
                if not first:
                    break
                length = 0
                while (line := source.readline()) not in (b"\r\n", b""):
                    name, _, value = line.partition(b":")
                    if name.lower() == b"content-length":
                        length = int(value)
                body = source.read(length)
                route = first.split()[1].decode()
                if not self.rule(route, named(body), stream, self):
                    self.pass_on(above, route, body, stream)
        except (OSError, Over, http.client.HTTPException, ValueError, IndexError, AttributeError):
            pass
        finally:
            above.close()
            stream.close()

    def pass_on(self, above, route, body, stream):
        above.request("POST", route, body, {"content-type": "application/json"})
        answer = above.getresponse()
        if route != "/v3/watch":
            text = answer.read()
            stream.sendall(head(len(text), b"%d OK" % answer.status) + text)
            return
        self.watches.append(stream)
        stream.sendall(head())
        while line := answer.readline():
            if not (self.line_rule and self.line_rule(line, stream)):
                stream.sendall(chunk(line))
        raise Over()

    def forget(self):
        """The streams of watches are gone without a word, as if a host had lost its power: nothing is sent, and nobody answers."""
        for it in self.watches:
            it.setsockopt(socket.IPPROTO_TCP, TCP_REPAIR, 1)
            os.close(it.detach())
        self.watches.clear()

    def fill(self):
        """From now on a dial gets no answer, not even a refusal: nobody accepts, and the queue is full."""
        self.is_full = True
        self.listener.listen(0)
        for _ in range(8):
            it = socket.socket()
            it.settimeout(0.3)
            self.streams.append(it)
            try:
                it.connect(("127.0.0.1", self.port))
            except OSError:
                pass

    def end(self):
        self.is_over.set()
        # A thread that waits in an accept does not see that its socket was closed.
        try:
            self.listener.shutdown(socket.SHUT_RDWR)
        except OSError:
            pass
        self.listener.close()
        for it in self.streams:
            try:
                it.shutdown(socket.SHUT_RDWR)
            except OSError:
                pass


class Far:
    """An etcd that is so many seconds away: what is asked of it arrives later by that."""

    def __init__(self, port, seconds):
        self.etcd, self.seconds, self.port = port, seconds, free_port()
        self.address = f"127.0.0.1:{self.port}"
        self.listener = socket.create_server(("127.0.0.1", self.port), backlog=512)
        threading.Thread(target=self.accept, daemon=True).start()

    def accept(self):
        while True:
            try:
                near, _ = self.listener.accept()
                far = socket.create_connection(("127.0.0.1", self.etcd))
            except OSError:
                return
            for it in (near, far):
                it.setsockopt(socket.IPPROTO_TCP, socket.TCP_NODELAY, 1)
            threading.Thread(target=pass_on, args=(near, far, self.seconds), daemon=True).start()
            threading.Thread(target=pass_on, args=(far, near, 0.0), daemon=True).start()

    def end(self):
        try:
            self.listener.shutdown(socket.SHUT_RDWR)
        except OSError:
            pass
        self.listener.close()


def pass_on(source, sink, seconds):
    """Passes on what comes, each piece so many seconds later, and then the end."""
    try:
        while piece := source.recv(1 << 16):
            time.sleep(seconds)
            sink.sendall(piece)
    except OSError:
        pass
    for it in (source, sink):
        try:
            it.shutdown(socket.SHUT_RDWR)
        except OSError:
            pass
