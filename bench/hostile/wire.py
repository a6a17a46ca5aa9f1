"""ZooKeeper's packets, and a plain client that sends them one by one or in any other way."""
import select
import socket
import struct
import threading
import time

CREATE, DELETE, EXISTS, GET, SET, CHILDREN, PING, MULTI, SET_WATCHES, CLOSE = 1, 2, 3, 4, 5, 8, 11, 14, 101, -11
MOST = 1_048_575  # the bytes of the greatest frame


def integer(number):
    return struct.pack(">i", number)


def long(number):
    return struct.pack(">q", number)


def text(it):
    return integer(len(it)) + it


def packet(body):
    return integer(len(body)) + body


def request(xid, kind, body=b""):
    return packet(integer(xid) + integer(kind) + body)


OPEN = integer(1) + integer(31) + text(b"world") + text(b"anyone")


def connect(timeout=30_000, session=0, password=bytes(16)):
    return packet(integer(0) + long(0) + integer(timeout) + long(session) + text(password) + b"\0")


def create(path, content=b"", flags=0):
    return text(path) + text(content) + OPEN + integer(flags)


def delete(path, version=-1):
    return text(path) + integer(version)


def read(path, watch=False):
    """The body of an exists, a getData or a getChildren."""
    return text(path) + bytes([watch])


def put(path, content, version=-1):
    return text(path) + text(content) + integer(version)


def watches(datas=(), exists=(), children=(), zxid=0):
    lists = b"".join(integer(len(it)) + b"".join(text(path) for path in it) for it in (datas, exists, children))
    return long(zxid) + lists


def multi(*parts):
    """The body of a multi of these pairs of a type and a body."""
    return b"".join(integer(kind) + b"\0" + integer(-1) + body for kind, body in parts) + integer(-1) + b"\1" + integer(-1)


class Closed(Exception):
    """The server closed the connection."""


class Refused(Exception):
    """A reply with an error."""


def dial(port, room=None, seconds=60.0):
    """A stream to this port; `room`: the bytes that the system keeps at most for one that does not read."""
    it = socket.socket()
    if room:
        it.setsockopt(socket.SOL_SOCKET, socket.SO_RCVBUF, room)
    it.settimeout(seconds)
    it.connect(("127.0.0.1", port))
    it.setsockopt(socket.IPPROTO_TCP, socket.TCP_NODELAY, 1)
    return it


def is_cut(stream, seconds=1.0):
    """Whether the server ends this stream within so many seconds. What it says before that is dropped."""
    end = time.time() + seconds
    while True:
        stream.settimeout(max(0.001, end - time.time()))
        try:
            if stream.recv(65536) == b"":
                return True
        except (socket.timeout, BlockingIOError):
            return False
        except OSError:
            return True


def is_readable(stream, seconds):
    """Whether something comes, or the end, within so many seconds."""
    it = select.poll()
    it.register(stream, select.POLLIN)
    return bool(it.poll(1000 * seconds))


class Client:
    """A session over a connection. `room` is as for `dial`."""

    def __init__(self, port, timeout=30_000, room=None, seconds=60.0):
        self.stream, self.xid, self.notices, self.kept = dial(port, room, seconds), 0, [], b""
        self.stream.sendall(connect(timeout))
        answer = self.receive()
        if len(answer) < 16 or answer[8:16] == bytes(8):
            raise Refused("no session")
        self.session = struct.unpack(">q", answer[8:16])[0]

    def take(self, count):
        pieces, left = [], count
        while left > 0:
            piece = self.stream.recv(min(left, 1 << 20))
            if piece == b"":
                raise Closed()
            pieces.append(piece)
            left -= len(piece)
        return b"".join(pieces)

    def receive(self):
        return self.take(struct.unpack(">i", self.take(4))[0])

    def reply(self):
        """The next reply: its xid, its error and its body. Notifications before it are kept."""
        while True:
            frame = self.receive()
            xid, _zxid, error = struct.unpack(">iqi", frame[:16])
            if xid != -1:
                return xid, error, frame[16:]
            self.notices.append(frame[16:])

    def send(self, kind, body=b"", xid=None):
        self.xid += 1
        self.stream.sendall(request(self.xid if xid is None else xid, kind, body))

    def notice(self):
        """The next notification."""
        while not self.notices:
            frame = self.receive()
            if frame[:4] == integer(-1):
                self.notices.append(frame[16:])
        return self.notices.pop(0)

    def ask(self, kind, body=b""):
        """The error and the body of the reply. It pings meanwhile, as ZooKeeper's clients do."""
        self.send(kind, body)
        end = time.time() + self.stream.gettimeout()
        while True:
            while not is_readable(self.stream, 5.0):
                if time.time() > end:
                    raise socket.timeout("no reply")
                self.stream.sendall(request(-2, PING))
            xid, error, answer = self.reply()
            if xid != -2 or error != 0:
                return error, answer

    def does(self, kind, body=b""):
        error, answer = self.ask(kind, body)
        if error != 0:
            raise Refused(error)
        return answer

    def end(self):
        self.stream.close()


class Other(threading.Thread):
    """Another client, which makes, reads and removes a node every 200 milliseconds, each within 30 seconds."""

    def __init__(self, port):
        super().__init__(daemon=True)
        self.port, self.is_over, self.times, self.fault = port, threading.Event(), [], None
        self.client = Client(port, seconds=30.0)
        self.start()

    def run(self):
        path = b"/other-%d" % self.port
        try:
            while not self.is_over.is_set():
                since = time.time()
                self.client.does(CREATE, create(path, b"x"))
                self.client.does(GET, read(path))
                self.client.does(DELETE, delete(path))
                self.times.append(time.time() - since)
                self.is_over.wait(max(0.0, 0.2 - (time.time() - since)))
        except (OSError, Closed, Refused) as fault:
            self.fault = fault

    def stop(self):
        self.is_over.set()
        self.join(40)
        self.client.end()
