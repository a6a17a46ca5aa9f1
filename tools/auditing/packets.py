"""ZooKeeper's frames and packets, as far as an audit has to understand them: how a stream is cut, what a request asks for, whether a
reply says that an update was made, and whether it was read off the tree at some moment or needs none. Nothing here decides whether a
reply is right: the judge does.

A frame that cannot be read is a request of the kind None. Paths and data are bytes. `zookeeper.jute` has the fields.
"""
import struct
from collections import namedtuple

CREATE, DELETE, SET, PING, MULTI, CREATE2, CHECK_WATCHES, REMOVE_WATCHES, AUTH, CLOSE = 1, 2, 5, 11, 14, 15, 17, 18, 100, -11
EXISTS, GET, CHILDREN, CHILDREN2, SET_WATCHES = 3, 4, 8, 12, 101
UPDATES = (CREATE, DELETE, SET, MULTI, CREATE2)
EPHEMERAL, SEQUENCE = 1, 2
SESSION_EXPIRED, SESSION_MOVED, BAD_ARGUMENTS = -112, -118, -8
# The codes of answers that need no tree. BadArguments may be one of these, or of the tree.
WITHOUT_TREE = (-5, -6, -114, -115, -121)
MAX_FRAME, MAX_PARTS, NOTICE = 1_048_575, 24, -1

Connect = namedtuple("Connect", "last_zxid timeout session password")
Request = namedtuple("Request", "xid kind parts")
Part = namedtuple("Part", "kind path data flags version")
Reply = namedtuple("Reply", "xid zxid error updates")


class Reader:
    def __init__(self, some, at=0):
        self.some, self.at = some, at

    def take(self, form):
        found = struct.unpack_from(">" + form, self.some, self.at)
        self.at += struct.calcsize(">" + form)
        return found[0] if len(found) == 1 else found

    def buffer(self):
        count = max(self.take("i"), 0)
        if self.at + count > len(self.some):
            raise struct.error("cut")
        self.at += count
        return self.some[self.at - count:self.at]


class Cutter:
    """Cuts a stream into what stands after each length. `fault` is a length that no frame has, with its place."""

    def __init__(self, most):
        self.kept, self.most, self.place, self.fault = bytearray(), most, 0, None

    def add(self, piece):
        self.kept += piece
        found, at = [], 0
        while self.fault is None and len(self.kept) - at >= 4:
            length = struct.unpack_from(">i", self.kept, at)[0]
            if not 0 <= length <= self.most:
                self.fault = (self.place + at, length)
            elif len(self.kept) - at >= 4 + length:
                found.append(bytes(self.kept[at + 4:at + 4 + length]))
                at += 4 + length
            else:
                break
        del self.kept[:at]
        self.place += at
        return found


def connect_of(frame):
    try:
        it = Reader(frame)
        it.take("i")
        last_zxid, timeout, session = it.take("qiq")
        return Connect(last_zxid, timeout, session, it.buffer())
    except struct.error:
        return None


def welcome_of(packet):
    """The session that the answer to a connect gives, with its password; 0 if it was refused."""
    try:
        it = Reader(packet, 4)
        _timeout, session = it.take("iq")
        return session, it.buffer()
    except struct.error:
        return 0, b""


def part_of(it, kind):
    path, data, flags, version = it.buffer(), b"", 0, -1
    if kind in (CREATE, CREATE2):
        data = it.buffer()
        for _ in range(it.take("i")):
            it.take("i")
            it.buffer(), it.buffer()
        flags = it.take("i")
    elif kind == SET:
        data, version = it.buffer(), it.take("i")
    else:
        version = it.take("i")
    return Part(kind, path, data, flags, version)


def request_of(frame):
    """What a frame asks for. Only a create, create2, delete, setData and multi have parts."""
    try:
        it = Reader(frame)
        xid, kind = it.take("ii")
    except struct.error:
        return Request(0, None, [])
    try:
        if kind in UPDATES and kind != MULTI:
            return Request(xid, kind, [part_of(it, kind)])
        parts = []
        while kind == MULTI:
            part, is_done, _ = it.take("ibi")
            if is_done:
                break
            parts.append(part_of(it, part))
        return Request(xid, kind, parts)
    except struct.error:
        return Request(xid, None, [])


def is_notice(packet):
    return len(packet) >= 12 and struct.unpack_from(">i", packet)[0] == NOTICE and struct.unpack_from(">q", packet, 4)[0] == -1


def reply_of(packet, request):
    """What is at the head of a reply, and whether it says that the request's own update was made; None if it is no reply."""
    if len(packet) < 16:
        return None
    xid, zxid, error = struct.unpack_from(">iqi", packet)
    updates = error == 0 and request.kind in UPDATES + (CLOSE,)
    if updates and request.kind == MULTI and request.parts and len(packet) >= 20:
        updates = struct.unpack_from(">i", packet, 16)[0] != -1
    return Reply(xid, zxid, error, updates)


def has_moment(request, reply):
    """Whether the reply was read off the tree, or off the session, at some moment, and so says how new it is. A BadArguments of a
    request whose form is valid counts as one by the tree: of too many nodes of a session, or of a multi that is too large."""
    if reply.error in (SESSION_EXPIRED, SESSION_MOVED):
        return True
    if request.kind in (PING, AUTH, CHECK_WATCHES, REMOVE_WATCHES, None) or reply.error in WITHOUT_TREE:
        return False
    if reply.error == BAD_ARGUMENTS:
        return request.kind in UPDATES and len(request.parts) <= MAX_PARTS and all(is_formed(it) for it in request.parts)
    return True


def is_formed(part):
    path = part.path
    if part.kind in (CREATE, CREATE2) and part.flags & SEQUENCE and path.endswith(b"/"):
        path += b"0"
    names = path[1:].split(b"/") if path != b"/" else []
    return path.startswith(b"/") and len(path) <= 1024 and all(it not in (b"", b".", b"..") for it in names) and 0 <= part.flags <= 3


def times_in(packet, request):
    """The times of the Stats in the reply to a multi."""
    found = []
    try:
        it = Reader(packet, 16)
        while request.kind == MULTI:
            kind, is_done, _ = it.take("ibi")
            if is_done:
                break
            if kind == CREATE:
                it.buffer()
            elif kind == SET:
                found.append(it.take("qqqqiiiqiiq")[3])
            elif kind == -1:
                it.take("i")
    except struct.error:
        pass
    return found
