"""Connections that were not recorded: what a transcript says of clients that came before the record, or past the relays.

etcd shows what their updates did, and that is all that a transcript needs: each such update is written as what a connection of a number
of its own asked for by a multi with the same parts, in the order of the update's triggers. What such a client was answered is unknown, so
it has no packets; what it saw cannot be judged.
"""
import struct

from keys import CREATED, DELETED, CHANGED, node_of
from packets import CLOSE, CREATE, DELETE, EPHEMERAL, MULTI, SET

OPEN_ACL = struct.pack(">ii", 1, 31) + struct.pack(">i", 5) + b"world" + struct.pack(">i", 6) + b"anyone"


def text(some):
    return struct.pack(">i", len(some)) + some


def connect_frame(timeout, session=0, password=bytes(16)):
    return struct.pack(">iqiq", 0, 0, timeout, session) + text(password)


def part_bytes(kind, path, data=b"", flags=0):
    if kind == CREATE:
        body = text(path) + text(data) + OPEN_ACL + struct.pack(">i", flags)
    elif kind == SET:
        body = text(path) + text(data) + struct.pack(">i", -1)
    else:
        body = text(path) + struct.pack(">i", -1)
    return struct.pack(">ibi", kind, 0, -1) + body


def multi_frame(parts):
    return struct.pack(">ii", 1, MULTI) + b"".join(part_bytes(*it) for it in parts) + struct.pack(">ibi", -1, 1, -1)


def parts_of(revision):
    """The parts of a multi with the effect of this update."""
    written = {key[4:]: put and node_of(put.value, revision.number) for key, put in revision.of(b"zk/d/")}
    kinds = {CREATED: CREATE, DELETED: DELETE, CHANGED: SET}
    parts = [(kinds[what], path) for what, path in revision.triggers() if what in kinds]
    last = {path: place for place, (_, path) in enumerate(parts)}
    made = []
    for place, (kind, path) in enumerate(parts):
        node = written.get(path)
        flags = EPHEMERAL if kind == CREATE and node and node.owner else 0
        made.append((kind, path, node.data if node and last[path] == place and kind != DELETE else b"", flags))
    return made


class Unrecorded:
    """Writes such connections. `write` takes a line of the transcript."""

    def __init__(self, first, write):
        self.next, self.write, self.frames, self.of, self.order = first, write, {}, {}, []

    def opens(self, zxid, frame, session, password, layout):
        number, self.next = self.next, self.next + 1
        self.write(f"open{'1' if layout == 1 else ''} {number} 0 {session:016x} {password.hex()}")
        self.frames[number] = 0
        self.asks(number, zxid, frame)
        if session in self.of:
            self.order.remove(session)
        self.of[session] = number
        self.order.append(session)
        return number

    def asks(self, number, zxid, frame):
        """A frame of this connection, and its index."""
        index = self.frames[number]
        self.write(f"frame {number} {index} {zxid} {frame.hex()}")
        self.frames[number] = index + 1
        return index

    def gone(self, session):
        """This session is attached elsewhere, or has ended or lapsed."""
        if self.of.pop(session, None):
            self.order.remove(session)

    def session(self, zxid, revision):
        life = revision.of(b"zk/l/")[0][1].value
        layout = revision.of(b"zk/s/")[0][1].value[0]
        return self.opens(zxid, connect_frame(int.from_bytes(life[1:5], "big")), revision.session(), life[13:29], layout)

    def attach(self, zxid, revision):
        life = revision.of(b"zk/l/")[0][1].value
        return self.opens(zxid, connect_frame(10_000, revision.session(), life[13:29]), revision.session(), bytes(16), 2)

    def closes(self, zxid, session):
        number = self.of.get(session)
        return number and (number, self.asks(number, zxid, struct.pack(">ii", 1, CLOSE)))

    def asked(self, zxid, revision):
        """Who asked for this update, and by which frame; None if no such connection may have."""
        nodes = [node_of(put.value, revision.number) for _, put in revision.of(b"zk/d/") if put]
        last = self.order[-1] if self.order else None
        owner = next((it.owner for it in nodes if it.owner and it.czxid == revision.number), last)
        number = self.of.get(owner)
        return number and (number, self.asks(number, zxid, multi_frame(parts_of(revision))))
