"""Relays that spoil what a proxy says, as a proxy with a bug would: they stand between a record and a proxy, and each does one wrong thing
once, when it can, and notes what it did. The judge has to find it, and say one of the texts in FOUND."""
import socket
import struct
import threading

GET, SET = 4, 5


class Spoiler:
    """Passes frames and packets on, one by one. A kind of spoiler overrides `frame` and `packet`, which give what is passed on."""

    def __init__(self, port, after=4):
        self.port, self.after, self.done, self.lock, self.count = port, after, None, threading.Lock(), 0
        self.listener = socket.create_server(("127.0.0.1", 0), backlog=100)
        self.address = f"127.0.0.1:{self.listener.getsockname()[1]}"
        threading.Thread(target=self.accept, daemon=True).start()

    def accept(self):
        while True:
            try:
                near, _ = self.listener.accept()
                far = socket.create_connection(("127.0.0.1", self.port), 5)
            except OSError:
                return
            talk = {"asked": [], "kept": {}}
            for it in (near, far):
                it.setsockopt(socket.IPPROTO_TCP, socket.TCP_NODELAY, 1)
            threading.Thread(target=self.carry, args=(near, far, talk, self.frame), daemon=True).start()
            threading.Thread(target=self.carry, args=(far, near, talk, self.packet), daemon=True).start()

    def carry(self, one, other, talk, change):
        source, is_first = one.makefile("rb"), True
        try:
            while head := source.read(4):
                body = source.read(struct.unpack(">i", head)[0])
                with self.lock:
                    whole = [body] if is_first else change(talk, body)
                is_first = False
                other.sendall(b"".join(struct.pack(">i", len(it)) + it for it in whole))
        except (OSError, struct.error):
            pass
        for it in (one, other):
            try:
                it.shutdown(socket.SHUT_RDWR)
            except OSError:
                pass

    def is_due(self):
        """Whether it is time, and nothing was done yet."""
        self.count += 1
        return self.done is None and self.count > self.after

    def frame(self, talk, body):
        talk["asked"].append(body)
        return [body]

    def packet(self, talk, body):
        if struct.unpack_from(">i", body)[0] != -1 and talk["asked"]:
            return self.reply(talk, talk["asked"].pop(0), body)
        return self.notice(talk, body)

    def reply(self, _talk, _frame, body):
        return [body]

    def notice(self, _talk, body):
        return [body]


class LosesNotice(Spoiler):
    """A notification is not sent."""
    FOUND = [" is missing (watch set by frame ", " notifications are missing, due before "]

    def notice(self, _talk, body):
        if self.is_due():
            self.done = f"lost {body[28:].decode()}"
            return []
        return [body]


class ReadsStale(Spoiler):
    """A getData is answered what an earlier one of the same path was, with the zxid of that, though the node has changed since."""
    FOUND = ["stale read: ", " goes back: it is as of update ", ", older than its frame: "]

    def reply(self, talk, frame, body):
        xid, kind = struct.unpack_from(">ii", frame)
        if kind == GET and struct.unpack_from(">i", body, 12)[0] == 0:
            path = frame[12:-1]
            old = talk["kept"].get(path)
            if old and old[16:] != body[16:] and self.is_due():
                self.done = f"stale {path.decode()}"
                return [struct.pack(">i", xid) + old[4:]]
            talk["kept"][path] = body
        return [body]


class DoublesUpdate(Spoiler):
    """A setData with any version is handed in twice, and answered once."""
    FOUND = [" does again what frame "]

    def frame(self, talk, body):
        if struct.unpack_from(">i", body, 4)[0] == SET and body[-4:] == b"\xff" * 4 and not talk["asked"] and self.is_due():
            talk["asked"] += [body, None]
            return [body, body]
        return super().frame(talk, body)

    def reply(self, _talk, frame, body):
        # Of a node that is not there both are refused, and nothing is done twice.
        if frame is None and struct.unpack_from(">i", body, 12)[0] == 0:
            self.done = "doubled"
        return [] if frame is None else [body]


class ShowsTooNew(Spoiler):
    """A reply has a zxid that no update has yet."""
    FOUND = ["wrong zxid in the reply to frame ", "before that was asked for", "and the reply to that has zxid"]

    def reply(self, _talk, _frame, body):
        if self.is_due():
            self.done = "zxid"
            return [body[:4] + struct.pack(">q", struct.unpack_from(">q", body, 4)[0] + 50) + body[12:]]
        return [body]


class NoticesTwice(Spoiler):
    """A notification is sent twice."""
    FOUND = [" is sent twice, again at "]

    def notice(self, _talk, body):
        if self.is_due():
            self.done = f"twice {body[28:].decode()}"
            return [body, body]
        return [body]


class SwapsData(Spoiler):
    """A getData is answered other data of the same length."""
    FOUND = ["wrong data in the reply to frame "]

    def reply(self, _talk, frame, body):
        length = struct.unpack_from(">i", body, 16)[0] if len(body) > 20 else 0
        if struct.unpack_from(">i", frame, 4)[0] == GET and length > 0 and self.is_due():
            self.done = f"other data of {frame[12:-1].decode()}"
            return [body[:20] + bytes([body[20] ^ 1]) + body[21:]]
        return [body]


ALL = [LosesNotice, ReadsStale, DoublesUpdate, ShowsTooNew, NoticesTwice, SwapsData]
