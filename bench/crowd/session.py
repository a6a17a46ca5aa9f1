"""A session of a plain ZooKeeper client, of which one process has hundreds."""
import asyncio
import struct
from collections import deque

from wire import CLOSE, CREATE, GET, PING, SET, connect, create, put, read, request

EPHEMERAL, SEQUENCE = 1, 2
NO_NODE, BAD_VERSION, NODE_EXISTS, EXPIRED = -101, -103, -110, -112


class Cut(Exception):
    """The server closed the connection, was silent for longer than a client waits, or said that the session is gone."""


class Refused(Exception):
    """A reply with an error, which is its argument."""


class Session(asyncio.Protocol):
    """As ZooKeeper's clients do, it pings after a third of its timeout in which it sent nothing, and gives its server up after two
    thirds in which it heard nothing. `open` makes one."""

    def __init__(self, timeout):
        self.timeout, self.kept, self.asked, self.notices = timeout / 1000, b"", deque(), {}
        self.loop = asyncio.get_running_loop()
        self.is_open, self.xid, self.is_ended = self.loop.create_future(), 0, False
        self.sent = self.heard = self.loop.time()

    def connection_made(self, transport):
        self.transport = transport
        transport.write(connect(int(1000 * self.timeout)))
        self.loop.call_later(self.timeout / 12, self.look)

    def look(self):
        """Pings or gives up if it is time to."""
        now = self.loop.time()
        if self.is_ended:
            return
        if now - self.heard > self.timeout * 2 / 3:
            self.transport.abort()
            return
        if now - self.sent > self.timeout / 3:
            self.sent = now
            self.transport.write(request(-2, PING))
        self.loop.call_later(self.timeout / 12, self.look)

    def data_received(self, data):
        self.heard = self.loop.time()
        self.kept += data
        at, end = 0, len(self.kept)
        while end - at >= 4:
            length = int.from_bytes(self.kept[at:at + 4], "big")
            if end - at < 4 + length:
                break
            self.take(self.kept[at + 4:at + 4 + length])
            at += 4 + length
        self.kept = self.kept[at:]

    def take(self, frame):
        if not self.is_open.done():
            if frame[8:16] == bytes(8):
                self.transport.abort()
            else:
                self.is_open.set_result(self)
            return
        xid, _zxid, error = struct.unpack(">iqi", frame[:16])
        if xid == -1:
            length = struct.unpack(">i", frame[24:28])[0]
            for waits in self.notices.pop(frame[28:28 + length], []):
                if not waits.done():
                    waits.set_result(None)
        elif xid != -2:
            waits = self.asked.popleft()
            if error == EXPIRED:
                self.asked.appendleft(waits)
                self.transport.abort()
            elif not waits.done():
                waits.set_result((error, frame[16:]))

    def connection_lost(self, _error):
        self.is_ended = True
        for waits in [self.is_open, *self.asked, *(it for these in self.notices.values() for it in these)]:
            if not waits.done():
                waits.set_exception(Cut())
                # Nobody may be waiting for it any more.
                waits.exception()

    def ask(self, kind, body=b""):
        """What the reply to this request is going to be: its error and its body."""
        waits = self.loop.create_future()
        if self.is_ended:
            waits.set_exception(Cut())
            waits.exception()
            return waits
        self.xid += 1
        self.sent = self.loop.time()
        self.asked.append(waits)
        self.transport.write(request(self.xid, kind, body))
        return waits

    async def does(self, kind, body=b""):
        """The body of a reply without an error."""
        error, answer = await self.ask(kind, body)
        if error:
            raise Refused(error)
        return answer

    def notice(self, path):
        """The next notification of this path."""
        waits = self.loop.create_future()
        self.notices.setdefault(path, []).append(waits)
        return waits

    async def create(self, path, content=b"", flags=0):
        answer = await self.does(CREATE, create(path, content, flags))
        return answer[4:]

    async def get(self, path, watch=False):
        """What a node holds, and its version."""
        answer = await self.does(GET, read(path, watch))
        length = struct.unpack(">i", answer[:4])[0]
        return answer[4:4 + max(length, 0)], struct.unpack(">i", answer[-36:-32])[0]

    async def set(self, path, content, version=-1):
        return await self.does(SET, put(path, content, version))

    async def leave(self):
        """Ends the session."""
        await self.does(CLOSE)
        self.transport.abort()


async def opened(port, timeout=10_000):
    """A session at this port, of so many milliseconds."""
    _transport, session = await asyncio.get_running_loop().create_connection(lambda: Session(timeout), "127.0.0.1", port)
    return await session.is_open


async def all_opened(ports, count, timeout=10_000):
    """So many sessions, at these ports by turns."""
    return await asyncio.gather(*(opened(ports[n % len(ports)], timeout) for n in range(count)))
