"""Relays between clients and proxies. `Relays` listens at one address for each proxy, dials the proxy for each client that it accepts,
and passes on what either side says, byte by byte as it came. Each piece is written into the record before it is passed on.

One thread does all of it, so the pieces of all connections come in one order, and no time of a later line is below that of an earlier one.
A side that takes nothing holds up its own connection alone: from a megabyte on that waits for it, the other side is not read. The end of
one side's stream is passed on as such, and the other one may still say what it has to say. A client for whom the proxy cannot be dialled is
hung up on. A proxy's host name is looked up once, at the start.

The cost is two system calls and one line of text for each piece, some 30 to 60 microseconds.
"""
import selectors
import socket

from records import to_hex

PIECE, MOST_WAITING = 1 << 16, 1 << 20
READ, WRITE = selectors.EVENT_READ, selectors.EVENT_WRITE


class Side:
    """One end of a connection: its socket, what still has to be sent to it, and what has ended."""

    def __init__(self, name, stream):
        self.name, self.stream, self.waiting, self.other, self.number = name, stream, bytearray(), None, 0
        self.is_dialled, self.is_heard, self.is_told, self.events = True, True, True, 0

    def wanted(self):
        events = READ if self.is_heard and self.is_dialled and len(self.other.waiting) < MOST_WAITING else 0
        return events | (WRITE if self.waiting or not self.is_dialled else 0)


class Relays:
    def __init__(self, pairs, log):
        self.log, self.selector, self.number = log, selectors.DefaultSelector(), 0
        for place, (listen, proxy) in enumerate(pairs, 1):
            try:
                listener = socket.create_server(listen, backlog=512)
                family, _, _, _, target = socket.getaddrinfo(*proxy, type=socket.SOCK_STREAM)[0]
            except OSError as wrong:
                raise OSError(f"no relay from {listen[0]}:{listen[1]} to {proxy[0]}:{proxy[1]}: {wrong}") from wrong
            listener.setblocking(False)
            self.selector.register(listener, READ, (place, family, target, listener))

    def run(self, is_over):
        """Relays until `is_over` says so."""
        while not is_over():
            for key, events in self.selector.select(0.1):
                if isinstance(key.data, Side):
                    self.turn(key.data, events)
                else:
                    self.accept(*key.data)
            self.log.flush()
        for key in list(self.selector.get_map().values()):
            key.fileobj.close()
        self.log.line("over")

    def accept(self, place, family, target, listener):
        try:
            stream, address = listener.accept()
        except OSError:
            return
        self.number += 1
        self.log.line(f"open {self.number} {place} {address[0]}:{address[1]}")
        near = Side("client", stream)
        far = Side("proxy", socket.socket(family))
        near.other, far.other, near.number, far.number, far.is_dialled = far, near, self.number, self.number, False
        for it in (near, far):
            it.stream.setblocking(False)
            it.stream.setsockopt(socket.IPPROTO_TCP, socket.TCP_NODELAY, 1)
        far.stream.connect_ex(target)
        self.watch(near)
        self.watch(far)

    def watch(self, side):
        """Has the selector wait for what is wanted of this side now."""
        events = side.wanted() if side.stream.fileno() >= 0 else 0
        if events != side.events:
            if side.events == 0:
                self.selector.register(side.stream, events, side)
            elif events == 0:
                self.selector.unregister(side.stream)
            else:
                self.selector.modify(side.stream, events, side)
            side.events = events

    def turn(self, side, events):
        if side.stream.fileno() < 0:
            return
        if events & WRITE:
            self.write(side)
        if events & READ and side.is_dialled:
            self.read(side)
        self.settle(side)

    def read(self, side):
        try:
            piece = side.stream.recv(PIECE)
        except BlockingIOError:
            return
        except OSError:
            piece = b""
        if not piece:
            self.log.line(f"end {side.number} {side.name}")
            side.is_heard = False
            return
        self.log.line(f"{'>' if side.name == 'client' else '<'} {side.number} {to_hex(piece)}")
        side.other.waiting += piece
        self.write(side.other)

    def write(self, side):
        """Sends what waits, as far as it goes."""
        if not side.is_dialled:
            if side.stream.getsockopt(socket.SOL_SOCKET, socket.SO_ERROR):
                return self.drop(side)
            try:
                side.stream.getpeername()
            except OSError:
                return None
            side.is_dialled = True
        try:
            while side.waiting:
                del side.waiting[:side.stream.send(side.waiting)]
        except BlockingIOError:
            pass
        except OSError:
            self.drop(side)
        return None

    def drop(self, side):
        """This side takes nothing any more."""
        side.waiting.clear()
        if side.is_heard:
            self.log.line(f"end {side.number} {side.name}")
        side.is_heard, side.is_dialled, side.is_told = False, True, False

    def settle(self, side):
        """Passes ends on, closes what is over, and waits for what is wanted of both sides."""
        for it in (side, side.other):
            if not it.other.is_heard and not it.waiting and it.is_told and it.is_dialled:
                it.is_told = False
                try:
                    it.stream.shutdown(socket.SHUT_WR)
                except OSError:
                    pass
        is_over = not side.is_heard and not side.other.is_heard and not side.waiting and not side.other.waiting
        for it in (side, side.other):
            if is_over and it.events:
                self.selector.unregister(it.stream)
                it.events = 0
            if is_over:
                it.stream.close()
            else:
                self.watch(it)
