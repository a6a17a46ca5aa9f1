"""The connections of a record: their frames and packets in the order in which they came, cut out of the pieces that the relays wrote.

`Streams.items` is that order: one item for each connection that opens or closes, each frame that was whole, and each packet that was
whole. A frame stands where its last byte came from the client, which is before the proxy had it, and a packet where its last byte came
from the proxy, which is after it was sent. So of two orders that are possible this is the one that is easier to keep: a reply may have
been read at any moment between the item of its frame and its own.

Replies are counted: the first packet answers the connect, and of the others that are no notifications the k-th answers frame k.
"""
from collections import namedtuple

from packets import CLOSE, Cutter, MAX_FRAME, connect_of, has_moment, is_notice, reply_of, request_of, welcome_of
from records import from_hex, lines_of

Item = namedtuple("Item", "what number index data time")
Answer = namedtuple("Answer", "index place reply has_moment")
MOST_PACKET = 1 << 31


class Connection:
    def __init__(self, number, proxy, address):
        self.number, self.proxy, self.address = number, proxy, address
        self.frames, self.places, self.times, self.requests = [], [], [], []
        self.packets, self.answers, self.zxids, self.welcome, self.welcomed_at = 0, [], [], None, None
        self.cutters = {">": Cutter(MAX_FRAME), "<": Cutter(MOST_PACKET)}
        self.ended, self.is_closed, self.connect = [], False, None

    def answer_of(self, index):
        """The answer to a frame from 1 on."""
        return self.answers[index - 1] if 0 < index <= len(self.answers) else None

    def is_anew(self):
        return self.connect is not None and self.connect.session == 0

    def cause(self):
        """Why it was closed, in the words of a transcript, as far as the streams show."""
        fault = self.cutters[">"].fault
        if fault:
            return f"length {fault[0]} {fault[1]}"
        last = self.answers[-1] if self.answers else None
        if last and last.reply.updates and self.requests[last.index].kind == CLOSE:
            return "closed"
        if self.ended[:1] == ["client"]:
            return f"client {self.cutters['>'].place + len(self.cutters['>'].kept)}"
        return "link"


class Streams:
    def __init__(self, folder):
        self.items, self.connections, self.notes, is_over, self.time = [], {}, [], False, 0
        for time, (what, *words) in lines_of(folder, "streams"):
            self.time = time
            if what == "over":
                is_over = True
                continue
            number = int(words[0])
            if what == "open":
                self.connections[number] = Connection(number, int(words[1]), words[2])
                self.add("open", number, 0, None, time)
            elif what in "<>":
                self.piece(self.connections[number], what, from_hex(words[1]), time)
            elif what == "end":
                it = self.connections[number]
                it.ended.append(words[1])
                if len(it.ended) == 2 or words[1] == "proxy":
                    self.close(it, time)
        if not is_over:
            self.notes.append("the streams were not recorded to their end: the record was cut off")

    def add(self, what, number, index, data, time):
        self.items.append(Item(what, number, index, data, time))

    def close(self, it, time):
        """Nothing that comes later was sent by the proxy, or reached it."""
        if not it.is_closed:
            it.is_closed = True
            self.add("close", it.number, 0, it.cause(), time)

    def piece(self, it, what, some, time):
        for whole in it.cutters[what].add(some):
            if it.is_closed:
                return
            place = len(self.items)
            if what == ">":
                self.add("frame", it.number, len(it.frames), whole, time)
                it.frames.append(whole)
                it.places.append(place)
                it.times.append(time)
                it.requests.append(request_of(whole) if it.connect else None)
                if len(it.frames) == 1:
                    it.connect = connect_of(whole)
            else:
                self.add("send", it.number, it.packets, whole, time)
                self.packet(it, place, whole)
                it.packets += 1

    def packet(self, it, place, whole):
        index = len(it.answers) + 1
        if it.packets == 0:
            it.welcome, it.welcomed_at = welcome_of(whole), place
        elif not is_notice(whole):
            request = it.requests[index] if index < len(it.requests) else None
            request = request or request_of(b"")
            reply = reply_of(whole, request)
            if reply:
                it.answers.append(Answer(index, place, reply, has_moment(request, reply)))
                it.zxids.append(reply.zxid)
