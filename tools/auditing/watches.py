"""The watches of a connection, as its frames and its replies leave them: which frame set each, which notification used it up, and what was
due. This is for the words alone: what is missing or one too many is said only after the judge was asked.

A getData, an exists and a getChildren leave a watch when they are answered; an exists of no node does too. A setWatches leaves its watches
when it comes. NodeChildrenChanged is told to a watch of the children, NodeDeleted to either, and the others to a watch of the data.
"""
import struct
from collections import namedtuple

from keys import CHILDREN as CHILDREN_CHANGED, DELETED
from packets import CHILDREN, CHILDREN2, EXISTS, GET, Reader, REMOVE_WATCHES, SET_WATCHES, is_notice
from updates import trigger_of

Watch = namedtuple("Watch", "kind path frame zxid")  # set by this frame, as of this zxid
Used = namedtuple("Used", "frame time")  # by which notification a watch was used up, and which frame had set it
Due = namedtuple("Due", "event path number frame")
KINDS = {GET: "data", EXISTS: "data", CHILDREN: "children", CHILDREN2: "children"}
NO_NODE = -101


def kinds_of(event):
    return {CHILDREN_CHANGED: ("children",), DELETED: ("data", "children")}.get(event, ("data",))


class Watches:
    """The watches of a connection once these lines of a transcript, its own, have passed."""

    def __init__(self, connection, lines):
        self.it, self.open, self.used, self.replies = connection, {}, {}, -1
        for _, item in lines:
            if item.what == "frame" and item.index and connection.requests[item.index].kind == SET_WATCHES:
                self.set_watches(item)
            elif item.what == "send" and is_notice(item.data):
                self.notice(item)
            elif item.what == "send":
                self.replies += 1
                if 0 < self.replies < len(connection.requests):
                    self.reply(item, self.replies)

    def add(self, kind, path, frame, zxid):
        self.open.setdefault((kind, path), Watch(kind, path, frame, zxid))

    def set_watches(self, item):
        try:
            it = Reader(item.data, 8)
            zxid = it.take("q")
            for kind in ("data", "data", "children"):
                for _ in range(max(it.take("i"), 0)):
                    self.add(kind, it.buffer(), item.index, zxid)
        except struct.error:
            pass

    def notice(self, item):
        try:
            event, path = trigger_of(item.data)
        except struct.error:
            return
        for kind in kinds_of(event):
            watch = self.open.pop((kind, path), None)
            if watch:
                self.used[kind, path] = Used(watch.frame, item.time)

    def reply(self, item, index):
        request = self.it.requests[index]
        try:
            _, zxid, error = struct.unpack_from(">iqi", item.data)
            it = Reader(self.it.frames[index], 8)
            if request.kind in KINDS and (error == 0 or request.kind == EXISTS and error == NO_NODE):
                path = it.buffer()
                if it.take("b"):
                    self.add(KINDS[request.kind], path, index, zxid)
            elif request.kind == REMOVE_WATCHES and error == 0:
                path, which = it.buffer(), it.take("i")
                for kind in {1: ("children",), 2: ("data",)}.get(which, ("data", "children")):
                    self.open.pop((kind, path), None)
        except struct.error:
            pass

    def due(self, updates, zxid):
        """What the open watches were to be told of the updates up to a zxid, in their order."""
        found = {}
        for watch in self.open.values():
            first = next(((number, event) for number, event in updates.told_of(watch.path)
                          if watch.zxid < number <= zxid and watch.kind in kinds_of(event)), None)
            if first:
                found.setdefault((*first, watch.path), Due(first[1], watch.path, first[0], watch.frame))
        order = {key: updates.by_number[key[0]].triggers().index(key[1:]) for key in found}
        return [found[key] for key in sorted(found, key=lambda key: (key[0], order[key]))]
