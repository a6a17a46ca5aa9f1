"""The beginning of a transcript whose record begins with the keys of a service that has been running.

The judge wants a transcript from Begin on. What led to these keys is no longer known, but much of it can be read off them: when each node
was made and last changed, and when a child of it last came or went (czxid, mzxid, pzxid); how often it was changed (version) and how many
children it had (creates); when each session began and was last attached. This module makes up a history that ends in just these
keys, every number of them included:

- at its own zxid, each update that left its trace: a create, the last setData of a node, the last child that came or went, the start and
  the last attachment of a session;
- at zxids between them, or along with them, as many further setDatas and creates with deletes as the counts want: first those that have
  to be done first. A multi has room for 24 parts. The real history had no more room, so there is enough.

The parts are asked for by connections that were not recorded (`unrecorded`): an ephemeral node's by its session's, any other by one that is
open then. If none is open, a session is made up. If nothing shows what the last update was, it is the start of a made-up session. Such a
session stays open to the end, and nobody sees it. A session whose lease has lapsed gets its line `lapse` at the end.
"""
import heapq
from collections import defaultdict

from keys import OWNED, Service
from packets import CREATE, DELETE, EPHEMERAL, MAX_PARTS, SET
from records import Fault
from unrecorded import connect_frame, multi_frame

MOST_DATA = 500_000  # bytes of data beside which a multi takes further parts


def depth(path):
    return 0 if path == b"/" else path.count(b"/")


def parent(path):
    return path.rpartition(b"/")[0] or b"/"


class Start:
    def __init__(self, transcript):
        self.it, self.service = transcript, Service()
        for key, (revision, put) in transcript.revisions.before.items():
            self.service.change(key, put, revision)
        self.service.lapsed = {it for it in self.service.layouts if it not in self.service.lives}
        self.made, self.sets, self.pairs, self.sessions, self.pending, self.now = *(defaultdict(list) for _ in range(3)), {}, [], {}
        self.children = defaultdict(list)
        for path, node in self.service.nodes.items():
            if path != b"/":
                self.children[parent(path)].append(path)
        self.known = {it.session() for it in transcript.all if it.kind() in ("session", "attach", "closed", "reaped", "lapse")}
        self.known.update(self.service.layouts)

    def plan(self):
        """What happens at which zxid, and what is to be done between two."""
        for path, node in self.service.nodes.items():
            self.now[node.czxid], self.now[node.mzxid] = node.ctime, node.mtime
            if path != b"/":
                self.made[node.czxid].append(path)
            if node.version:
                self.sets[node.mzxid].append(path)
                self.later(node.czxid, node.mzxid, SET, path, node.version - 1)
            creates, _children, pzxid = self.service.counts.get(path, (0, 0, node.czxid))
            is_traced = pzxid == node.czxid or any(self.service.nodes[it].czxid == pzxid for it in self.children[path])
            if not is_traced:
                self.pairs[pzxid].append(path)
            self.later(node.czxid, pzxid, CREATE, path, creates - len(self.children[path]) - (not is_traced))
        for key, (_, put) in self.it.revisions.before.items():
            if key.startswith(OWNED):
                session = int(key[5:], 16)
                self.sessions[put.created] = ("session", session)
                life = self.service.lives.get(session)
                if life and life.attached != put.created:
                    self.sessions[life.attached] = ("attach", session)
        self.pending.sort(reverse=True)

    def later(self, first, last, kind, path, count):
        if count > 0:
            self.pending.append([first, last, kind, path, count])

    def write(self):
        """The lines, and the service after them."""
        root = self.service.nodes[b"/"]
        self.last, self.due = root.czxid, []
        self.it.lines.append((f"update {root.czxid} begin {root.ctime}", None))
        zxids = sorted({*self.made, *self.sets, *self.pairs, *self.sessions} - {root.czxid})
        for zxid in zxids:
            self.between(zxid)
            if zxid in self.sessions:
                self.attaches(zxid, *self.sessions[zxid])
            else:
                self.asks(zxid, self.parts_at(zxid))
        self.between(self.service.zxid + 1)
        if self.due or self.pending:
            raise Fault(f"no history leads to these keys: {(self.due or self.pending)[0]}")
        if self.last < self.service.zxid:
            self.makes_up(self.service.zxid)
        for session in self.service.lapsed:
            self.it.others.gone(session)
            self.it.lines.append((f"lapse {self.it.revisions.start} {session:016x}", None))
        return self.service

    # ---- what waits to be done

    def release(self, zxid):
        """What may be done from this zxid on."""
        while self.pending and self.pending[-1][0] <= zxid:
            first, last, kind, path, count = self.pending.pop()
            heapq.heappush(self.due, [last, first, kind, path, count])

    def between(self, zxid):
        """Does what waits at the numbers before this zxid, as long as something does."""
        while self.last + 1 < zxid:
            self.release(self.last)
            if not self.due:
                if not self.pending or self.pending[-1][0] + 1 >= zxid:
                    return
                self.last = self.pending[-1][0]
                continue
            self.asks(self.last + 1, self.taken(MAX_PARTS, self.last + 1))

    def taken(self, room, zxid):
        """Parts for so much room of what waits."""
        parts = []
        while self.due and room >= (2 if self.due[0][2] == CREATE else 1):
            last, _first, kind, path, count = job = self.due[0]
            if last < zxid:
                raise Fault(f"no history leads to these keys: {path!r} has more updates than there was room for")
            parts += self.pair(path) if kind == CREATE else [(SET, path)]
            room -= 2 if kind == CREATE else 1
            job[4] = count - 1
            if count == 1:
                heapq.heappop(self.due)
        return parts

    def pair(self, path):
        """A child that comes and goes at once, of a name that no child has."""
        names = {it.rpartition(b"/")[2] for it in self.children[path]}
        name = next(it for it in (b"~%d" % n for n in range(len(names) + 1)) if it not in names)
        child = path.rstrip(b"/") + b"/" + name
        return [(CREATE, child), (DELETE, child)]

    def parts_at(self, zxid):
        """The parts of the update that left its trace here."""
        nodes = self.service.nodes
        first = [(CREATE, it, b"" if nodes[it].version else nodes[it].data, EPHEMERAL if nodes[it].owner else 0)
                 for it in sorted(self.made[zxid], key=depth)]
        fixed = [part for it in self.pairs[zxid] for part in self.pair(it)]
        final = [(SET, it, nodes[it].data) for it in self.sets[zxid]]
        self.release(zxid)
        size = sum(len(it[2]) for it in first + final)
        room = MAX_PARTS - len(first) - len(fixed) - len(final)
        further = self.taken(room, zxid) if size < MOST_DATA or self.due and self.due[0][0] == zxid else []
        return first + further + fixed + final

    # ---- the lines

    def asks(self, zxid, parts):
        owner = next((self.service.nodes[path].owner for kind, path, *more in parts if kind == CREATE and more[1:] == [EPHEMERAL]), None)
        if owner is None and not self.it.others.order:
            self.makes_up(zxid - 1)
        number = self.it.others.of[owner or self.it.others.order[-1]]
        index = self.it.others.asks(number, self.last, multi_frame(parts))
        self.it.lines.append((f"update {zxid} asked {number} {index} {self.now.get(zxid, 0)}", None))
        self.last = zxid

    def attaches(self, zxid, kind, session):
        life = self.service.lives.get(session)
        timeout, password = (life.timeout, life.password) if life else (4000, bytes(16))
        frame = connect_frame(timeout, *(() if kind == "session" else (session, password)))
        number = self.it.others.opens(self.last, frame, session, password, self.service.layouts[session])
        self.it.lines.append((f"update {zxid} {kind} {session:016x} {number}", None))
        self.last = zxid

    def makes_up(self, zxid):
        """A session that nobody had, from this zxid on."""
        if zxid <= self.last:
            raise Fault("no history leads to these keys: a node was made before any session began")
        session = next(it for it in range(1, len(self.known) + 2) if it not in self.known)
        self.known.add(session)
        number = self.it.others.opens(self.last, connect_frame(4000), session, bytes(16), 2)
        self.it.lines.append((f"update {zxid} session {session:016x} {number}", None))
        self.last = zxid


def begins(transcript):
    """Writes the beginning of a transcript, and gives it the service as it is then."""
    if not transcript.revisions.before:
        return
    start = Start(transcript)
    start.plan()
    transcript.service = start.write()
    transcript.zxid = start.service.zxid
