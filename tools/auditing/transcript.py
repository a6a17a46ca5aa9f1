"""The transcript of a record: its lines in the form of docs/FORMATS.md, in the order that `order` settles.

Each line of `Transcript.lines` is a pair of the text and what it is of: the item of the streams, or the revision. A connection has the
number that the relays gave it, its proxy the place of the relay in the command; connections that were not recorded come after the last
of these, at proxy 0. A connection that began no session offers one of number 1, which means nothing. `close` says `client`, `closed`
or `length` if the streams show as much, and otherwise `link`, whatever it was: the judge does not look at it.

The time of an update is that of the nodes that it wrote, which clients see in a Stat. If it wrote none, the time is in the reply, or
means nothing and is that of the update before.
"""
from causes import Causes
from keys import Revisions, Service
from order import bounds
from packets import times_in
from streams import Streams
from unrecorded import Unrecorded

NO_SESSION = f"{1:016x} {'0' * 32}"


class Transcript:
    def __init__(self, folder, has_others=False):
        self.folder, self.streams, self.revisions = folder, Streams(folder), Revisions(folder)
        self.all = [it for it in self.revisions.all if it.kind()]
        self.notes = self.revisions.notes + self.streams.notes
        self.lines, self.zxid, self.now, self.places = [], 0, 0, {}
        self.others = Unrecorded(max(self.streams.connections, default=0) + 1, lambda text: self.lines.append((text, None)))
        self.begin()
        self.causes = Causes(self.streams, self.all, self.service, has_others)
        self.bounds, self.early = bounds(self.streams, self.all, self.causes, not self.revisions.notes)
        self.offers = self.offered()
        self.unasked = [] if has_others else [it for it in self.causes.unasked if it >= self.revisions.first]
        self.merge()

    def begin(self):
        """The service as it is when the record begins."""
        self.service = Service()
        if self.revisions.start is not None:
            from start import begins
            begins(self)

    def offered(self):
        """By connection, the session that it began."""
        found = {}
        for revision in self.all:
            cause = self.causes.found.get(revision.number)
            if cause and revision.kind() == "session":
                life = revision.of(b"zk/l/")[0][1].value
                found[cause.number] = (revision.of(b"zk/s/")[0][1].value[0], f"{revision.session():016x} {life[13:29].hex()}")
        return found

    def merge(self):
        at, ends = 0, self.known_ends()
        for place in range(-1, len(self.streams.items)):
            item = self.streams.items[place] if place >= 0 else None
            if item and (item.what != "send" or place < ends.get(item.number, place + 1)):
                self.item(item, place)
            while at < len(self.all) and self.bounds[self.all[at].number].place <= place:
                self.update(self.all[at])
                at += 1
        self.lines.append(("done", None))

    def known_ends(self):
        """If not all revisions are known: the place, by connection, from which its packets may show what is not."""
        found = {}
        for it in self.streams.connections.values() if self.revisions.notes else []:
            last = it.welcomed_at or 0
            for answer in it.answers:
                if answer.reply.zxid > self.revisions.last():
                    found[it.number] = last + 1
                    break
                last = answer.place
        return found

    def item(self, item, place):
        number = item.number
        if item.what == "open":
            layout, offer = self.offers.get(number, (2, NO_SESSION))
            self.add(f"open{'1' if layout == 1 else ''} {number} {self.streams.connections[number].proxy} {offer}", item, place)
        elif item.what == "frame":
            self.add(f"frame {number} {item.index} {self.zxid} {item.data.hex() or '-'}", item, place)
        elif item.what == "send":
            self.add(f"send {number} {len(item.data).to_bytes(4, 'big').hex()}{item.data.hex()}", item, place)
        else:
            self.add(f"close {number} {item.data}", item, place)

    def add(self, text, what, place=None):
        if place is not None:
            self.places[place] = len(self.lines)
        self.lines.append((text, what))

    def update(self, revision):
        number, kind = revision.number, revision.kind()
        if kind == "lapse":
            for key, put in revision.of(b"zk/l/"):
                self.others.gone(int(key, 16))
                self.add(f"lapse {number} {int(key, 16):016x}", revision)
            return
        cause = self.causes.found.get(number)
        self.now = self.time_of(revision, cause)
        if kind in ("session", "attach", "closed", "reaped"):
            if cause:
                self.others.gone(revision.session())
        text = {"begin": self.begun, "session": self.started, "attach": self.started, "closed": self.closed, "reaped": self.reaped,
                "asked": self.asked}[kind](revision, cause)
        self.zxid = number
        self.add(f"update {number} {text}", revision)

    def time_of(self, revision, cause):
        now = revision.now()
        it = cause and self.streams.connections.get(cause.number)
        answer = it and it.answer_of(cause.index)
        if now is None and answer:
            now = max(times_in(self.streams.items[answer.place].data, it.requests[cause.index]), default=None)
        return self.now if now is None else now

    def begun(self, revision, _cause):
        return f"begin {self.now}"

    def started(self, revision, cause):
        kind, session = revision.kind(), revision.session()
        number = cause.number if cause else getattr(self.others, kind)(self.zxid, revision)
        return f"{kind} {session:016x} {number}"

    def closed(self, revision, cause):
        session = revision.session()
        number, index = (cause.number, cause.index) if cause else self.others.closes(self.zxid, session) or self.nobody()
        self.others.gone(session)
        return f"closed {session:016x} {number} {index}"

    def reaped(self, revision, _cause):
        return f"reaped {revision.session():016x}"

    def asked(self, revision, cause):
        number, index = (cause.number, cause.index) if cause else self.others.asked(self.zxid, revision) or self.nobody()
        return f"asked {number} {index} {self.now}"

    def nobody(self):
        """A request that is not there."""
        return max(self.streams.connections, default=0), 4294967295

    def text(self, lines=None):
        return "".join(f"{text}\n" for text, _ in (self.lines if lines is None else lines))
