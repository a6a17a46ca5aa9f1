"""What etcd shows of the service: its revisions, which of them are updates and of which kind, and what the tree and the sessions were
before each. docs/FORMATS.md has the keys and the values.

An update is a revision that puts `zk/head`. It is Begin if the head's version is 1; the start of a session if it puts a new `zk/l/..`
and an attachment if it puts one that was there; the close of a session if it deletes `zk/s/..` and `zk/l/..`, and the work of a reaper
if it deletes the first of these alone, since a lapse has taken the other; and otherwise what some request asked for. A revision that
deletes a `zk/l/..` and puts no head is a lapse.

`Service` is the state between two revisions. Its methods change it; nothing here judges it.
"""
import struct
from collections import namedtuple

from packets import CREATE, CREATE2, DELETE, EPHEMERAL, Reader, SEQUENCE, SET
from records import Fault, from_hex, lines_of

HEAD, DATA, COUNTS, OWNED, LIFE = b"zk/head", b"zk/d/", b"zk/c/", b"zk/s/", b"zk/l/"
CREATED, DELETED, CHANGED, CHILDREN = 1, 2, 3, 4

Put = namedtuple("Put", "value created version lease")
Node = namedtuple("Node", "data version ctime mtime owner czxid mzxid")
Life = namedtuple("Life", "timeout password attached begun")


class Revision:
    """One revision of etcd: the keys that it put, with their values, and those that it deleted (None)."""

    def __init__(self, number, time):
        self.number, self.time, self.changes = number, time, {}

    def of(self, front):
        """The keys that begin so, without that front, and what became of each."""
        return [(key[len(front):], put) for key, put in self.changes.items() if key.startswith(front)]

    def kind(self):
        """What an update is; `lapse` for a lapse, None for a revision that is neither."""
        head, lives, owned = self.changes.get(HEAD), self.of(LIFE), self.of(OWNED)
        if head is None:
            return "lapse" if any(put is None for _, put in lives) else None
        if head.version == 1:
            return "begin"
        if any(put for _, put in lives):
            return "session" if lives[0][1].version == 1 else "attach"
        if any(put is None for _, put in owned):
            return "closed" if lives else "reaped"
        return "asked"

    def session(self):
        """The session that is started, attached or ended, or whose lease lapses."""
        return int((self.of(LIFE) or self.of(OWNED))[0][0], 16)

    def triggers(self):
        """What watches see: pairs of what happened and a path."""
        it = Reader(self.changes[HEAD].value, 1)
        return [(it.take("b"), it.buffer()) for _ in range(it.take("i"))]

    def now(self):
        """The time at which the update was planned, as far as a node shows it."""
        times = [node_of(put.value, self.number).mtime for _, put in self.of(DATA) if put]
        return max(times, default=None)


def node_of(value, revision):
    try:
        it = Reader(value, 1)
        czxid, version, ctime, mtime, owner = it.take("qiqqq")
        return Node(value[it.at:], version, ctime, mtime, owner, czxid or revision, revision)
    except struct.error as wrong:
        raise Fault(f"a node is damaged at revision {revision}: {value.hex()}") from wrong


class Service:
    """The tree and the sessions after some revision."""

    def __init__(self):
        self.nodes, self.counts, self.lives, self.layouts, self.lapsed, self.zxid = {}, {}, {}, {}, set(), 0

    def take(self, revision):
        """Goes on to this revision."""
        for key, put in revision.changes.items():
            self.change(key, put, revision.number)

    def change(self, key, put, revision):
        if key == HEAD:
            self.zxid = revision
        elif key.startswith(DATA):
            self.set(self.nodes, key[9:], put and node_of(put.value, revision))
        elif key.startswith(COUNTS):
            self.set(self.counts, key[9:], put and (*struct.unpack_from(">ii", put.value, 1), revision))
        elif key.startswith(LIFE):
            session = int(key[5:], 16)
            if put is None and session in self.layouts:
                self.lapsed.add(session)
            timeout, _, password = struct.unpack_from(">iq16s", put.value, 1) if put else (0, 0, b"")
            self.set(self.lives, session, put and Life(timeout, password, revision, put.created))
        elif key.startswith(OWNED):
            session = int(key[5:], 16)
            self.set(self.layouts, session, put and put.value[0])
            if put is None:
                self.lapsed.discard(session)

    @staticmethod
    def set(some, key, value):
        if value is None:
            some.pop(key, None)
        else:
            some[key] = value

    def effect(self, session, parts):
        """What these parts do, asked by this session: the triggers, and what each path holds then as data, version and owner (None: no
        node). None if one of them is refused."""
        seen, creates, triggers = {}, {}, []

        def find(path):
            if path not in seen:
                it = self.nodes.get(path)
                seen[path] = it and (it.data, it.version, it.owner)
            return seen[path]

        for part in parts:
            path, up = part.path, part.path.rpartition(b"/")[0] or b"/"
            if part.kind in (CREATE, CREATE2):
                count = creates.get(up, self.counts.get(up, (0, 0, 0))[0])
                if part.flags & SEQUENCE:
                    path += b"%010d" % count
                if find(up) is None or find(path) is not None:
                    return None
                seen[path] = (part.data, 0, session if part.flags & EPHEMERAL else 0)
                creates[up] = count + 1
                triggers += [(CREATED, path), (CHILDREN, up)]
                continue
            it = find(path)
            if it is None or part.version not in (-1, it[1]):
                return None
            if part.kind == DELETE:
                seen[path] = None
                triggers += [(DELETED, path), (CHILDREN, up)]
            elif part.kind == SET:
                seen[path] = (part.data, it[1] + 1, it[2])
                triggers.append((CHANGED, path))
        return triggers, seen


def did(revision, effect):
    """Whether a revision did just that."""
    if effect is None or revision.triggers() != effect[0]:
        return False
    written = {key[4:]: put and node_of(put.value, revision.number) for key, put in revision.of(DATA)}
    return all(it is None or path not in written or (written[path] is not None and
               (written[path].data, written[path].version, written[path].owner) == it) for path, it in effect[1].items()) \
        and all(path in effect[1] for path in written)


class Revisions:
    """The revisions of a record, `all`. If it begins with keys, these are `before`, as of revision `start`. `first` is the first revision
    that belongs to the record's own time, and `notes` says in words what is missing."""

    def __init__(self, folder):
        self.start, self.all, self.notes, self.first, self.is_over, self.before = None, [], [], 0, False, {}
        version, is_lost, by_number = 0, False, {}
        for time, (what, *words) in lines_of(folder, "revisions"):
            if what in ("put", "delete") and not is_lost:
                number = int(words[0])
                if number not in by_number:
                    by_number[number] = Revision(number, time)
                    self.all.append(by_number[number])
                put = Put(from_hex(words[2]), *map(int, words[3:6])) if what == "put" else None
                by_number[number].changes[from_hex(words[1])] = put
            elif what == "key":
                self.before[from_hex(words[1])] = (int(words[0]), Put(from_hex(words[2]), *map(int, words[3:6])))
            elif what == "snapshot":
                self.start = int(words[0])
            elif what == "at":
                self.first = int(words[0]) + 1
            elif what == "lost":
                is_lost = True
                self.notes.append(f"revisions {words[0]} to {words[1]} were compacted before they were read: nothing after them is judged")
            elif what == "over":
                self.is_over, version = True, int(words[1])
        if HEAD in self.before:
            self.first_version = self.before[HEAD][1].version
        else:
            self.first_version = 0
        self.check(version, is_lost)

    def check(self, version, is_lost):
        """Stops before the first update whose number is not the next one."""
        number = self.first_version
        for place, revision in enumerate(self.all):
            head = revision.changes.get(HEAD)
            if head and head.version != number + 1:
                self.notes.append(f"the update at revision {revision.number} has number {head.version}, and {number + 1} comes next: nothing from"
                                  " there is judged")
                del self.all[place:]
                return
            number = head.version if head else number
        if not self.is_over:
            self.notes.append("what etcd did was not recorded to its end: the record was cut off")
        elif number != version and not is_lost:
            self.notes.append(f"the last update that was recorded has number {number}, and etcd had {version}")

    def last(self):
        """The last revision up to which all is known."""
        return self.all[-1].number if self.all else self.start or 0
