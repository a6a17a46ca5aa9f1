"""Which connection and which of its requests caused each update.

A reply that says that its own update was made names it: its zxid is the revision. A welcome names its session. For every other update,
this module looks for what may have caused it:

- the attachment of a session: a connect that named the session, which came before the update. Of several, one whose replies fit: what
  was read off the tree was read after that attachment and before the next, unless it says that the session has moved, and a first reply
  that needs no tree repeats its zxid;
- the close of a session: a closeSession of the connection that the session was attached to;
- any other: a request without an answer, of a connection whose session is open then, that came before the update, and would do on the
  state before it just what etcd shows: the same triggers, in the same order, the same data, versions and owners. (One whose answer names
  a zxid that is no update's counts as one without.) If several may, they are matched so that each update has one if possible, each
  request is carried out once at most, and those of a connection in order.

If none of these fits, but a request that was answered already, then that one: a second update for one request is what the judge calls
out of order, and an update for one that was refused makes the refusal wrong. (Neither is looked for if there are clients that do not go
through the relays; then the update may as well be theirs.) If none fits at all, then nobody who was recorded asked for it. It is written as
what a connection that was not recorded asked for, with the same effect. Updates that are older than the record are all written so.
"""
import bisect
from collections import namedtuple

from packets import CLOSE, SESSION_EXPIRED, SESSION_MOVED, UPDATES
from keys import did

Cause = namedtuple("Cause", "number index")
MOST_ANSWERED = 50  # the last requests of a connection that were answered, and may have been carried out once more


def granted(timeout):
    return max(4000, min(40000, timeout))


def matching(candidates):
    """Gives each of these one of its candidates, and none to two, for as many as possible (by augmenting paths)."""
    owner = {}

    def place(who, seen):
        for it in candidates[who]:
            if it not in seen:
                seen.add(it)
                if it not in owner or place(owner[it], seen):
                    owner[it] = who
                    return True
        return False

    for who in candidates:
        place(who, set())
    return {who: it for it, who in owner.items()}


class Causes:
    """`found` has the cause of each update by its revision, `sessions` the connections of each session by the revisions that attached it,
    and `unasked` the revisions that nobody recorded asked for."""

    def __init__(self, streams, revisions, service, has_others):
        self.streams, self.revisions, self.service, self.has_others = streams, revisions, service, has_others
        self.found, self.unasked, self.attached, self.sessions, self.notes = {}, [], {}, {}, []
        self.claims, self.numbers = self.claimed(), {it.number for it in revisions if it.kind() == "asked"}
        self.welcomes = self.session_welcomes()
        self.attachments = self.matched_attachments()
        self.open = []
        for revision in revisions:
            self.look(revision)
            service.take(revision)
        self.match()

    def each(self):
        return self.streams.connections.values()

    def claimed(self):
        """By revision, the answers that say that it is their request's own update."""
        found = {}
        for it in self.each():
            for answer in it.answers:
                if answer.reply.updates and answer.index < len(it.requests):
                    found.setdefault(answer.reply.zxid, []).append((it.number, answer.index))
        return found

    def session_welcomes(self):
        return {it.welcome[0]: it.number for it in self.each() if it.is_anew() and it.welcome and it.welcome[0]}

    def matched_attachments(self):
        """By revision, the connection that resumed a session by it."""
        by_session, found, resuming = {}, {}, {}
        for it in self.each():
            if it.connect:
                resuming.setdefault(it.connect.session, []).append(it)
        for it in self.revisions:
            if it.kind() == "attach":
                by_session.setdefault(it.session(), []).append(it)
        for session, made in by_session.items():
            mine = resuming.get(session, [])
            numbers = [it.number for it in made]
            welcomed = {it.number: self.attachments_of(it, made, numbers) for it in mine if it.welcome and it.welcome[0]}
            matched = matching(welcomed)
            found.update({revision: number for number, revision in matched.items()})
            waiting = sorted((it for it in mine if not it.welcome), key=lambda it: it.places[0])
            for revision in made:
                first = next((it for it in waiting if it.times[0] <= revision.time and it.connect.last_zxid < revision.number), None)
                if revision.number not in found and first:
                    found[revision.number] = first.number
                    waiting.remove(first)
        return found

    def attachments_of(self, it, made, numbers):
        """Which of a session's attachments a connection that was welcomed may have made, the likeliest first."""
        may = [one for one in made if one.time >= it.times[0] and one.number > it.connect.last_zxid]
        welcomed = self.streams.items[it.welcomed_at].time
        may = [one.number for one in sorted(may, key=lambda one: abs(one.time - welcomed))]
        if it.answers and not it.answers[0].has_moment and it.answers[0].reply.zxid in may:
            return [it.answers[0].reply.zxid]
        for answer in it.answers:
            last = max((number for number in numbers if number <= answer.reply.zxid), default=None)
            if answer.has_moment and answer.reply.error == SESSION_MOVED:
                may = [number for number in may if last and number < last] or may
            elif answer.has_moment and answer.reply.error != SESSION_EXPIRED and last in may:
                return [last]
        return may

    def look(self, revision):
        kind = revision.kind()
        if kind in (None, "lapse", "begin", "reaped"):
            return
        number = revision.number
        if kind in ("session", "attach"):
            session = revision.session()
            who = self.welcomes.get(session) if kind == "session" else self.attachments.get(number)
            who = who or (kind == "session" and self.starter(revision)) or None
            self.attached[session] = who
            self.sessions.setdefault(session, {})[number] = who
            self.tell(revision, who and Cause(who, 0))
        elif kind == "closed":
            self.tell(revision, self.closer(revision))
        else:
            claims = self.claims.get(number, [])
            if len(claims) > 1:
                who = " and to ".join(f"frame {index} of connection {it}" for it, index in claims)
                self.notes.append(f"update {number} is claimed by the replies to {who}")
            if claims:
                self.tell(revision, Cause(*claims[0]))
            else:
                self.open.append((revision, self.candidates(revision)))

    def tell(self, revision, cause):
        if cause:
            self.found[revision.number] = cause
        else:
            self.unasked.append(revision.number)

    def starter(self, revision):
        """A connection that asked for a new session, and was not answered."""
        life = revision.of(b"zk/l/")[0][1].value
        timeout = int.from_bytes(life[1:5], "big")
        used = {it.number for it in self.found.values()}
        return next((it.number for it in self.each() if it.is_anew() and not it.welcome and it.number not in used
                     and granted(it.connect.timeout) == timeout and it.times[0] <= revision.time), None)

    def closer(self, revision):
        it = self.streams.connections.get(self.attached.get(revision.session()))
        if it is None:
            return None
        closes = [at for at, request in enumerate(it.requests) if request and request.kind == CLOSE and it.times[at] <= revision.time]
        claimed = [index for number, index in self.claims.get(revision.number, []) if number == it.number]
        return Cause(it.number, (claimed or closes)[0]) if claimed or closes else None

    def candidates(self, revision):
        """The requests that may have caused this update: those without an answer, those that were carried out before, those refused."""
        found = ([], [], [])
        for session, number in self.attached.items():
            it = self.streams.connections.get(number)
            if it is None or session not in self.service.lives:
                continue
            shown = bisect.bisect_left(it.zxids, revision.number)
            for index in range(max(1, shown - MOST_ANSWERED), bisect.bisect_right(it.times, revision.time)):
                request, answer = it.requests[index], it.answer_of(index)
                if request and request.kind in UPDATES and did(revision, self.service.effect(session, request.parts)):
                    found[self.rank(answer)].append((number, index))
        return found

    def rank(self, answer):
        if answer is None or answer.reply.updates and answer.reply.zxid not in self.numbers:
            return 0
        return 1 if answer.reply.updates else 2

    def match(self):
        """Gives each open update one of its candidates, those of one connection in order."""
        chosen = matching({at: it[1][0] for at, it in enumerate(self.open)})
        for number in {it[0] for it in chosen.values()}:
            mine = sorted(at for at, it in chosen.items() if it[0] == number)
            for at, index in zip(mine, sorted(chosen[at][1] for at in mine)):
                if (number, index) in self.open[at][1][0]:
                    chosen[at] = (number, index)
        for at, (revision, (_, again, refused)) in enumerate(self.open):
            found = chosen.get(at)
            if found is None and (again or refused) and not self.has_others:
                found = (again or refused)[-1]
                does = "again what" if again else "what was refused:"
                self.notes.append(f"update {revision.number} does {does} frame {found[1]} of connection {found[0]} asked for")
            self.tell(revision, found and Cause(*found))
