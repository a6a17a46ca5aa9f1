"""Experiments on a reply that is wrong: a notification is left out, or those that a watch was due are put in, or another packet takes the
place of the reply, and the judge says of each whether the connection's packets up to there are lawful with it. There are not more than
`MOST_TRIALS` of them for one reply: a long transcript takes seconds to judge.
"""
import struct

from expected import packets
from updates import trigger_of
from watches import Watches, kinds_of

MOST_TRIALS, MOST_ANSWERS, MOST_PACKET = 60, 3, 1_000_000  # bytes; the judge reads no line that is much longer


def notice_packet(event, path):
    body = struct.pack(">iqiii", -1, -1, 0, event, 3) + struct.pack(">i", len(path)) + path
    return struct.pack(">i", len(body)) + body


class Trials:
    """Of the reply that a story is of."""

    def __init__(self, story):
        self.story, self.verdict, self.updates, self.count = story, story.verdict, story.updates, 0

    def is_lawful(self, lines):
        self.count += 1
        return self.count <= MOST_TRIALS and not self.verdict.is_wrong(self.story.number, lines)

    def alone(self):
        return self.verdict.alone(self.story.number, self.story.end)

    def surplus(self):
        """The groups of notifications each of which may be left out, and the rest is lawful: one, the last of those that are alike, or all
        that are of no watch."""
        found = {}
        for at in self.story.notices:
            if self.is_lawful_without([at]):
                found[self.verdict.lines[at][1].data] = [at]
        idle = [at for at in self.story.notices if not self.is_watched(at)]
        return list(found.values()) or ([idle] if len(idle) > 1 and self.is_lawful_without(idle) else [])

    def is_lawful_without(self, notices):
        left = [self.verdict.lines[at] for at in notices]
        return self.is_lawful([it for it in self.alone() if not any(it is each for each in left)])

    def before_line(self, at):
        """The watches as they are before a line."""
        return Watches(self.story.connection, [self.verdict.lines[it] for it in self.story.rows.own if it < at])

    def is_watched(self, at):
        event, path = trigger_of(self.verdict.lines[at][1].data)
        return any((kind, path) in self.before_line(at).open for kind in kinds_of(event))

    def missing(self):
        """The groups of notifications each of which may be put in, and all is lawful: one that was due, or all that were."""
        due = self.story.watches.due(self.updates, self.story.zxid)
        found = [[it] for it in due if self.is_lawful_with([it])]
        if not found and len(due) > 1 and self.is_lawful_with(due):
            found = [due]
        return found

    def is_lawful_with(self, due):
        lines = self.alone()
        more = [(f"send {self.story.number} {notice_packet(it.event, it.path).hex()}", None) for it in due]
        for at in {self.story.sent[0]: None, self.story.sent[-1]: None}:
            place = next(place for place, it in enumerate(lines) if it is self.verdict.lines[at])
            if self.is_lawful(lines[:place] + more + lines[place:]):
                return True
        return False

    def replaced(self, only_own=False):
        """What may stand in place of the reply so that it is lawful: as of its own zxid, otherwise as of any between frame and reply."""
        seen = [it[1].number for it in self.verdict.lines[:self.story.end] if it[0].startswith("update") and hasattr(it[1], "number")]
        moments = {it for it in seen if it >= self.story.head} | ({self.story.head} if self.story.head else set())
        if not self.story.answer.has_moment:
            moments |= {it for it in seen if it == self.story.before}
        causes = self.verdict.it.causes.found
        likely = {it for it in moments if causes.get(it) == (self.story.number, self.story.index)} or {
            it for it in moments if it in self.updates.by_number and self.updates.done_by(it)[0] <= self.story.last.time}
        if only_own:
            moments &= {self.story.zxid}
        found, lines, frame = [], self.alone(), self.story.connection.frames[self.story.index]
        for packet in packets(self.verdict.it, self.story.request, frame, self.story.reply, moments, likely):
            if len(packet) > MOST_PACKET:
                continue
            if len(found) == MOST_ANSWERS or found and struct.unpack_from(">q", packet, 4)[0] not in likely:
                break
            text = f"send {self.story.number} {len(packet).to_bytes(4, 'big').hex()}{packet.hex()}"
            place = next(place for place, it in enumerate(lines) if it is self.verdict.lines[self.story.sent[-1]])
            if self.is_lawful(lines[:place] + [(text, None)] + lines[place + 1:]):
                found.append(text)
        return found
