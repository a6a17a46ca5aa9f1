"""What is wrong with a reply, in words for somebody who has not seen the run: the kind of fault and the packet first, then what was got and
what was expected, and then what the connection asked for and was sent around it, in the order of time.

The kind is found by experiments (`trials`). What the judge finds lawful then is told, and if it is so in several ways, each of them. No
experiment is told as more than that.
"""
import struct

from expected import differing
from packets import is_notice
from rows import Rows
from steps import connect_words, misstep, misstep_words
from trials import Trials
from updates import Updates, counted, cut, event_text, in_words, seconds, text_of, trigger_of
from watches import Watches, kinds_of

MOST_WATCHES = 6


def paths_in(frame):
    """The paths that stand in a frame: every text that begins with a slash."""
    found = set()
    for at in range(8, len(frame) - 4):
        length = int.from_bytes(frame[at:at + 4], "big")
        if 0 < length <= 1024 and at + 4 + length <= len(frame) and frame[at + 4:at + 5] == b"/":
            found.add(frame[at + 4:at + 4 + length])
    return found


class Story:
    """The first wrong reply of a connection: the lines from `first` on, before `end`, are what was sent since the reply before it."""

    def __init__(self, verdict, number, first, end):
        self.verdict, self.number, self.first, self.end = verdict, number, first, end
        self.connection, self.updates = verdict.it.streams.connections[number], Updates(verdict.it)
        self.rows = Rows(verdict, self.updates, number)
        lines = verdict.lines
        self.sent = [at for at in verdict.sends(number) if first <= at < end]
        self.notices = [at for at in self.sent if is_notice(lines[at][1].data)]
        self.last = lines[self.sent[-1]][1]
        self.reply = None if is_notice(self.last.data) else self.last.data
        before = sum(1 for at in verdict.sends(number) if at < first and not is_notice(lines[at][1].data))
        self.index = before if self.reply is not None else None
        self.before = next((it.reply.zxid for it in reversed(self.connection.answers[:max(0, before - 1)])), 0)
        self.answer = self.connection.answer_of(self.index) if self.index else None
        self.zxid = self.answer.reply.zxid if self.answer else None
        self.head, self.request = 0, None
        if self.index and self.index < len(self.connection.frames):
            self.request = self.connection.requests[self.index]
            self.frame_item = verdict.it.streams.items[self.connection.places[self.index]]
            self.head = int(verdict.it.lines[verdict.it.places[self.connection.places[self.index]]][0].split(" ")[3])
        self.watches = Watches(self.connection, [lines[at] for at in self.rows.own if at < (self.sent[-1] if self.reply else end)])
        self.got = self.wanted = None
        self.more, self.involved, self.trials = [], set(), Trials(self)

    def words(self):
        it, headline = self.connection, self.headline()
        mark = self.rows.mark
        time = self.last.time if mark is None else self.verdict.lines[mark][1].time
        found = [f"connection {self.number}: {headline}", self.rows.who(time)]
        if self.got is not None:
            found += [f"  got       {self.got}", f"  expected  {self.wanted}"]
        found += [f"  {text}" for text in self.more]
        paths = paths_in(it.frames[self.index]) if self.request else set()
        paths.update(trigger_of(self.verdict.lines[at][1].data)[1] for at in self.notices)
        self.involved.update(self.near(paths))
        return "\n".join(found + self.rows.around(self.first, self.end, self.involved))

    def near(self, paths):
        """The updates of these paths that matter: the last one up to the reply, and those between it and what was known."""
        zxid = self.zxid if self.zxid in self.updates.by_number else self.before
        low, high = sorted((zxid, max(self.head, self.before)))
        mine = [it for it in self.updates.numbers if self.updates.paths(it) & paths and it <= high]
        return [it for it in mine if it <= low][-1:] + [it for it in mine if it > low][-3:]

    # ---- the kind of fault

    def named(self):
        """The reply, by its frame, its xid and what was asked."""
        return f"the reply to frame {self.index} ({self.updates.frame(self.number, self.index)})"

    def headline(self):
        wrong = misstep(self.connection)
        if self.index and wrong and wrong.index <= self.index:
            self.verdict.miscounted.add(self.number)
            headline, self.got, self.wanted, self.more = connect_words(self.connection, self.updates) or misstep_words(
                self.connection, wrong, self.updates)
            return headline
        if self.index == 0:
            return self.of_connect()
        if self.index is not None and (self.answer is None or self.request is None):
            return f"a packet of {len(self.reply)} bytes, at {seconds(self.last.time)}, is no reply to any frame"
        if self.index is None:
            surplus = self.trials.surplus()
            if surplus:
                return self.of_surplus(surplus)
            self.list_watches()
            return f"a notification after its last reply is wrong, at {seconds(self.last.time)}"
        return self.of_reply()

    def of_connect(self):
        found = connect_words(self.connection, self.updates)
        if found:
            self.verdict.miscounted.add(self.number)
            headline, self.got, self.wanted, self.more = found
            return headline
        return "the answer to its connect is wrong"

    def of_reply(self):
        same = self.trials.replaced(only_own=True)
        surplus, missing = ([], []) if same else (self.trials.surplus(), self.trials.missing())
        other = same or self.trials.replaced()
        if missing and not surplus and not same:
            return self.of_missing(missing, self.alternatives(other))
        if surplus and not missing and not same:
            return self.of_surplus(surplus, self.alternatives(other))
        names = self.compare(other) if other else []
        if "zxid" in names:
            self.verdict.miscounted.add(self.number)
        return self.of_zxid(names) or self.of_data(names, other)

    def of_zxid(self, names):
        """The headline of a reply whose zxid is wrong."""
        start = self.verdict.it.revisions.start
        if start is not None and self.updates.numbers and self.zxid < self.updates.numbers[0]:
            return f"{self.named()} is as of {self.zxid}, before the first update of the record, {self.updates.numbers[0]}"
        if self.zxid not in self.updates.by_number:
            return f"wrong zxid in {self.named()}: there is no update {self.zxid}"
        if names == ["zxid"]:
            return f"wrong zxid in {self.named()}"
        if self.zxid < self.before:
            return f"{self.named()} goes back: it is as of update {self.zxid}, and a reply before showed {self.before}"
        if self.answer.place in self.verdict.it.early:
            self.more += self.asked_later()
            return f"{self.named()} shows update {self.zxid} before that was asked for, or one before it"
        if self.answer.has_moment and self.zxid < self.head:
            known = max(self.known_before(), default=None)
            if known:
                time, who = self.updates.done_by(known)
                self.involved.update((self.zxid, known))
                self.more.append(f"update {known} was known when frame {self.index} came, at {seconds(self.frame_item.time)}: {who} at"
                                 f" {seconds(time)}")
                return (f"stale read: the reply to frame {self.index} (xid {self.request.xid}) is as of update {self.zxid}, and update {known}"
                        " was known before")
            return f"{self.named()} is as of update {self.zxid}, older than its frame: update {self.head} was done by then"
        return None

    def asked_later(self):
        """The last update that the reply shows and whose frame came after it, and why it is put to that frame."""
        causes, streams = self.verdict.it.causes, self.verdict.it.streams
        for number in reversed([it for it in self.updates.numbers if it <= self.zxid]):
            cause = self.updates.cause(number)
            if cause and streams.connections[cause.number].places[cause.index] > self.answer.place:
                self.involved.add(number)
                is_claimed = tuple(cause) in causes.claims.get(number, [])
                why = "its reply has that zxid, unless that is wrong" if is_claimed else "it does what that asks for"
                return [f"update {number} is put to frame {cause.index} of connection {cause.number}, which came later: {why}"]
        return []

    def known_before(self):
        """The updates that were known, to a client or by etcd's word, when the frame came, up to the head of the transcript then."""
        items = self.verdict.it.streams.items
        place = self.connection.places[self.index]
        for number in self.updates.numbers:
            shown = self.verdict.it.bounds[number].shown
            if self.zxid < number <= self.head and (shown is not None and shown < place
                                                    or self.updates.by_number[number].time <= items[place].time):
                yield number

    def of_data(self, names, other):
        if other:
            what = "wrong data" if names == ["data"] else f"wrong {', '.join(names[:4])}" if names else "a wrong body"
            does = next((each for each, its in self.verdict.it.causes.found.items() if its == (self.number, self.index)), None)
            if "error" in names and does:
                self.verdict.told.update(it for it in self.verdict.it.causes.notes if it.startswith(f"update {does} does what was refused"))
                return f"{what} in {self.named()}: update {does} does what that asks for"
            return f"{what} in {self.named()}"
        self.list_watches()
        return f"{self.named()} is not what the service gives at any moment between the two"

    # ---- what was found

    def in_place(self, text):
        """A packet in place of the reply, in words."""
        return in_words([self.verdict.lines[at][0] for at in self.rows.own if at < self.sent[-1]] + [text])[-1].split(" ", 2)[2]

    def compare(self, other):
        got = self.rows.words[self.sent[-1]]
        found = sorted((differing(got, self.in_place(it)) for it in other), key=lambda it: len(it[0]))
        names, self.got, wanted = found[0]
        if not names:
            self.got, wanted = cut(got), cut(self.in_place(other[0]))
        self.wanted = wanted
        self.more += [f"or        {wanted}" for _, _, wanted in found[1:] if wanted]
        return names

    def alternatives(self, other):
        got = self.rows.words[self.sent[-1]]
        return [f"the reply with {differing(got, self.in_place(it))[2]}" for it in other]

    def of_missing(self, groups, others):
        due = groups[0]
        self.got = f"the reply to frame {self.index} (xid {self.request.xid}, zxid {self.zxid}), at {seconds(self.last.time)}, " \
                   + (f"after {counted(len(self.notices), 'notification')}" if self.notices else "no notification before it")
        self.wanted = f"{self.due_text(due[0])}, before it" if len(due) == 1 else f"{len(due)} notifications before it, marked below"
        self.more += [f"or        {', '.join(map(self.due_text, it))}" for it in groups[1:]] + [f"or        {it}" for it in others]
        some, them = ("the notification", "it") if len(due) == 1 else ("all of the notifications", "them")
        self.more.append(f"with {some} the judge finds the reply lawful: the proxy did not send {them}, or the record lacks {them}")
        self.involved.update(it.number for it in due)
        self.rows.mark_missing(list(map(self.due_text, due)), self.sent[-1])
        self.rows.keep_frames(it.frame for it in due)
        if len(due) == 1:
            it = due[0]
            return (f"notification {event_text(it.event, it.path)} of update {it.number} is missing (watch set by frame {it.frame}),"
                    f" due before {seconds(self.last.time)}")
        told = ", ".join(event_text(it.event, it.path) for it in due)
        return f"{len(due)} notifications are missing, due before {seconds(self.last.time)}: {told}"

    @staticmethod
    def due_text(it):
        return f"{event_text(it.event, it.path)} (update {it.number}, watch set by frame {it.frame})"

    def of_surplus(self, groups, others=()):
        lines, group = self.verdict.lines, groups[0]
        at = group[0]
        event, path = trigger_of(lines[at][1].data)
        used = next((it for kind in kinds_of(event) for it in [self.trials.before_line(at).used.get((kind, path))] if it), None)
        is_twice = used and not self.trials.is_watched(at)
        self.rows.mark, when = at, seconds(lines[at][1].time)
        told = [event_text(*trigger_of(lines[it][1].data)) for it in group]
        self.got, self.wanted = f"{', '.join(told)} at {when}", "no such notification" if len(group) == 1 else "none of these"
        self.more += [f"or without {event_text(*trigger_of(lines[it][1].data))} at {seconds(lines[it][1].time)}" for it, *_ in groups[1:]]
        self.more += [f"or with {it}" for it in others]
        self.more.append(f"without {'it' if len(group) == 1 else 'them'} the judge finds the rest lawful"
                         + (": sent twice, or twice in the record" if is_twice else ""))
        if is_twice:
            self.rows.keep_frames([used.frame])
        if len(group) > 1:
            return f"{len(group)} notifications are of no watch that was left, from {when} on: {', '.join(told)}"
        if is_twice:
            return f"notification {told[0]} is sent twice, again at {when}: the watch of frame {used.frame} was used up at {seconds(used.time)}"
        if not self.trials.is_watched(at):
            return f"notification {told[0]} at {when} is of no watch that this connection had"
        return f"notification {told[0]} at {when} is one too many: no update up to then is to be told by it"

    def list_watches(self):
        """What no single change mends: the watches that are open, and what they were due."""
        found = list(self.watches.open.values())
        some = ", ".join(f"{it.kind} {text_of(it.path)} (frame {it.frame})" for it in found[:MOST_WATCHES])
        self.more.append("no single change that was tried makes it lawful")
        self.more.append(f"open watches: {some or 'none'}{f' and {len(found) - MOST_WATCHES} more' if len(found) > MOST_WATCHES else ''}")
        idle = [event_text(*trigger_of(self.verdict.lines[at][1].data)) for at in self.notices if not self.trials.is_watched(at)]
        if idle:
            self.more.append(f"sent, and of no watch: {', '.join(idle[:MOST_WATCHES])}")
        due = self.watches.due(self.updates, self.zxid or self.before)
        some = ", ".join(map(self.due_text, due[:MOST_WATCHES]))
        self.more.append(f"due and not sent: {some or 'nothing'}{f' and {len(due) - MOST_WATCHES} more' if len(due) > MOST_WATCHES else ''}")
        self.rows.keep_frames(it.frame for it in due)
