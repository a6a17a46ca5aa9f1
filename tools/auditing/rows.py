"""The rows of a fault: what a connection asked for and was sent around it, in the order of time, and of the updates of others those that matter.

`>>` marks what is wrong or missing, and `..` rows that are left out. A row of an update stands at the time of the frame that asked for it. A
reply has the number of its frame, unless replies are out of step by then.
"""
import re

from packets import is_notice
from steps import misstep
from updates import cut, in_words, seconds

BEFORE, AFTER, MOST_ROWS = 3, 2, 24
SECRET = re.compile(r"( session [0-9a-f]{16})? [0-9a-f]{32}\b")  # passwords of sessions; the session itself is told once


class Rows:
    def __init__(self, verdict, updates, number):
        self.verdict, self.updates, self.number = verdict, updates, number
        self.own = [at for at, (text, _) in enumerate(verdict.lines) if text.split(" ", 2)[1:2] == [str(number)] and
                    text.split(" ", 1)[0] in ("open", "open1", "frame", "send", "close")]
        said = in_words_of(verdict, self.own)
        self.words = {at: said[place] for place, at in enumerate(self.own)}
        wrong = misstep(verdict.it.streams.connections[number])
        out_of_step = wrong.index if wrong else len(verdict.lines)
        self.index, self.mark, self.missing, self.frames, replies = {}, None, None, set(), -1
        for at in self.own:
            item = verdict.lines[at][1]
            if item.what == "frame":
                self.index[at] = ("frame", item.index)
            elif item.what == "send" and is_notice(item.data):
                self.index[at] = ("notified", None)
            elif item.what == "send":
                replies += 1
                self.index[at] = ("reply", replies if replies < out_of_step else None)
            else:
                self.index[at] = (item.what, None)

    def who(self, time):
        """Who the connection is, and when it was, as the logs have it."""
        it, day = self.verdict.it.streams.connections[self.number], self.verdict.clock.at(time)
        session = f", session {it.welcome[0]:016x}" if it.welcome and it.welcome[0] else ""
        return f"  who       {it.address} at proxy {it.proxy}{session}{f', the fault at {day}' if day else ''}"

    def mark_missing(self, told, at):
        """Notifications that should have been sent before this line."""
        self.missing = (told, at)

    def keep_frames(self, frames):
        self.frames.update(frames)

    def around(self, first, end, involved, wrong_update=None):
        """The rows from a line to another, with some before and after, the frames that are kept, and these updates."""
        inner = [at for at in self.own if first <= at < end]
        wrong = self.mark if self.mark is not None else (inner or self.own)[-1]
        asked = [it for it in self.own if self.index[wrong][0] == "reply" and self.index[it] == ("frame", self.index[wrong][1])]
        low = min(inner[:1] + [wrong] + asked)
        earlier, later = [it for it in self.own if it < low], [it for it in self.own if it >= end]
        kept = set(earlier[-BEFORE:] + [it for it in self.own if low <= it < end][-MOST_ROWS:] + later[:AFTER])
        kept.update(at for at, (what, index) in self.index.items() if what in ("frame", "reply") and index in self.frames and at < end)
        kept = [at for at in sorted(kept) if not self.index[at][0].startswith("open")]
        rows = []
        for at, then in zip(kept, kept[1:] + kept[-1:]):
            item = self.verdict.lines[at][1]
            place = self.place_of(at)
            if self.missing and self.missing[1] == at:
                rows += [(item.time, place, 0, ">>", "missing", it) for it in self.missing[0]]
            what, index = self.index[at]
            mark = ">>" if at == wrong and not self.missing and not wrong_update else "  "
            rows.append((item.time, place, 1, mark, what if index is None else f"{what} {index}", self.text(at, what, at == wrong)))
            if self.own.index(then) > self.own.index(at) + 1:
                rows.append((item.time, place, 2, "  ", "..", ""))
        own = {index for at, (what, index) in self.index.items() if at in kept and what == "frame"}
        for number in involved:
            cause = self.updates.cause(number)
            if wrong_update or not cause or cause.number != self.number or cause.index not in own:
                time, place = self.updates.place(number)
                mark = ">>" if number == wrong_update else "  "
                rows.append((time, place, 3 + number, mark, f"update {number}", self.updates.line(number)))
        return ["  around it:"] + [f"  {mark}{seconds(time) if text else '':>13}  {what:<9} {text}".rstrip() for time, _, _, mark, what, text
                                   in sorted(rows, key=order)]

    def place_of(self, at):
        return next(place for place, line in self.verdict.it.places.items() if self.verdict.it.lines[line] is self.verdict.lines[at])

    def text(self, at, what, is_whole):
        words = self.words[at]
        if what == "reply" and self.index[at][1] is None:
            data = self.verdict.lines[at][1].data
            return f"xid {int.from_bytes(data[:4], 'big', signed=True)} zxid {int.from_bytes(data[4:12], 'big', signed=True)}, {len(data)} bytes"
        words = SECRET.sub("", words)
        if what == "reply" and not is_whole and " multi" not in words:
            words = words.replace(" stat ", " stat .. ", 1).split(" stat .. ")[0]
        return words if is_whole else cut(words)


def order(row):
    return row[:3]


def in_words_of(verdict, own):
    """These lines in words, without what they have in front: what they are, and of which connection."""
    found = []
    for line, words in zip((verdict.lines[at][0] for at in own), in_words([verdict.lines[at][0] for at in own])):
        what = line.split(" ", 1)[0]
        front = {"frame": 4, "send": 2, "close": 2}.get(what, 2)
        parts = words.split(" ", front)
        found.append(parts[front].removeprefix("notification ") if len(parts) > front else "")
    return found
