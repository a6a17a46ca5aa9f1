"""The verdict on a record, in words that a stranger can look up in it.

The verdict is that of `zetcd judge`, which is proved, on the transcript. It names a line of the history, or the least connection whose
packets are not what the service gives it. This module finds which reply that is: the first for which the connection's packets up to it
are not lawful, by a search with some ten runs of the judge. What was sent to such a connection from that reply on is then left out, and the
rest is judged again, so that each connection at fault is told, in the order of time.

The judge reads at most 100,000,000 bytes. Whether a connection's packets are lawful depends on the history and on its own lines alone. So a longer
transcript is judged in several parts, each of which has the whole history and some of the connections: of any other, the packets are left
out, and a frame that caused no update becomes a ping.

What is wrong with that reply, or with that line, is put into words by `story` and `lines`. Of a lawful record the words say what it covers.
"""
import os
import re
import subprocess
import sys

from packets import is_notice
from steps import unanswered
from updates import Clock, counted

ROOT = os.path.dirname(os.path.dirname(os.path.dirname(os.path.realpath(__file__))))
MOST_FAULTS, MOST_BYTES = 10, 95_000_000
PING = "000000000000000b"


class NoProgram(Exception):
    """A program is not built."""


class NoVerdict(Exception):
    """The judge did not judge a transcript."""


def program_of(name, variable):
    wanted = [os.environ.get(variable), f"{ROOT}/crates/{name}/out/{name}", f"{ROOT}/out/native/{name}"]
    found = next((it for it in wanted if it and os.access(it, os.X_OK)), None)
    if found is None:
        raise NoProgram(f"there is no program `{name}`: build it by tools/prove {name} or tools/native {name}, or name one by {variable}")
    return found


def judge(text):
    """The words of the verdict on a transcript."""
    made = subprocess.run([program_of("zetcd", "ZETCD"), "judge"], input=text.encode(), capture_output=True, check=False)
    words = made.stdout.decode().split()
    if made.returncode not in (0, 3, 8) or not words:
        raise NoVerdict(f"the judge ended with status {made.returncode}: {made.stderr.decode().strip()}")
    if words[0] == "fault":
        raise NoVerdict(f"the judge cannot read line {words[1]} of a transcript of {len(text):,} bytes. It reads 100,000,000, and 2,200,000 of a"
                        " line: record for a shorter time, and without longer packets")
    return words


class Verdict:
    def __init__(self, transcript):
        self.it, self.lines, self.faults, self.dropped = transcript, list(transcript.lines), [], []
        self.clock, self.told = Clock(transcript.folder), set()
        self.miscounted = set()  # connections of which a reply is missing, or is there twice, or has a wrong zxid
        self.causes = {(it.number, it.index) for it in transcript.causes.found.values()}
        while len(self.faults) < MOST_FAULTS:
            words = self.judged()
            if words[0] != "unlawful" or words[1] != "connection":
                if words[0] != "lawful":
                    self.faults.append((0, self.of_line(words)))
                break
            number = int(words[2])
            if not self.mend(number):
                self.faults.append(self.of_connection(number))
        self.faults.sort(key=lambda it: it[0])

    def is_lawful(self):
        return not self.faults and not self.it.unasked

    # ---- parts of a transcript

    def judged(self):
        """The first verdict on a part that is not lawful; or that all of them are."""
        words = ["lawful"]
        for group in self.groups():
            words = judge(self.it.text(self.part(group) if group else self.lines))
            if words != ["lawful"]:
                break
        return words

    def groups(self):
        """The connections by the parts in which they are judged; one None for all of them, if they fit."""
        total = sum(len(text) + 1 for text, _ in self.lines)
        if total <= MOST_BYTES:
            return [None]
        sizes = {}
        for text, _ in self.lines:
            what, _, rest = text.partition(" ")
            if what in ("send", "frame"):
                number = rest[:rest.index(" ")]
                sizes[int(number)] = sizes.get(int(number), 0) + len(text)
        room = MOST_BYTES - sum(len(text) + 1 for text, _ in self.part(set()))
        groups, left = [], 0
        for number, size in sorted(sizes.items()):
            if not groups or size > left:
                groups.append(set())
                left = room
            groups[-1].add(number)
            left -= size
        return groups

    def part(self, group, end=None):
        """The lines, with the packets of these connections alone, up to a line, and with pings for most frames of the others."""
        found = []
        for at, line in enumerate(self.lines):
            what, _, rest = line[0].partition(" ")
            if what == "send":
                if int(rest[:rest.index(" ")]) in group and (end is None or at < end):
                    found.append(line)
            elif what == "frame":
                number, index, zxid, _ = rest.split(" ", 3)
                is_kept = int(number) in group or index == "0" or (int(number), int(index)) in self.causes or line[1] is None
                found.append(line if is_kept else (f"frame {number} {index} {zxid} {PING}", line[1]))
            else:
                found.append(line)
        return found

    def alone(self, number, end=None):
        """The lines with the packets of one connection alone, up to a line."""
        return self.part({number}, end)

    def is_wrong(self, number, lines):
        words = judge(self.it.text(lines))
        return words[:2] == ["unlawful", "connection"] and int(words[2]) == number

    def sends(self, number):
        return [at for at, (text, _) in enumerate(self.lines) if text.startswith(f"send {number} ")]

    def mend(self, number):
        """A stream that broke off may have carried the first of several notifications of one update, and not the others. The judge takes
        all or none. So of a connection that ended otherwise than by its close, up to three notifications at its end may be left out."""
        if self.it.streams.connections[number].cause() == "closed":
            return False
        sends, dropped = self.sends(number), []
        while sends and len(dropped) < 3 and is_notice(self.lines[sends[-1]][1].data):
            dropped.append(sends.pop())
            if not self.is_wrong(number, self.alone(number, dropped[-1])):
                self.lines = [it for at, it in enumerate(self.lines) if at not in dropped]
                self.dropped.append(f"the last {len(dropped)} notifications of connection {number} are left out: its stream ended among those"
                                    " of one update")
                return True
        return False

    def of_connection(self, number):
        """The time and the words of the first reply of this connection that is wrong; what comes after it is left out from now on."""
        sends = self.sends(number)
        ends = [place + 1 for place in sends if not is_notice(self.lines[place][1].data)] + [sends[-1] + 1]
        low, high = 0, len(ends) - 1
        while low < high:
            middle = (low + high) // 2
            if self.is_wrong(number, self.alone(number, ends[middle])):
                high = middle
            else:
                low = middle + 1
        first, end = (ends[low - 1] if low else 0), ends[low]
        from story import Story
        words = Story(self, number, first, end).words()
        time = self.lines[end - 1][1].time
        self.lines = [it for at, it in enumerate(self.lines) if not it[0].startswith(f"send {number} ") or at < first]
        return time, words

    def of_line(self, words):
        """The words of a verdict that names a line."""
        from lines import line_words
        return line_words(self, words[1], int(words[2]) - 1)

    def words(self):
        streams, it = self.it.streams, self.it
        replies = sum(len(each.answers) for each in streams.connections.values())
        notices = sum(1 for item in streams.items if item.what == "send" and is_notice(item.data))
        numbers = [each.number for each in it.all if each.kind() != "lapse"]
        counts = [counted(len(streams.connections), "connection"), counted(replies, "reply", "replies"),
                  counted(notices, "notification"), counted(len(numbers), "update")]
        zxids = f" (zxid {numbers[0]} to {numbers[-1]})" if len(numbers) > 1 else ""
        day = f" from {self.clock.at(0)}" if self.clock.at(0) else ""
        found = [f"{'lawful' if self.is_lawful() else 'unlawful'}: {', '.join(counts)}{zxids}, {streams.time / 1e6:.1f} s{day}"]
        if self.is_lawful():
            found.append(self.covered())
        found += [f"\n{text}" for _, text in self.faults]
        if it.unasked:
            some = ", ".join(map(str, sorted(it.unasked)[:10])) + (" .." if len(it.unasked) > 10 else "")
            found.append(f"\nnobody who was recorded asked for {counted(len(it.unasked), 'update')}: {some}. (If other clients do not go"
                         f" through the relays, judge with --others.){' It may follow from the fault above.' if self.faults else ''}")
        found += [f"note: {note}" for note in it.notes + [each for each in it.causes.notes if not self.is_told(each)] + self.dropped]
        return "\n".join(found)

    def is_told(self, note):
        """Whether a note on a cause is told otherwise, or comes of replies whose zxids or frames are told to be wrong."""
        return note in self.told or any(re.search(f" of connection {number}\\b", note) for number in self.miscounted)

    def covered(self):
        """What was judged: how many frames were answered, who was cut off, and what of."""
        all_of = self.it.streams.connections.values()
        open_ones = [each for each in all_of if each.frames]
        frames = sum(len(each.frames) for each in open_ones)
        left = sum(len(unanswered(each, len(self.it.streams.items))) + (each.welcomed_at is None) for each in open_ones)
        ends = [each.cause().split()[0] if each.is_closed else "open" for each in all_of]
        closed, cut, still = ends.count("closed"), sum(1 for each in ends if each not in ("closed", "open")), ends.count("open")
        others = len([it for it in self.it.causes.unasked if it >= self.it.revisions.first])
        found = f"all {counted(frames, 'frame')} were answered" if not left else f"{frames - left} of {counted(frames, 'frame')} were answered"
        found += f"; {counted(closed, 'connection')} ended by closeSession, {cut} cut off" + (f", {still} still open" if still else "")
        return f"judged: {found}" + (f"; {counted(others, 'update')} of clients that were not recorded" if others else "")


def verdict(folder, has_others):
    """Prints the verdict on a record, and gives the status."""
    from transcript import Transcript
    it = Transcript(folder, has_others)
    try:
        found = Verdict(it)
    except (NoProgram, NoVerdict) as wrong:
        print(f"audit: {wrong}", file=sys.stderr)
        return 1
    print(found.words())
    return 8 if not found.is_lawful() else 1 if it.notes else 0
