"""Updates, packets and times in words, each as short as can be looked up again in the record.

Frames, packets and updates are put into words by the program `story` (docs/FORMATS.md). An update was done at some moment between the frame
that asked for it and the first that showed it: a packet, or etcd's own word of it. `done by` is the earlier of these two.
"""
import datetime
import os
import subprocess

from keys import CHANGED, CHILDREN, CREATED, DELETED
from packets import Reader

EVENTS = {CREATED: "NodeCreated", DELETED: "NodeDeleted", CHANGED: "NodeDataChanged", CHILDREN: "NodeChildrenChanged"}
MOST_WORDS = 160


def in_words(lines):
    """These lines of a transcript, each in words; as they are if that program is not built."""
    from verdict import NoProgram, program_of
    try:
        text = "".join(f"{it}\n" for it in lines).encode()
        made = subprocess.run([program_of("story", "STORY"), "words"], input=text, capture_output=True, check=False)
    except NoProgram:
        return lines
    found = made.stdout.decode(errors="backslashreplace").splitlines()
    return found if len(found) == len(lines) else lines


def seconds(time):
    return f"{time / 1e6:.6f} s"


def text_of(path):
    return path.decode(errors="backslashreplace")


def cut(text):
    return text if len(text) <= MOST_WORDS else text[:MOST_WORDS] + " .."


def counted(count, noun, many=None):
    return f"{count} {noun if count == 1 else many or noun + 's'}"


def event_text(event, path):
    return f"{EVENTS.get(event, event)} {text_of(path)}"


def trigger_of(packet):
    """What a notification tells: what happened, and the path."""
    it = Reader(packet, 16)
    event, _ = it.take("ii")
    return event, it.buffer()


class Clock:
    """The time of day of a record, from its file `about`."""

    def __init__(self, folder):
        self.began = None
        try:
            with open(os.path.join(folder, "about"), encoding="utf-8") as it:
                since, _day, _time, zone = it.readline().removeprefix("began ").replace(",", "").split()
            zone = datetime.datetime.strptime(zone, "%z").tzinfo
            self.began = datetime.datetime.fromtimestamp(float(since), zone)
        except (OSError, ValueError):
            pass

    def at(self, time):
        """The time of day so many microseconds after the record began, or nothing."""
        if self.began is None:
            return ""
        it = self.began + datetime.timedelta(microseconds=time)
        return f"{it:%Y-%m-%d %H:%M:%S}.{it.microsecond // 1000:03d} {it:%z}"


class Updates:
    """The updates of a transcript, in words."""

    def __init__(self, transcript):
        self.it = transcript
        self.by_number = {it.number: it for it in transcript.all if it.kind() != "lapse"}
        self.numbers, self.told = sorted(self.by_number), None

    def told_of(self, path):
        """What the updates told of a path: their numbers and events, in order. All paths are gone through once."""
        if self.told is None:
            self.told = {}
            for number in self.numbers:
                for event, each in self.by_number[number].triggers():
                    self.told.setdefault(each, []).append((number, event))
        return self.told.get(path, [])

    def paths(self, number):
        """The paths that an update touches."""
        return {path for _, path in self.by_number[number].triggers()}

    def cause(self, number):
        return self.it.causes.found.get(number)

    def frame(self, number, index):
        """A frame of a connection, in words."""
        streams = self.it.streams
        places = streams.connections[number].places
        lines = [self.it.lines[self.it.places[it]][0] for it in dict.fromkeys([places[0], places[index]])]
        words = in_words([f"open {number} 0 {1:016x} {'0' * 32}", *lines])[-1].split(" ", 4)
        return cut(words[4])

    def place(self, number):
        """The time of the frame that asked for an update, or when etcd told of it, and its place among the items."""
        cause, items = self.cause(number), self.it.streams.items
        if cause:
            place = self.it.streams.connections[cause.number].places[cause.index]
            return items[place].time, place
        time = self.by_number[number].time
        return time, self.it.bounds[number].place

    def done_by(self, number):
        """The first moment at which an update was surely done, and who knew it then."""
        shown, told = self.it.bounds[number].shown, self.by_number[number].time
        if shown is not None and self.it.streams.items[shown].time <= told:
            item = self.it.streams.items[shown]
            return item.time, f"connection {item.number} was shown it"
        return told, "etcd told of it"

    def line(self, number):
        """What an update did, who asked for it, by when it was done, and what it told watches."""
        revision, cause = self.by_number[number], self.cause(number)
        asked = f"{self.frame(*cause)} (frame {cause.index} of connection {cause.number})" if cause else f"{revision.kind()}, of nobody recorded"
        told = [event_text(*it) for it in revision.triggers()]
        tells = f"; tells {', '.join(told[:4])}{' ..' if len(told) > 4 else ''}" if told else ""
        return f"{asked}, done by {seconds(self.done_by(number)[0])}{tells}"
