"""The order of a transcript. The streams give the order of frames and packets; an update may have been made at any moment of some time,
and this module settles which.

An update comes after the frame that caused it, and after the update before it. It comes after each frame whose reply was read off a state
without it, since such a reply has a moment that is later than its frame. And it comes before each packet that shows it, and before each
frame that came once etcd had told of it. **Each update is put as early as the first kind of bounds allows.** Nothing that a lawful
transcript needs is lost by that: whatever else has to stand after an update may do so. So if some order that the record allows is lawful,
this one is.

If the bounds of an update contradict each other, no order is lawful. Then a frame that came when the update was known already does not
hold the update back, so that the judge finds the stale reply to that frame; the contradiction is kept for the words. But no update comes
before the frame that caused it: if a packet shows an update before anybody asked for it, the judge finds that packet. Such a packet, and
one that shows an update which etcd never had, says nothing of when any update was known.

A lapse stands between two updates, by its revision. Only the replies of the connection that its session is attached to hold it back.
"""
import bisect
from collections import namedtuple

from packets import SESSION_EXPIRED

# Of an update: after which item it stands (-1: before all), the first packet that shows it (a place, or None), and the frames, as their
# places, that came after it was known and were answered without it.
Bound = namedtuple("Bound", "place shown stale")


def asked_by(streams, revisions, causes):
    """By revision, the place of the last frame that caused it or an update before it."""
    found, last = {}, -1
    for revision in revisions:
        cause = causes.found.get(revision.number)
        if cause:
            last = max(last, streams.connections[cause.number].places[cause.index])
        found[revision.number] = last
    return found


def shown_by(streams, revisions, causes, is_whole):
    """Each packet that shows an update, as its zxid and its place, the zxids rising; and the places of those that show one too early."""
    found = []
    for it in streams.connections.values():
        found += [(answer.reply.zxid, answer.place) for answer in it.answers]
    for revision, cause in causes.found.items():
        it = streams.connections.get(cause.number)
        if it and cause.index == 0 and it.welcomed_at is not None:
            found.append((revision, it.welcomed_at))
    asked, numbers = asked_by(streams, revisions, causes), [it.number for it in revisions]
    early = set()
    for zxid, place in found:
        at = bisect.bisect_right(numbers, zxid)
        if at and (place < asked[numbers[at - 1]] or is_whole and zxid > numbers[-1]):
            early.add(place)
    return sorted(it for it in found if it[1] not in early), early


def held_by(streams):
    """Each frame whose reply has a moment, as the zxid of the reply and the frame's place, the zxids rising."""
    return sorted((answer.reply.zxid, it.places[answer.index]) for it in streams.connections.values() for answer in it.answers
                  if answer.has_moment and answer.index < len(it.places))


def bounds(streams, revisions, causes, is_whole):
    """The bound of each update and lapse, by its revision, and the places of packets that show an update too early."""
    shown, early = shown_by(streams, revisions, causes, is_whole)
    held = held_by(streams)
    frames = [place for place, item in enumerate(streams.items) if item.what == "frame"]
    times = [streams.items[place].time for place in frames]
    least, firsts = None, {}
    for revision in reversed(revisions):
        while shown and shown[-1][0] >= revision.number:
            place = shown.pop()[1]
            least = place if least is None else min(least, place)
        firsts[revision.number] = least
    found, last, before, at = {}, -1, [], 0
    for revision in revisions:
        number, kind, stale = revision.number, revision.kind(), []
        told = bisect.bisect_right(times, revision.time)
        caps = (firsts[number], frames[told] if told < len(frames) else None)
        cap = min((it for it in caps if it is not None), default=len(streams.items))
        if kind == "lapse":
            last = max([last] + [it for it in own_frames(streams, causes, revision) if it < cap])
        elif kind:
            while at < len(held) and held[at][0] < number:
                bisect.insort(before, held[at][1])
                at += 1
            end = bisect.bisect_left(before, cap)
            stale = before[end:]
            cause = causes.found.get(number)
            last = max([last, before[end - 1] if end else -1] + ([streams.connections[cause.number].places[cause.index]] if cause else []))
        found[number] = Bound(last, firsts[number], stale[:3])
    return found, early


def own_frames(streams, causes, revision):
    """The frames of the connection that a session was attached to when it lapsed, whose replies say that it had not."""
    at = max((number for number, it in causes.sessions.get(revision.session(), {}).items() if number < revision.number), default=None)
    it = at and streams.connections.get(causes.sessions[revision.session()][at])
    return [it.places[answer.index] for answer in it.answers if answer.has_moment and answer.reply.error != SESSION_EXPIRED
            and answer.reply.zxid < revision.number and answer.index < len(it.places)] if it else []
