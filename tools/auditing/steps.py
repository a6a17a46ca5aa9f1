"""Replies out of step. Replies are counted: the k-th answers frame k and has its xid. If one has another xid, a reply is missing before it,
or one is there twice, or just its xid is wrong. Which, is read off the xids of the replies after it. What is judged of that connection from
there on is about pairs that do not belong together, so nothing else is said of them. The same holds if the first packet of a connection is
no answer to its connect, gives no session, or names one that etcd never had.
"""
import struct

from keys import OWNED
from packets import NOTICE
from updates import counted, seconds


def misstep(it):
    """The first answer of a connection whose xid is not that of its frame."""
    return next((answer for answer in it.answers if not fits(it, [answer], 0)), None)


def connect_words(it, updates):
    """The same of the answer to its connect, as far as that can be seen without a judge; None if nothing is."""
    first = next((item for item in updates.it.streams.items if item.what == "send" and item.number == it.number), None)
    if first is None:
        return None
    xid, asked = int.from_bytes(first.data[:4], "big", signed=True), it.requests[1] if len(it.requests) > 1 else None
    if xid and asked and asked.xid == xid:
        got, more = f"a first packet with xid {xid}, as frame 1 has, at {seconds(first.time)}", "the proxy did not send it, or the record lacks it"
        return "no answer to its connect", got, "an answer to the connect", [more]
    if not it.welcome[0] and it.answers:
        got = f"no session at {seconds(first.time)}, and then {counted(len(it.answers), 'reply', 'replies')}"
        return "its connect was refused, and its frames were answered", got, "no replies, or a session", []
    if it.welcome[0] and it.welcome[0] not in sessions_of(updates.it) and not updates.it.revisions.notes:
        return "the answer to its connect names a session that etcd never had", f"session {it.welcome[0]:016x}, at {seconds(first.time)}", \
            "a session that etcd has", []
    return None


def sessions_of(transcript):
    """The sessions that etcd had before or during the record."""
    before = {int(key[5:], 16) for key in transcript.revisions.before if key.startswith(OWNED)}
    return before | {each.session() for each in transcript.all if each.kind() in ("session", "attach", "closed", "reaped", "lapse")}


def fits(it, answers, step):
    """Whether these replies have the xids of the frames so many later than those that they are counted to."""
    return all(0 < answer.index + step < len(it.requests) and it.requests[answer.index + step] is not None
               and it.requests[answer.index + step].xid == answer.reply.xid for answer in answers)


def misstep_words(it, wrong, updates):
    """The headline, what was got, what was expected, and what may be at fault."""
    index, xid = wrong.index, wrong.reply.xid
    item = updates.it.streams.items[wrong.place]
    is_asked = index < len(it.requests)
    due = f"frame {index} ({updates.frame(it.number, index)})" if is_asked else None
    rest = it.answers[index - 1:]
    got = f"at {seconds(item.time)} a reply with xid {xid}"
    wanted = f"a reply with xid {it.requests[index].xid}" if is_asked and it.requests[index] else "no reply: there is no further frame"
    if xid == NOTICE:
        zxid = struct.unpack_from(">q", item.data, 4)[0]
        return (f"a packet like a notification has zxid {zxid}, at {seconds(item.time)}", f"xid -1, zxid {zxid}", "zxid -1", [])
    first = next(each for each in updates.it.streams.items if each.what == "send" and each.number == it.number)
    if item.data == first.data:
        return "the answer to its connect comes a second time", got, wanted, ["sent twice, or twice in the record"]
    if rest[1:] and fits(it, rest[1:], 0):
        return f"the reply to {due} has a wrong xid", got, wanted, [f"those after it fit their frames"]
    if fits(it, rest, -1):
        fit = f"it fits frame {index - 1}, which was answered before" + (", and those after it fit the frames one earlier" if rest[1:] else "")
        return f"a reply to frame {index - 1} (xid {xid}) comes a second time", got, wanted, [fit + ": sent twice, or twice in the record"]
    if due and fits(it, rest[:1], 1):
        more = [f"it has the xid of frame {index + 1}" + (f", and those after it fit the frames one later"
                if rest[1:] and fits(it, rest, 1) else "") + ": the proxy did not send the reply, or the record lacks it"]
        return f"no reply to {due}" + ("" if fits(it, rest, 1) else " in its place"), got, wanted, more
    return f"the reply to {due} has another xid" if due else f"a reply with xid {xid} answers no frame", got, wanted, []


def unanswered(it, end):
    """The frames before a place among the items that have no reply at all, by the count."""
    return [index for index in range(len(it.answers) + 1, len(it.frames)) if it.places[index] < end]
