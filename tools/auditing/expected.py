"""What a reply should have been: packets that the service may have sent in place of one that is wrong, each tried by the judge, and how they
differ from what was sent.

Such a packet is the same one with another zxid, or what the tree as it was after some update gives to that request. The moments that are
tried are those between the frame and the reply. Nothing is said of what the judge does not find lawful.
"""
import re
import struct

from keys import Service
from packets import CHILDREN, CHILDREN2, EXISTS, GET, SET, Reader

NO_NODE, MOST_MOMENTS = -101, 8
NUMBERS = ("czxid", "mzxid", "ctime", "mtime", "version", "cversion", "aversion", "ephemeralOwner", "dataLength", "numChildren", "pzxid")
FIELDS = {"xid", "zxid", "data", "path", "children", "error", *NUMBERS}


def text(some):
    return struct.pack(">i", len(some)) + some


def state_after(transcript, zxid):
    """The service after an update."""
    service = Service()
    for key, (revision, put) in transcript.revisions.before.items():
        service.change(key, put, revision)
    for revision in transcript.all:
        if revision.number > zxid:
            break
        service.take(revision)
    return service


def stat_of(service, path):
    node = service.nodes[path]
    creates, children, pzxid = service.counts.get(path, (0, 0, node.czxid))
    return struct.pack(">qqqqiiiqiiq", node.czxid, node.mzxid, node.ctime, node.mtime, node.version, 2 * creates - children, 0, node.owner,
                       len(node.data), children, pzxid)


def body_of(service, request, frame):
    """The error and the body of the reply to a request of one path, as of this state; None if it is none of these requests."""
    try:
        path = Reader(frame, 8).buffer()
    except struct.error:
        return None
    if request.kind not in (GET, EXISTS, CHILDREN, CHILDREN2, SET):
        return None
    if path not in service.nodes:
        return NO_NODE, b""
    up = path.rstrip(b"/") + b"/"
    names = sorted(it[len(up):] for it in service.nodes if it.startswith(up) and it != path and b"/" not in it[len(up):])
    listed = struct.pack(">i", len(names)) + b"".join(text(it) for it in names)
    stat = stat_of(service, path)
    return 0, {GET: text(service.nodes[path].data) + stat, EXISTS: stat, SET: stat, CHILDREN: listed, CHILDREN2: listed + stat}[request.kind]


def packets(transcript, request, frame, reply, moments, likely):
    """What may be tried in place of a reply, that of its own zxid first, then those of likely moments, and the nearest; each once."""
    found, own = {}, struct.unpack_from(">q", reply, 4)[0]
    for zxid in sorted(moments, key=lambda it: (it != own, it not in likely, abs(it - own)))[:MOST_MOMENTS]:
        head = struct.pack(">iq", request.xid, zxid)
        body = body_of(state_after(transcript, zxid), request, frame)
        for it in ([head + struct.pack(">i", body[0]) + body[1]] if body else []) + [head + reply[12:]]:
            if it != reply:
                found[it] = zxid
    return list(found)


def fields(words):
    """The fields of a packet in words, by their names."""
    found, name = {}, None
    for word in re.findall(r'"(?:[^"\\]|\\.)*"|\S+', words):
        if word in FIELDS and not (name and not found[name] and name != "children"):
            name = word
            found[name] = ""
        elif name and word not in ("stat", "ok"):
            found[name] = f"{found[name]} {word}".strip()
    return found


def differing(got, wanted):
    """Only the fields that differ, of two packets in words: as they were got, and as they were expected."""
    mine, other = fields(got), fields(wanted)
    names = [it for it in [*mine, *(it for it in other if it not in mine)] if mine.get(it) != other.get(it)]
    if "error" in names:
        names = [it for it in names if it not in NUMBERS]

    def said(some):
        return ", ".join(f"{it} {some[it]}".strip() if it in some else f"{it} 0" if it in NUMBERS else f"no {it}" for it in names)
    return names, said(mine), said(other)
