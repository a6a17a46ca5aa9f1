"""`--check`: this program on recorded bytes, in a few seconds and with no service.

- The records of examples/audit, each with a file `expected`: the words of `judge`, its status, and texts that its output has. They were
  recorded from real proxies over a real etcd; the unlawful ones through a relay that spoiled one thing, which is what has to be found.
- Spoilings of a lawful one: each packet left out, sent twice, or with a zxid that is lower by one. None may pass for lawful, but for the
  last packet of a connection left out. Of some the words are known.
- A record that lacks a revision says so.
- A relay passes on what it is given, byte by byte, and writes just that; a follower tells what was compacted unread.

It needs the programs `zetcd` and `story`, which the gate builds.
"""
import contextlib
import http.server
import io
import json
import os
import random
import shutil
import socket
import struct
import tempfile
import threading
import time

from follow import Follower, text64
from records import Log, lines_of, to_hex
from relay import Relays
from transcript import Transcript
from verdict import ROOT, NoProgram, judge, program_of, verdict

EXAMPLES = os.path.join(ROOT, "examples", "audit")
WHOLE = "two-clients"  # the record that is spoiled


def an_example(folder):
    """What differs from what is expected of this record."""
    with open(os.path.join(folder, "expected"), encoding="utf-8") as it:
        words, status, *texts = it.read().splitlines()
    return differs(folder, "--others" in words.split(), int(status), texts)


def differs(folder, has_others, status, texts):
    said = io.StringIO()
    with contextlib.redirect_stdout(said):
        found = verdict(folder, has_others)
    wrong = [f"status {found}, not {status}"] if found != status else []
    return wrong + [f"its verdict does not say: {it}" for it in texts if it not in said.getvalue()]


def spoil(folder, room, change):
    """Copies a record, with the lines of its `streams` changed."""
    shutil.rmtree(room, ignore_errors=True)
    shutil.copytree(folder, room)
    with open(os.path.join(room, "streams"), encoding="ascii") as it:
        lines = it.readlines()
    with open(os.path.join(room, "streams"), "w", encoding="ascii") as it:
        it.writelines(change(lines))


def words_of_spoilings(room):
    """The words on spoilings whose kind is known: by the time of a piece, how it is changed, and what has to be said."""
    wrong = []
    for time, change, *texts in SPOILT:
        def change_it(lines, time=time, change=change):
            return [made for it in lines for made in (change(it) if it.startswith(f"{time} <") else [it])]
        spoil(os.path.join(EXAMPLES, WHOLE), room, change_it)
        wrong += [f"the piece of {time}: {it}" for it in differs(room, False, 8, texts)]
    return wrong


def spoilings(room):
    """The spoilings of a record that pass for lawful."""
    folder, wrong, count = os.path.join(EXAMPLES, WHOLE), [], 0
    packets = [(at, words[1]) for at, (_, words) in enumerate(lines_of(folder, "streams")) if words[0] == "<"]
    last = {number: at for at, number in packets}
    first = {number: at for at, number in reversed(packets)}
    for at, number in packets:
        kinds = {"is sent twice": lambda lines: lines[:at + 1] + lines[at:]}
        if at != last[number]:
            kinds["is left out"] = lambda lines: lines[:at] + lines[at + 1:]
        if at != first[number]:
            kinds["has a lower zxid"] = lambda lines: lines[:at] + [lowered(lines[at])] + lines[at + 1:]
        for kind, change in kinds.items():
            count += 1
            spoil(folder, room, change)
            if judge(Transcript(room).text())[0] == "lawful":
                wrong.append(f"the piece in line {at + 1} of the streams {kind}, and the record is lawful")
    return wrong if count > 40 else wrong + [f"only {count} spoilings"]


def lowered(line):
    """This line, with a zxid that is lower by one in the last packet of its piece."""
    *front, text = line.split()
    some, at = bytearray.fromhex(text), 0
    while at + 4 + struct.unpack_from(">i", some, at)[0] < len(some):
        at += 4 + struct.unpack_from(">i", some, at)[0]
    struct.pack_into(">q", some, at + 8, struct.unpack_from(">q", some, at + 8)[0] - 1)
    return " ".join([*front, some.hex()]) + "\n"


SPOILT = [
    (1034355, lambda line: [], "connection 1: no reply to frame 5 (xid 5 getData /w)\n", "expected  a reply with xid 5\n"),
    (729519, lambda line: [], "connection 2: 3 notifications are missing, due before 1.031160 s: NodeDataChanged /w, NodeCreated /other, Node",
     "missing   NodeCreated /other (update 8, watch set by frame 3)\n"),
    (729519, lambda line: [line] * 2, "connection 2: 3 notifications are of no watch that was left, from 0.729519 s on: NodeDataChanged /w, Node"),
    (1033804, lambda line: [lowered(line)], "connection 2: wrong zxid in the reply to frame 7 (xid 7 getData /w)\n", "expected  zxid 9\n"),
    (1036329, lambda line: [lowered(line)], "update 9 is not what frame 6 (xid 6 multi check /w", "expected  zxid 10 in the reply: update 10 does"),
    (319144, lambda line: [], "connection 2: no answer to its connect\n"),
    (370749, lambda line: [line.replace("ffffff9b", "ffffff92")], "connection 2: wrong error in the reply to frame 3", "expected  error NoNode\n"),
    (370749, lambda line: [line] * 2, "connection 2: a reply to frame 3 (xid 3) comes a second time\n"),
]


def a_gap(room):
    """A record without one of its updates says what it lacks, and the rest is lawful."""
    shutil.rmtree(room, ignore_errors=True)
    shutil.copytree(os.path.join(EXAMPLES, WHOLE), room)
    kept = [f"{at} {' '.join(words)}\n" for at, words in lines_of(room, "revisions") if words[:2] not in (["put", "7"], ["delete", "7"])]
    with open(os.path.join(room, "revisions"), "w", encoding="ascii") as it:
        it.writelines(kept)
    found = Transcript(room)
    if not any("comes next" in it for it in found.notes):
        return ["a gap is not told"]
    return [] if judge(found.text()) == ["lawful"] else [f"what is before a gap is {judge(found.text())}"]


def a_relay(room):
    """A relay passes on and writes what it is given."""
    os.makedirs(room, exist_ok=True)
    server = socket.create_server(("127.0.0.1", 0))
    listen = socket.create_server(("127.0.0.1", 0))
    address, since, over = listen.getsockname(), time.monotonic_ns(), []
    listen.close()
    log = Log(os.path.join(room, "streams"), lambda: (time.monotonic_ns() - since) // 1000)
    relays = Relays([(address, server.getsockname())], log)
    thread = threading.Thread(target=relays.run, args=(lambda: over,))
    thread.start()
    dice = random.Random(5)
    sent = [dice.randbytes(400_000), dice.randbytes(700_000)]
    near = socket.create_connection(address)
    far, _ = server.accept()
    heard = [bytearray(), bytearray()]

    def hear(at, stream):
        while piece := stream.recv(50_000):
            heard[at] += piece

    threads = [threading.Thread(target=hear, args=it) for it in ((0, far), (1, near))]
    threads += [threading.Thread(target=lambda: (near.sendall(sent[0]), near.shutdown(socket.SHUT_WR)))]
    threads += [threading.Thread(target=lambda: (far.sendall(sent[1]), far.shutdown(socket.SHUT_WR)))]
    for it in threads:
        it.start()
    for it in threads:
        it.join(20)
    over.append(1)
    thread.join(20)
    for it in (near, far, server):
        it.close()
    log.close()
    written = {"<": b"", ">": b""}
    for _, words in lines_of(room, "streams"):
        if words[0] in written:
            written[words[0]] += bytes.fromhex(words[2])
    whole = [bytes(it) for it in heard] == sent and [written[">"], written["<"]] == sent
    return [] if whole else ["a relay passed on, or wrote, something else than it was given"]


class Gateway(http.server.BaseHTTPRequestHandler):
    """A gateway that tells of revisions 2 and 3, ends the watch, and then has compacted what was before 9."""

    def do_POST(self):
        body = json.loads(self.rfile.read(int(self.headers["content-length"])))
        self.send_response(200)
        self.end_headers()
        if self.path == "/v3/kv/range":
            self.wfile.write(b'{"header":{"revision":"9"}}\n')
            return
        start = int(body["create_request"]["start_revision"])
        head = {"header": {"revision": "9"}}
        events = [{"kv": {"key": text64(b"zk/x"), "value": text64(b"%d" % it), "mod_revision": str(it), "create_revision": "2",
                          "version": str(it - 1)}} for it in (2, 3)]
        lines = {1: [{**head, "created": True}, {**head, "events": events}], 4: [{"header": {}, "canceled": True, "compact_revision": "9"}],
                 9: [{**head, "created": True}]}[start]
        for it in lines:
            self.wfile.write(json.dumps({"result": it}).encode() + b"\n")
        if start == 9:
            time.sleep(2)

    def log_message(self, *_):
        pass


def a_follower(room):
    """A follower goes on after a watch that ended, and tells what it missed."""
    os.makedirs(room, exist_ok=True)
    server = http.server.ThreadingHTTPServer(("127.0.0.1", 0), Gateway)
    server.daemon_threads = True
    threading.Thread(target=server.serve_forever, daemon=True).start()
    follower = Follower([f"127.0.0.1:{server.server_address[1]}"], Log(os.path.join(room, "revisions"), lambda: 0), threading.Lock())
    threading.Thread(target=follower.follow, daemon=True).start()
    end = time.monotonic() + 5
    while follower.next != 9 and time.monotonic() < end:
        time.sleep(0.02)
    time.sleep(0.3)
    missing = follower.finish()
    server.shutdown()
    told = [" ".join(words) for _, words in lines_of(room, "revisions") if words[0] != "said"]
    puts = [f"put {it} {to_hex(b'zk/x')} 3{it} 2 {it - 1} 0" for it in (2, 3)]
    wanted = ["at 9", "from 1", *puts, "from 4", "lost 4 8", "from 9", "over 9 0"]
    return [] if told == wanted and missing and "gap" in missing else [f"a follower told {told}, and of what is missing: {missing}"]


def check():
    since, count, wrong = time.monotonic(), 0, []
    try:
        program_of("zetcd", "ZETCD"), program_of("story", "STORY")
    except NoProgram as why:
        print(f"audit: {why}")
        return 1
    with tempfile.TemporaryDirectory(prefix="audit-") as room:
        checks = [(name, lambda name=name: an_example(os.path.join(EXAMPLES, name))) for name in sorted(os.listdir(EXAMPLES))]
        checks += [(it.__name__, lambda it=it: it(os.path.join(room, it.__name__))) for it in
                   (spoilings, words_of_spoilings, a_gap, a_relay, a_follower)]
        for name, run in checks:
            count += 1
            wrong += [f"{name}: {it}" for it in run()]
    for it in wrong:
        print(f"audit: {it}")
    print(f"audit: {count} checks, {len(wrong)} differ, {time.monotonic() - since:.1f} s")
    return 1 if wrong else 0
