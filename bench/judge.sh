#!/usr/bin/env bash
# How long a judgement takes, and how much memory: transcripts of N writes and their replies on 16 connections, and one read with a
# watch for each eight writes, whose notice is told later. Once the writes are of 64 nodes, so that the tree is small; once
# they are creates of N nodes below 16 others; and once, of these, each eighth is the first part of a transaction, of which the
# second part fails or does not in turn. Then 10,000 writes of 64 nodes on 16, 256 and 4,096 connections, once with those reads
# and once without any watch. Prints processor seconds and peak kilobytes, and fails if a transcript is not judged lawful or a
# peak is above its bound. Of time it asserts nothing.
#
# Then one connection that arms N watches, each by a request of its own and on a path of its own, while another connection writes
# to a node without a watch; at last every eighth path gets its node. And transcripts of some 10 and 100 million bytes, once of
# writes of 64 nodes and once of pings, whose lines are the shortest: of these the peak may be six times the length.
#
# ZETCD names another program to measure, and JUDGE_RUNS picks `writes`, `connections`, `watches` or `sizes` alone.
set -eu
here=$(cd "$(dirname "$0")/.." && pwd)
. "$here/bench/program.sh"
work=$(mktemp -d)
trap 'rm -rf "$work"' EXIT

transcript() { # transcript KIND N C: N writes, of `sets`, `quiets` (the same with no watch), `creates` or `multis`, on C connections;
               # or N `pings` on them; or N `watches` of the first connection, with a write of the second for each four
  python3 - "$@" <<'P'
import struct, sys
kind, writes, connections = sys.argv[1], int(sys.argv[2]), int(sys.argv[3])
NODES = 16                                       # below which the others are created

def text(s):
    return struct.pack(">i", len(s)) + s

def packet(body):
    return (struct.pack(">i", len(body)) + body).hex()

class Node:
    def __init__(self, data, zxid, now):
        self.data, self.czxid, self.mzxid, self.pzxid = data, zxid, zxid, zxid
        self.ctime = self.mtime = now
        self.version = self.creates = self.children = 0

    def stat(self):
        return struct.pack(">qqqqiiiqiiq", self.czxid, self.mzxid, self.ctime, self.mtime, self.version,
                           2 * self.creates - self.children, 0, 0, len(self.data), self.children, self.pzxid)

out = []
tree = {b"/": Node(b"", 2, 0)}
zxid, now = 2, 1000
watching = {}                                    # path: the connections with a data watch on it
queue = {c: [] for c in range(1, connections + 1)}
sent = {c: 0 for c in range(1, connections + 1)} # the index of the last frame
acl = struct.pack(">ii", 1, 31) + text(b"world") + text(b"anyone")

def frame(c, kind, body):
    sent[c] += 1
    out.append("frame %d %d %d %s" % (c, sent[c], zxid, (struct.pack(">ii", sent[c], kind) + body).hex()))

def update(c):
    global zxid, now
    zxid, now = zxid + 1, now + 1
    out.append("update %d asked %d %d %d" % (zxid, c, sent[c], now))

def fire(path, kind):
    for c in sorted(watching.pop(path, ())):
        queue[c].append(packet(struct.pack(">iqi", -1, -1, 0) + struct.pack(">ii", kind, 3) + text(path)))

def reply(c, body, code=0):
    for notice in queue[c]:
        out.append("send %d %s" % (c, notice))
    queue[c] = []
    out.append("send %d %s" % (c, packet(struct.pack(">iqi", sent[c], zxid, code) + body)))

def create(c, path):
    frame(c, 1, text(path) + text(b"x" * 32) + acl + struct.pack(">i", 0))
    update(c)
    made(path)
    reply(c, text(path))

def set_data(c, path, data):
    frame(c, 5, text(path) + text(data) + struct.pack(">i", -1))
    update(c)
    node = tree[path]
    node.data, node.version, node.mzxid, node.mtime = data, node.version + 1, zxid, now
    fire(path, 3)
    reply(c, node.stat())

def made(path):
    parent = tree[path.rpartition(b"/")[0] or b"/"]
    parent.creates, parent.children, parent.pzxid = parent.creates + 1, parent.children + 1, zxid
    tree[path] = Node(b"x" * 32, zxid, now)
    fire(path, 1)

def multi(c, path, version):
    """A create, and a check of the parent's version, which is 0: carried out, or refused as a whole with BadVersion."""
    parent = path.rpartition(b"/")[0]
    header = struct.pack(">iBi", 1, 0, -1) + text(path) + text(b"x" * 32) + acl + struct.pack(">i", 0)
    frame(c, 14, header + struct.pack(">iBi", 13, 0, -1) + text(parent) + struct.pack(">i", version) + struct.pack(">iBi", -1, 1, -1))
    if version == 0:
        update(c)
        made(path)
        reply(c, struct.pack(">iBi", 1, 0, 0) + text(path) + struct.pack(">iBi", 13, 0, 0) + struct.pack(">iBi", -1, 1, -1))
    else:
        reply(c, b"".join(struct.pack(">iBii", -1, 0, code, code) for code in (0, -103)) + struct.pack(">iBi", -1, 1, -1))

def get_data(c, path):
    frame(c, 4, text(path) + b"\1")
    watching.setdefault(path, set()).add(c)
    reply(c, text(tree[path].data) + tree[path].stat())

def exists(c, path):
    """An exists with a watch, of a node that is not there: NoNode."""
    frame(c, 3, text(path) + b"\1")
    watching.setdefault(path, set()).add(c)
    reply(c, b"", -101)

def ping(c):
    """A ping has the xid -2. Its answer has the zxid of the connection's last one with the tree: that of its session."""
    sent[c] += 1
    out.append("frame %d %d %d %s" % (c, sent[c], zxid, struct.pack(">ii", -2, 11).hex()))
    out.append("send %d %s" % (c, packet(struct.pack(">iqi", -2, c + 2, 0))))

out.append("update 2 begin 0")
for c in range(1, connections + 1):
    passwd = struct.pack(">i", c) * 4
    out.append("open %d 1 %016x %s" % (c, c, passwd.hex()))
    out.append("frame %d 0 %d %s" % (c, zxid, (struct.pack(">iqiq", 0, 0, 30000, 0) + text(bytes(16)) + b"\0").hex()))
    zxid += 1
    out.append("update %d session %016x %d" % (zxid, c, c))
    out.append("send %d %s" % (c, packet(struct.pack(">iiq", 0, 30000, c) + text(passwd) + b"\0")))

def turn(n):
    return n % connections + 1

def node(n):
    return b"/n%02d" % (n % NODES + 1)

for n in range(writes):
    c = turn(n)
    if kind == "pings":
        ping(c)
    elif kind == "watches":
        if n == 0:
            create(2, node(0))
        elif n % 4 == 0:
            set_data(2, node(0), b"%032d" % n)
        exists(1, b"/w%07d" % n)
    elif n < NODES:
        create(c, node(n))
    elif kind == "multis" and n % 8 == 3:
        multi(c, b"%s/%07d" % (node(n), n), n // 8 % 2)
    elif kind in ("creates", "multis") or n < 64:
        create(c, b"%s/%07d" % (node(n), n))
    else:
        set_data(c, node(n * 7), b"%032d" % n)
    if n % 8 == 7 and kind not in ("quiets", "pings", "watches"):
        get_data(turn(n * 5), node(n * 3) if n >= NODES else b"/")
if kind == "watches":
    for n in range(0, writes, 8):
        create(2, b"/w%07d" % n)
    exists(1, b"/last")
out.append("done")
print("\n".join(out))
P
}

failed=0

measure() { # measure LABEL BOUND: the peak may have so many kilobytes
  python3 - "$program" "$work/transcript" "$@" <<'P' || failed=1
import resource, subprocess, sys
program, transcript, label, bound = sys.argv[1:]
with open(transcript) as source:
    run = subprocess.run([program, "judge"], stdin=source, stdout=subprocess.PIPE)
used = resource.getrusage(resource.RUSAGE_CHILDREN)
seconds, peak = used.ru_utime + used.ru_stime, used.ru_maxrss
good = run.stdout == b"lawful\n" and peak <= int(bound)
print("%-24s %-24s %8.2f s  %9d kB of %s%s" % (label, run.stdout.decode().strip(), seconds, peak, bound, "" if good else "  FAILED"))
sys.exit(0 if good else 1)
P
}

if [ "${JUDGE_RUNS:-writes}" = writes ]; then
  for kind in sets creates multis; do
    for n in 1000 10000 50000; do
      transcript "$kind" "$n" 16 >"$work/transcript"
      measure "$n $kind" 400000
    done
  done
fi
if [ "${JUDGE_RUNS:-connections}" = connections ]; then
  for kind in sets quiets; do
    for c in 16 256 4096; do
      transcript "$kind" 10000 "$c" >"$work/transcript"
      measure "$kind on $c" 400000
    done
  done
fi
if [ "${JUDGE_RUNS:-watches}" = watches ]; then
  for n in 4000 16000 64000; do
    transcript watches "$n" 2 >"$work/transcript"
    measure "$n watches on one" 400000
  done
fi
if [ "${JUDGE_RUNS:-sizes}" = sizes ]; then
  for run in "sets 25000" "sets 245000" "pings 118000" "pings 1150000"; do
    transcript ${run% *} "${run#* }" 16 >"$work/transcript"
    size=$(stat -c %s "$work/transcript")
    measure "$size bytes of ${run% *}" $((size * 6 / 1024))
  done
fi
exit "$failed"
