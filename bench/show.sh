#!/usr/bin/env bash
# How fast `zetcd show` is, and how much memory it takes: a stream of 95 MB of mixed requests, beside `xxd -p` of the same
# file. Prints the best of five runs of each in seconds, and the peak kilobytes; then a stream of 100,000,001 bytes. Fails if
# our peak is above its bound: a frame, a piece and the text of a piece are kept, and not the stream. Of time it asserts
# nothing. A peak is never below that of the Python that starts the program, some 14,000 kB.
set -eu
here=$(cd "$(dirname "$0")/.." && pwd)
. "$here/bench/program.sh"
command -v xxd >/dev/null || { echo "show.sh: xxd is not on the path" >&2; exit 1; }
work=$(mktemp -d)
trap 'rm -rf "$work"' EXIT

stream() { # stream BYTES: a connect and whole requests, then the front of a last one, together so many bytes
  python3 - "$1" "$work/stream" <<'P'
import random, struct, sys
size, name = int(sys.argv[1]), sys.argv[2]
draw = random.Random(7)

def packet(frame):
    return struct.pack(">i", len(frame)) + frame

def text(s):
    return struct.pack(">i", len(s)) + s

def head(xid, kind):
    return struct.pack(">ii", xid, kind)

acl = struct.pack(">ii", 1, 31) + text(b"world") + text(b"anyone")

def request(xid):
    path = text(b"/services/%03d/member%06d" % (draw.randrange(300), draw.randrange(10 ** 6)))
    kind = draw.randrange(10)
    data = text(draw.randbytes(draw.choice((0, 20, 100, 400, 4000))))
    if kind < 2:
        return head(xid, 1) + path + data + acl + struct.pack(">i", draw.randrange(4))
    if kind < 4:
        return head(xid, 4) + path + bytes([draw.randrange(2)])
    if kind < 6:
        return head(xid, 5) + path + data + struct.pack(">i", -1)
    if kind == 6:
        return head(xid, 12) + path + b"\1"
    if kind == 7:
        return head(xid, 2) + path + struct.pack(">i", draw.randrange(9))
    if kind == 8:
        part = struct.pack(">ibi", 13, 0, -1) + path + struct.pack(">i", 3)
        other = struct.pack(">ibi", 5, 0, -1) + path + data + struct.pack(">i", 3)
        return head(xid, 14) + part + other + struct.pack(">ibi", -1, 1, -1)
    return head(-2, 11)

connect = struct.pack(">iqiq", 0, 0, 30000, 0) + text(bytes(16)) + b"\0"
# A thousand different requests, over and over.
block = b"".join(packet(request(xid)) for xid in range(1, 1001))
with open(name, "wb") as out:
    out.write(packet(connect))
    left = size - 49
    while left > 0:
        out.write(block[:left])
        left -= min(left, len(block))
P
}

failed=0

measure() { # measure LABEL BOUND COMMAND..: the least seconds of five runs, and the peak, which may have so many kilobytes
  python3 - "$work/stream" "$@" <<'P' || failed=1
import resource, subprocess, sys, time
name, label, bound, command = sys.argv[1], sys.argv[2], int(sys.argv[3]), sys.argv[4:]
best = None
for _ in range(5):
    with open(name, "rb") as source:
        start = time.time()
        status = subprocess.run(command, stdin=source, stdout=subprocess.DEVNULL).returncode
        seconds = time.time() - start
    best = seconds if best is None else min(best, seconds)
peak = resource.getrusage(resource.RUSAGE_CHILDREN).ru_maxrss
print("%-24s status %d  %6.2f s  %8d kB of %d%s" % (label, status, best, peak, bound, "" if peak <= bound else "  FAILED"))
sys.exit(0 if peak <= bound else 1)
P
}

stream 95000000
measure "zetcd show" 20480 "$program" show
measure "xxd -p" 1000000 xxd -p
"$program" show <"$work/stream" | tail -n 1
stream 100000001
measure "one byte too long" 20480 "$program" show
"$program" show <"$work/stream" | tail -n 1
exit "$failed"
