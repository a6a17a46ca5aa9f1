#!/usr/bin/env bash
# Drives a replay through a pipe: each next line of the script depends on what the lines before it led to. Two clients count on one
# node: a client reads the counter with its version and sets it at that version; at each third turn the other client does so in between,
# and the first is refused and reads again. Each reply has to come while the script is still open, within ten seconds. Then an
# impossible line ends the script. Fails if a line does not come, comes twice or is not the expected one, if the status is
# not 3, or if the whole output is not judged lawful. Prints how long a request takes from the script's line to the reply.
#
#     bench/drive.sh [TURNS]          ZETCD=PROGRAM: another program than the one that `./run` builds
set -eu
here=$(cd "$(dirname "$0")/.." && pwd)
. "$here/bench/program.sh"

python3 - "$program" "${1:-1000}" <<'P'
import select, struct, subprocess, sys, time

program, turns = sys.argv[1], int(sys.argv[2])
replay = subprocess.Popen([program, "replay"], stdin=subprocess.PIPE, stdout=subprocess.PIPE, bufsize=0)
came, rest, written = [], b"", 0


def fail(why):
    replay.kill()
    sys.exit("drive.sh: " + why)


def line():
    """The next line of the transcript, which has to come within ten seconds."""
    global rest
    while b"\n" not in rest:
        if not select.select([replay.stdout], [], [], 10)[0]:
            fail("no line came after %r" % came[-1:])
        more = replay.stdout.read(65536)
        if not more:
            fail("the output ended after %r" % came[-1:])
        rest += more
    one, rest = rest.split(b"\n", 1)
    came.append(one.decode())
    return came[-1].split(" ")


def write(*lines):
    global written
    written += len(lines)
    replay.stdin.write("".join(one + "\n" for one in lines).encode())


def text(s):
    return struct.pack(">i", len(s)) + s


def reply(client, xid, body):
    """Sends a frame, settles it, and gives what the client is sent: the error and the body."""
    write("frame %d %s" % (client, body.hex()), "settle %d" % client)
    while True:
        words = line()
        if words[0] == "close":
            fail("connection %s closed: %s" % (words[1], " ".join(words[2:])))
        if words[0] == "send":
            break
    packet = bytes.fromhex(words[2])
    if words[1] != str(client) or struct.unpack(">i", packet[4:8])[0] != xid:
        fail("another reply: %s" % " ".join(words))
    return struct.unpack(">i", packet[16:20])[0], packet[20:]


def get(client, xid):
    """The counter and its version."""
    error, body = reply(client, xid, struct.pack(">ii", xid, 4) + text(b"/count") + b"\0")
    size = struct.unpack(">i", body[:4])[0]
    return int(body[4 : 4 + size]), struct.unpack(">i", body[36 + size : 40 + size])[0]


def put(client, xid, count, version):
    """The error of setting the counter at this version."""
    return reply(client, xid, struct.pack(">ii", xid, 5) + text(b"/count") + text(b"%d" % count) + struct.pack(">i", version))[0]


if line() != ["update", "2", "begin", "0"]:
    fail("another first line: %s" % came[0])
connect = bytes(12) + struct.pack(">i", 30000) + bytes(8) + text(bytes(16)) + b"\0"
for client in 1, 2:
    write("open %d %d %016x %s" % (client, client, client, "aa" * 16))
    write("frame %d %s" % (client, connect.hex()), "settle %d" % client)
    while line()[0] != "send":
        pass
acl = struct.pack(">ii", 1, 31) + text(b"world") + text(b"anyone")
if reply(1, 1, struct.pack(">ii", 1, 1) + text(b"/count") + text(b"0") + acl + struct.pack(">i", 0))[0] != 0:
    fail("the counter was not created")

xid, asked, refused, start = 1, 0, 0, time.time()
for turn in range(turns):
    client, disturbed = 1 + turn % 2, False
    while True:
        count, version = get(client, xid + 1)
        xid, asked = xid + 2, asked + 2
        if turn % 3 == 0 and not disturbed:
            put(3 - client, xid, count, version)
            xid, asked, refused, disturbed = xid + 1, asked + 1, refused + 1, True
        error = put(client, xid, count + 1, version)
        if error == 0:
            break
        if error != -103:
            fail("error %d" % error)
seconds = time.time() - start
if get(1, xid + 1) != (turns, turns + refused):
    fail("the counter is %d at version %d" % get(1, xid + 2))
write("exec 9")
if line() != ["fault", str(written), "no", "such", "connection"]:
    fail("another last line: %s" % came[-1])
if rest or replay.stdout.read(1):
    fail("something stands after the last line")
replay.stdin.close()
if replay.wait() != 3:
    fail("status %d" % replay.returncode)
judged = subprocess.run([program, "judge"], input="".join(one + "\n" for one in came).encode(), stdout=subprocess.PIPE)
if judged.stdout != b"lawful\n":
    fail("the transcript is judged %r" % judged.stdout)
print("%d turns, %d of them refused once: %d requests, %.0f microseconds each" % (turns, refused, asked, seconds / asked * 1e6))
P
