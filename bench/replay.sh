#!/usr/bin/env bash
# How long a replay takes, and how much memory: N settled requests (half of them creates, half of them reads) on 1, 16 and 64
# connections, N setDatas of one path, each planned on a kept view, one setWatches of N exist paths of absent nodes, one frame that
# comes a byte a line, transcripts of some 10 and 100 million bytes, once of setDatas of 64 nodes and once of pings, and scripts of
# tick lines, which show that reading a script is linear and keeps one line. Prints processor seconds and peak kilobytes, and fails
# if a peak is above its bound or a status is another one. Of time it asserts nothing. A peak is never below that of the Python
# that starts the program, some 14,000 kB.
#
# ZETCD names another program to measure, and REPLAY_RUNS picks `requests`, `sets`, `watches`, `pieces`, `sizes` or `ticks`
# alone.
set -eu
here=$(cd "$(dirname "$0")/.." && pwd)
. "$here/bench/program.sh"
work=$(mktemp -d)
trap 'rm -rf "$work"' EXIT

requests() { # requests N CONNECTIONS: a script of N requests, each settled, that go round the connections
  python3 - "$1" "$2" <<'P'
import sys
n, connections = int(sys.argv[1]), int(sys.argv[2])
acl = "00000001" "0000001f" "00000005" "776f726c64" "00000006" "616e796f6e65"
connect = "00000000" + "00" * 8 + "00007530" + "00" * 8 + "00000010" + "00" * 16 + "00"
for c in range(1, connections + 1):
    print("open %d 1 %016x %s" % (c, c, "aa" * 16))
    print("frame %d %s" % (c, connect))
    print("settle %d" % c)
for i in range(n):
    c, path = 1 + i // 2 % connections, b"/n%05d" % (i // 2)
    p = "%08x" % len(path) + path.hex()
    if i % 2 == 0:
        print("frame %d %08x00000001%s0000000178%s00000000" % (c, i + 1, p, acl))
    else:
        print("frame %d %08x00000004%s00" % (c, i + 1, p))
    print("settle %d" % c)
P
}

sets() { # sets N: a script of a create and N setDatas of its path, each settled
  requests 1 1
  python3 - "$1" <<'P'
import sys
for i in range(int(sys.argv[1])):
    print("frame 1 %08x00000005000000072f6e3030303030000000017%xffffffff" % (i + 2, i % 10))
    print("settle 1")
P
}

watches() { # watches N: a script of one setWatches with N exist paths of 20 bytes
  python3 - "$1" <<'P'
import sys
n = int(sys.argv[1])
connect = "00000000" + "00" * 8 + "00007530" + "00" * 8 + "00000010" + "00" * 16 + "00"
paths = "".join("00000014" + (b"/n%018d" % i).hex() for i in range(n))
print("open 1 1 0000000000000011 " + "aa" * 16)
print("frame 1 " + connect)
print("settle 1")
print("frame 1 fffffff800000065" + "00" * 8 + "00000000" + "%08x" % n + paths + "00000000")
print("settle 1")
P
}

pieces() { # pieces BYTES: a script of one create of so many bytes, each of which comes on a line of its own
  python3 - "$1" <<'P'
import sys
acl = "00000001" "0000001f" "00000005" "776f726c64" "00000006" "616e796f6e65"
connect = "00000000" + "00" * 8 + "00007530" + "00" * 8 + "00000010" + "00" * 16 + "00"
size = int(sys.argv[1]) - 55                     # without the length, the header, the path, the ACL and the flags
body = bytes.fromhex("0000000100000001" "00000003" "2f6263" + "%08x" % size + "78" * size + acl + "00000000")
print("open 1 1 0000000000000011 " + "aa" * 16)
print("frame 1 " + connect)
print("settle 1")
for byte in len(body).to_bytes(4, "big") + body:
    print("bytes 1 %02x" % byte)
print("settle 1")
P
}

sized() { # sized KIND N: a script of N `sets` of 64 nodes, or N `pings`, on 16 connections, each settled
  requests 128 16
  python3 - "$@" <<'P'
import sys
kind, n = sys.argv[1], int(sys.argv[2])
for i in range(n):
    c = i % 16 + 1
    if kind == "pings":
        print("frame %d fffffffe0000000b" % c)
    else:
        path = b"/n%05d" % (i * 7 % 64)
        print("frame %d %08x00000005%08x%s00000020%sffffffff" % (c, i + 1000, len(path), path.hex(), (b"%032d" % i).hex()))
    print("settle %d" % c)
P
}

ticks() { # ticks BYTES: tick lines of together so many bytes, a multiple of 7
  python3 - "$1" <<'P'
import sys
block = "tick 1\n" * 100000
n = int(sys.argv[1])
while n >= len(block):
    sys.stdout.write(block)
    n -= len(block)
sys.stdout.write("tick 1\n" * (n // 7))
P
}

failed=0

measure() { # measure LABEL SCRIPT STATUS BOUND: the peak may have so many kilobytes
  python3 - "$program" "$@" <<'P' || failed=1
import resource, subprocess, sys
program, label, script, wanted, bound = sys.argv[1:]
with open(script) as source, open(script + ".out", "w") as sink:
    status = subprocess.run([program, "replay"], stdin=source, stdout=sink).returncode
used = resource.getrusage(resource.RUSAGE_CHILDREN)
seconds, peak = used.ru_utime + used.ru_stime, used.ru_maxrss
good = status == int(wanted) and peak <= int(bound)
print("%-28s status %d  %8.2f s  %9d kB of %s%s" % (label, status, seconds, peak, bound, "" if good else "  FAILED"))
sys.exit(0 if good else 1)
P
}

if [ "${REPLAY_RUNS:-requests}" = requests ]; then
  for connections in 1 16; do
    for n in 4000 8000 16000; do
      requests "$n" "$connections" >"$work/script"
      measure "$n requests on $connections" "$work/script" 0 65536
    done
  done
  for n in 8000 32000 128000; do
    requests "$n" 64 >"$work/script"
    measure "$n requests on 64" "$work/script" 0 262144
  done
fi
if [ "${REPLAY_RUNS:-sets}" = sets ]; then
  for n in 1000 2000 4000; do
    sets "$n" >"$work/script"
    measure "$n setDatas of one path" "$work/script" 0 65536
  done
fi
if [ "${REPLAY_RUNS:-watches}" = watches ]; then
  for n in 2500 10000 40000; do
    watches "$n" >"$work/script"
    measure "a setWatches of $n paths" "$work/script" 0 262144
  done
fi
if [ "${REPLAY_RUNS:-pieces}" = pieces ]; then
  for n in 40000 80000 160000; do
    pieces "$n" >"$work/script"
    measure "$n bytes, one a line" "$work/script" 0 65536
  done
fi
if [ "${REPLAY_RUNS:-sizes}" = sizes ]; then
  for run in "sets 25000" "sets 250000" "pings 122000" "pings 1220000"; do
    sized ${run% *} "${run#* }" >"$work/script"
    measure "${run#* } ${run% *}" "$work/script" 0 1048576
    echo "  $(stat -c %s "$work/script") bytes of script, $(stat -c %s "$work/script.out") of transcript"
  done
fi
[ "${REPLAY_RUNS:-ticks}" = ticks ] || exit "$failed"
for n in 10000000 50000000; do
  ticks "$n" >"$work/script"
  measure "$n bytes of ticks" "$work/script" 0 20480
done
# the longest script ends with status 0, and one byte more with status 3
ticks 99999984 >"$work/script"
printf 'tick 10\ntick 10\n' >>"$work/script"
measure "100000000 bytes of ticks" "$work/script" 0 20480
printf 't' >>"$work/script"
measure "100000001 bytes" "$work/script" 3 20480
exit "$failed"
