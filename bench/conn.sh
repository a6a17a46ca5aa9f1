#!/usr/bin/env bash
# Serves pings and then getDatas, which come together, to one connection over a store in memory, and replays the same frames in a
# world, which also reads a script and writes a transcript. `conn.sh COUNT` (100,000 if it is left out) prints how many thousand
# frames a second each took, the best of three runs. Asserts nothing.
set -eu
here=$(cd "$(dirname "$0")/.." && pwd)
count=${1:-100000}
work=$(mktemp -d)
trap 'rm -rf "$work"' EXIT

(cd "$here/crates/conn_rows" && rt run -- time 1 >/dev/null)
program=$here/crates/conn_rows/out/conn_rows
world=$here/crates/zetcd/out/zetcd
[ -x "$world" ] || "$here/run" replay </dev/null >/dev/null

script() { # script FRAME: a connect, a create of /a, and this frame so many times, each settled
  echo "open 1 1 0000000000000011 aaaaaaaaaaaaaaaaaaaaaaaaaaaaaaaa"
  echo "frame 1 000000000000000000000000000075300000000000000000000000100000000000000000000000000000000000"
  echo "settle 1"
  echo "frame 1 0000000100000001000000022f610000000178000000010000001f00000005776f726c6400000006616e796f6e6500000000"
  echo "settle 1"
  yes "frame 1 $1
settle 1" | head -n $((2 * count))
}

script fffffffe0000000b >"$work/pings"
script 0000000200000004000000022f6100 >"$work/getDatas"
for _ in 1 2 3; do
  "$program" time "$count" | awk '{ print "connection", $1, $3 }' >>"$work/runs"
  for kind in pings getDatas; do
    python3 - "$world" "$work/$kind" "$kind" <<'P' >>"$work/runs"
import subprocess, sys, time
program, script, kind = sys.argv[1:]
with open(script, "rb") as lines:
    start = time.time()
    subprocess.run([program, "replay"], stdin=lines, stdout=subprocess.DEVNULL, check=True)
print("world", kind, int((time.time() - start) * 1e6))
P
  done
done
awk -v n="$count" '
  { key = $1 " " $2
    if (!(key in best)) { order[++keys] = key }
    if (!(key in best) || $3 < best[key]) { best[key] = $3 } }
  END {
    for (i = 1; i <= keys; i++) {
      split(order[i], part, " ")
      printf "%-10s %-8s %7.1f thousand a second\n", part[1], part[2], 1000 * n / (best[order[i]] + 1)
    } }' "$work/runs"
