#!/usr/bin/env bash
# Publishes entries to 1, 8 and 64 readers, through a hub and through a ring under one lock, in the same run: `hub.sh COUNT`
# prints for each how many entries a second were published, and how many reads a second all readers made. The best of
# three runs. Asserts nothing.
set -eu
here=$(cd "$(dirname "$0")/.." && pwd)
count=${1:-100000}
work=$(mktemp -d)
trap 'rm -rf "$work"' EXIT

(cd "$here/crates/hub_rows" && rt run -- time 1 >/dev/null)
program=$here/crates/hub_rows/out/hub_rows

# A line of the program: NAME READERS COUNT PUBLISHED ENDED READS TAKEN, the third and fourth number in microseconds.
for _ in 1 2 3; do
  "$program" time "$count" >>"$work/runs"
done
awk '
  { key = $1 " " $2; rate = $3 / ($4 + 1); reads = $6 / ($5 + 1)
    if (!(key in best)) { order[++keys] = key }
    if (rate > best[key]) { best[key] = rate }
    if (reads > most[key]) { most[key] = reads } }
  END {
    for (i = 1; i <= keys; i++) {
      split(order[i], part, " ")
      printf "%-4s %2d readers: %6.3f M entries/s published, %7.3f M reads/s\n", part[1], part[2], best[order[i]], most[order[i]]
    } }' "$work/runs"
