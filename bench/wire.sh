#!/usr/bin/env bash
# Cuts and reads a million frames of 176 bytes, and writes a million replies, by zk_wire and by the same work in plain Rust
# (`rustc -O`). Prints the best of five runs of each, and how many times as fast zk_wire is. Asserts nothing.
set -eu
here=$(cd "$(dirname "$0")/.." && pwd)
count=${1:-1000000}
work=$(mktemp -d)
trap 'rm -rf "$work"' EXIT

(cd "$here/crates/wire_rows" && rt run -- time 1 >/dev/null)
program=$here/crates/wire_rows/out/wire_rows
rustc -O --edition 2021 -A dead_code -o "$work/plain" "$here/bench/wire.rs"

best() { # best FILE: the least microseconds of reading and of writing in its lines
  awk '
    NR == 1 || $1 < reading { reading = $1 }
    NR == 1 || $2 < writing { writing = $2 }
    END { print reading, writing }' "$1"
}

# By turns, so that both meet the same moments of a busy machine.
for _ in 1 2 3 4 5; do
  "$program" time "$count" | tail -n 1 >>"$work/ours"
  "$work/plain" "$count" | tail -n 1 >>"$work/theirs"
done
read -r reads writes <<<"$(best "$work/ours")"
read -r plain_reads plain_writes <<<"$(best "$work/theirs")"
awk -v n="$count" -v a="$reads" -v b="$writes" -v c="$plain_reads" -v d="$plain_writes" 'BEGIN {
  printf "cut and read: zk_wire %.2f M frames/s, rustc %.2f, ratio %.2f\n", n / a, n / c, c / a
  printf "write:        zk_wire %.2f M replies/s, rustc %.2f, ratio %.2f\n", n / b, n / d, d / b
}'
