#!/usr/bin/env bash
# Decides a getChildren of a node with 5,000, 10,000 and 20,000 children and a setData of 1,048,575 bytes, and goes through a
# setWatches of 1,000, 2,000 and 4,000 paths, on a view that has what they read. Prints the best of five runs of each, in seconds.
# Asserts nothing.
set -eu
here=$(cd "$(dirname "$0")/.." && pwd)
work=$(mktemp -d)
trap 'rm -rf "$work"' EXIT

(cd "$here/crates/ops_rows" && rt run -- time 1 >/dev/null)
program=$here/crates/ops_rows/out/ops_rows

best() { # best COUNT COLUMN: the least seconds in this column of five runs
  [ -e "$work/$1" ] || for _ in 1 2 3 4 5; do
    "$program" time "$1" | tail -n 1 >>"$work/$1"
  done
  awk -v column="$2" '
    NR == 1 || $column < least { least = $column }
    END { printf "%.4f s\n", least / 1000000 }' "$work/$1"
}

for count in 5000 10000 20000; do
  echo "getChildren of $count: $(best "$count" 1)"
done
echo "setData of 1,048,575 bytes: $(best 20000 2)"
for count in 1000 2000 4000; do
  echo "setWatches of $count: $(best "$count" 3)"
done
