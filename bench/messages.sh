#!/usr/bin/env bash
# Writes and reads answers with a value of 20, 1,400 and 780,000 bytes (texts of 236 bytes, 2 KB and 1 MB) by ev_json and by
# the same work in plain Rust: bench/messages.rs, which has the algorithms of Rust's serde_json, itoa and base64 written out by
# hand, since a machine without a network cannot fetch the crates. Both are built for the same processor. Prints the best of
# many short runs, taken by turns, and how many times as fast ev_json is. Of this it asserts nothing. Reading stands beside another
# figure of the kit too: its serde_json's parser, which builds a tree of values, and its base64's decoder alone.
# Then reads bodies of some 8,388,608 bytes that are hostile, and prints seconds and peak kilobytes of the whole program, which
# holds the body too. Fails if a body is refused for another reason, or a peak is above its bound.
# usage: bench/messages.sh [ASKS]    so many asks of 236 bytes in all, 1,000,000 if left out; fewer of the longer ones
set -eu
here=$(cd "$(dirname "$0")/.." && pwd)
asks=${1:-1000000}
work=$(mktemp -d)
trap 'rm -rf "$work"' EXIT

(cd "$here/crates/message_rows" && rt run -- time 20 1 >/dev/null)
program=$here/crates/message_rows/out/message_rows
rustc -O -C target-cpu=x86-64-v2 --edition 2021 -A dead_code -o "$work/plain" "$here/bench/messages.rs"

best() { # best FILE: the least microseconds of writing, of reading and of parsing alone in its lines
  awk '
    NR == 1 || $1 < writing { writing = $1 }
    NR == 1 || $2 < reading { reading = $2 }
    NR == 1 || $3 < parsing { parsing = $3 }
    END { print writing, reading, parsing + 0 }' "$1"
}

rounds=50
for row in "20 1" "1400 5" "780000 2000"; do
  read -r size share <<<"$row"
  count=$((asks / rounds / share))
  [ "$count" -gt 0 ] || count=1
  rm -f "$work/ours" "$work/theirs"
  # By turns, so that both meet the same moments of a busy machine.
  for _ in $(seq "$rounds"); do
    "$program" time "$size" "$count" | tail -n 1 >>"$work/ours"
    "$work/plain" "$size" "$count" | tail -n 1 >>"$work/theirs"
  done
  read -r writes reads parses <<<"$(best "$work/ours")"
  read -r plain_writes plain_reads _ <<<"$(best "$work/theirs")"
  awk -v s="$size" -v n="$count" -v a="$writes" -v b="$reads" -v c="$plain_writes" -v d="$plain_reads" -v e="$parses" 'BEGIN {
    printf "value of %6d bytes: write ev_json %8.2f us, rustc %8.2f, ratio %.2f; read %8.2f us, rustc %8.2f, ratio %.2f; the kit alone %8.2f, ratio %.2f\n", s, a / n, c / n, c / a, b / n, d / n, d / b, e / n, e / b
  }'
done

failed=0

hostile() { # hostile LABEL HEAD PIECE WANTED BOUND: refused for WANTED, at no more than so many kilobytes
  python3 - "$program" "$@" <<'P' || failed=1
import resource, subprocess, sys, time
program, label, head, piece, wanted, bound = sys.argv[1:]
start = time.time()
run = subprocess.run([program, "hostile", head, piece], stdout=subprocess.PIPE, text=True)
seconds = time.time() - start
peak = resource.getrusage(resource.RUSAGE_CHILDREN).ru_maxrss
said = run.stdout.strip()
good = run.returncode == 0 and said == wanted and peak <= int(bound)
print("8 MB, %-22s %-9s %6.2f s  %8d kB of %s%s" % (label, said, seconds, peak, bound, "" if good else "  FAILED"))
sys.exit(0 if good else 1)
P
}

hostile 'open brackets' '[' '[' 'not json' 65536
hostile 'zeros' '0' '0' 'not json' 65536
hostile 'a string without end' '"' 'a' 'not json' 65536
hostile 'small numbers' '[0' ',0' 'not json' 163840
hostile 'small objects' '[{"":0}' ',{"":0}' 'not json' 180224
hostile 'empty objects' '[{}' ',{}' 'not json' 196608
exit "$failed"
