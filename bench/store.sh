#!/usr/bin/env bash
# How long the etcd in memory takes: N transactions that put a key each, N that read one key each, the events of the later half, and
# one range of all keys at the revision that had half of them. `store.sh N..` prints the seconds of each, and those of the 2 N
# transactions and the range together; without a number those of 25,000, 50,000 and 100,000 keys. Fails if a call met another
# number of keys, and if 100,000 keys or fewer take more than LIMIT seconds together: 3, if nothing else is named.
#
# STORE_PROGRAM names another program to measure.
set -eu
here=$(cd "$(dirname "$0")/.." && pwd)
program=${STORE_PROGRAM:-$here/crates/store_rows/out/store_rows}
[ -x "$program" ] || (cd "$here/crates/store_rows" && rt run >/dev/null)
limit=${LIMIT:-3}
[ $# -gt 0 ] || set -- 25000 50000 100000

# A line of the program: NAME KEYS MICROSECONDS.
for count; do
  "$program" time "$count" | awk -v n="$count" -v limit="$limit" '
    { wanted = $1 == "range" || $1 == "events" ? int(n / 2) : n
      if ($1 == "events") wanted = n - wanted
      printf "%-7s %7d keys: %9.3f s\n", $1, $2, $3 / 1000000
      if ($1 != "events") together += $3 / 1000000
      if ($2 != wanted) { print "  FAILED: " wanted " keys were wanted"; failed = 1 } }
    END {
      printf "%-7s %7d transactions and the range: %9.3f s\n", "all", 2 * n, together
      if (n <= 100000 && together > limit) { print "  FAILED: more than " limit " s"; failed = 1 }
      exit failed }'
done
