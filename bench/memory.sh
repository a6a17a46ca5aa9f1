#!/usr/bin/env bash
# Refuses each allocation of a run in turn, one in each run, and says how the runs end. Of `replay`, `show` and `judge`, on each worked
# example, and of a small `stress`: with status 7, after a front of what is written otherwise, or as if nothing had been refused, where
# the memory was not needed. Of one connection over streams in memory, and of a hub: as memory ran out. Of `zetcd etcd`, with seven
# asks, and `zetcd serve`, with two ZooKeeper clients over a `zetcd etcd` that lacks none: the connection is closed or the server ends,
# every answer that came is right, the store has all of each transaction or nothing of it, and it has each one that was answered. Status
# 6 stands for a door, a dial or a thread that the system did not give, since it found no memory itself. Of a server's threads, which
# allocation has a number differs from run to run.
#
# Prints a line for each sweep, with the number of runs that ended in each way, names each run that ended otherwise, and ends with status 0
# if there is none. Takes about ten minutes on four processors.
#
#     bench/memory.sh [--install] [PART | NAME]..    the parts examples, rows, load, etcd and serve, and sweeps by name (`replay/empty`)
#
# ZETCD, CONN_ROWS and HUB_ROWS name other programs than those that are built in crates/; the rows are passed over if they are not.
# JOBS: how many runs at once. EVERY=N: each Nth allocation alone.
set -eu
here=$(cd "$(dirname "$0")/.." && pwd)
packages="gcc:gcc libc6-dev python3:python3"
. "$here/bench/needs.sh"
. "$here/bench/program.sh"

work=$(mktemp -d /dev/shm/zetcd-memory.XXXXXX)
sweeps=
# What was started is one group of processes, which ends with this script, however that ends.
finish() {
  trap - EXIT INT TERM HUP
  if [ -n "$sweeps" ]; then
    kill -TERM -- "-$sweeps" 2>/dev/null || true
    for _ in $(seq 20); do kill -0 -- "-$sweeps" 2>/dev/null || break; sleep 0.1; done
    kill -KILL -- "-$sweeps" 2>/dev/null || true
  fi
  rm -rf "$work"
}
trap finish EXIT
trap 'finish; exit 130' INT TERM HUP
gcc -O2 -shared -fPIC -o "$work/refuse.so" "$here/bench/memory/refuse.c"
set -m
PYTHONDONTWRITEBYTECODE=1 PYTHONPATH="$here/bench/clients:$here/bench/hostile" /usr/bin/python3 "$here/bench/memory/run.py" "$program" \
  "${CONN_ROWS:-$here/crates/conn_rows/out/conn_rows}" "${HUB_ROWS:-$here/crates/hub_rows/out/hub_rows}" "$work/refuse.so" "$work" "$@" &
sweeps=$!
status=0
wait "$sweeps" || status=$?
exit "$status"
