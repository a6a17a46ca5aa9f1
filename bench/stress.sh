#!/usr/bin/env bash
# How long a stress takes, and how much memory: schedules of the number 7, of more and more steps, on 16 and on 256 connections.
# Prints seconds, peak kilobytes and the summary, and fails if a second run writes something else or a status is not 0. Of time
# it asserts nothing. A peak is never below that of the Python that starts the program, some 14,000 kB.
set -eu
here=$(cd "$(dirname "$0")/.." && pwd)
. "$here/bench/program.sh"
failed=0

measure() { # measure CONNECTIONS STEPS
  python3 - "$program" "$@" <<'P' || failed=1
import resource, subprocess, sys, time
program, connections, steps = sys.argv[1:]
command = [program, "stress", "7", connections, steps]
began = time.monotonic()
first = subprocess.run(command, capture_output=True)
seconds = time.monotonic() - began
peak = resource.getrusage(resource.RUSAGE_CHILDREN).ru_maxrss
second = subprocess.run(command, capture_output=True)
print("%3s connections %7s steps %7.2f s %8d kB  %s" % (connections, steps, seconds, peak, first.stdout.decode().replace("\n", "; ")))
if first.returncode or second.returncode or first.stdout != second.stdout:
    sys.exit("a run failed, or two runs differ")
P
}

for connections in 16 256; do
  for steps in 1000 10000 100000 200000; do
    measure "$connections" "$steps"
  done
done
exit "$failed"
